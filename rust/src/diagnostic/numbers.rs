//! Words for what is written as a number and is none, and the value of what is written in a `max`.

use super::parts::is_word;
use super::scene::Scene;
use super::Diagnostic;
use crate::kind::Kind;
use crate::kind_set::KindSet;
use std::ops::Range;

/// A number with something directly behind it: `0X10`, `0b101`, `15.04`, `5.`, `10_000`, `1,000`, `4k`.
pub fn bad_number(scene: &Scene, fitting: KindSet, _: Kind) -> Option<Diagnostic> {
    let rows = run_around(scene, fitting).or_else(|| cut_off(scene))?;
    let spelt = scene.quoted(rows.clone())?;
    let advice = advice(spelt);
    let written = advice.rsplit_once("write ").map(|(_, written)| written);
    let edit = written.map(|written| scene.written(rows.clone(), written));
    let message = format!("'{spelt}' is no number: {advice}");
    Some(scene.told(scene.spans(rows), message).edit(edit))
}

/// A number and a dot in front of the place.
fn cut_off(scene: &Scene) -> Option<Range<usize>> {
    let is_cut = scene.before(1) == Kind::Dot && scene.before(2) == Kind::Number;
    is_cut.then(|| scene.at - 2..scene.at)
}

/// The rows around the place that touch each other, the first of them a number. A comma is one of them where none would have fitted.
fn run_around(scene: &Scene, fitting: KindSet) -> Option<Range<usize>> {
    let with_comma = !fitting.contains(Kind::Comma);
    let is_part = |row: usize| {
        let kind = scene.kind(row);
        let is_comma = with_comma && kind == Kind::Comma && scene.kind(row + 1) == Kind::Number;
        is_comma || matches!(kind, Kind::Number | Kind::Identifier | Kind::Dot) || is_word(kind)
    };
    if !is_part(scene.at) || scene.is_at_end() {
        return None;
    }
    let rows = scene.run(is_part);
    (rows.start < scene.at && scene.kind(rows.start) == Kind::Number).then_some(rows)
}

/// What to write for something that is no number.
fn advice(spelt: &str) -> String {
    let (sign, digits) = match spelt.strip_prefix('-') {
        Some(digits) => ("-", digits),
        None => ("", spelt),
    };
    let in_base = |prefixes: [&str; 2], base: u32| {
        let behind = prefixes
            .iter()
            .find_map(|prefix| digits.strip_prefix(prefix))?;
        i64::from_str_radix(behind, base).ok()
    };
    let without = digits.replace(['_', ','], "");
    if let Some(hex) = digits.strip_prefix("0X") {
        return format!("write {sign}0x{hex}");
    }
    if let Some(value) = in_base(["0b", "0B"], 2) {
        return format!("there are no binary numbers, write {sign}{value}");
    }
    if let Some(value) = in_base(["0o", "0O"], 8) {
        return format!("there are no octal numbers, write {sign}{value}");
    }
    match without.bytes().all(|byte| byte.is_ascii_digit()) {
        true => format!("write {sign}{without}"),
        false if digits.contains('.') => "whole numbers only".to_string(),
        false => "a letter stands directly behind it".to_string(),
    }
}

/// A number with its `-` where an operator would have fitted.
pub fn signed(scene: &Scene, fitting: KindSet, found: Kind) -> Option<Diagnostic> {
    let spelt = scene.word(scene.at);
    let digits = spelt.strip_prefix('-').filter(|_| found == Kind::Number)?;
    if !fitting.contains(Kind::Minus) || !scene.is_on_line() {
        return None;
    }
    let advice = match operand_before(scene) {
        Some(operand) => format!("write {operand} - {digits}"),
        None => format!("write - {digits}, with a blank between"),
    };
    let message = format!("'{spelt}' is read as a number here: {advice}");
    let edit = scene.written(scene.at..scene.at + 1, format!("- {digits}"));
    Some(scene.told_of(scene.at, message).edit(edit))
}

/// The name or number that ends in front of the place, with what it is a field of.
pub fn operand_before<'a>(scene: &Scene<'a>) -> Option<&'a str> {
    let is_operand = |count: usize| matches!(scene.before(count), Kind::Identifier | Kind::Number);
    if !is_operand(1) {
        return None;
    }
    let mut count = 1;
    while scene.before(count + 1) == Kind::Dot && is_operand(count + 2) {
        count += 2;
    }
    let is_behind_call = scene.before(count + 1) == Kind::Dot;
    scene
        .quoted(scene.at - count..scene.at)
        .filter(|_| !is_behind_call)
}

/// The most rows of which a value is worked out.
const MOST_ROWS: usize = 32;

/// The value of numbers, operators and parentheses, as people mean them; nothing where it is long, not clear, or does
/// not fit.
pub fn value(scene: &Scene, rows: Range<usize>) -> Option<i64> {
    let shifts = rows
        .clone()
        .any(|row| matches!(scene.kind(row), Kind::Shl | Kind::Shr));
    let sums = rows.clone().any(|row| {
        let kind = scene.kind(row);
        matches!(kind, Kind::Plus | Kind::Minus) || kind == Kind::Number && scene.value(row) < 0
    });
    if shifts && sums || rows.len() > MOST_ROWS {
        return None;
    }
    let mut at = rows.start;
    let value = chain(scene, &mut at, rows.end, 0)?;
    (at == rows.end).then_some(value)
}

/// The operators that bind more and more tightly; a number with its `-` behind another is a difference.
fn binds(scene: &Scene, row: usize) -> Option<usize> {
    match scene.kind(row) {
        Kind::Shl | Kind::Shr => Some(0),
        Kind::Plus | Kind::Minus => Some(1),
        Kind::Number if scene.value(row) < 0 => Some(1),
        Kind::Star | Kind::Slash | Kind::Percent => Some(2),
        _ => None,
    }
}

/// Operands with operators between them that bind at least so tightly.
fn chain(scene: &Scene, at: &mut usize, end: usize, level: usize) -> Option<i64> {
    if level == 3 {
        return operand(scene, at, end);
    }
    let mut value = chain(scene, at, end, level + 1)?;
    while *at < end && binds(scene, *at) == Some(level) {
        let sign = scene.kind(*at);
        *at += usize::from(sign != Kind::Number);
        let right = chain(scene, at, end, level + 1)?;
        value = applied(sign, value, right)?;
    }
    Some(value)
}

/// A number, or what stands in parentheses.
fn operand(scene: &Scene, at: &mut usize, end: usize) -> Option<i64> {
    let row = *at;
    *at += 1;
    match scene.kind(row) {
        _ if row >= end => None,
        Kind::Number => Some(scene.value(row)),
        Kind::LParen => {
            let value = chain(scene, at, end, 0)?;
            *at += 1;
            (*at <= end && scene.kind(*at - 1) == Kind::RParen).then_some(value)
        }
        _ => None,
    }
}

fn applied(sign: Kind, left: i64, right: i64) -> Option<i64> {
    match sign {
        Kind::Plus | Kind::Number => left.checked_add(right),
        Kind::Minus => left.checked_sub(right),
        Kind::Star => left.checked_mul(right),
        Kind::Slash => left.checked_div(right),
        Kind::Percent => left.checked_rem(right),
        Kind::Shl => left.checked_mul(1i64.checked_shl(u32::try_from(right).ok()?)?),
        Kind::Shr => left.checked_shr(u32::try_from(right).ok()?),
        _ => None,
    }
}

#[cfg(test)]
mod tests {
    use super::*;

    #[test]
    fn what_is_no_number_has_advice() {
        let cases = [
            ("0X1f", "write 0x1f"),
            ("-0X1f", "write -0x1f"),
            ("0b101", "there are no binary numbers, write 5"),
            ("0o17", "there are no octal numbers, write 15"),
            ("15.04", "whole numbers only"),
            ("10_000", "write 10000"),
            ("1,000", "write 1000"),
            ("5.", "whole numbers only"),
            ("4k", "a letter stands directly behind it"),
        ];
        for (spelt, wanted) in cases {
            assert_eq!(advice(spelt), wanted, "{spelt}");
        }
    }
}
