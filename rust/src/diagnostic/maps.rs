//! Words for the refusals of a map's fields, and of an event's lengths.

use super::nearest::nearest;
use super::numbers;
use super::scene::Scene;
use super::Diagnostic;
use crate::kind::Kind;
use crate::kind_set::KindSet;
use crate::refusal::MapField;
use std::ops::Range;

/// The map types, as they are written behind the dot.
const MAP_TYPES: [&str; 5] = ["hash", "array", "ringbuf", "lru_hash", "prog_array"];

/// Types of other languages, and the type that comes nearest.
const OTHER_TYPES: [(&str, &str); 12] = [
    ("int", "i32"),
    ("uint", "u32"),
    ("unsigned", "u32"),
    ("long", "i64"),
    ("ulong", "u64"),
    ("short", "i32"),
    ("usize", "u64"),
    ("isize", "i64"),
    ("u8", "u32"),
    ("u16", "u32"),
    ("i8", "i32"),
    ("i16", "i32"),
];

/// 24: the name behind the dot.
pub fn unknown_type(scene: &Scene) -> Diagnostic {
    let name = scene.word(scene.at - 1);
    let types = MAP_TYPES.join(" .");
    let told = scene.told_of(
        scene.at - 1,
        format!("unknown map type '{name}'; one of .{types}"),
    );
    let inside = || MAP_TYPES.into_iter().find(|known| name.contains(known));
    match nearest(name, MAP_TYPES).or_else(inside) {
        Some(known) => told
            .help(format!("did you mean '.{known}'?"))
            .edit(scene.written(scene.at - 1..scene.at, known)),
        None => told,
    }
}

/// 25: the row that is no type, which stands in front of the place unless the text ended there.
pub fn no_type(scene: &Scene) -> Diagnostic {
    let row = match scene.before(1) {
        Kind::Colon => scene.at,
        _ => scene.at - 1,
    };
    let word = scene.word(row);
    let is_name = word.starts_with(|letter: char| letter.is_ascii_alphanumeric() || letter == '_');
    if !is_name || row >= scene.part.end {
        let end = scene.span(row - 1).end;
        let message = "expected a type after this: u32, u64, i32 or i64";
        return scene.told(end..end, message);
    }
    let told = scene.told_of(row, format!("'{word}' is no type: u32, u64, i32 or i64"));
    with_meant_type(told, scene, row)
}

/// What to say of a type of another language, which stands in a row.
pub fn with_meant_type(told: Diagnostic, scene: &Scene, row: usize) -> Diagnostic {
    let word = scene.word(row);
    let other = OTHER_TYPES.iter().find(|(other, _)| *other == word);
    match other {
        Some((_, meant)) => told
            .help(format!("did you mean '{meant}'?"))
            .edit(scene.written(row..row + 1, *meant)),
        None => told,
    }
}

/// 26: the expression in front of the place.
pub fn negative(scene: &Scene) -> Diagnostic {
    let rows = expression(scene, scene.at);
    let message = format!(
        "max is {}; it cannot be negative",
        shifted(scene, rows.clone())
    );
    scene.told(scene.spans(rows), message)
}

/// 27: a `max`, or the length of an event's field.
pub fn out_of_range(scene: &Scene) -> Diagnostic {
    if scene.before(1) == Kind::LBracket {
        let value = scene.value(scene.at);
        return scene.told_of(scene.at, format!("the length is {value}; {}", limit(value)));
    }
    let rows = expression(scene, scene.at + 1);
    let value = shifted(scene, rows.clone());
    scene.told(
        scene.spans(rows),
        format!("max is {value}; {}", limit(value)),
    )
}

fn limit(value: i64) -> &'static str {
    match value < 0 {
        true => "it cannot be negative",
        false => "the most is 4294967295",
    }
}

/// 28: the count.
pub fn shift_count(scene: &Scene) -> Diagnostic {
    let count = scene.value(scene.at);
    let limit = if count < 0 {
        "it cannot be negative"
    } else {
        "the most is 63"
    };
    scene.told_of(scene.at, format!("the shift count is {count}; {limit}"))
}

/// 29: a field that a map lacks, at its name.
pub fn lacks(scene: &Scene, field: MapField) -> Diagnostic {
    let name = scene.part.start + 1;
    let message = format!("map '{}' has no '{}'", scene.word(name), field.word());
    let help = match field {
        MapField::Type => "add, for example: type: .hash;",
        MapField::Key => "add, for example: key: u32;",
        MapField::Value => "add, for example: value: u64;",
        MapField::Max => "add, for example: max: 1024;",
    };
    let told = scene.told_of(name, message).help(help);
    match also_lacking(scene, field).as_slice() {
        [] => told,
        others => told.note(format!("it has no {} either", others.join(" and no "))),
    }
}

/// The fields that a map lacks besides the first that it lacks.
fn also_lacking(scene: &Scene, first: MapField) -> Vec<String> {
    let has = |field: Kind| scene.part.clone().any(|row| scene.kind(row) == field);
    let is_ringbuf = scene.part.clone().any(|row| scene.word(row) == "ringbuf");
    let fields = [
        (Kind::KeywordKey, MapField::Key, is_ringbuf),
        (Kind::KeywordValue, MapField::Value, is_ringbuf),
        (Kind::KeywordMax, MapField::Max, false),
    ];
    let lacking = fields
        .iter()
        .filter(|(kind, field, is_free)| *field != first && !has(*kind) && !is_free);
    lacking
        .map(|(_, field, _)| format!("'{}'", field.word()))
        .collect()
}

/// The numbers and shifts of a `max` up to a row.
fn expression(scene: &Scene, end: usize) -> Range<usize> {
    let is_part = |row: &usize| matches!(scene.kind(*row), Kind::Number | Kind::Shl | Kind::Shr);
    let first = (scene.part.start..end).rev().take_while(is_part).last();
    first.unwrap_or(end)..end
}

/// The value of numbers and shifts as the library works it out: from left to right, in 64 bits.
fn shifted(scene: &Scene, rows: Range<usize>) -> i64 {
    let mut value: i64 = 0;
    let mut sign = Kind::Number;
    for row in rows {
        let number = scene.value(row);
        match (scene.kind(row), sign) {
            (Kind::Number, Kind::Shl) => value = value.wrapping_shl(number as u32),
            (Kind::Number, Kind::Shr) => value = value.wrapping_shr(number as u32),
            (Kind::Number, _) => value = number,
            (other, _) => sign = other,
        }
    }
    value
}

/// Something else than numbers and shifts in a `max`.
pub fn in_max(scene: &Scene, _: KindSet, found: Kind) -> Option<Diagnostic> {
    let first = scene.statement();
    let is_max = scene.kind(first) == Kind::KeywordMax && scene.kind(first + 1) == Kind::Colon;
    let is_sign = matches!(
        found,
        Kind::Plus
            | Kind::Minus
            | Kind::Star
            | Kind::Slash
            | Kind::Percent
            | Kind::LParen
            | Kind::Number
            | Kind::Identifier
    );
    if !is_max || !is_sign || scene.at < first + 2 || !scene.is_on_line() {
        return None;
    }
    let end = (scene.at..scene.part.end).find(|&row| scene.kind(row) == Kind::Semicolon)?;
    let message = "max takes numbers and shifts only";
    let value = numbers::value(scene, first + 2..end).filter(|value| u32::try_from(*value).is_ok());
    Some(match value {
        Some(value) => scene
            .told_of(scene.at, format!("{message}: write {}", written(value)))
            .edit(scene.written(first + 2..end, value.to_string())),
        None => scene.told_of(
            scene.at,
            format!("{message}, found {}", scene.found(scene.at)),
        ),
    })
}

/// A value as a number, and as a shift where that is one.
fn written(value: i64) -> String {
    match value.count_ones() {
        1 if value > 1 => format!("{value} or 1 << {}", value.trailing_zeros()),
        _ => value.to_string(),
    }
}

/// A map type without its dot.
pub fn no_dot(scene: &Scene, fitting: KindSet, found: Kind) -> Option<Diagnostic> {
    let is_dot = fitting.contains(Kind::Dot) && fitting.len() == 1 && found == Kind::Identifier;
    let name = scene.word(scene.at);
    let message = format!("expected '.' before the map type: write .{name}");
    is_dot.then(|| {
        let edit = scene.written(scene.at..scene.at + 1, format!(".{name}"));
        scene.told_of(scene.at, message).edit(edit)
    })
}

/// A type in front of the name of an event's field.
pub fn type_first(scene: &Scene, fitting: KindSet, found: Kind) -> Option<Diagnostic> {
    let is_type = matches!(
        found,
        Kind::TypeU32 | Kind::TypeU64 | Kind::TypeI32 | Kind::TypeI64 | Kind::KeywordBytes
    );
    let is_field = fitting.len() == 2 && fitting.contains(Kind::RBrace);
    let is_known = is_type && is_field && scene.kind(scene.at + 1) == Kind::Identifier;
    let (of, name) = (scene.word(scene.at), scene.word(scene.at + 1));
    let message = format!("a field's name stands in front of its type: write {name}: {of};");
    is_known.then(|| scene.told_of(scene.at, message))
}
