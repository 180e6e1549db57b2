//! Words for 21 inside a unit: operators, assignments, guards and words that begin no statement.

use super::characters::no_operator;
use super::nearest::nearest;
use super::numbers::operand_before;
use super::parts::is_word;
use super::scene::Scene;
use super::{Diagnostic, Edit};
use crate::kind::Kind;
use crate::kind_set::KindSet;
use crate::sets::Method;

/// The words that begin statements, sections and licences.
const BEGINNINGS: [&str; 8] = [
    "reg", "imm", "heap", "return", "if", "else", "section", "license",
];

/// Words of other languages, and what is written here.
const OTHER_WORDS: [(&str, &str); 10] = [
    ("let", "reg"),
    ("var", "reg"),
    ("int", "reg"),
    ("auto", "reg"),
    ("const", "imm"),
    ("ret", "return"),
    ("licence", "license"),
    ("sec", "section"),
    ("elif", "else"),
    ("when", "if"),
];

/// `==`, which is two rows.
pub fn comparison(scene: &Scene, _: KindSet, found: Kind) -> Option<Diagnostic> {
    if found != Kind::Equals {
        return None;
    }
    let rows = scene.run(|row| scene.kind(row) == Kind::Equals);
    let sign = scene.quoted(rows.clone()).filter(|_| rows.len() > 1)?;
    Some(scene.told(scene.spans(rows), no_operator(sign)))
}

/// `++` and `--`.
pub fn doubled(scene: &Scene, _: KindSet, found: Kind) -> Option<Diagnostic> {
    let is_pair = matches!(found, Kind::Plus | Kind::Minus) && scene.before(1) == found;
    if !is_pair || !scene.touches_next(scene.at - 1) {
        return None;
    }
    let rows = scene.at - 1..scene.at + 1;
    let sign = scene.quoted(rows.clone())?;
    let before = Scene {
        at: scene.at - 1,
        part: scene.part.clone(),
        ..*scene
    };
    let name = operand_before(&before).unwrap_or("a");
    let advice = match found {
        Kind::Plus => format!("write {name} += 1"),
        _ => format!("write {name} = {name} - 1"),
    };
    let message = format!("'{sign}' is not an operator: {advice}");
    let first = scene.statement();
    let is_all = scene.quoted(first..scene.at - 1) == Some(name)
        && scene.kind(scene.at + 1) == Kind::Semicolon;
    let written = advice.strip_prefix("write ").filter(|_| is_all);
    let edit = written.map(|written| scene.written(first..scene.at + 1, written));
    Some(scene.told(scene.spans(rows), message).edit(edit))
}

/// `-=`, `*=`, `/=` and `%=`.
pub fn assignment(scene: &Scene, fitting: KindSet, found: Kind) -> Option<Diagnostic> {
    let is_other = matches!(
        found,
        Kind::MinusEquals | Kind::StarEquals | Kind::SlashEquals | Kind::PercentEquals
    );
    if !is_other || !fitting.contains(Kind::PlusEquals) {
        return None;
    }
    let sign = scene.word(scene.at).trim_end_matches('=');
    let ends = |row: &usize| scene.kind(*row) == Kind::Semicolon;
    let end = (scene.at..scene.part.end).find(ends).unwrap_or(scene.at);
    let left = scene.quoted(scene.statement()..scene.at);
    let right = scene.quoted(scene.at + 1..end);
    let written = match left.zip(right) {
        Some((left, right)) if end == scene.at + 2 => format!("{left} = {left} {sign} {right}"),
        Some((left, right)) => format!("{left} = {left} {sign} ({right})"),
        None => format!("a = a {sign} b"),
    };
    let message = format!("only '=' and '+=' assign: write {written}");
    let whole = left.zip(right).map(|_| scene.statement()..end);
    let edit = whole.map(|rows| scene.written(rows, written));
    Some(scene.told_of(scene.at, message).edit(edit))
}

/// `if` without `guard`, and `guard` without its parenthesis.
pub fn guard(scene: &Scene, fitting: KindSet, _: Kind) -> Option<Diagnostic> {
    let wanted = match scene.before(1) {
        Kind::KeywordIf => Kind::KeywordGuard,
        Kind::KeywordGuard => Kind::LParen,
        _ => return None,
    };
    if !fitting.contains(wanted) || !scene.is_on_line() {
        return None;
    }
    let names = (scene.at..scene.part.end.min(scene.at + 3))
        .filter(|&row| scene.kind(row) == Kind::Identifier);
    let name = names.map(|row| scene.word(row)).next().unwrap_or("name");
    let message = format!("expected {wanted}; write: if guard ({name}) {{");
    let edit = guard_edit(scene, name);
    Some(scene.told_of(scene.at, message).edit(edit))
}

/// The head of an `if` that has its name, in parentheses or not, and nothing else in front of its `{`.
fn guard_edit(scene: &Scene, name: &str) -> Option<Edit> {
    let is_if = |row: &usize| scene.kind(*row) == Kind::KeywordIf;
    let first = (scene.part.start..scene.at).rev().find(is_if)?;
    let is_brace = |row: &usize| scene.kind(*row) == Kind::LBrace;
    let brace = (scene.at..scene.part.end).find(is_brace)?;
    let is_word = |row: &usize| !matches!(scene.kind(*row), Kind::LParen | Kind::RParen);
    let words: Vec<&str> = (scene.at..brace)
        .filter(is_word)
        .map(|row| scene.word(row))
        .collect();
    (words == [name]).then(|| scene.written(first..brace, format!("if guard ({name})")))
}

/// More than a name in a guard.
pub fn guarded(scene: &Scene, fitting: KindSet, found: Kind) -> Option<Diagnostic> {
    let is_guard = scene.before(3) == Kind::KeywordGuard && scene.before(2) == Kind::LParen;
    let is_more = matches!(found, Kind::Dot | Kind::Comma) || is_operator(found);
    let is_known = is_guard && is_more && fitting.contains(Kind::RParen);
    let help = "put the value into a name first: reg x = ..; and if guard (x) {";
    is_known.then(|| {
        scene
            .told_of(scene.at, "a guard takes one name and nothing else")
            .help(help)
    })
}

fn is_operator(kind: Kind) -> bool {
    matches!(
        kind,
        Kind::Plus | Kind::Minus | Kind::Star | Kind::Slash | Kind::Percent | Kind::Shl | Kind::Shr
    )
}

/// `else if`.
pub fn else_if(scene: &Scene, _: KindSet, found: Kind) -> Option<Diagnostic> {
    let is_else_if = scene.before(1) == Kind::KeywordElse && found == Kind::KeywordIf;
    let message = "expected '{' after 'else'; write: else { if guard (..) { .. } }";
    is_else_if.then(|| scene.told_of(scene.at, message))
}

/// A reserved word where a name would have fitted.
pub fn reserved(scene: &Scene, fitting: KindSet, found: Kind) -> Option<Diagnostic> {
    if !is_word(found) || !fitting.contains(Kind::Identifier) || scene.is_at_end() {
        return None;
    }
    let next = scene.kind(scene.at + 1);
    let is_field = fitting.len() == 2 && next == Kind::Colon;
    let is_operand = fitting.contains(Kind::Number)
        && (is_operator(next)
            || matches!(
                next,
                Kind::Equals
                    | Kind::PlusEquals
                    | Kind::Dot
                    | Kind::Semicolon
                    | Kind::RParen
                    | Kind::Comma
            ));
    let is_name = fitting.len() == 1 || is_field || is_operand;
    let message = format!(
        "'{}' is a reserved word; choose another name",
        scene.word(scene.at)
    );
    is_name.then(|| scene.told_of(scene.at, message))
}

/// A section or a licence without quotes, or with a sign in front of them.
pub fn no_string(scene: &Scene, fitting: KindSet, found: Kind) -> Option<Diagnostic> {
    let next = scene.at + 1;
    if matches!(found, Kind::Equals | Kind::Colon) && scene.kind(next) == Kind::StringLiteral {
        let (word, string) = (scene.word(scene.at - 1), scene.quoted(next..next + 1)?);
        let message = format!("expected a string: write {word} {string};");
        let edit = scene.written(scene.at..next + 1, string);
        return Some(scene.told_of(scene.at, message).edit(edit));
    }
    let is_bare =
        fitting.contains(Kind::StringLiteral) && (found == Kind::Identifier || is_word(found));
    let quoted = format!("\"{}\"", scene.word(scene.at));
    let message = format!("expected a string: write {quoted}");
    let is_all = scene.kind(next) == Kind::Semicolon;
    let edit = is_all.then(|| scene.written(scene.at..next, quoted));
    (is_bare && scene.is_on_line()).then(|| scene.told_of(scene.at, message).edit(edit))
}

/// A word that begins a statement and no statement begins with, directly in front of the place or at it.
pub fn begins_none(scene: &Scene, fitting: KindSet, found: Kind) -> Option<Diagnostic> {
    let row = match scene.statement() {
        first if first == scene.at && is_word(found) && fitting.contains(Kind::KeywordReg) => first,
        first
            if first + 1 == scene.at
                && scene.before(1) == Kind::Identifier
                && scene.is_on_line() =>
        {
            first
        }
        _ => return None,
    };
    let is_declared =
        scene.kind(row + 1) == Kind::Identifier && scene.kind(row + 2) == Kind::Equals;
    let is_sign = row < scene.at && fits_between(found);
    let word = scene.word(row);
    let other = OTHER_WORDS.iter().find(|(other, _)| *other == word);
    let meant = match other {
        Some((_, meant)) => Some(*meant),
        None if word == "guard" => Some("if guard"),
        None => nearest(word, BEGINNINGS)
            .filter(|near| *near != word)
            .or(is_declared.then_some("reg")),
    };
    let meant = meant.filter(|_| !is_sign)?;
    let message = format!("'{word}' begins no statement: did you mean '{meant}'?");
    let edit = scene.written(row..row + 1, meant);
    Some(scene.told_of(row, message).edit(edit))
}

/// Whether a kind that was found behind a name is a sign, so that the name may well be meant.
fn fits_between(found: Kind) -> bool {
    found.spelling().is_some() && !is_word(found) && found != Kind::LBrace
}

/// A shift of a sum, which binds more tightly.
pub fn late_shift(scene: &Scene, fitting: KindSet, found: Kind) -> Option<Diagnostic> {
    let is_late = matches!(found, Kind::Shl | Kind::Shr) && fitting.contains(Kind::Star);
    let message = format!("expected {fitting}, found {}", scene.found(scene.at));
    let help = "put the sum in parentheses: (a + b) << c";
    is_late.then(|| scene.told_of(scene.at, message).help(help))
}

/// A variable with a type: `reg a: u64 = 1;` and `reg u64 a = 1;`.
pub fn typed(scene: &Scene, _: KindSet, found: Kind) -> Option<Diagnostic> {
    let declares = |kind: Kind| {
        matches!(
            kind,
            Kind::KeywordReg | Kind::KeywordImm | Kind::KeywordHeap
        )
    };
    let (word, name) = match found {
        Kind::Colon if declares(scene.before(2)) => (scene.at - 2, scene.at - 1),
        Kind::TypeU32 | Kind::TypeU64 | Kind::TypeI32 | Kind::TypeI64
            if declares(scene.before(1)) && scene.kind(scene.at + 1) == Kind::Identifier =>
        {
            (scene.at - 1, scene.at + 1)
        }
        _ => return None,
    };
    let (word, name) = (scene.word(word), scene.word(name));
    let message = format!("a variable is declared without a type: write {word} {name} = ..;");
    Some(scene.told_of(scene.at, message))
}

/// A call of something that is no method, and loops, which look like one.
pub fn called(scene: &Scene, fitting: KindSet, found: Kind) -> Option<Diagnostic> {
    let is_call =
        found == Kind::LParen && scene.before(1) == Kind::Identifier && fitting.contains(Kind::Dot);
    if !is_call {
        return None;
    }
    let row = scene.at - 1;
    let name = scene.word(row);
    let message = match name {
        "while" | "for" | "loop" | "do" => {
            format!("Solnix has no loops: '{name}' begins no statement")
        }
        "switch" | "match" => format!("'{name}' begins no statement: did you mean 'if guard'?"),
        _ if nearest(name, BEGINNINGS).is_some() => return None,
        _ => format!("there are no functions, only methods of variables: write ctx.{name}(..)"),
    };
    let is_method = Method::from_name(name).is_some();
    let edit = is_method.then(|| scene.written(row..row + 1, format!("ctx.{name}")));
    Some(scene.told_of(row, message).edit(edit))
}

/// `a[0]`.
pub fn indexed(scene: &Scene, fitting: KindSet, found: Kind) -> Option<Diagnostic> {
    let is_index = found == Kind::LBracket && fitting.contains(Kind::Dot);
    let message = "Solnix has no indexing: '[' stands only behind the type of an event's field";
    is_index.then(|| scene.told_of(scene.at, message))
}

/// `-a`.
pub fn negated(scene: &Scene, fitting: KindSet, found: Kind) -> Option<Diagnostic> {
    let is_sign =
        found == Kind::Minus && fitting.contains(Kind::Number) && fitting.contains(Kind::LParen);
    let next = scene.kind(scene.at + 1);
    let operand = match next {
        Kind::Identifier => scene.word(scene.at + 1),
        Kind::LParen => "(..)",
        _ => return None,
    };
    let message = format!("only a number has a sign in front of it: write 0 - {operand}");
    is_sign.then(|| scene.told_of(scene.at, message))
}

/// `*/` behind a comment that is closed already.
pub fn comment_end(scene: &Scene, _: KindSet, found: Kind) -> Option<Diagnostic> {
    let is_end =
        found == Kind::Slash && scene.before(1) == Kind::Star && scene.touches_next(scene.at - 1);
    let span = scene.spans(scene.at.saturating_sub(1)..scene.at + 1);
    is_end.then(|| scene.told(span, NO_COMMENT))
}

/// What is said of `*/` where no comment is open.
pub const NO_COMMENT: &str = "'*/' closes nothing: comments do not nest";
