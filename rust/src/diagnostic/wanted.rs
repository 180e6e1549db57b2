//! Words for 21, a row of another kind than would have fitted: rules, the first of which that knows the fault tells it.

use super::grammar::not_closed;
use super::scene::Scene;
use super::{maps, numbers, statements, Diagnostic};
use crate::kind::Kind;
use crate::kind_set::KindSet;

/// A rule tells a fault that it knows, by what would have fitted and what was found.
type Rule = fn(&Scene, KindSet, Kind) -> Option<Diagnostic>;

/// The rules, special ones first.
const RULES: [Rule; 27] = [
    statements::comparison,
    statements::doubled,
    numbers::bad_number,
    numbers::signed,
    statements::assignment,
    maps::in_max,
    maps::no_dot,
    maps::type_first,
    comma,
    statements::typed,
    statements::called,
    statements::indexed,
    statements::negated,
    statements::comment_end,
    statements::guard,
    statements::guarded,
    statements::else_if,
    statements::reserved,
    statements::no_string,
    statements::begins_none,
    closed,
    parenthesis,
    too_many,
    bracket,
    statements::late_shift,
    semicolon,
    one_sign,
];

/// 21 in words, where the fault is.
pub fn told(scene: &Scene, fitting: KindSet, found: Kind) -> Diagnostic {
    let known = RULES.iter().find_map(|rule| rule(scene, fitting, found));
    known.unwrap_or_else(|| any(scene, fitting))
}

/// What is said where no rule knows better: of a row on another line that something was expected in front of it.
fn any(scene: &Scene, fitting: KindSet) -> Diagnostic {
    let found = scene.found(scene.at);
    let is_begun = !scene.is_on_line() && scene.statement() < scene.at;
    match is_begun || scene.kind(scene.at) == Kind::Eof {
        true => scene.told(
            scene.behind(),
            format!("expected {fitting} after this, found {found}"),
        ),
        false => scene.told_of(scene.at, format!("expected {fitting}, found {found}")),
    }
}

/// A comma behind a field.
fn comma(scene: &Scene, fitting: KindSet, found: Kind) -> Option<Diagnostic> {
    let is_field = scene.kind(scene.part.start) != Kind::KeywordUnit;
    let is_known = is_field && found == Kind::Comma && fitting.contains(Kind::Semicolon);
    is_known.then(|| {
        scene
            .told_of(scene.at, "expected ';': a field does not end with ','")
            .edit(scene.written(scene.at..scene.at + 1, ";"))
    })
}

/// The `}` is missing.
fn closed(scene: &Scene, fitting: KindSet, _: Kind) -> Option<Diagnostic> {
    fitting.contains(Kind::RBrace).then(|| not_closed(scene))?
}

/// The `)` is missing: the statement or the head of a body ends in front of it.
fn parenthesis(scene: &Scene, fitting: KindSet, found: Kind) -> Option<Diagnostic> {
    let goes_on = matches!(
        found,
        Kind::Comma | Kind::RParen | Kind::Identifier | Kind::Number | Kind::StringLiteral
    );
    if !fitting.contains(Kind::RParen) || goes_on && !scene.is_at_end() && scene.is_on_line() {
        return None;
    }
    let open = scene.opened(Kind::LParen, Kind::RParen)?;
    let told = scene.told(scene.behind(), "expected ')' to close this '('");
    let told = told.edit(scene.added(")"));
    Some(told.note_at(scene.span(open), "this '(' is open"))
}

/// A `)` or `]` that closes nothing.
fn too_many(scene: &Scene, _: KindSet, found: Kind) -> Option<Diagnostic> {
    let (open, sign) = match found {
        Kind::RParen => (Kind::LParen, '('),
        Kind::RBracket => (Kind::LBracket, '['),
        _ => return None,
    };
    if scene.opened(open, found).is_some() {
        return None;
    }
    let message = format!(
        "this '{}' closes nothing: no '{sign}' is open",
        scene.word(scene.at)
    );
    let told = scene.told_of(scene.at, message);
    Some(told.edit(scene.written(scene.at..scene.at + 1, "")))
}

/// The `]` is missing.
fn bracket(scene: &Scene, fitting: KindSet, _: Kind) -> Option<Diagnostic> {
    if !fitting.contains(Kind::RBracket) {
        return None;
    }
    let open = scene.opened(Kind::LBracket, Kind::RBracket)?;
    let told = scene.told(scene.behind(), "expected ']' to close this '['");
    let told = told.edit(scene.added("]"));
    Some(told.note_at(scene.span(open), "this '[' is open"))
}

/// The `;` is missing: something follows that could not go on, most often on the next line.
fn semicolon(scene: &Scene, fitting: KindSet, found: Kind) -> Option<Diagnostic> {
    let is_sign = found.spelling().is_some_and(|spelling| {
        !spelling.starts_with(|letter: char| letter.is_ascii_alphabetic()) && spelling != "}"
    });
    if !fitting.contains(Kind::Semicolon) || is_sign && scene.is_on_line() {
        return None;
    }
    let told = scene.told(scene.behind(), "expected ';' after this");
    let told = told.edit(scene.added(";"));
    Some(match scene.is_on_line() && found != Kind::RBrace {
        true => told.note(format!(
            "expected {fitting}, found {}",
            scene.found(scene.at)
        )),
        false => told,
    })
}

/// One sign alone would have fitted.
fn one_sign(scene: &Scene, fitting: KindSet, _: Kind) -> Option<Diagnostic> {
    let only = fitting.iter().next().filter(|_| fitting.len() == 1)?;
    let sign = only.spelling()?;
    let told = scene.told(scene.behind(), format!("expected '{sign}' after this"));
    let told = told.edit((!sign.starts_with('{')).then(|| scene.added(sign)));
    Some(match scene.is_on_line() {
        true => told.note(format!("found {}", scene.found(scene.at))),
        false => told,
    })
}
