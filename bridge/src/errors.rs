//! Refusals as the compiler tells its own errors: a place and a message.

use crate::parser::{ParseError, SourceLoc};
use spoonharbor::diagnostic::{diagnose, Checks, Diagnostic, Position};
use spoonharbor::Refusal;

/// A refusal as an error of the compiler's: the place is the refusal's own, the message begins with its number.
pub fn error(refusal: &Refusal) -> ParseError {
    let place = refusal.place;
    (
        SourceLoc::new(place.line, place.column, place.offset),
        format!("error[{}]: {}", refusal.number(), refusal.reason),
    )
}

/// Everything for which a text is refused, in the text's order, each where its fault is. The text may be any bytes.
/// It is empty exactly if the text is a program.
pub fn errors(text: &[u8]) -> Vec<ParseError> {
    let told = diagnose(text, &Checks::default());
    let errors = told.iter().filter(|one| one.is_error());
    errors.map(|one| told_at_its_fault(text, one)).collect()
}

fn told_at_its_fault(text: &[u8], told: &Diagnostic) -> ParseError {
    let Position {
        byte, line, column, ..
    } = Position::of(text, told.span.start);
    (SourceLoc::new(line, column, byte), told.to_string())
}
