//! Names of maps and events: where they are declared and used.
//!
//! A name that a unit uses is a map's or an event's, unless it stands behind a `.` or the unit has made it its own by
//! `reg`, `imm` or `heap` in front of it.

use spoonharbor::diagnostic::{Declaration, Outline};
use spoonharbor::Kind;
use std::collections::BTreeSet;

/// What an identifier is where it stands.
#[derive(Debug, Clone, Copy, PartialEq, Eq)]
pub enum Role {
    /// The name of a map, an event or a unit, of which this is the word.
    Declared(Kind),
    /// A name that is used, and is a map's or an event's if one has it.
    Used,
    /// A unit's own variable, where it begins.
    OwnDeclared,
    /// A unit's own variable.
    Own,
    /// A field or a method, behind a `.`.
    Member,
    /// A map's type.
    MapType,
    /// A field of an event, where it is declared.
    Field,
    /// Any other.
    Other,
}

/// The role of each row; `Other` for rows that are no identifiers.
pub fn roles(outline: &Outline) -> Vec<Role> {
    let mut roles = vec![Role::Other; outline.rows().len()];
    for declaration in outline.declarations() {
        let mut own = BTreeSet::new();
        for row in declaration.rows.clone() {
            if kind(outline, row) != Kind::Identifier {
                continue;
            }
            let role = role(outline, declaration, row, &own);
            if role == Role::OwnDeclared {
                own.insert(outline.word(row));
            }
            if let Some(place) = roles.get_mut(row) {
                *place = role;
            }
        }
    }
    roles
}

fn role(outline: &Outline, declaration: &Declaration, row: usize, own: &BTreeSet<&str>) -> Role {
    let before = |count: usize| row.checked_sub(count).map(|row| kind(outline, row));
    match (declaration.kind, before(1)) {
        _ if declaration.name == Some(row) => Role::Declared(declaration.kind),
        (Kind::KeywordMap, Some(Kind::Dot)) if before(3) == Some(Kind::KeywordType) => {
            Role::MapType
        }
        (Kind::KeywordEvent, _) if kind(outline, row + 1) == Kind::Colon => Role::Field,
        (Kind::KeywordUnit, Some(Kind::Dot)) => Role::Member,
        (Kind::KeywordUnit, Some(Kind::KeywordReg | Kind::KeywordImm | Kind::KeywordHeap)) => {
            Role::OwnDeclared
        }
        (Kind::KeywordUnit, _) if own.contains(outline.word(row)) => Role::Own,
        (Kind::KeywordUnit, _) => Role::Used,
        _ => Role::Other,
    }
}

/// A row's kind; Eof where there is none.
pub fn kind(outline: &Outline, row: usize) -> Kind {
    outline.rows().get(row).map_or(Kind::Eof, |row| row.kind)
}

/// Maps and events with a name, in the text's order.
pub fn declarations<'a>(
    outline: &'a Outline,
    name: &'a str,
) -> impl Iterator<Item = &'a Declaration> {
    let is_meant =
        move |one: &&Declaration| one.kind != Kind::KeywordUnit && outline.name(one) == Some(name);
    outline.declarations().iter().filter(is_meant)
}

/// The name of a map or an event, where it is declared or used.
pub struct Name {
    pub name: String,
    /// The row at which it was asked for.
    pub row: usize,
    /// The rows where it is declared and those where it is used, each in the text's order.
    pub declared: Vec<usize>,
    pub used: Vec<usize>,
}

/// The name of a map or an event at an offset.
pub fn at(outline: &Outline, offset: usize) -> Option<Name> {
    let row = row_at(outline, offset)?;
    let name = outline.word(row);
    let roles = roles(outline);
    let is_meant = matches!(
        roles.get(row)?,
        Role::Used | Role::Declared(Kind::KeywordMap | Kind::KeywordEvent)
    );
    let declared: Vec<usize> = declarations(outline, name)
        .filter_map(|one| one.name)
        .collect();
    if !is_meant || declared.is_empty() {
        return None;
    }
    let is_use = |(row, role): &(usize, &Role)| **role == Role::Used && outline.word(*row) == name;
    let used = roles.iter().enumerate().filter(is_use);
    Some(Name {
        name: name.to_string(),
        row,
        declared,
        used: used.map(|(row, _)| row).collect(),
    })
}

/// The identifier at an offset, or that ends there.
pub fn row_at(outline: &Outline, offset: usize) -> Option<usize> {
    let rows = outline.rows();
    let behind = rows.partition_point(|row| row.start <= offset);
    let is_one = |row: &usize| {
        rows.get(*row)
            .is_some_and(|row| row.kind == Kind::Identifier && offset <= row.end)
    };
    let near = behind.saturating_sub(2)..behind;
    near.rev().find(is_one)
}

/// Whether a text is one identifier and nothing else.
pub fn is_name(text: &str) -> bool {
    let outline = Outline::of(text.as_bytes());
    kind(&outline, 0) == Kind::Identifier && outline.word(0) == text
}

#[cfg(test)]
#[allow(clippy::unwrap_used)]
mod tests {
    use super::*;

    const TEXT: &str = "\
map m { type: .hash; key: u32; value: u32; max: 8; }
event e { m: u32; }
unit u { x = m.m(m, e.m); reg m = 1; y = m; }
unit v { m.a(); }
";

    fn offsets(outline: &Outline, rows: &[usize]) -> Vec<usize> {
        let rows = rows.iter().map(|&row| outline.rows().get(row));
        rows.map(|row| row.unwrap().start).collect()
    }

    #[test]
    fn names_are_found_where_they_are_meant() {
        let outline = Outline::of(TEXT.as_bytes());
        for offset in [4, 5, 86, 90] {
            let found = at(&outline, offset).unwrap();
            assert_eq!(found.name, "m");
            assert_eq!(offsets(&outline, &found.declared), [4]);
            assert_eq!(offsets(&outline, &found.used), [86, 90, 128]);
        }
        for offset in [0, 63, 88, 95, 103, 114, 82] {
            assert!(at(&outline, offset).is_none(), "{offset}");
        }
        assert_eq!(at(&outline, 93).unwrap().name, "e");
    }

    #[test]
    fn one_identifier_is_a_name() {
        assert!(is_name("a_1"));
        for text in ["", " a", "a ", "1a", "map", "a b", "é", "a;", "a//"] {
            assert!(!is_name(text), "{text}");
        }
    }
}
