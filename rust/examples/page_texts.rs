//! Writes the texts of the page and of the JavaScript module:
//! `cargo run --offline --example page_texts > ../web/src/texts.js`, in `rust/`.

use compare::told_sets::TOLD_SETS;
use spoonharbor::diagnostic::{explained, Explained};
use spoonharbor::{Kind, KindSet, MapField, Refusal};

const HEAD: &str = r"// What each refusal's number means, how a refusal is said, and what kinds of rows and sets of them are called.
//
// Written from the tables of the Rust crate (rust/src/diagnostic/explain.rs, refusal.rs, kind.rs, kind_set.rs) by
//
//     cargo run --offline --example page_texts > ../web/src/texts.js
//
// in rust/, and a test holds it to them. Do not change it by hand.

";

/// A number that is told and that no text has by itself.
const TOLD: u32 = 7777;

/// A text as JavaScript writes it.
fn quoted(text: &str) -> String {
    assert!(!text.contains(|letter: char| letter.is_control() && letter != '\n'));
    let escaped = text.replace('\\', "\\\\").replace('"', "\\\"");
    format!("\"{}\"", escaped.replace('\n', "\\n"))
}

/// How a refusal with these three words is said, without its place.
fn said(number: u32, first: u32, second: u32, found: u32) -> String {
    let refusal = Refusal::from_words(&[number, 0, 1, 1, first, second, 0, found]);
    refusal.map_or(String::new(), |refusal| refusal.reason.to_string())
}

/// How a number's refusal is said, with a name in braces for what it tells: `{fitting}` for a set as people say it,
/// `{each}` for each of its kinds, `{found}` for the kind that was found, `{field}` for a map's field, `{first}` for
/// the answer's fourth word.
fn template(number: u32) -> String {
    let set: KindSet = [Kind::LParen, Kind::Star, Kind::Identifier, Kind::Number]
        .into_iter()
        .collect();
    let [low, high] = [set.bits(), set.bits() >> 32].map(|word| word as u32);
    let refusal = Refusal::from_words(&[number, 0, 1, 1, low, high, 0, Kind::Eof.number()]);
    if refusal.is_some_and(|refusal| refusal.reason.fitting().is_some()) {
        return said(number, low, high, Kind::Eof.number())
            .replace(&format!("{set:#}"), "{each}")
            .replace(&set.to_string(), "{fitting}")
            .replace(&Kind::Eof.to_string(), "{found}");
    }
    let of_a_field = said(number, 1, 0, 0);
    match of_a_field == said(number, 2, 0, 0) || of_a_field.contains('1') {
        true => said(number, TOLD, 0, 0).replace(&TOLD.to_string(), "{first}"),
        false => of_a_field.replace(MapField::Type.word(), "{field}"),
    }
}

/// A number with its texts.
fn message(one: &Explained) -> String {
    let texts = [
        ("title", one.title),
        ("meaning", one.meaning),
        ("refused", one.refused),
        ("fine", one.fine),
    ];
    let mut lines = texts
        .map(|(name, text)| format!("    {name}: {},\n", quoted(text)))
        .concat();
    lines += &format!("    said: {},\n", quoted(&template(one.number)));
    format!("  {}: {{\n{lines}  }},\n", one.number)
}

/// A list with an entry for each kind's number, `null` where none is made.
fn kinds(name: impl Fn(Kind) -> Option<String>) -> String {
    let entry = |number| match Kind::from_number(number).and_then(&name) {
        Some(name) => format!("  {},\n", quoted(&name)),
        None => "  null,\n".to_string(),
    };
    (0..=Kind::Eof.number()).map(entry).collect()
}

/// A set that is told, by its two words, with how people say it.
fn set(bits: u64) -> String {
    let said = quoted(&KindSet::from_bits(bits).to_string());
    format!(
        "  \"{},{}\": {said},\n",
        bits & u64::from(u32::MAX),
        bits >> 32
    )
}

/// The whole file. Warnings are the command's, and no call gives them; 70 is told of tallies, of which the page has none.
pub fn texts() -> String {
    let refusals = explained().iter().filter(|one| one.number < 70);
    let fields = [
        MapField::Type,
        MapField::Key,
        MapField::Value,
        MapField::Max,
    ];
    let fields = fields.map(|field| format!(", {}", quoted(field.word())));
    let wanted = kinds(|kind| Some([kind].into_iter().collect::<KindSet>().to_string()));
    let found = kinds(|kind| Some(kind.to_string()));
    let spellings = kinds(|kind| kind.spelling().map(str::to_string));
    let parts = [
        (
            "By a refusal's number: a few words for it, when it is told, an example of either side, and how it is said.",
            "refusal",
            format!("{{\n{}}}", refusals.map(message).collect::<String>()),
        ),
        (
            "Each set of kinds that a refusal tells, as people say it, by its two words.",
            "set",
            format!("{{\n{}}}", TOLD_SETS.map(|(bits, _, _)| set(bits)).concat()),
        ),
        (
            "What a kind of row is called where it would fit.",
            "wanted",
            format!("[\n{wanted}]"),
        ),
        (
            "What a kind of row is called where it was found.",
            "found",
            format!("[\n{found}]"),
        ),
        (
            "How every row of a kind is spelt; null where the text decides it.",
            "spelling",
            format!("[\n{spellings}]"),
        ),
        (
            "The fields of a map, by the number that a refusal with 29 tells.",
            "field",
            format!("[null{}]", fields.concat()),
        ),
    ];
    let parts = parts
        .map(|(about, name, value)| format!("// {about}\nexport const {name}Texts = {value};\n"));
    format!("{HEAD}{}", parts.join("\n"))
}

fn main() {
    print!("{}", texts());
}
