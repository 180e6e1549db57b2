//! The scanner that re2c makes writes the library's rows and answer, so that what it is measured by is the same work.
#![cfg(re2c)]

use compare::bench::other::re2c;
use compare::generate::characters::with_characters;
use compare::generate::random::Random;
use compare::generate::{fixed_texts, random_text};
use spoonharbor::lent;

fn hold(text: &[u8]) {
    let padded = [text, &[0]].concat();
    for room in [text.len() + 1, text.len() / 4] {
        let (mut own, mut other) = (vec![7; room * 8], vec![7; room * 8]);
        let told = lent::scan(text, &mut own);
        assert_eq!(
            re2c(&padded, &mut other),
            told,
            "{text:?} with room for {room}"
        );
        assert_eq!(other, own, "{text:?} with room for {room}");
    }
}

#[test]
fn the_same_rows() {
    fixed_texts().iter().for_each(|text| hold(text));
    let mut random = Random::new(5);
    for _ in 0..20_000 {
        let text = random_text(&mut random);
        hold(&text);
        hold(&with_characters(&mut random, &text));
    }
}
