//! The tree is the one that the compiler's own lexer and parser make.

mod held;

use bridge::program;
use compare::deep::on_deep_stack;
use compare::generate::characters::valid_with_characters;
use compare::generate::probe::{half_greek, probe_text};
use compare::generate::random::Random;
use compare::generate::{damage, nesting, programs};
use held::{expressions, first_difference, held, Counts, Held};
use spoonharbor::Document;

const SAME: &str = "the same tree";
const REFUSED: &str = "refused by both at one place";

/// Holds every text, and counts what was found.
fn all(texts: impl IntoIterator<Item = Vec<u8>> + Send) -> Counts {
    on_deep_stack(|| {
        let mut counts = Counts::default();
        for text in texts {
            counts.hold(&text).unwrap_or_else(|part| panic!("{part}"));
        }
        counts
    })
}

/// The texts of the stored sample: its lines that begin with a T, how many bytes there are, and the bytes.
fn stored() -> Vec<Vec<u8>> {
    let sample = include_str!("../../crates/replay_texts/stdin");
    let texts = sample.lines().filter_map(|line| line.strip_prefix("T "));
    let bytes = |line: &str| {
        line.split(' ')
            .skip(1)
            .map(|byte| byte.parse().unwrap())
            .collect()
    };
    texts.map(bytes).collect()
}

#[test]
fn stored_texts() {
    let texts = stored();
    assert_eq!(texts.len(), 4_400);
    let counts = all(texts);
    assert!(counts.get(SAME) > 600, "{counts}");
    assert!(counts.get(REFUSED) > 3_000, "{counts}");
}

/// The probes of the examples, one of which lacks a semicolon.
#[test]
fn stored_probes() {
    let sound = include_bytes!("../examples/encoder.snx");
    let refused = include_bytes!("../../rust/examples/encoder.snx");
    let counts = all([sound.to_vec(), refused.to_vec()]);
    assert_eq!((counts.get(SAME), counts.get(REFUSED)), (1, 1));
}

#[test]
fn every_expression_of_up_to_eight_rows() {
    let expressions = expressions::up_to(8);
    assert_eq!(expressions.len(), 50_202);
    let texts = expressions
        .into_iter()
        .map(|one| format!("unit u{{{one};}}").into_bytes());
    let counts = all(texts);
    assert!(counts.get(SAME) > 40_000, "{counts}");
    assert_eq!(
        counts.get(SAME) + counts.get("listed: 31 here, a panic there"),
        50_202
    );
}

#[test]
fn generated_programs() {
    let mut random = Random::new(5);
    let sizes = [6, 12, 30, 80, 250];
    let texts = (0..4_000).map(|index| programs::text(&mut random, sizes[index % 5]));
    let counts = all(texts.collect::<Vec<_>>());
    assert!(counts.get(SAME) > 3_000, "{counts}");
    let mut random = Random::new(6);
    let texts = (0..1_000).map(|index| damage::text(&mut random, sizes[index % 5]));
    let counts = all(texts.collect::<Vec<_>>());
    assert!(counts.get(REFUSED) > 500, "{counts}");
}

#[test]
fn characters_in_comments_and_strings() {
    let mut random = Random::new(7);
    let texts = (0..2_000).map(|_| {
        let text = programs::text(&mut random, 40);
        valid_with_characters(&mut random, &text)
    });
    let counts = all(texts.collect::<Vec<_>>());
    assert!(counts.get(SAME) > 700, "{counts}");
    assert!(counts.get("listed: 11 here, a panic there") > 0, "{counts}");
    let text =
        "unit u{section \"xdp/\u{3b1}\u{1f600}\";/*\u{b0}*/license \"\u{e9}\\\"\";return x;}";
    assert_eq!(all([text.as_bytes().to_vec()]).get(SAME), 1);
}

#[test]
fn long_probes() {
    let probes = (1..5).map(|seed| probe_text(60_000, seed));
    let greek = (1..5).map(|seed| half_greek(&probe_text(50_000, seed)));
    let counts = all(probes.chain(greek).collect::<Vec<_>>());
    assert_eq!(counts.get(SAME), 8, "{counts}");
}

/// Up to 64 deep in parentheses, arguments, stars and bodies; and 65, which is refused here.
#[test]
fn nesting_at_its_limit() {
    let mut random = Random::new(8);
    let mut texts = nesting::texts();
    texts.extend((0..500).map(|_| nesting::random_text(&mut random)));
    let counts = all(texts);
    assert!(counts.get(SAME) > 50, "{counts}");
    assert!(counts.get("listed: 32 here, a tree there") > 50, "{counts}");
}

/// Chains that lean to the left have no limit but the text's: 32,000 operators, 32,000 fields.
#[test]
fn chains_as_long_as_a_text() {
    let texts = ["+a", "- 1", ">>a", ".f"].map(|link| {
        let links = link.repeat(64_000 / link.len());
        format!("unit u{{return a{links};}}").into_bytes()
    });
    assert_eq!(all(texts).get(SAME), 4);
}

/// 65,536 bytes are read, and one more is refused here.
#[test]
fn texts_of_limit_length() {
    let counts = all([65_536, 65_537].map(|length| probe_text(length, 1)));
    assert_eq!(counts.get(SAME), 1, "{counts}");
    assert_eq!(counts.get("listed: 1 here, a tree there"), 1, "{counts}");
}

/// Each difference of docs/DIFFERENCES.md, by the smallest text that shows it.
#[test]
fn the_listed_differences() {
    let too_deep = format!("unit u{{{}a;}}", "*".repeat(65));
    let texts: [(&[u8], u32, &str); 10] = [
        (b"\xff", 2, "no text, since it is no UTF-8"),
        ("unit \u{ea}{}".as_bytes(), 11, "a tree"),
        ("unit \u{e9}{}".as_bytes(), 11, "a panic"),
        (b"9223372036854775808", 15, "a panic"),
        (b"map m{type:.ringbuf;max:4294967296;}", 27, "a tree"),
        (b"event e{a:u32[-1];}", 27, "a tree"),
        (b"map m{max:1<<64;}", 28, "a panic"),
        (b"map m{}", 29, "a panic"),
        (b"unit u{1.f();}", 31, "a panic"),
        (too_deep.as_bytes(), 32, "a tree"),
    ];
    for (text, number, old) in texts {
        let Held::Listed { refusal, there } = held(text) else {
            panic!("{} is no listed difference", text.escape_ascii());
        };
        assert_eq!(refusal.number(), number, "{}", text.escape_ascii());
        assert!(there.starts_with(old), "{}: {there}", text.escape_ascii());
    }
}

/// A tree that differs is found: in a name, a number, a place.
#[test]
fn a_difference_is_found() {
    let tree = |text: &str| format!("{:?}", program(&Document::open(text).unwrap()).unwrap());
    let one = tree("unit u{x=1;}");
    for other in [
        "unit u{y=1;}",
        "unit u{x=2;}",
        "unit u{x= 1;}",
        "unit u{x+=1;}",
    ] {
        let other = tree(other);
        assert!(first_difference(&one, &other).unwrap().starts_with("here "));
    }
    assert_eq!(first_difference(&one, &tree("unit u{x=1;} ")), None);
}
