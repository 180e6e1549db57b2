//! Figures: the counts of programs, word by word, what is refused, and tallies added up.

use spoonharbor::lent::{self, Counts, NODE_WORDS, TALLY_COUNTS, TALLY_MOST_NODES};
use spoonharbor::{set_size, CountTooLarge, Document, Figure, MapType, ProgramKind, Reason, Tally};

/// A program with something of everything that is counted.
const EVERY: &str = "map h{type:.hash;key:u32;value:u64;max:16;}map r{type:.ringbuf;max:1<<12;}\
    event e{a:u32;b:bytes[4];}unit u{section \"xdp\";license \"GPL\";reg r=1;if guard(r){x;return 2;}else{y+=1;}}\
    unit v{section \"kprobe/f\";}unit w{}";

fn tally(text: &str) -> Tally {
    Document::open(text).unwrap().tally().unwrap()
}

/// The tally that has these counts and no others.
fn with(counts: &[(Figure, u64)]) -> Tally {
    let count = |figure| {
        let found = counts.iter().find(|(one, _)| *one == figure);
        found.map_or(0, |(_, count)| *count)
    };
    Tally::from_counts(Figure::ALL.map(count))
}

/// A node of this kind with these facts.
fn node(kind: u32, a: u32, d: u32) -> [u32; NODE_WORDS] {
    [kind, 0, u32::MAX, 0, a, 0, 0, d]
}

/// What the library tells of nodes, every one of them counted.
fn told(nodes: &[[u32; NODE_WORDS]]) -> (u32, Counts) {
    lent::tally(nodes.as_flattened(), nodes.len() as u32)
}

#[test]
fn everything_is_counted() {
    let counts = [
        [1, 0, 0, 0, 1, 0, 0, 0, 0, 0, 1].as_slice(),
        &[1, 0, 1, 0, 0],
        &[1, 5, 4_112],
    ]
    .concat();
    let kinds = [ProgramKind::Xdp, ProgramKind::Kprobe, ProgramKind::Unknown];
    let methods: u32 = kinds.map(set_size).iter().sum();
    assert_eq!(methods, 13);
    let every = tally(EVERY);
    assert_eq!(every.counts()[..19], counts);
    assert_eq!(every.counts()[19], 13);
    assert_eq!((every.units(), every.maps()), (3, 2));
    assert_eq!(every.count(Figure::Statements), 5);
    assert_eq!(
        every.to_string(),
        "3 units (1 xdp, 1 kprobe, 1 unknown), 2 maps (1 hash, 1 ringbuf), 1 event, 5 statements, sum of max 4112, 13 methods"
    );
}

#[test]
fn an_empty_text_has_the_empty_tally() {
    assert_eq!(tally(""), Tally::EMPTY);
    assert_eq!(tally(""), Tally::default());
    assert_eq!(
        Tally::EMPTY.to_string(),
        "0 units, 0 maps, 0 events, 0 statements, sum of max 0, 0 methods"
    );
}

/// Statements in bodies count, and bodies do not.
#[test]
fn statements_in_bodies_count() {
    let unknown = u64::from(set_size(ProgramKind::Unknown));
    for (text, statements) in [
        ("unit u{}", 0),
        ("unit u{section \"a\";license \"b\";}", 0),
        ("unit u{if guard(a){x;}}", 2),
        ("unit u{if guard(a){}else{}}", 1),
        ("unit u{a;a=1;a+=1;reg a=1;imm a=1;heap a=1;return a;}", 7),
    ] {
        let wanted = with(&[
            (Figure::Units(ProgramKind::Unknown), 1),
            (Figure::Statements, statements),
            (Figure::Methods, unknown),
        ]);
        assert_eq!(tally(text), wanted, "{text}");
    }
}

/// The sum of max has 64 bits.
#[test]
fn max_is_added_in_64_bits() {
    let map = "map m{type:.array;key:u32;value:u32;max:4294967295;}";
    let wanted = with(&[
        (Figure::Maps(MapType::Array), 3),
        (Figure::Max, 3 * 4_294_967_295),
    ]);
    assert_eq!(tally(&map.repeat(3)), wanted);
}

#[test]
fn what_is_no_program_is_refused_as_its_tree_is() {
    let document = Document::open("unit u{x}").unwrap();
    let refusal = document.tally().unwrap_err();
    assert_eq!(refusal.number(), 21);
    assert_eq!(document.tree().unwrap_err(), refusal);
}

/// 3, with twenty zeros whatever was counted before.
#[test]
fn nodes_that_no_tree_has_are_refused() {
    let statement = node(13, 0, 0);
    for forged in [
        node(0, 0, 0),
        node(30, 0, 0),
        node(u32::MAX, 0, 0),
        node(25, 11, 0),
        node(25, u32::MAX, 0),
        node(28, 0, 1),
        node(28, 6, 1),
    ] {
        assert_eq!(told(&[statement, forged]), (3, [0; TALLY_COUNTS]));
        let refusal = Tally::of_nodes([statement, forged].as_flattened()).unwrap_err();
        assert_eq!(refusal.reason, Reason::NotWellFormed);
        assert_eq!(refusal.number(), 3);
    }
    // Just inside: the last kinds and types, and facts that are not looked at.
    for right in [
        node(1, 99, 99),
        node(29, 99, 99),
        node(25, 10, 99),
        node(28, 5, 99),
    ] {
        assert_eq!(told(&[right]).0, 0, "{right:?}");
    }
}

#[test]
fn no_more_nodes_are_counted_than_are_lent() {
    let words = [node(27, 0, 0), node(27, 0, 0)];
    let words = words.as_flattened();
    let events = |count| with(&[(Figure::Events, count)]);
    assert_eq!(lent::tally(words, 0), (0, *Tally::EMPTY.counts()));
    assert_eq!(lent::tally(words, 1), (0, *events(1).counts()));
    assert_eq!(lent::tally(words, 2), (0, *events(2).counts()));
    assert_eq!(lent::tally(words, 3), (3, [0; TALLY_COUNTS]));
    assert_eq!(lent::tally(&words[..15], 2), (3, [0; TALLY_COUNTS]));
    assert_eq!(lent::tally(&words[..15], 1).0, 0);
    assert_eq!(lent::tally(&[], u32::MAX), (3, [0; TALLY_COUNTS]));
    assert_eq!(Tally::of_nodes(&words[..15]), Ok(events(1)));
    assert_eq!(Tally::of_nodes(&[]), Ok(Tally::EMPTY));
}

#[test]
fn at_most_as_many_nodes_are_counted_as_two_texts_have_rows() {
    let most = TALLY_MOST_NODES;
    let map = node(28, 1, u32::MAX);
    let nodes = vec![map; most as usize + 1];
    let nodes = nodes.as_flattened();
    let wanted = with(&[
        (Figure::Maps(MapType::Hash), most.into()),
        (Figure::Max, u64::from(most) * u64::from(u32::MAX)),
    ]);
    assert_eq!(lent::tally(nodes, most), (0, *wanted.counts()));
    assert_eq!(lent::tally(nodes, most + 1), (3, [0; TALLY_COUNTS]));
    assert_eq!(Tally::of_nodes(nodes).unwrap_err().number(), 3);
}

/// Each figure's count stands at its index, and no two have one name.
#[test]
fn figures_have_names() {
    let names = Figure::ALL.map(Figure::name);
    let wanted = "units_xdp units_tc units_socket units_cgroup units_kprobe units_tracepoint units_raw_tracepoint units_fentry \
        units_fexit units_lsm units_unknown maps_hash maps_array maps_ringbuf maps_lru_hash maps_prog_array events statements max methods";
    assert_eq!(names.join(" "), wanted);
    assert_eq!(
        Figure::Units(ProgramKind::RawTracepoint).to_string(),
        "raw tracepoint units"
    );
    for (index, kind) in ProgramKind::ALL.iter().enumerate() {
        assert_eq!(Figure::ALL[index], Figure::Units(*kind));
        assert_eq!(told(&[node(25, index as u32, 0)]).1[index], 1);
    }
    for index in 0..5 {
        assert_eq!(told(&[node(28, 1 + index as u32, 7)]).1[11 + index], 1);
    }
    let counts = std::array::from_fn(|index| index as u64);
    let figures: Vec<u64> = Tally::from_counts(counts)
        .figures()
        .map(|(_, count)| count)
        .collect();
    assert_eq!(figures, counts);
    assert_eq!(Tally::from_counts(counts).count(Figure::Methods), 19);
}

#[test]
fn tallies_add_up() {
    let texts = [EVERY, "", "unit u{x;}", "event e{}"];
    let tallies = texts.map(tally);
    let all: Result<Tally, CountTooLarge> = tallies.iter().sum();
    let sums: Counts =
        std::array::from_fn(|index| tallies.iter().map(|one| one.counts()[index]).sum());
    assert_eq!(all, Ok(Tally::from_counts(sums)));
    assert_eq!(tallies.into_iter().rev().sum::<Result<_, _>>(), all);
    assert_eq!(Tally::EMPTY.join(&tallies[0]), Ok(tallies[0]));
    assert_eq!(tallies[0].join(&Tally::EMPTY), Ok(tallies[0]));
    let nothing: Result<Tally, CountTooLarge> = [].iter().sum::<Result<_, _>>();
    assert_eq!(nothing, Ok(Tally::EMPTY));
    // Two programs' tallies are that of both texts as one.
    assert_eq!(tally(&[EVERY, "unit u{x;}"].concat()), {
        let mut both = tallies[0];
        both.add(&tallies[2]).unwrap();
        both
    });
}

/// Whichever count does not fit, the first tally is kept whole.
#[test]
fn sums_over_64_bits_are_refused_with_the_first() {
    let one = Tally::from_counts([1; TALLY_COUNTS]);
    for index in 0..TALLY_COUNTS {
        let mut counts = [7; TALLY_COUNTS];
        counts[index] = u64::MAX;
        let large = Tally::from_counts(counts);
        assert_eq!(lent::join(&counts, one.counts()), (70, counts));
        assert_eq!(
            lent::join(one.counts(), &counts),
            (70, [1; TALLY_COUNTS]),
            "{index}"
        );
        let refused = large.join(&one).unwrap_err();
        assert_eq!(refused.kept, large);
        assert_eq!(one.join(&large).unwrap_err().kept, one);
        let mut sum = large;
        assert_eq!(sum.add(&one), Err(refused));
        assert_eq!(sum, large);
        // Up to the most it fits.
        assert_eq!(large.join(&Tally::EMPTY), Ok(large));
        counts[index] = u64::MAX - 1;
        let sum = Tally::from_counts(counts).join(&one).unwrap();
        assert_eq!(sum.counts()[index], u64::MAX);
        // A sum stops at the first that does not fit.
        let stopped: Result<Tally, CountTooLarge> = [one, large, one].iter().sum();
        assert_eq!(stopped.unwrap_err().kept, one);
    }
    assert_eq!(CountTooLarge::NUMBER, 70);
    let refused = Tally::from_counts([u64::MAX; TALLY_COUNTS]).join(&one);
    assert_eq!(
        refused.unwrap_err().to_string(),
        "a sum of counts passes 64 bits"
    );
}

/// Sums of all kinds and types are told whole, though no count of 64 bits holds them.
#[test]
fn units_and_maps_of_all_kinds_are_added_in_more_bits() {
    let most = Tally::from_counts([u64::MAX; TALLY_COUNTS]);
    assert_eq!(most.units(), 11 * u128::from(u64::MAX));
    assert_eq!(most.maps(), 5 * u128::from(u64::MAX));
}
