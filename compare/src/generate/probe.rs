//! Probes as people write them: maps, events and units with comments, indented, of any length.

use super::random::Random;

const THINGS: [&str; 16] = [
    "packet",
    "flow",
    "dome",
    "shutter",
    "mirror",
    "sensor",
    "frame",
    "socket",
    "open",
    "exec",
    "retry",
    "drop",
    "guide_star",
    "telemetry",
    "latency",
    "queue",
];

const PARTS: [&str; 10] = [
    "count",
    "bytes_seen",
    "last",
    "total",
    "state",
    "index",
    "limit",
    "stamp",
    "id",
    "table",
];

const COMMENTS: [&str; 8] = [
    "kept for the dashboard, which reads it every second",
    "see the notes on the shutter controller",
    "offset of the protocol field in the Ethernet header",
    "the kernel hands this over in network byte order",
    "one slot for each source address",
    "TODO: agree on a limit with the night crew",
    "never larger than a page",
    "the old value is enough here",
];

const SECTIONS: [&str; 6] = [
    "xdp",
    "tc/ingress",
    "kprobe/do_sys_open",
    "tracepoint/syscalls/sys_enter_openat",
    "fentry/tcp_connect",
    "cgroup/skb",
];

const METHODS: [&str; 6] = [
    "load_u8",
    "load_u16",
    "load_u32",
    "load_u64",
    "get_pid_tgid",
    "get_ktime_ns",
];

const TYPES: [&str; 4] = ["u32", "u64", "i32", "i64"];

/// How many declarations that are too long are passed over at the end before a comment fills what is left.
const TOO_LONG: usize = 40;

/// A program of exactly `length` bytes: whole declarations, and a comment that fills what is left.
pub fn probe_text(length: usize, seed: u64) -> Vec<u8> {
    let mut random = Random::new(seed);
    let mut text = String::new();
    let mut passed_over = 0;
    while passed_over < TOO_LONG {
        let next = declaration(&mut random);
        if text.len() + next.len() <= length {
            text.push_str(&next);
        } else {
            passed_over += 1;
        }
    }
    let rest = length - text.len();
    text.push_str(&filling(rest));
    text.into_bytes()
}

/// A comment of so many bytes, or newlines if they are too few for one.
fn filling(length: usize) -> String {
    match length.checked_sub(3) {
        None => "\n".repeat(length),
        Some(dots) => format!("//{}\n", ".".repeat(dots)),
    }
}

fn declaration(random: &mut Random) -> String {
    match random.below(6) {
        0 => map(random),
        1 => event(random),
        _ => unit(random),
    }
}

fn name(random: &mut Random) -> String {
    format!("{}_{}", random.pick(&THINGS), random.pick(&PARTS))
}

fn map(random: &mut Random) -> String {
    let map_type = random.pick(&["hash", "array", "lru_hash", "ringbuf", "prog_array"]);
    format!(
        "// {}\nmap {} {{\n    type: .{map_type};\n    key: {};\n    value: {};\n    max: {} << {};\n}}\n\n",
        random.pick(&COMMENTS),
        name(random),
        random.pick(&TYPES),
        random.pick(&TYPES),
        1 + random.below(16),
        random.below(16)
    )
}

fn event(random: &mut Random) -> String {
    let mut text = format!(
        "/* {} */\nevent {} {{\n",
        random.pick(&COMMENTS),
        name(random)
    );
    for _ in 0..2 + random.below(4) {
        let field_type = match random.below(3) {
            0 => random.pick(&TYPES).to_string(),
            1 => format!("bytes[{}]", 8 << random.below(4)),
            _ => format!("{}[{}]", random.pick(&TYPES), 1 + random.below(16)),
        };
        text.push_str(&format!("    {}: {field_type};\n", random.pick(&PARTS)));
    }
    text.push_str("}\n\n");
    text
}

fn unit(random: &mut Random) -> String {
    let mut text = format!(
        "unit {} {{\n    section \"{}\";\n    license \"GPL\";\n\n",
        name(random),
        random.pick(&SECTIONS)
    );
    for _ in 0..4 + random.below(8) {
        statement(random, 1, &mut text);
    }
    text.push_str(&format!("    return {};\n}}\n\n", random.below(3)));
    text
}

fn statement(random: &mut Random, depth: usize, text: &mut String) {
    let indentation = "    ".repeat(depth);
    if random.one_in(4) {
        text.push_str(&format!("{indentation}// {}\n", random.pick(&COMMENTS)));
    }
    match random.below(8) {
        0 | 1 => text.push_str(&format!(
            "{indentation}reg {} = {};\n",
            name(random),
            expression(random)
        )),
        2 => text.push_str(&format!(
            "{indentation}imm {} = 0x{:04x};\n",
            name(random),
            random.below(1 << 16)
        )),
        3 => text.push_str(&format!(
            "{indentation}heap slot = {}.lookup({});\n",
            name(random),
            name(random)
        )),
        4 => text.push_str(&format!("{indentation}*slot += {};\n", expression(random))),
        5 => text.push_str(&format!(
            "{indentation}{}.update({}, {});\n",
            name(random),
            name(random),
            expression(random)
        )),
        6 if depth < 4 => guarded(random, depth, text),
        _ => text.push_str(&format!(
            "{indentation}{}.{} = {};\n",
            name(random),
            random.pick(&PARTS),
            expression(random)
        )),
    }
}

fn guarded(random: &mut Random, depth: usize, text: &mut String) {
    let indentation = "    ".repeat(depth);
    text.push_str(&format!("{indentation}if guard(slot) {{\n"));
    for _ in 0..1 + random.below(3) {
        statement(random, depth + 1, text);
    }
    if random.one_in(2) {
        text.push_str(&format!("{indentation}}} else {{\n"));
        statement(random, depth + 1, text);
    }
    text.push_str(&format!("{indentation}}}\n"));
}

fn expression(random: &mut Random) -> String {
    let mut text = operand(random);
    for _ in 0..random.below(3) {
        let sign = random.pick(&["+", "-", "*", "/", "%"]);
        text = format!("{text} {sign} {}", operand(random));
    }
    text
}

fn operand(random: &mut Random) -> String {
    match random.below(6) {
        0 => format!("ctx.{}({})", random.pick(&METHODS), random.below(64)),
        1 => random.below(4096).to_string(),
        2 => format!("({} << {})", name(random), random.below(16)),
        3 => format!("{}.{}", name(random), random.pick(&PARTS)),
        _ => name(random),
    }
}

/// A probe with every other word of its comments in Greek letters.
pub fn half_greek(probe: &[u8]) -> Vec<u8> {
    let mut text = String::new();
    let (mut words, mut comment) = (0, None);
    for (at, byte) in probe.iter().enumerate() {
        comment = match (comment, &probe[at..]) {
            (None, [b'/', opening @ (b'/' | b'*'), ..]) => Some(*opening),
            (Some(b'/'), [b'\n', ..]) | (Some(b'*'), [b'*', b'/', ..]) => None,
            (comment, _) => comment,
        };
        words += usize::from(*byte == b' ');
        text.push(match byte {
            b'a'..=b'z' if comment.is_some() && words % 2 == 1 => greek_letter(*byte),
            _ => char::from(*byte),
        });
    }
    text.into_bytes()
}

/// A Greek letter for each of ours.
fn greek_letter(byte: u8) -> char {
    char::from_u32(u32::from('α') + u32::from(byte - b'a')).expect("there are as many")
}

#[cfg(test)]
mod tests {
    use super::*;

    #[test]
    fn a_probe_stays_a_program_in_greek() {
        let text = half_greek(&probe_text(50_000, 3));
        assert!(text.len() > 51_000 && text.len() < 65_536, "{}", text.len());
        let Answer::Compared { parsed, .. } = answer(&text) else {
            panic!("it is UTF-8 and short enough")
        };
        assert!(matches!(parsed, Parsed::Accepted(_)));
    }

    use crate::answer::answer;
    use crate::terms::{Answer, Parsed};

    #[test]
    fn probes_are_programs_of_their_length() {
        for (length, seed) in [
            (0, 1),
            (1, 1),
            (2, 1),
            (3, 1),
            (1_000, 2),
            (60_000, 3),
            (65_536, 4),
        ] {
            let text = probe_text(length, seed);
            assert_eq!(text.len(), length);
            assert_eq!(text, probe_text(length, seed));
            let Answer::Compared { parsed, .. } = answer(&text) else {
                panic!("a probe is UTF-8 and short enough")
            };
            assert!(matches!(parsed, Parsed::Accepted(_)), "{length}");
        }
    }
}
