//! Numbers on both sides of their edges: 2^63 - 1 in the scan, 2^32 - 1 and the
//! shift counts in a map's `max`, 2^32 - 1 in event lengths.

/// Spellings around 2^63 - 1 and other places where digits are counted.
const LITERALS: [&str; 24] = [
    "0",
    "00",
    "08",
    "0x0",
    "0x",
    "0X1",
    "0xg",
    "00x1",
    "9223372036854775806",
    "9223372036854775807",
    "9223372036854775808",
    "9223372036854775809",
    "9223372036854775810",
    "18446744073709551615",
    "18446744073709551616",
    "92233720368547758070",
    "0000000000009223372036854775807",
    "0000000000009223372036854775808",
    "0x7fffffffffffffff",
    "0x7FFFFFFFFFFFFFFF",
    "0x8000000000000000",
    "0xffffffffffffffff",
    "0x10000000000000000",
    "0x0000000007fffffffffffffff",
];

const MAXIMA: [&str; 12] = [
    "0",
    "1",
    "-0",
    "-1",
    "2147483648",
    "4294967294",
    "4294967295",
    "4294967296",
    "0xffffffff",
    "0x100000000",
    "9223372036854775807",
    "-9223372036854775807",
];

const SHIFTED: [&str; 4] = ["1", "-1", "4294967296", "9223372036854775807"];

const COUNTS: [&str; 10] = [
    "0",
    "1",
    "31",
    "32",
    "62",
    "63",
    "64",
    "65",
    "-1",
    "4294967296",
];

const SHIFT_CHAINS: [&str; 10] = [
    "1<<40>>40",
    "1<<63<<1",
    "1<<63>>63",
    "1<<63>>31",
    "-1<<63>>1",
    "4294967296>>0",
    "4294967296>>0>>1",
    "-1<<64",
    "1<<64>>64",
    "1>>64<<-1",
];

const LENGTHS: [&str; 10] = [
    "0",
    "1",
    "-0",
    "-1",
    "255",
    "4294967295",
    "4294967296",
    "0xffffffff",
    "9223372036854775807",
    "-9223372036854775807",
];

/// Every number at its edge, in the texts where it matters.
pub fn texts() -> Vec<Vec<u8>> {
    literals()
        .chain(maxima())
        .chain(lengths())
        .map(String::into_bytes)
        .collect()
}

/// Each literal with and without `-`: alone, behind and before other rows, and in a unit.
fn literals() -> impl Iterator<Item = String> {
    LITERALS.into_iter().flat_map(|literal| {
        ["", "-"].into_iter().flat_map(move |sign| {
            [
                format!("{sign}{literal}"),
                format!("a\n {sign}{literal};@"),
                format!("unit u{{x={sign}{literal};}}"),
            ]
        })
    })
}

/// Each `max`, with its `;`, and with the map's end or another row in its place.
fn maxima() -> impl Iterator<Item = String> {
    let shifts = SHIFTED.into_iter().flat_map(|value| {
        COUNTS
            .into_iter()
            .flat_map(move |count| [format!("{value}<<{count}"), format!("{value}>>{count}")])
    });
    let whole = MAXIMA
        .into_iter()
        .chain(SHIFT_CHAINS)
        .map(str::to_string)
        .chain(shifts)
        .map(|max| format!("map m{{type:.ringbuf;max:{max};}}"));
    let broken = MAXIMA.into_iter().chain(SHIFT_CHAINS).flat_map(|max| {
        [
            format!("map m{{max:{max}}}"),
            format!("map m{{max:{max} q"),
            format!("map m{{max:{max};max:1;"),
        ]
    });
    whole.chain(broken)
}

fn lengths() -> impl Iterator<Item = String> {
    LENGTHS.into_iter().flat_map(|length| {
        [
            format!("event e{{a:u32[{length}];}}"),
            format!("event e{{a:bytes[{length}];b:i64;}}"),
            format!("event e{{a:u64[{length};}}"),
        ]
    })
}
