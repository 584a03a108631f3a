//! For each kind of field: values just in its range and just outside it, and values of other kinds.

use super::downlinks;
use super::node::{text, Node};
use crate::reference::fields::{kind, Kind};

pub fn values(command: &str, key: &str) -> Vec<Node> {
    let mut values = match kind(command, key) {
        Kind::Whole(range) => wholes(*range.start(), *range.end()),
        Kind::Real => reals().into_iter().chain(wholes(-(1 << 53), 1 << 53)).chain([Node::Whole(-97)]).collect(),
        Kind::Single => prios(),
        Kind::Counters => counters(),
        Kind::Entries => entries(),
        Kind::Location => locations(),
        Kind::Version => VERSIONS.iter().map(|version| text(version)).collect(),
        Kind::Bytes(range) => arrays(*range.start(), *range.end()),
        Kind::Text(range) => texts(&[*range.start(), *range.end(), 15, 31]),
        Kind::AnyText => texts(&[0, 31, 255, 256]),
        Kind::AnyMap => vec![Node::Map(vec![(text("command"), text("con")), (text("opId"), Node::Nil)])],
        Kind::Flag => vec![Node::Flag(false), Node::Flag(true)],
    };
    values.extend(one_of_each());
    values
}

/// One element of each kind.
fn one_of_each() -> Vec<Node> {
    vec![
        Node::Nil,
        Node::Flag(true),
        Node::Whole(0),
        Node::Whole(1),
        Node::Float32(0x3F80_0000),
        Node::Float64(0x3FF0 << 48),
        text("1"),
        Node::Bin(vec![1; 4]),
        Node::Ext(vec![1; 16]),
        Node::Array(vec![]),
        Node::Array(vec![Node::Whole(1)]),
        Node::Map(vec![]),
        Node::Map(vec![(text("x"), Node::Whole(1))]),
    ]
}

fn wholes(low: i128, high: i128) -> Vec<Node> {
    let edges = [
        low - 1,
        low,
        low + 1,
        high - 1,
        high,
        high + 1,
        -1,
        2,
        1 << 31,
        1 << 32,
        1 << 54,
        (1 << 63) - 1,
        1 << 63,
        -(1 << 63),
        (1 << 64) - 1,
    ];
    edges.iter().map(|number| Node::Whole((*number).clamp(-(1 << 63), (1 << 64) - 1))).collect()
}

/// Both zeros, the smallest, the greatest, the infinite and those that are no number.
pub fn reals() -> Vec<Node> {
    let single = [0, 1, 0x007F_FFFF, 0x0080_0000, 0x7F7F_FFFF, 0x7F80_0000, 0x7F80_0001, 0x7FC0_0000, 0x42C2_0000];
    let double =
        [0, 1, (1 << 52) - 1, 1 << 52, (0x7FF0 << 48) - 1, 0x7FF0 << 48, (0x7FF0 << 48) + 1, 0x7FF8 << 48, 0x4058_4000_0000_0000];
    let singles = single.iter().flat_map(|bits| [Node::Float32(*bits), Node::Float32(bits | 1 << 31)]);
    singles.chain(double.iter().flat_map(|bits| [Node::Float64(*bits), Node::Float64(bits | 1 << 63)])).collect()
}

/// All the reals above; the edges of single precision in every form, and float 64 just beside them: half of the smallest, one and
/// a half of it, halves and smaller parts between singles, 2^128 and what would be rounded to it; whole numbers that fit and that
/// don't.
pub fn prios() -> Vec<Node> {
    let singles = downlinks::edges().into_iter().flat_map(|edge| {
        let wholes = (edge.to_bits() == (edge as i64 as f64).to_bits()).then_some(Node::Whole(edge as i128));
        [Node::Float32((edge as f32).to_bits()), Node::Float64(edge.to_bits())].into_iter().chain(wholes)
    });
    let doubles = [
        0x3690 << 48,
        0x36A0 << 48 | 1,
        0x36A8 << 48,
        0x3698 << 48,
        0x380F_FFFF_C000_0001,
        0x380F_FFFF_E000_0000,
        0x3810_0000_1000_0000,
        0x3FF0_0000_1000_0000,
        0x3FF0_0000_3000_0000,
        0x3FF0_0000_0000_0001,
        0x3FB9_9999_9999_999A,
        0x47EF_FFFF_E000_0001,
        0x47EF_FFFF_F000_0000,
        0x47EF_FFFF_FFFF_FFFF,
        0x47F0 << 48,
    ];
    let wholes = [
        (1 << 24) + 1,
        (1 << 24) + 2,
        (1 << 25) + 2,
        (1 << 25) + 4,
        (1 << 31) - 1,
        (1 << 32) - 1,
        (1 << 32) - 256,
        (1 << 52) + 1,
        (1 << 53) - 1,
        (1 << 53) - (1 << 28),
        (1 << 53) - (1 << 29),
        (1 << 53) + 1,
        (1 << 53) + (1 << 30),
        1 << 54,
        1 << 62,
    ];
    let doubles = doubles.iter().flat_map(|bits| [Node::Float64(*bits), Node::Float64(bits | 1 << 63)]);
    let wholes = wholes.iter().flat_map(|number| [Node::Whole(*number), Node::Whole(-*number)]);
    singles.chain(doubles).chain(wholes).chain(reals()).chain(self::wholes(-(1 << 53), 1 << 53)).collect()
}

/// What is no counter and what is the last one.
pub fn odd_counters() -> Vec<Node> {
    let wholes = [-1, 0, u32::MAX.into(), 1 << 32, 1 << 63, (1 << 64) - 1, -(1 << 63)].map(Node::Whole);
    wholes.into_iter().chain(one_of_each()).collect()
}

/// So many counters.
pub fn some_counters(count: usize) -> Vec<Node> {
    (0..count).map(|i| Node::Whole([7, 7, 300, 70_000][i % 4])).collect()
}

fn counters() -> Vec<Node> {
    let mut values: Vec<Node> = (0..4).chain(14..19).map(|count| Node::Array(some_counters(count))).collect();
    for odd in odd_counters() {
        values.push(Node::Array(vec![odd.clone()]));
        for at in [0, 15] {
            let mut counters = some_counters(16);
            counters[at] = odd.clone();
            values.push(Node::Array(counters));
        }
    }
    values.push(Node::Bin(vec![1; 4]));
    values
}

/// A data entry of so many bytes.
pub fn entry(length: usize) -> Node {
    Node::Array(vec![Node::Whole(77); length])
}

/// One entry near each edge, several of them, and what is no entry or has what is no byte.
fn entries() -> Vec<Node> {
    let mut values: Vec<Node> = arrays(0, 245).into_iter().map(|entry| Node::Array(vec![entry])).collect();
    values.extend((0..4).chain(14..19).map(|count| Node::Array(vec![entry(3); count])));
    for odd in one_of_each() {
        values.push(Node::Array(vec![odd.clone()]));
        values.push(Node::Array(vec![Node::Array(vec![odd.clone()])]));
        values.push(Node::Array(vec![entry(2), odd]));
    }
    values.push(entry(3));
    values
}

/// Three reals of which one is any of the reals, a whole number or no real, and other counts of them.
fn locations() -> Vec<Node> {
    let plain = Node::Float32(0x42C2_0000);
    let mut values: Vec<Node> = [0, 1, 2, 4].iter().map(|count| Node::Array(vec![plain.clone(); *count])).collect();
    for odd in reals().into_iter().chain(wholes(-(1 << 53), 1 << 53)).chain(one_of_each()) {
        for at in 0..3 {
            let mut three = vec![plain.clone(); 3];
            three[at] = odd.clone();
            values.push(Node::Array(three));
        }
    }
    values
}

/// Arrays of any length near the range's ends, and with a wrong entry first or last.
fn arrays(low: usize, high: usize) -> Vec<Node> {
    let lengths = [low.saturating_sub(1), low, low + 1, high - 1, high, high + 1, 15, 16, 32, 256];
    let array = |length: usize| vec![Node::Whole(200); length];
    let mut values: Vec<Node> = lengths.iter().map(|length| Node::Array(array(*length))).collect();
    let odd = [
        Node::Whole(255),
        Node::Whole(256),
        Node::Whole(-1),
        Node::Whole(1 << 32),
        Node::Nil,
        Node::Flag(true),
        Node::Float32(0),
        text("1"),
    ];
    for entry in odd {
        for at in [0, high - 1] {
            let mut entries = array(high);
            entries[at] = entry.clone();
            values.push(Node::Array(entries));
        }
    }
    values.push(Node::Bin(vec![1; high]));
    values.push(Node::Text(vec![1; high]));
    values
}

fn texts(lengths: &[usize]) -> Vec<Node> {
    let near = lengths.iter().flat_map(|length| [length.saturating_sub(1), *length, length + 1]);
    near.flat_map(|length| [Node::Text(vec![0xFF; length]), Node::Bin(vec![b'a'; length])]).collect()
}

const VERSIONS: [&str; 34] = [
    "1.0.0",
    "0.0.0",
    "65535.65535.65535",
    "65536.0.0",
    "0.65536.0",
    "0.0.65536",
    "01.0.0",
    "1.00.0",
    "1.0.00",
    "1.0.01",
    "1.0",
    "1",
    "1.0.0.0",
    "1..0",
    ".1.0",
    "1.0.",
    "",
    ".",
    "..",
    "...",
    "+1.0.0",
    "-1.0.0",
    "1.0.0 ",
    " 1.0.0",
    "1.0.a",
    "1,0,0",
    "00000.0.0",
    "99999.0.0",
    "100000.0.0",
    "4294967296.0.0",
    "18446744073709551617.0.0",
    "1.0.0\0",
    "1.0.0/",
    "1.0.:",
];
