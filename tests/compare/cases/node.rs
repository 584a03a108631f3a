//! Elements to be written in any lawful width, or in an unlawful way: the maker of payloads.

use super::random::Random;

#[derive(Clone, Debug)]
pub enum Node {
    Nil,
    Flag(bool),
    Whole(i128),
    Float32(u32),
    Float64(u64),
    Text(Vec<u8>),
    Bin(Vec<u8>),
    Ext(Vec<u8>),
    Array(Vec<Node>),
    Map(Vec<(Node, Node)>),
    /// Bytes as they stand.
    Raw(Vec<u8>),
    /// A map (0xDE) or array (0xDC) that states another count than it holds.
    Misstated(u8, usize, Vec<Node>),
}

pub fn text(text: &str) -> Node {
    Node::Text(text.as_bytes().to_vec())
}

impl Node {
    pub fn encode(&self, random: &mut Random, out: &mut Vec<u8>) {
        match self {
            Node::Nil => out.push(0xC0),
            Node::Flag(flag) => out.push(0xC2 + u8::from(*flag)),
            Node::Whole(number) => whole(random, out, *number),
            Node::Float32(bits) => numbered(out, 0xCA, 4, u64::from(*bits)),
            Node::Float64(bits) => numbered(out, 0xCB, 8, *bits),
            Node::Text(bytes) => {
                head(random, out, Some((0xA0, 31)), &[(0xD9, 1), (0xDA, 2), (0xDB, 4)], bytes.len());
                out.extend_from_slice(bytes);
            }
            Node::Bin(bytes) => {
                head(random, out, None, &[(0xC4, 1), (0xC5, 2), (0xC6, 4)], bytes.len());
                out.extend_from_slice(bytes);
            }
            Node::Ext(bytes) => ext(random, out, bytes),
            Node::Array(entries) => {
                head(random, out, Some((0x90, 15)), &[(0xDC, 2), (0xDD, 4)], entries.len());
                entries.iter().for_each(|entry| entry.encode(random, out));
            }
            Node::Map(pairs) => {
                head(random, out, Some((0x80, 15)), &[(0xDE, 2), (0xDF, 4)], pairs.len());
                for (key, value) in pairs {
                    key.encode(random, out);
                    value.encode(random, out);
                }
            }
            Node::Raw(bytes) => out.extend_from_slice(bytes),
            Node::Misstated(lead, count, entries) => {
                numbered(out, *lead, 2, *count as u64);
                entries.iter().for_each(|entry| entry.encode(random, out));
            }
        }
    }

    pub fn bytes(&self, random: &mut Random) -> Vec<u8> {
        let mut out = Vec::new();
        self.encode(random, &mut out);
        out
    }

    /// How many elements this is, with all that it holds.
    pub fn count(&self) -> usize {
        match self {
            Node::Array(entries) => 1 + entries.iter().map(Node::count).sum::<usize>(),
            Node::Map(pairs) => 1 + pairs.iter().map(|(key, value)| key.count() + value.count()).sum::<usize>(),
            _ => 1,
        }
    }
}

fn numbered(out: &mut Vec<u8>, lead: u8, width: usize, bits: u64) {
    out.push(lead);
    out.extend_from_slice(&bits.to_be_bytes()[8 - width..]);
}

/// Any of the forms that hold the number; the shortest as often as not.
fn whole(random: &mut Random, out: &mut Vec<u8>, number: i128) {
    let mut forms = Vec::new();
    if (-32..=127).contains(&number) {
        forms.push((number as u8, 0));
    }
    for step in 0..4 {
        let width = 1 << step;
        if number >= 0 && number < 1 << (8 * width) {
            forms.push((0xCC + step, width));
        }
        if number >= -(1 << (8 * width - 1)) && number < 1 << (8 * width - 1) {
            forms.push((0xD0 + step, width));
        }
    }
    let (lead, width) = if random.one_in(2) { forms[0] } else { random.pick(&forms) };
    numbered(out, lead, width, number as u64);
}

/// Any of the heads that hold the count.
fn head(random: &mut Random, out: &mut Vec<u8>, fixed: Option<(u8, usize)>, wide: &[(u8, usize)], count: usize) {
    let mut forms: Vec<(u8, usize)> = wide.iter().copied().filter(|(_, width)| count >> (8 * width) == 0).collect();
    if let Some((lead, _)) = fixed.filter(|(_, most)| count <= *most) {
        forms.insert(0, (lead | count as u8, 0));
    }
    let (lead, width) = if random.one_in(2) { forms[0] } else { random.pick(&forms) };
    numbered(out, lead, width, count as u64);
}

fn ext(random: &mut Random, out: &mut Vec<u8>, bytes: &[u8]) {
    match [1, 2, 4, 8, 16].iter().position(|length| *length == bytes.len()) {
        Some(step) if random.one_in(2) => out.push(0xD4 + step as u8),
        _ => head(random, out, None, &[(0xC7, 1), (0xC8, 2), (0xC9, 4)], bytes.len()),
    }
    out.push(random.byte());
    out.extend_from_slice(bytes);
}

const KEYS: [&str; 20] = [
    "command",
    "opId",
    "epEui",
    "x",
    "",
    "commands",
    "opid",
    "version",
    "sign",
    "snr",
    "Command",
    "rsi",
    "dIOpen",
    "info",
    "packetCnt",
    "userData",
    "queID",
    "queId",
    "prio",
    "expOnly",
];

/// A key that any map may have, also those of commands.
pub fn any_key(random: &mut Random) -> Node {
    match random.below(8) {
        0 => Node::Text({
            let length = random.pick(&[1, 7, 31, 32, 40, 255, 256]);
            random.bytes(length)
        }),
        _ => text(random.pick(&KEYS)),
    }
}

/// Any element, with at most so many levels below it.
pub fn any(random: &mut Random, levels: usize) -> Node {
    let length = random.pick(&[0, 1, 2, 3, 4, 8, 15, 16, 17]);
    match random.below(if levels == 0 { 8 } else { 10 }) {
        0 => Node::Nil,
        1 => Node::Flag(random.one_in(2)),
        2 | 3 => Node::Whole(super::values::whole(random, &(i64::MIN.into()..=u64::MAX.into()))),
        4 => any_float(random),
        5 => Node::Text(random.bytes(length)),
        6 => Node::Bin(random.bytes(length)),
        7 => Node::Ext(random.bytes(length)),
        8 => Node::Array((0..random.below(5)).map(|_| any(random, levels - 1)).collect()),
        _ => Node::Map((0..random.below(4)).map(|_| (any_key(random), any(random, levels - 1))).collect()),
    }
}

/// Any float, also those that are no number or not finite.
pub fn any_float(random: &mut Random) -> Node {
    let exponent32 = random.pick(&[0, 0x7F80_0000, 0x7F00_0000]);
    let exponent64 = random.pick(&[0, 0x7FF0_0000_0000_0000, 0x7FE0_0000_0000_0000]);
    let sign = random.next() & 1;
    let fraction = random.number() & 0x000F_FFFF_FFFF_FFFF;
    match random.below(4) {
        0 => Node::Float32(random.next() as u32),
        1 => Node::Float64(random.next()),
        2 => Node::Float32((sign << 31 | exponent32 | (fraction & 0x007F_FFFF)) as u32),
        _ => Node::Float64(sign << 63 | exponent64 | fraction),
    }
}
