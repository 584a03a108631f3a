//! What only a dlDataQue has: counters and data entries that agree, and priorities.

use super::random::Random;
use crate::reference::fields::{is_single, Value, MOST_DATA, MOST_ENTRIES, MOST_TOGETHER};
use crate::reference::record::Record;

/// Gives a dlDataQue as many counters and data entries as it must have.
pub fn agree(random: &mut Random, record: &mut Record) {
    let any = random.within(1, MOST_ENTRIES);
    let count = if record.flag("cntDepend") { random.pick(&[1, 1, 2, 3, any, any, 15, 16]) } else { 1 };
    record.fields.remove("packetCnt");
    if record.flag("cntDepend") {
        record.fields.insert("packetCnt", Value::Counters((0..count).map(|_| counter(random)).collect()));
    }
    let lengths = lengths(random, count);
    record.fields.insert("userData", Value::Entries(entries(random, &lengths)));
}

/// Few enough that they repeat, and at the edges of every width.
pub fn counter(random: &mut Random) -> u32 {
    let any = random.number() as u32;
    random.pick(&[0, 1, 2, 3, 127, 128, 255, 256, 65535, 65536, u32::MAX - 1, u32::MAX, any, any])
}

/// Lengths of so many entries: none, short ones, equal ones, any, or as many bytes as there may be, or one less.
fn lengths(random: &mut Random, count: usize) -> Vec<usize> {
    let most = MOST_TOGETHER.min(MOST_DATA * count);
    match random.below(8) {
        0 => vec![0; count],
        1 | 2 => (0..count).map(|_| random.below(4)).collect(),
        3 => vec![most / count; count],
        4 => splits(random, count, most),
        5 => splits(random, count, most - 1),
        _ => {
            let together = random.below(most + 1);
            splits(random, count, together)
        }
    }
}

/// So many lengths with this sum.
pub fn splits(random: &mut Random, count: usize, together: usize) -> Vec<usize> {
    let mut left = together;
    let mut lengths: Vec<usize> = (0..count)
        .map(|i| {
            let (low, high) = (left.saturating_sub(MOST_DATA * (count - 1 - i)), left.min(MOST_DATA));
            let any = random.within(low, high);
            let length = random.pick(&[low, high, any, any, left / (count - i), 15, 16]).clamp(low, high);
            left -= length;
            length
        })
        .collect();
    random.shuffle(&mut lengths);
    lengths
}

pub fn entries(random: &mut Random, lengths: &[usize]) -> Vec<Vec<u8>> {
    lengths.iter().map(|length| random.bytes(*length)).collect()
}

/// The edges of single precision, of both signs: zero, the smallest, those about the smallest normal one, 1 and the next one,
/// 2^24 − 1, 2^24, 2^53 and the one below it, and the greatest.
pub fn edges() -> Vec<f64> {
    let bits: [u32; 12] = [
        0,
        1,
        2,
        0x007F_FFFF,
        0x0080_0000,
        0x3F80_0000,
        0x3F80_0001,
        0x4B7F_FFFF,
        0x4B80_0000,
        0x59FF_FFFF,
        0x5A00_0000,
        0x7F7F_FFFF,
    ];
    bits.iter().flat_map(|bits| [*bits, bits | 1 << 31]).map(|bits| f64::from(f32::from_bits(bits))).collect()
}

/// A prio: among them both zeros, subnormal singles, and whole numbers up to 2^53.
pub fn prio(random: &mut Random) -> f64 {
    let single = f64::from(f32::from_bits(random.next() as u32));
    let whole = (random.below(1 << 24) << random.below(30)) as f64;
    let prio = match random.below(5) {
        0 => random.pick(&[0.0, -0.0, 1.0, -1.0, 0.5]),
        1 => random.pick(&edges()),
        2 => random.pick(&[whole, -whole]),
        _ if single.is_finite() => single,
        _ => 0.0,
    };
    assert!(is_single(prio), "{:e}", prio);
    prio
}
