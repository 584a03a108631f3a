//! Valid records with any contents, the edges of every range among them.

use super::downlinks;
use super::random::Random;
use crate::reference::commands::COMMANDS;
use crate::reference::fields::{kind, Kind, Value};
use crate::reference::record::Record;
use std::ops::RangeInclusive;

/// A valid record of any command; those with fields come more often.
pub fn any(random: &mut Random) -> Record {
    let with_fields = random.pick(&[0, 1, 2, 3, 4, 5, 6, 7, 21]);
    let command = if random.one_in(3) { random.below(COMMANDS.len()) } else { with_fields };
    of(random, COMMANDS[command].name)
}

pub fn of(random: &mut Random, name: &str) -> Record {
    let mut record = Record::new(name, 0);
    // all optional fields, none, or any
    let share = random.pick(&[0, 1, 2, 2, 2]);
    for key in record.command.keys().filter(|key| key.kept) {
        if !key.optional || share == 1 || (share == 2 && random.one_in(2)) {
            record.fields.insert(key.name, value(random, record.command.name, key.name));
        }
    }
    match name {
        "ulData" if record.flag("responseExp") && !record.flag("dlOpen") => {
            let key = random.pick(&["responseExp", "dlOpen"]);
            record.fields.insert(key, Value::Flag(key == "dlOpen"));
        }
        "dlDataQue" => downlinks::agree(random, &mut record),
        _ => {}
    }
    record.normal()
}

fn value(random: &mut Random, command: &str, key: &str) -> Value {
    match kind(command, key) {
        Kind::Whole(range) => Value::Whole(whole(random, &range)),
        Kind::Real => Value::Real(real(random)),
        Kind::Single => Value::Real(downlinks::prio(random)),
        Kind::Counters => Value::Counters(Vec::new()),
        Kind::Entries => Value::Entries(Vec::new()),
        Kind::Location => Value::Location([real(random), real(random), real(random)]),
        Kind::Version => Value::Version([part(random), part(random), part(random)]),
        Kind::Bytes(range) => Value::Bytes(bytes(random, &range)),
        Kind::Text(range) => Value::Text(bytes(random, &range)),
        _ => Value::Flag(random.one_in(2)),
    }
}

/// Near an edge of the range, near a power of two, or anywhere.
pub fn whole(random: &mut Random, range: &RangeInclusive<i128>) -> i128 {
    loop {
        let near = random.below(3) as i128 - 1;
        let sign = random.pick(&[1, -1]);
        let number = match random.below(4) {
            0 => random.pick(&[*range.start(), *range.end()]) + near,
            1 => sign * (1 << random.below(65)) + near,
            2 => sign * random.below(300) as i128,
            _ => sign * i128::from(random.number()),
        };
        if range.contains(&number) {
            return number;
        }
    }
}

/// A finite real: among them both zeros, the smallest and largest, those that float 32 holds exactly, and whole numbers up to 2^53.
pub fn real(random: &mut Random) -> f64 {
    loop {
        let real = match random.below(6) {
            0 => {
                random.pick(&[0.0, -0.0, 1.0, -97.0, 0.1, f64::MAX, f64::MIN, f64::MIN_POSITIVE, 5e-324, -5e-324, 1e-40, 2e-308])
            }
            1 => f64::from(f32::from_bits(random.next() as u32)),
            2 => f64::from(random.pick(&[
                f32::MAX,
                f32::MIN,
                f32::MIN_POSITIVE,
                f32::from_bits(1),
                f32::from_bits(0x007F_FFFF),
                -0.5,
            ])),
            3 | 4 => whole(random, &(-(1 << 53)..=1 << 53)) as f64,
            _ => f64::from_bits(random.next()),
        };
        if real.is_finite() {
            return real;
        }
    }
}

fn part(random: &mut Random) -> u16 {
    let any = random.number() as u16;
    random.pick(&[0, 1, 9, 10, 99, 100, 9999, 10000, 65535, any])
}

fn bytes(random: &mut Random, range: &RangeInclusive<usize>) -> Vec<u8> {
    let (low, high) = (*range.start(), *range.end());
    let any = random.within(low, high);
    let length = random.pick(&[low, high, any, any, any, 15, 16, 31, 32]).clamp(low, high);
    match random.below(5) {
        0 => vec![random.pick(&[0, 1, 0x7F, 0x80, 0xFF]); length],
        _ => random.bytes(length),
    }
}
