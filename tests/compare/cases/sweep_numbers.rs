//! A trace's numbers at every edge, as its first number and in each place of a record: whole, with every cut, in every longer form,
//! and with every tenth byte. What must be answered is said here once more, besides the reference.

use super::random::Random;
use super::traces;
use crate::reference::trace;
use crate::stream::Stream;

pub const NOT_A_TRACE: u64 = 31;
pub const NOT_SHORTEST: u64 = 32;
pub const INPUT_ENDS: u64 = 33;
pub const TIME_SUM: u64 = 34;

pub fn all(stream: &mut Stream, random: &mut Random) {
    stated();
    for number in edges() {
        first(stream, random, number);
        gap(stream, random, number);
        station(stream, random, number);
        length(stream, random, number);
    }
    single_bytes(stream, random);
    tenth_bytes(stream, random);
    too_long(stream, random);
}

/// Where a group is added, and one below and above; the bits of narrower numbers; the greatest.
pub fn edges() -> Vec<u64> {
    let groups = (1..=9).flat_map(|group| [(1 << (7 * group)) - 1, 1 << (7 * group), (1 << (7 * group)) + 1]);
    let widths = [8, 16, 32].into_iter().flat_map(|bits| [(1 << bits) - 1, 1 << bits, (1 << bits) + 1]);
    let all = [0, 1, 2, 12, 13, 63, 64, 300, 4108, 4109, (1 << 63) - 1, 1 << 63, (1 << 63) + 1, u64::MAX - 1, u64::MAX];
    let mut edges: Vec<u64> = groups.chain(widths).chain(all).collect();
    edges.sort_unstable();
    edges.dedup();
    edges
}

/// The forms of some numbers, worked out by hand; and writer and reader invert each other.
fn stated() {
    let forms: [(u64, &[u8]); 12] = [
        (0, &[0]),
        (1, &[1]),
        (127, &[0x7F]),
        (128, &[0x80, 0x01]),
        (300, &[0xAC, 0x02]),
        (16383, &[0xFF, 0x7F]),
        (16384, &[0x80, 0x80, 0x01]),
        (2_097_151, &[0xFF, 0xFF, 0x7F]),
        (4108, &[0x8C, 0x20]),
        ((1 << 63) - 1, &[0xFF, 0xFF, 0xFF, 0xFF, 0xFF, 0xFF, 0xFF, 0xFF, 0x7F]),
        (1 << 63, &[0x80, 0x80, 0x80, 0x80, 0x80, 0x80, 0x80, 0x80, 0x80, 0x01]),
        (u64::MAX, &[0xFF, 0xFF, 0xFF, 0xFF, 0xFF, 0xFF, 0xFF, 0xFF, 0xFF, 0x01]),
    ];
    forms.iter().for_each(|(number, form)| assert_eq!(trace::form(*number), *form));
    edges().iter().for_each(|number| {
        let form = trace::form(*number);
        assert_eq!(trace::number(&form), Ok((*number, form.len())));
        assert_eq!(trace::number(&[&form[..], &[0, 1]].concat()), Ok((*number, form.len())));
    });
}

/// The number with groups of no bits behind it, up to ten bytes: never the shortest form.
fn longer_forms(number: u64) -> impl Iterator<Item = Vec<u8>> {
    let form = trace::form(number);
    (form.len() + 1..=10).map(move |length| {
        let mut longer = form.clone();
        *longer.last_mut().expect("a number has a byte") |= 0x80;
        longer.resize(length - 1, 0x80);
        longer.push(0);
        longer
    })
}

/// Each cut of a number and each longer form, with what is refused, in front of these bytes; behind a cut nothing stands.
fn misformed(number: u64, behind: &[u8]) -> Vec<(Vec<u8>, u64)> {
    let form = trace::form(number);
    let cuts = (0..form.len()).map(|length| (form[..length].to_vec(), INPUT_ENDS));
    let longer = longer_forms(number).map(|longer| ([&longer[..], behind].concat(), NOT_SHORTEST));
    cuts.chain(longer).collect()
}

fn first(stream: &mut Stream, random: &mut Random, number: u64) {
    let answer = if number == 1 { 1 << 16 } else { NOT_A_TRACE };
    for behind in [0, 1, 20] {
        let bytes = [trace::form(number), random.bytes(behind)].concat();
        assert_eq!(stream.trace_open(&bytes), answer);
    }
    for (bytes, refusal) in misformed(number, &random.bytes(3)) {
        assert_eq!(stream.trace_open(&bytes), refusal);
    }
}

/// The reader is handed what it must refuse, and the time stays.
pub fn refused(stream: &mut Stream, time: u64, bytes: &[u8], refusal: u64) {
    let mut after = time;
    assert_eq!(stream.recorded(&mut after, bytes), refusal);
    assert_eq!(after, time);
}

/// As a gap: the sum may be 2^64 − 1 and no more.
fn gap(stream: &mut Stream, random: &mut Random, number: u64) {
    let frame = traces::frame(random);
    let behind = [trace::form(5), trace::form(frame.len() as u64), frame.clone()].concat();
    let bytes = [trace::form(number), behind.clone()].concat();
    for before in [0, u64::MAX - number] {
        let mut time = before;
        assert_eq!(stream.recorded(&mut time, &bytes), traces::value(bytes.len(), frame.len(), 5));
        assert_eq!(time, before + number);
        let written = traces::written(stream, random, before, number, 5, &frame);
        assert_eq!(written, bytes);
    }
    if number > 0 {
        refused(stream, u64::MAX - number + 1, &bytes, TIME_SUM);
        refused(stream, u64::MAX, &bytes, TIME_SUM);
    }
    for (bytes, refusal) in misformed(number, &behind) {
        refused(stream, 0, &bytes, refusal);
        refused(stream, u64::MAX, &bytes, refusal);
    }
}

fn station(stream: &mut Stream, random: &mut Random, number: u64) {
    let frame = traces::frame(random);
    let behind = [trace::form(frame.len() as u64), frame.clone()].concat();
    let bytes = [trace::form(300), trace::form(number), behind.clone()].concat();
    if number < 64 {
        let mut time = 7;
        assert_eq!(stream.recorded(&mut time, &bytes), traces::value(bytes.len(), frame.len(), number));
        assert_eq!(time, 307);
        assert_eq!(traces::written(stream, random, 7, 300, number, &frame), bytes);
    } else {
        refused(stream, 7, &bytes, 25);
    }
    for (bytes, refusal) in misformed(number, &behind) {
        refused(stream, 7, &[trace::form(300), bytes].concat(), refusal);
    }
}

/// As a length, with a frame behind it, nothing, or the bytes that it says as far as they are handed over.
fn length(stream: &mut Stream, random: &mut Random, number: u64) {
    let head = [trace::form(0), trace::form(63)].concat();
    let lawful = (13..=4108).contains(&number);
    let record = [&head[..], &trace::form(number)].concat();
    refused(stream, 7, &record, if lawful { INPUT_ENDS } else { 35 });
    let frame = traces::frame_of(random, (number as usize).clamp(13, 4108));
    let bytes = [&record[..], &frame].concat();
    if lawful {
        assert_eq!(stream.recorded(&mut 7, &bytes), traces::value(bytes.len(), frame.len(), 63));
        refused(stream, 7, &bytes[..bytes.len() - 1], INPUT_ENDS);
    } else {
        refused(stream, 7, &bytes, 35);
    }
    for (bytes, refusal) in misformed(number, &frame) {
        refused(stream, 7, &[&head[..], &bytes].concat(), refusal);
    }
}

/// Every byte alone, and every byte as the second of two.
fn single_bytes(stream: &mut Stream, random: &mut Random) {
    for byte in 0..=255 {
        let answer = match byte {
            1 => 1 << 16,
            0..=127 => NOT_A_TRACE,
            _ => INPUT_ENDS,
        };
        assert_eq!(stream.trace_open(&[byte]), answer);
        let second = match byte {
            0 => NOT_SHORTEST,
            1..=127 => NOT_A_TRACE,
            _ => INPUT_ENDS,
        };
        assert_eq!(stream.trace_open(&[random.byte() | 0x80, byte]), second);
    }
    assert_eq!(stream.trace_open(&[]), INPUT_ENDS);
    refused(stream, 7, &[], INPUT_ENDS);
}

/// "32 tenth byte over 1": behind nine bytes that go on, with bytes behind it and without.
fn tenth_bytes(stream: &mut Stream, random: &mut Random) {
    let frame = traces::frame(random);
    let behind = [trace::form(5), trace::form(frame.len() as u64), frame].concat();
    for tenth in 0..=255 {
        let low: Vec<u8> = random.bytes(9).iter().map(|byte| byte | 0x80).collect();
        for low in [vec![0x80; 9], vec![0xFF; 9], low] {
            let number = [&low[..], &[tenth]].concat();
            let answer = if tenth == 1 { NOT_A_TRACE } else { NOT_SHORTEST };
            assert_eq!(stream.trace_open(&number), answer);
            assert_eq!(stream.trace_open(&[&number[..], &behind].concat()), answer);
            let record = [&number[..], &behind].concat();
            if tenth == 1 {
                let mut time = 0;
                assert_eq!(stream.recorded(&mut time, &record) & 0xFF, 0);
                assert_eq!(trace::form(time), number);
                refused(stream, u64::MAX, &record, TIME_SUM);
                refused(stream, 0, &[&[0], &record[..]].concat(), 25);
                refused(stream, 0, &[&[0, 63], &record[..]].concat(), 35);
            } else {
                refused(stream, u64::MAX, &record, NOT_SHORTEST);
                refused(stream, u64::MAX, &number, NOT_SHORTEST);
                refused(stream, 0, &[&[0], &record[..]].concat(), NOT_SHORTEST);
                refused(stream, 0, &[&[0, 63], &record[..]].concat(), NOT_SHORTEST);
            }
        }
    }
}

/// Bytes that go on and on: up to nine of them wait for more, ten are refused, however many follow.
fn too_long(stream: &mut Stream, random: &mut Random) {
    for length in (0..24).chain([127, 128, 4096]) {
        let refusal = if length < 10 { INPUT_ENDS } else { NOT_SHORTEST };
        let bytes: Vec<u8> = random.bytes(length).iter().map(|byte| byte | 0x80).collect();
        for bytes in [bytes, vec![0x80; length]] {
            assert_eq!(stream.trace_open(&bytes), refusal);
            refused(stream, u64::MAX, &bytes, refusal);
            refused(stream, 0, &[&[0], &bytes[..]].concat(), refusal);
            refused(stream, 0, &[&[0, 63], &bytes[..]].concat(), refusal);
        }
    }
}
