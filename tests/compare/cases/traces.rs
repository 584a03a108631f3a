//! Cases of the trace's calls: single records with any faults, and whole traces that are written and read again.

use super::bytes::damage;
use super::random::Random;
use super::{frames, values};
use crate::reference::frame::framed;
use crate::reference::{trace, write};
use crate::stream::Stream;

/// The header's CHZ_RECORD: the longest record.
pub const LONGEST: usize = 4121;

/// The answer of chz_recorded.
pub fn value(length: usize, frame: usize, station: u64) -> u64 {
    (length as u64 | (frame as u64) << 16 | station << 32) << 16
}

/// A whole frame of so many bytes, with any payload.
pub fn frame_of(random: &mut Random, length: usize) -> Vec<u8> {
    framed(&random.bytes(length - 12))
}

/// A whole frame: a message, or any payload, at times of a length at the edges.
pub fn frame(random: &mut Random) -> Vec<u8> {
    if random.one_in(2) {
        return write::write(&values::any(random));
    }
    let any = random.within(13, 400);
    let length = random.pick(&[13, 14, 127, 128, 129, any, any, any, any, any]);
    let length = if random.one_in(40) { random.pick(&[4107, 4108]) } else { length };
    frame_of(random, length)
}

/// A record as it is written; the room is longer than it must be, or just not.
pub fn written(stream: &mut Stream, random: &mut Random, time: u64, gap: u64, station: u64, frame: &[u8]) -> Vec<u8> {
    let (_, record) = trace::record(time, gap, station, frame).expect("a right record");
    let longer = random.pick(&[0, 0, 1, 30]);
    let room = random.bytes(record.len() + longer);
    let mut after = time;
    let (answer, left) = stream.record(&mut after, gap, station, frame, &room);
    assert_eq!(answer, (record.len() as u64) << 16);
    assert_eq!(after, time + gap);
    assert_eq!(left, [&record[..], &room[record.len()..]].concat());
    record
}

pub fn one(stream: &mut Stream, random: &mut Random) {
    write_one(stream, random);
    read_one(stream, random);
}

/// A sum of gaps so far, and a gap that mostly fits.
fn times(random: &mut Random) -> (u64, u64) {
    let (time, gap) = (random.number(), random.number());
    let near = random.below(3) as u64;
    match random.below(8) {
        0 => (time, gap),
        1 => (time, (u64::MAX - time).wrapping_add(near)),
        2 => (random.pick(&[u64::MAX, u64::MAX - 1, u64::MAX - near]), near),
        _ => (time, gap % (u64::MAX - time).max(1)),
    }
}

fn station(random: &mut Random) -> u64 {
    let any = random.number();
    if random.one_in(5) {
        random.pick(&[64, 65, any, 1 << 32 | any % 64])
    } else {
        random.pick(&[0, 63, any % 64, any % 64, any % 64])
    }
}

fn write_one(stream: &mut Stream, random: &mut Random) {
    let (mut time, gap) = times(random);
    let station = station(random);
    let frame = if random.one_in(4) { frames::any(random) } else { frame(random) };
    let need = trace::record(time, gap, station, &frame).map_or(30, |(_, record)| record.len());
    let shorter = random.below(need);
    let length = random.pick(&[need, need, need, need + 1, LONGEST, need - 1, need - 1, shorter, 0]);
    stream.record(&mut time, gap, station, &frame, &random.bytes(length));
}

/// A number, at times in a longer form or with any bits behind it.
fn number(random: &mut Random, number: u64) -> Vec<u8> {
    let mut form = trace::form(number);
    if random.one_in(30) {
        *form.last_mut().expect("a number has a byte") |= 0x80;
        form.extend(vec![0x80; random.below(4)]);
        form.push(random.pick(&[0, 0, 1, 2]));
    }
    form
}

/// A record with any fault, or none, and bytes behind it.
fn read_one(stream: &mut Stream, random: &mut Random) {
    let (mut time, gap) = times(random);
    let frame = if random.one_in(4) { frames::any(random) } else { frame(random) };
    let any = random.number();
    let is = frame.len() as u64;
    let length = random.pick(&[is, is, is, is, is, is, is, is, is.saturating_sub(1), is + 1, any]);
    let station = station(random);
    let mut bytes = [number(random, gap), number(random, station), number(random, length), frame].concat();
    match random.below(8) {
        0 => bytes.truncate(random.below(bytes.len())),
        1 => bytes.truncate(random.below(bytes.len().min(20))),
        2 => damage(random, &mut bytes),
        3 => {
            let mut head = bytes[..bytes.len().min(18)].to_vec();
            damage(random, &mut head);
            bytes = [head, bytes[bytes.len().min(18)..].to_vec()].concat();
        }
        4 | 5 => {
            let behind = random.below(40);
            bytes.extend(random.bytes(behind));
        }
        _ => {}
    }
    stream.recorded(&mut time, &bytes);
    stream.trace_open(&bytes);
}

/// A whole trace is written, then read from its start: as many records, with the same time, station and frame.
pub fn run(stream: &mut Stream, random: &mut Random) {
    let mut whole = trace::start();
    let mut time = 0;
    let mut records = Vec::new();
    for _ in 0..random.within(1, 6) {
        let left = u64::MAX - time;
        let any = random.number();
        let gap = random.pick(&[0, 1.min(left), any.min(left), any % 1000 % left.max(1), any.min(left), left]);
        let (station, frame) = (random.below(64) as u64, frame(random));
        whole.extend(written(stream, random, time, gap, station, &frame));
        time += gap;
        records.push((time, station, frame));
    }
    read_again(stream, random, &whole, &records);
}

fn read_again(stream: &mut Stream, random: &mut Random, whole: &[u8], records: &[(u64, u64, Vec<u8>)]) {
    assert_eq!(stream.trace_open(whole), 1 << 16);
    let (mut at, mut now) = (1, 0);
    for (time, station, frame) in records {
        let answer = stream.recorded(&mut now, &whole[at..]);
        let length = (answer >> 16 & 0xFFFF) as usize;
        assert_eq!(answer, value(length, frame.len(), *station));
        assert_eq!(now, *time);
        assert_eq!(whole[..at + length][at + length - frame.len()..], frame[..]);
        let before = now - trace::number(&whole[at..]).expect("a gap").0;
        let cut = random.below(length);
        assert_eq!(stream.recorded(&mut { before }, &whole[at..at + cut]), 33);
        at += length;
    }
    assert_eq!(at, whole.len());
}
