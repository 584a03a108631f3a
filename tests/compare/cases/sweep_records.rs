//! A trace's records at every edge: sums of gaps, stations, lengths, bytes that are no frame, rooms, cuts; and all faults together
//! with all, so that their order shows. What must be answered is said here once more, besides the reference.

use super::random::Random;
use super::sweep_numbers::{self, refused, INPUT_ENDS, NOT_SHORTEST, TIME_SUM};
use super::traces::{self, LONGEST};
use crate::reference::frame::{framed, HEADER, IDENTIFIER};
use crate::reference::trace;
use crate::stream::Stream;

const ROOM: u64 = 20;
const STATION: u64 = 25;
const NOT_ONE_FRAME: u64 = 35;

pub fn all(stream: &mut Stream, random: &mut Random) {
    stated(stream);
    starts(stream, random);
    sums(stream, random);
    stations(stream, random);
    lengths(stream, random);
    not_frames(stream, random);
    rooms(stream, random);
    cuts(stream, random);
    writer_order(stream, random);
    reader_order(stream, random);
    (0..200).for_each(|_| traces::run(stream, random));
}

/// Two records, worked out by hand: a frame of 13 bytes from station 5 after 300 nanoseconds, and the longest record of all.
fn stated(stream: &mut Stream) {
    let shortest = b"\xAC\x02\x05\x0DMIOTYB01\x01\0\0\0\x80";
    let mut time = 1;
    let (answer, room) = stream.record(&mut time, 300, 5, &shortest[4..], &[0xEE; 20]);
    assert_eq!((answer, time), (17 << 16, 301));
    assert_eq!(room, [&shortest[..], &[0xEE; 3]].concat());
    assert_eq!(stream.recorded(&mut time, shortest), 0x0005_000D_0011_0000);
    assert_eq!(time, 601);

    let longest = framed(&[0x80; 4096]);
    let mut time = 0;
    let (answer, room) = stream.record(&mut time, u64::MAX, 63, &longest, &[0xEE; LONGEST]);
    assert_eq!((answer, time), ((LONGEST as u64) << 16, u64::MAX));
    assert_eq!(room[..13], [0xFF, 0xFF, 0xFF, 0xFF, 0xFF, 0xFF, 0xFF, 0xFF, 0xFF, 0x01, 0x3F, 0x8C, 0x20]);
    assert_eq!(stream.recorded(&mut 0, &room), traces::value(LONGEST, 4108, 63));
}

fn starts(stream: &mut Stream, random: &mut Random) {
    for length in 0..20 {
        let answer = if length == 0 { ROOM } else { 1 << 16 };
        assert_eq!(stream.trace_start(&random.bytes(length)), answer);
        assert_eq!(stream.trace_start(&vec![0; length]), answer);
    }
    assert_eq!(trace::start(), [1]);
}

/// A call of the writer that must be refused: room and time stay.
fn unwritten(stream: &mut Stream, time: u64, gap: u64, station: u64, frame: &[u8], room: &[u8], refusal: u64) {
    let mut after = time;
    let (answer, left) = stream.record(&mut after, gap, station, frame, room);
    assert_eq!((answer, after, &left[..]), (refusal, time, room));
}

/// Every edge as the sum so far with every edge as a gap.
fn sums(stream: &mut Stream, random: &mut Random) {
    let frame = traces::frame_of(random, 13);
    for time in sweep_numbers::edges() {
        for gap in sweep_numbers::edges() {
            let bytes = [trace::form(gap), vec![9, 13], frame.clone()].concat();
            if u128::from(time) + u128::from(gap) < 1 << 64 {
                assert_eq!(traces::written(stream, random, time, gap, 9, &frame), bytes);
                let mut after = time;
                assert_eq!(stream.recorded(&mut after, &bytes), traces::value(bytes.len(), 13, 9));
                assert_eq!(after, time + gap);
            } else {
                unwritten(stream, time, gap, 9, &frame, &random.bytes(60), TIME_SUM);
                refused(stream, time, &bytes, TIME_SUM);
            }
        }
    }
}

fn stations(stream: &mut Stream, random: &mut Random) {
    let frame = traces::frame(random);
    for station in (0..300).chain(sweep_numbers::edges()).chain([(1 << 32) + 5, (1 << 56) + 5]) {
        if station < 64 {
            let bytes = traces::written(stream, random, 0, 0, station, &frame);
            assert_eq!(bytes[1], station as u8);
            assert_eq!(stream.recorded(&mut 0, &bytes), traces::value(bytes.len(), frame.len(), station));
        } else {
            unwritten(stream, 0, 0, station, &frame, &random.bytes(LONGEST), STATION);
        }
    }
}

/// Every length of a frame at which something changes, whole, one byte longer and one shorter than it says.
fn lengths(stream: &mut Stream, random: &mut Random) {
    for length in (13..17).chain(125..131).chain(254..258).chain([1000, 4095, 4096, 4097, 4106, 4107, 4108]) {
        let frame = traces::frame_of(random, length);
        let bytes = traces::written(stream, random, 0, 1, 2, &frame);
        assert_eq!(stream.recorded(&mut 0, &bytes), traces::value(bytes.len(), length, 2));
        for other in [[&frame[..], &[0]].concat(), frame[..length - 1].to_vec()] {
            unwritten(stream, 0, 1, 2, &other, &random.bytes(LONGEST), NOT_ONE_FRAME);
            let record = [vec![1, 2], trace::form(other.len() as u64), other.clone()].concat();
            refused(stream, 0, &record, NOT_ONE_FRAME);
            refused(stream, 0, &[&record[..], &[0; 5]].concat(), NOT_ONE_FRAME);
        }
    }
    unlawful(stream, random);
}

/// "35 length under 13 or over 4,108 (before 33)": with all its bytes behind it, with some and with none.
fn unlawful(stream: &mut Stream, random: &mut Random) {
    let huge = [1 << 16 | 13, 1 << 32 | 13, 1 << 48 | 13, 1 << 63 | 13, u64::MAX, u64::MAX - 12];
    for length in (0..13).chain([4109, 4110, 4121, 5000, 16383, 16384, 60000]).chain(huge) {
        let has = (length as usize).min(60000);
        let mut bytes = random.bytes(has);
        bytes.iter_mut().zip(IDENTIFIER.iter().chain(&[(has % 251) as u8, 0, 0, 0])).for_each(|(byte, usual)| *byte = *usual);
        if has == length as usize {
            unwritten(stream, 0, 1, 2, &bytes, &random.bytes(LONGEST), NOT_ONE_FRAME);
        }
        for has in [has, has / 2, 0] {
            let record = [&[1, 2], &trace::form(length)[..], &bytes[..has]].concat();
            refused(stream, 0, &record, NOT_ONE_FRAME);
        }
    }
    // as large as a frame could be, if a payload could
    let large = framed(&random.bytes(4097));
    unwritten(stream, 0, 1, 2, &large, &random.bytes(2 * LONGEST), NOT_ONE_FRAME);
    refused(stream, 0, &[&[1, 2], &trace::form(4109)[..], &large].concat(), NOT_ONE_FRAME);
}

/// Bytes of a lawful length that are no frame, or not exactly one.
fn wrong_frames(random: &mut Random) -> Vec<Vec<u8>> {
    let mut wrong = Vec::new();
    for length in [13, 32, 200, 4108] {
        let frame = traces::frame_of(random, length);
        for at in 0..8 {
            let mut other = frame.clone();
            other[at] ^= 1 << random.below(8);
            wrong.push(other);
        }
        let is = (length - HEADER) as u32;
        for size in [0, is - 1, is + 1, is + 256, 4097, is | 1 << 16, is | 1 << 24, u32::MAX, is.swap_bytes()] {
            let mut other = frame.clone();
            other[8..12].copy_from_slice(&size.to_le_bytes());
            wrong.push(other);
        }
    }
    let two = [traces::frame_of(random, 13), traces::frame_of(random, 20)].concat();
    wrong.extend([two, vec![0; 13], random.bytes(40), IDENTIFIER.repeat(2)]);
    wrong
}

fn not_frames(stream: &mut Stream, random: &mut Random) {
    for frame in wrong_frames(random) {
        unwritten(stream, 7, 1, 2, &frame, &random.bytes(LONGEST), NOT_ONE_FRAME);
        let record = [&[1, 2], &trace::form(frame.len() as u64)[..], &frame].concat();
        refused(stream, 7, &record, NOT_ONE_FRAME);
        // what is no frame is told only where all of it is there
        for length in [record.len() - 1, record.len() / 2, 12] {
            refused(stream, 7, &record[..length], INPUT_ENDS);
        }
    }
}

/// "Room exactly enough": one byte less is 20, and nothing is written.
fn rooms(stream: &mut Stream, random: &mut Random) {
    for gap in [0, 127, 128, 1 << 63] {
        for length in [13, 127, 128, 4108] {
            let frame = traces::frame_of(random, length);
            let need = trace::form(gap).len() + 1 + trace::form(length as u64).len() + length;
            for short in [0, 1, 2, 3, need - length, need - length + 12, need / 2, need - 2, need - 1] {
                unwritten(stream, 5, gap, 63, &frame, &random.bytes(short), ROOM);
            }
            for room in [need, need + 1, need + 100, 2 * LONGEST] {
                let room = random.bytes(room);
                let (answer, left) = stream.record(&mut 5, gap, 63, &frame, &room);
                assert_eq!(answer, (need as u64) << 16);
                assert_eq!(left[need - length..need], frame[..]);
                assert_eq!(left[need..], room[need..]);
            }
        }
    }
}

/// Every cut of a record is 33; bytes behind it change nothing.
fn cuts(stream: &mut Stream, random: &mut Random) {
    for (gap, length) in [(0, 13), (300, 40), (u64::MAX, 130), (1 << 40, 300)] {
        let frame = traces::frame_of(random, length);
        let bytes = traces::written(stream, random, 0, gap, 40, &frame);
        (0..bytes.len()).for_each(|length| refused(stream, 0, &bytes[..length], INPUT_ENDS));
        for behind in [1, 2, 13, 500] {
            let more = [&bytes[..], &random.bytes(behind)].concat();
            assert_eq!(stream.recorded(&mut 0, &more), traces::value(bytes.len(), length, 40));
        }
        let twice = bytes.repeat(2);
        let mut time = 0;
        assert_eq!(stream.recorded(&mut time, &twice), traces::value(bytes.len(), length, 40));
        assert_eq!(time, gap);
    }
}

/// "the writer's order is 34, 25, 35, 20": every set of these faults.
fn writer_order(stream: &mut Stream, random: &mut Random) {
    for faults in 0..16 {
        let has = |fault: u32| faults >> fault & 1 == 1;
        for gap in [1, 300, u64::MAX] {
            let time = if has(0) { u64::MAX - gap + 1 } else { u64::MAX - gap };
            let station = if has(1) { random.pick(&[64, 300, u64::MAX]) } else { random.pick(&[0, 63]) };
            let wrong = wrong_frames(random);
            let frame = if has(2) { random.pick(&wrong) } else { traces::frame(random) };
            let room = if has(3) { random.pick(&[0, 1, 12]) } else { LONGEST };
            let room = random.bytes(room);
            match (0..4).find(|fault| has(*fault)) {
                Some(first) => {
                    let refusal = [TIME_SUM, STATION, NOT_ONE_FRAME, ROOM][first as usize];
                    unwritten(stream, time, gap, station, &frame, &room, refusal);
                }
                None => assert_eq!(stream.record(&mut { time }, gap, station, &frame, &room).0 & 0xFF, 0),
            }
        }
    }
}

/// A part of a record, and what is refused at it, if anything.
type Part = (Vec<u8>, Option<u64>);

/// A number that is right, one in a longer form, one with a wrong tenth byte, and one that is out of its range.
fn ways(right: u64, wrong: u64, refusal: u64) -> Vec<Part> {
    vec![
        (trace::form(right), None),
        (vec![right as u8 | 0x80, 0], Some(NOT_SHORTEST)),
        ([vec![0x80 | right as u8; 9], vec![2]].concat(), Some(NOT_SHORTEST)),
        (trace::form(wrong), Some(refusal)),
    ]
}

/// "The first fault from left to right": each part of a record in each way, with every cut; the time is 2^64 − 8.
fn reader_order(stream: &mut Stream, random: &mut Random) {
    let frame = traces::frame_of(random, 20);
    let mut other = frame.clone();
    other[random.below(9)] ^= 1;
    let frames = [(frame, None), (other, Some(NOT_ONE_FRAME))];
    for gap in ways(7, 8, TIME_SUM) {
        for station in ways(63, 64, STATION) {
            let lengths = [ways(20, 12, NOT_ONE_FRAME), ways(20, 4109, NOT_ONE_FRAME)].concat();
            for length in lengths {
                for frame in &frames {
                    parts(stream, &[gap.clone(), station.clone(), length.clone(), frame.clone()]);
                }
            }
        }
    }
}

/// The first part at fault says what is refused, if it is there as far as its fault; where the bytes end before that, it is 33.
fn parts(stream: &mut Stream, parts: &[Part]) {
    let bytes: Vec<u8> = parts.iter().flat_map(|part| part.0.clone()).collect();
    let first = parts.iter().position(|part| part.1.is_some());
    let seen: usize = parts[..first.map_or(parts.len(), |first| first + 1)].iter().map(|part| part.0.len()).sum();
    for length in 0..=bytes.len() {
        match first.and_then(|first| parts[first].1) {
            _ if length < seen => refused(stream, u64::MAX - 7, &bytes[..length], INPUT_ENDS),
            Some(refusal) => refused(stream, u64::MAX - 7, &bytes[..length], refusal),
            None => assert_eq!(stream.recorded(&mut { u64::MAX - 7 }, &bytes[..length]) & 0xFF, 0),
        }
    }
}
