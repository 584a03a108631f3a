//! The queue's calls: every tie, every way to be suitable or not, every place, every data entry, queues that are full, and faults
//! in each place. What must be answered is said here once more, besides the reference.

use super::queues::{self, Queues, WRONG_LENGTHS};
use super::random::Random;
use super::{downlinks, images, values};
use crate::reference::calls::{Store, PLACE, QUEUE};
use crate::reference::commands::COMMANDS;
use crate::reference::fields::Value;
use crate::reference::layout::{self, fields, MESSAGE};
use crate::reference::queue::PLACES;
use crate::reference::record::Record;
use crate::stream::Stream;

const INVALID: u64 = 15;
const THERE: u64 = 27;
const FULL: u64 = 28;
const UNKNOWN_ID: u64 = 29;
const NOTHING: u64 = 30;

pub fn all(stream: &mut Stream, random: &mut Random) {
    empty(stream, random);
    ties(stream, random);
    suitable(stream, random);
    data_entries(stream, random);
    single_bits(stream, random);
    places(stream, random);
    full(stream, random);
    bad_records(stream, random);
    queue_lengths(stream, random);
    sound(stream, random);
    let mut queues = Queues::new();
    (0..40).for_each(|_| queues.run(stream, random));
}

fn place(place: usize) -> u64 {
    (place as u64) << 16
}

fn chosen(place: usize, from: usize, length: usize) -> u64 {
    (place + 256 * length + 65536 * from) as u64 * 65536
}

/// A downlink that isn't counter dependent, with one entry of so many bytes.
fn plain(random: &mut Random, meter: u64, id: u64, length: usize) -> Record {
    let mut record = Record::new("dlDataQue", random.next() as i64)
        .with("epEui", Value::Whole(meter.into()))
        .with("queId", Value::Whole(id.into()))
        .with("cntDepend", Value::Flag(false))
        .with("userData", Value::Entries(vec![random.bytes(length)]));
    if random.one_in(2) {
        record = record.with("format", Value::Whole(random.within(1, 255) as i128));
    }
    record
}

fn dependent(record: Record, random: &mut Random, counters: &[u32], lengths: &[usize]) -> Record {
    record
        .with("cntDepend", Value::Flag(true))
        .with("packetCnt", Value::Counters(counters.to_vec()))
        .with("userData", Value::Entries(downlinks::entries(random, lengths)))
}

fn with_prio(record: Record, prio: f64) -> Record {
    record.with("prio", Value::Real(prio)).normal()
}

fn add(stream: &mut Stream, random: &mut Random, store: &mut Store, record: &Record, answer: u64) {
    assert!(record.is_valid());
    let image = images::of(random, record);
    assert_eq!(stream.add(store, &image), answer);
}

/// All zeros: no ID is known, ID 0 no more than others, and nothing is for any meter.
fn empty(stream: &mut Stream, random: &mut Random) {
    let mut store = Store::empty();
    assert_eq!(stream.sound(&store.bytes), 1 << 16);
    for number in [0, 1, 21, u64::MAX] {
        assert_eq!(stream.cancel(&mut store, number), UNKNOWN_ID);
        assert_eq!(stream.choose(&mut store, number, number as u32, 1).0, NOTHING);
    }
    let record = plain(random, 0, 0, 0);
    add(stream, random, &mut store, &record, place(0));
    add(stream, random, &mut store, &record, THERE);
    assert_eq!(stream.choose(&mut store, 0, 0, 0).0, chosen(0, 80, 0));
    assert_eq!(stream.cancel(&mut store, 0), UNKNOWN_ID);
    assert_eq!(stream.choose(&mut store, 0, 0, 0).0, NOTHING);
}

/// Two entries with each pair of priorities, under IDs in both orders: "the highest prio, then the smallest queue ID". The ranks
/// say how the priorities stand to one another: minus and plus zero are equal.
fn ties(stream: &mut Stream, random: &mut Random) {
    let single = |bits: u32| f64::from(f32::from_bits(bits));
    let ranked = [
        (-5, f32::MIN.into()),
        (-4, -1.0),
        (-3, single(0x8080_0000)),
        (-2, single(0x8000_0002)),
        (-1, single(0x8000_0001)),
        (0, -0.0),
        (0, 0.0),
        (1, single(1)),
        (2, single(2)),
        (3, single(0x007F_FFFF)),
        (4, single(0x0080_0000)),
        (5, 1.0),
        (6, single(0x3F80_0001)),
        (7, f32::MAX.into()),
    ];
    let mut store = Store::empty();
    for (one_rank, one) in ranked {
        for (other_rank, other) in ranked {
            for (one_id, other_id) in [(1, 2), (2, 1), (1 << 63, 1), (u64::MAX, 0), (1 << 32, u32::MAX.into())] {
                let first = with_prio(plain(random, 7, one_id, 3), one);
                let second = with_prio(plain(random, 7, other_id, 4), other);
                add(stream, random, &mut store, &first, place(0));
                add(stream, random, &mut store, &second, place(1));
                let first_wins = one_rank > other_rank || one_rank == other_rank && one_id < other_id;
                let (best, last) = if first_wins { ((0, 3), (1, 4)) } else { ((1, 4), (0, 3)) };
                assert_eq!(stream.choose(&mut store, 7, 0, 0).0, chosen(best.0, 80, best.1));
                assert_eq!(stream.choose(&mut store, 7, 0, 0).0, chosen(last.0, 80, last.1));
            }
        }
    }
}

/// One entry alone, or beside one of a lower prio: for this meter or another; for any counter, this one or others; expOnly
/// absent, false or true; the flag 0 or anything else.
fn suitable(stream: &mut Stream, random: &mut Random) {
    let counters: [Option<&[u32]>; 7] =
        [None, Some(&[5]), Some(&[6]), Some(&[5, 5]), Some(&[0, 5 << 8]), Some(&[6, 7, 5]), Some(&[0x0500_0000, 0x8000_0005])];
    for beside in [false, true] {
        let mut store = Store::empty();
        for meter in [7, 8] {
            for names in counters {
                for exp_only in [None, Some(false), Some(true)] {
                    for expected in [0, 1, 2, 128, 255] {
                        let mut record = with_prio(plain(random, meter, 2, 6), 1.0);
                        if let Some(names) = names {
                            record = dependent(record, random, names, &vec![6; names.len()]);
                        }
                        if let Some(flag) = exp_only {
                            record = record.with("expOnly", Value::Flag(flag));
                        }
                        add(stream, random, &mut store, &record, place(0));
                        if beside {
                            let other = plain(random, 7, 1, 9);
                            add(stream, random, &mut store, &other, place(1));
                        }
                        let at = names.map_or(Some(0), |names| names.iter().position(|name| *name == 5));
                        let answer = match at {
                            Some(at) if meter == 7 && (exp_only != Some(true) || expected != 0) => chosen(0, 80 + 6 * at, 6),
                            _ if beside => chosen(1, 80, 9),
                            _ => NOTHING,
                        };
                        assert_eq!(stream.choose(&mut store, 7, 5, expected).0, answer);
                        for id in [1, 2] {
                            stream.cancel(&mut store, id);
                        }
                    }
                }
            }
        }
    }
}

/// The data for each counter of several, "the first where it repeats", with lengths on both sides of their edges.
fn data_entries(stream: &mut Stream, random: &mut Random) {
    let mut store = Store::empty();
    for lengths in
        [vec![0; 16], vec![50; 16], vec![245, 245, 245, 65], vec![0, 245, 0, 1], (1..=16).collect(), vec![245], vec![0]]
    {
        for at in 0..lengths.len() {
            for repeats in [false, true] {
                let name = |i: usize| if repeats && i > at { 100 } else { 100 + i.abs_diff(at) as u32 };
                let names: Vec<u32> = (0..lengths.len()).map(name).collect();
                let record = dependent(plain(random, 7, 3, 0), random, &names, &lengths);
                add(stream, random, &mut store, &record, place(0));
                let (answer, data) = stream.choose(&mut store, 7, 100, 0);
                assert_eq!(answer, chosen(0, 80 + lengths[..at].iter().sum::<usize>(), lengths[at]));
                assert_eq!(data, record.entries()[at]);
            }
        }
    }
    for length in 0..=245 {
        let record = plain(random, 7, 3, length);
        add(stream, random, &mut store, &record, place(0));
        assert_eq!(stream.choose(&mut store, 7, length as u32, 0), (chosen(0, 80, length), record.entries()[0].clone()));
    }
}

/// Meter, counter or queue ID that differ in one bit are others.
fn single_bits(stream: &mut Stream, random: &mut Random) {
    let (meter, id, counter) = (0x70B3_D567_7000_0001, 0x1234_5678_9ABC_DEF0, 0x0F1E_2D3C);
    let record = dependent(plain(random, meter, id, 0), random, &[counter], &[5]);
    let mut store = queues::of(stream, random, &[record]);
    for bit in 0..64 {
        assert_eq!(stream.cancel(&mut store, id ^ 1 << bit), UNKNOWN_ID);
        assert_eq!(stream.choose(&mut store, meter ^ 1 << bit, counter, 1).0, NOTHING);
        let other = plain(random, meter, id ^ 1 << bit, 2);
        add(stream, random, &mut store, &other, place(1));
        assert_eq!(stream.cancel(&mut store, id ^ 1 << bit), place(1));
    }
    for bit in 0..32 {
        assert_eq!(stream.choose(&mut store, meter, counter ^ 1 << bit, 1).0, NOTHING);
    }
    assert_eq!(stream.choose(&mut store, meter, counter, 0).0, chosen(0, 80, 5));
}

/// A full queue whose every place is freed and taken again, by each call that frees; then all are freed in turn.
fn places(stream: &mut Stream, random: &mut Random) {
    let records: Vec<Record> = (0..PLACES).map(|i| plain(random, 100 + i as u64, 200 + i as u64, i)).collect();
    let mut store = queues::of(stream, random, &records);
    for (at, first) in records.iter().enumerate() {
        let (meter, id) = (100 + at as u64, 200 + at as u64);
        assert_eq!(stream.cancel(&mut store, id), place(at));
        assert_eq!(stream.choose(&mut store, meter, 0, 1).0, NOTHING);
        let record = dependent(plain(random, meter, id, 0), random, &[9, 8], &[at, 200]);
        add(stream, random, &mut store, &record, place(at));
        assert_eq!(stream.choose(&mut store, meter, 8, 1).0, chosen(at, 80 + at, 200));
        assert_eq!(stream.cancel(&mut store, id), UNKNOWN_ID);
        add(stream, random, &mut store, first, place(at));
        assert_eq!(stream.sound(&store.bytes), 1 << 16);
    }
    // two free places: the lower is taken
    for (low, high) in [(0, 1), (0, 31), (30, 31), (5, 20)] {
        stream.cancel(&mut store, 200 + high as u64);
        stream.cancel(&mut store, 200 + low as u64);
        add(stream, random, &mut store, &records[high], place(low));
        add(stream, random, &mut store, &records[low], place(high));
        stream.cancel(&mut store, 200 + high as u64);
        stream.cancel(&mut store, 200 + low as u64);
        add(stream, random, &mut store, &records[low], place(low));
        add(stream, random, &mut store, &records[high], place(high));
    }
    // all for one meter, taken out by prio
    let records: Vec<Record> =
        (0..PLACES).map(|i| with_prio(plain(random, 7, i as u64, i), f64::from(i as u8 * 5 % 32))).collect();
    let mut store = queues::of(stream, random, &records);
    for rank in (0..PLACES).rev() {
        let at = (0..PLACES).find(|i| i * 5 % 32 == rank).expect("each once");
        assert_eq!(stream.choose(&mut store, 7, 0, 0).0, chosen(at, 80, at));
    }
    assert_eq!(stream.choose(&mut store, 7, 0, 0).0, NOTHING);
}

/// "15 bad record, then 27 queue ID there, then 28 exactly if all 32 are used", with as many used.
fn full(stream: &mut Stream, random: &mut Random) {
    for used in [0, 1, 2, 15, 16, 31, 32] {
        let records: Vec<Record> = (0..used).map(|i| plain(random, 7, i as u64, 3)).collect();
        let mut store = queues::of(stream, random, &records);
        for id in [0, 31, 77] {
            for bad in [false, true] {
                let mut copy = store.clone();
                let record = plain(random, 7, id, 3);
                let mut image = images::of(random, &record);
                if bad {
                    image.message[40] = 0;
                }
                let answer = match (bad, (id as usize) < used, used == PLACES) {
                    (true, _, _) => INVALID,
                    (_, true, _) => THERE,
                    (_, _, true) => FULL,
                    _ => place(used),
                };
                assert_eq!(stream.add(&mut copy, &image), answer);
            }
        }
        // another meter's entry under the same ID is there, too
        if used > 0 {
            let record = plain(random, 8, 0, 3);
            add(stream, random, &mut store, &record, THERE);
        }
    }
}

/// Records that are no downlinks, messages of wrong lengths, data that are too short, and members at their edges.
fn bad_records(stream: &mut Stream, random: &mut Random) {
    let others: Vec<Record> = (0..3).map(|i| plain(random, 7, 900 + i, 3)).collect();
    let mut store = queues::of(stream, random, &others);
    for command in COMMANDS.iter().filter(|command| command.name != "dlDataQue") {
        let record = values::of(random, command.name);
        let image = images::of(random, &record);
        assert_eq!(stream.add(&mut store, &image), INVALID);
    }
    for length in images::WRONG_LENGTHS {
        let record = plain(random, 7, 1, 3);
        let mut image = images::of(random, &record);
        image.message.resize(length, 0);
        assert_eq!(stream.add(&mut store, &image), INVALID);
    }
    for length in (0..=100).chain([243, 244, 245, 246, 880, 940]) {
        let record = dependent(plain(random, 7, 1, 0), random, &[1, 2, 3], &[3, 0, 7]);
        let mut image = images::of(random, &record);
        image.data.resize(length, 0xA5);
        let answer = stream.add(&mut store, &image);
        assert_eq!(answer, if length < 90 { INVALID } else { place(3) });
        stream.cancel(&mut store, 1);
    }
    for (_, range) in fields(layout::message("dlDataQue")) {
        for byte in [0, 1, 2, 16, 17, 0x7F, 0x80, 0xFF] {
            let record = plain(random, 7, 1, 3);
            let mut image = images::of(random, &record);
            image.message[range.clone()].fill(byte);
            stream.queued(&image);
        }
    }
}

fn queue_lengths(stream: &mut Stream, random: &mut Random) {
    let record = plain(random, 7, 1, 3);
    let store = queues::of(stream, random, std::slice::from_ref(&record));
    let other = plain(random, 7, 2, 3);
    let image = images::of(random, &other);
    for length in
        WRONG_LENGTHS.into_iter().chain(QUEUE - 9..QUEUE).chain(QUEUE + 1..QUEUE + 10).chain((1..=33).map(|n| n * PLACE))
    {
        queues::all_calls(stream, &queues::resized(&store, length), &image, 1, (7, 0, 0));
    }
}

/// Faults in each place: in what the record says, in each mark, and its ID once more; and what doesn't matter.
fn sound(stream: &mut Stream, random: &mut Random) {
    let records: Vec<Record> = (0..PLACES)
        .map(|i| dependent(plain(random, 7, i as u64, 0), random, &[1, 2, 3], &[i, 0, 245]).with("expOnly", Value::Flag(true)))
        .collect();
    let store = queues::of(stream, random, &records);
    let marks = images::marks(layout::message("dlDataQue"));
    for at in 0..PLACES {
        let faults: [&[(usize, u8)]; 9] = [
            &[(40, 0)],
            &[(40, 17)],
            &[(40, 255)],
            &[(42, 0)],
            &[(39, 0x7F), (38, 0xF8)],
            &[(32, 1)],
            &[(MESSAGE + 64, 246)],
            &[(MESSAGE + 66, 255)],
            &[(49, 0)],
        ];
        let mut with = |changes: &[(usize, u8)], sound: bool| {
            let mut bytes = store.bytes.clone();
            changes.iter().for_each(|(byte, is)| bytes[at * PLACE + byte] = *is);
            assert_eq!(stream.sound(&bytes), u64::from(sound) << 16);
        };
        faults.iter().for_each(|changes| with(changes, false));
        marks.iter().for_each(|mark| with(&[(*mark, 2)], false));
        with(&[(24, (at as u8 + 1) % 32)], false);
        with(&[(24, 99)], true);
        with(&[(8, 0)], true);
        with(&[(MESSAGE + 13, 0xA5), (MESSAGE + 67, 0xFF), (PLACE - 1, 0xA5)], true);
    }
}
