//! Cases of chz_read: valid messages in any lawful dress, and spoiled ones.

use super::node::{any, any_key, text, Node};
use super::random::Random;
use super::{bytes, images, limits, spoil, values};
use crate::reference::fields::{kind, Kind, Value};
use crate::reference::layout::DATA;
use crate::reference::record::Record;
use crate::reference::{image, read};
use crate::stream::Stream;

pub type Pairs = Vec<(Node, Node)>;

pub fn one(stream: &mut Stream, random: &mut Random) {
    let payload = match random.below(20) {
        0..=7 => valid(random),
        8..=13 => spoiled(random),
        14..=16 => bytes::damaged(random, &valid_or_spoiled),
        17..=18 => limits::one(random),
        _ => bytes::any(random),
    };
    // a message buffer of a wrong length, or data too short, are 15 before all else
    let mut lent = images::to_read_into(random);
    match random.below(80) {
        0 | 1 => lent.message.resize(random.pick(&images::WRONG_LENGTHS), 0),
        2 | 3 => lent.data.truncate(random.pick(&[0, 1, 64, DATA - 1])),
        _ => {}
    }
    stream.read(&payload, &lent);
}

/// A valid payload; the reference must read it as the record that it was made of.
fn valid(random: &mut Random) -> Vec<u8> {
    let record = values::any(random);
    let pairs = dressed(random, &record);
    let count = Node::Map(pairs.clone()).count();
    let payload = Node::Map(pairs).bytes(random);
    if payload.len() <= 4096 && count <= 1024 {
        let (again, _) = read::read(&payload).expect("a valid payload reads");
        assert_eq!(image::of_record(&again), image::of_record(&record));
    }
    payload
}

fn spoiled(random: &mut Random) -> Vec<u8> {
    let record = values::any(random);
    let mut pairs = dressed(random, &record);
    (0..random.pick(&[1, 1, 1, 2, 3])).for_each(|_| spoil::one(random, &record, &mut pairs));
    Node::Map(pairs).bytes(random)
}

fn valid_or_spoiled(random: &mut Random) -> Vec<u8> {
    if random.one_in(4) {
        spoiled(random)
    } else {
        valid(random)
    }
}

/// A record's pairs in any order, with unknown pairs and D fields among them.
pub fn dressed(random: &mut Random, record: &Record) -> Pairs {
    let mut pairs = plain(random, record);
    for key in record.command.keys().filter(|key| !key.kept) {
        if random.one_in(3) {
            let value = d_value(random, record.command.name, key.name);
            pairs.push((text(key.name), value));
        }
    }
    for _ in 0..random.pick(&[0, 0, 0, 1, 2, 4]) {
        if let Some(key) = unknown_key(random, record) {
            let repeats = random.pick(&[1, 1, 2]);
            (0..repeats).for_each(|_| pairs.push((key.clone(), any(random, 4))));
        }
    }
    if !random.one_in(4) {
        random.shuffle(&mut pairs);
    }
    pairs
}

/// The pairs that the record needs, and at times the default that it could leave out.
pub fn plain(random: &mut Random, record: &Record) -> Pairs {
    let mut pairs = vec![(text("command"), text(record.command.name))];
    for key in record.command.keys() {
        if let Some(value) = record.fields.get(key.name) {
            pairs.push((text(key.name), node(random, value)));
        } else if key.name == "format" && random.one_in(2) {
            pairs.push((text("format"), Node::Whole(0)));
        } else if key.name == "prio" && random.one_in(2) {
            pairs.push((text("prio"), random.pick(&[Node::Whole(0), Node::Float32(0), Node::Float64(0)])));
        }
    }
    pairs
}

/// A key that the command doesn't have.
fn unknown_key(random: &mut Random, record: &Record) -> Option<Node> {
    let key = any_key(random);
    let has = |bytes: &[u8]| bytes == b"command" || record.command.keys().any(|key| key.name.as_bytes() == bytes);
    Some(key).filter(|key| !matches!(key, Node::Text(bytes) if has(bytes)))
}

pub fn d_value(random: &mut Random, command: &str, key: &str) -> Node {
    match kind(command, key) {
        Kind::AnyMap => Node::Map((0..random.below(4)).map(|_| (any_key(random), any(random, 3))).collect()),
        _ => Node::Text({
            let length = random.pick(&[0, 1, 5, 31, 32, 100]);
            random.bytes(length)
        }),
    }
}

fn node(random: &mut Random, value: &Value) -> Node {
    match value {
        Value::Whole(number) => Node::Whole(*number),
        Value::Real(number) => real(random, *number),
        Value::Location(reals) => Node::Array(reals.iter().map(|number| real(random, *number)).collect()),
        Value::Flag(flag) => Node::Flag(*flag),
        Value::Version([major, minor, patch]) => text(&format!("{}.{}.{}", major, minor, patch)),
        Value::Bytes(list) => bytes_node(list),
        Value::Text(bytes) => Node::Text(bytes.clone()),
        Value::Counters(counters) => Node::Array(counters.iter().map(|counter| Node::Whole((*counter).into())).collect()),
        Value::Entries(entries) => Node::Array(entries.iter().map(|entry| bytes_node(entry)).collect()),
    }
}

fn bytes_node(bytes: &[u8]) -> Node {
    Node::Array(bytes.iter().map(|byte| Node::Whole((*byte).into())).collect())
}

/// As a whole number or in float 32 at times, where that is exact; minus zero is no whole number.
fn real(random: &mut Random, number: f64) -> Node {
    let single = number as f32;
    let whole = number as i128;
    if (whole as f64).to_bits() == number.to_bits() && number.abs() <= 2f64.powi(53) && random.one_in(2) {
        return Node::Whole(whole);
    }
    if f64::from(single).to_bits() == number.to_bits() && random.one_in(2) {
        return Node::Float32(single.to_bits());
    }
    Node::Float64(number.to_bits())
}
