//! One fault, put into the pairs of a valid message.

use super::near;
use super::node::{any, text, Node};
use super::payloads::{d_value, Pairs};
use super::random::Random;
use crate::reference::commands::{Key, COMMANDS};
use crate::reference::record::Record;

pub fn one(random: &mut Random, record: &Record, pairs: &mut Pairs) {
    if pairs.is_empty() {
        return;
    }
    let at = random.below(pairs.len());
    match random.below(16) {
        0 => drop(pairs.remove(at)),
        1 => twice(random, pairs, at),
        2 => pairs[at].1 = Node::Nil,
        3 => pairs[at].1 = any(random, 2),
        4..=8 => edge(random, record, pairs),
        9 | 10 => entry(random, pairs, at),
        11 => misstated(random, pairs, at),
        12 => {
            pairs[at].0 =
                random.pick(&[Node::Nil, Node::Whole(1), Node::Bin(b"opId".to_vec()), Node::Array(vec![]), Node::Raw(vec![0xC1])])
        }
        13 => command(random, pairs),
        14 => d_field(random, record, pairs),
        _ => {
            let key = random.pick(&["dlOpen", "responseExp", "cntDepend"]);
            set(pairs, key, Node::Flag(random.one_in(2)));
        }
    }
}

/// Sets the value under a key, where the message has that key.
fn set(pairs: &mut Pairs, key: &str, value: Node) {
    if let Some(pair) = pairs.iter_mut().find(|pair| matches!(&pair.0, Node::Text(text) if text == key.as_bytes())) {
        pair.1 = value;
    }
}

/// A key again, with the same value or another.
fn twice(random: &mut Random, pairs: &mut Pairs, at: usize) {
    let mut pair = pairs[at].clone();
    if random.one_in(2) {
        pair.1 = any(random, 1);
    }
    pairs.insert(random.below(pairs.len() + 1), pair);
}

/// A value just in its range, just outside it, or of another kind, in place of what the key had.
fn edge(random: &mut Random, record: &Record, pairs: &mut Pairs) {
    let keys: Vec<Key> = record.command.keys().collect();
    let key = random.pick(&keys).name;
    let value = random.pick(&near::values(record.command.name, key));
    pairs.retain(|pair| !matches!(&pair.0, Node::Text(text) if text == key.as_bytes()));
    pairs.insert(random.below(pairs.len() + 1), (text(key), value));
}

/// An entry of an array, or at times of an array in it, made wrong, taken out or put in.
fn entry(random: &mut Random, pairs: &mut Pairs, at: usize) {
    let from =
        (0..pairs.len()).map(|i| (at + i) % pairs.len()).find(|i| matches!(&pairs[*i].1, Node::Array(list) if !list.is_empty()));
    if let Some(Node::Array(entries)) = from.map(|i| &mut pairs[i].1) {
        one_entry(random, entries);
    }
}

fn one_entry(random: &mut Random, entries: &mut Vec<Node>) {
    let at = random.below(entries.len());
    match &mut entries[at] {
        Node::Array(inner) if !inner.is_empty() && random.one_in(2) => return one_entry(random, inner),
        _ => {}
    }
    match random.below(5) {
        0 => drop(entries.remove(at)),
        1 => entries.insert(at, Node::Whole(random.below(256) as i128)),
        2 => {
            entries[at] =
                random.pick(&[Node::Whole(255), Node::Whole(256), Node::Whole(-1), Node::Nil, Node::Flag(true), text("1")])
        }
        3 => entries.insert(at, entries[at].clone()),
        _ => entries[at] = any(random, 1),
    }
}

/// An array or map whose stated count isn't the count of what it holds.
fn misstated(random: &mut Random, pairs: &mut Pairs, at: usize) {
    let count = |random: &mut Random, is: usize| random.pick(&[is + 1, is.saturating_sub(1), is + 2, 0, 65535]);
    let value = match &pairs[at].1 {
        Node::Array(entries) => Node::Misstated(0xDC, count(random, entries.len()), entries.clone()),
        _ => Node::Misstated(random.pick(&[0xDC, 0xDE]), random.below(4), vec![text("a"), Node::Nil]),
    };
    pairs[at].1 = value;
}

fn command(random: &mut Random, pairs: &mut Pairs) {
    let name = random.pick(&COMMANDS.iter().map(|command| command.name).collect::<Vec<_>>());
    let strange = ["", "Ping", "ping ", "pin", "con\0", "att", "ulDataTx", "dlDataQu", "dlDataQueR", "dlDataRev", "error"];
    let value = match random.below(5) {
        0 => random.pick(&[
            Node::Nil,
            Node::Whole(9),
            Node::Bin(b"ping".to_vec()),
            Node::Flag(true),
            Node::Array(vec![text("ping")]),
        ]),
        1 => text(random.pick(&strange)),
        2 => return pairs.push((text("command"), text(name))),
        _ => text(name),
    };
    set(pairs, "command", value);
}

/// A D field that has its type, or doesn't, or stands twice.
fn d_field(random: &mut Random, record: &Record, pairs: &mut Pairs) {
    let keys: Vec<Key> = record.command.keys().filter(|key| !key.kept).collect();
    if keys.is_empty() {
        return;
    }
    let key = random.pick(&keys).name;
    let value = match random.below(3) {
        0 => d_value(random, record.command.name, key),
        1 => random.pick(&[Node::Nil, text("text"), Node::Map(vec![]), Node::Array(vec![]), Node::Bin(b"text".to_vec())]),
        _ => any(random, 2),
    };
    pairs.push((text(key), value));
}
