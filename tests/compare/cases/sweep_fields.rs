//! Every key of every command with every value near its range; left out, twice and nil; and all faults together with all.

use super::images;
use super::near;
use super::node::{text, Node};
use super::payloads::{d_value, dressed, Pairs};
use super::random::Random;
use super::values;
use crate::reference::commands::{Command, Key, COMMANDS};
use crate::stream::Stream;

pub fn all(stream: &mut Stream, random: &mut Random) {
    for command in &COMMANDS {
        for key in command.keys() {
            for value in near::values(command.name, key.name) {
                let mut pairs = without(random, command, key.name);
                pairs.insert(random.below(pairs.len() + 1), (text(key.name), value));
                hand_over(stream, random, pairs);
            }
            absent_or_twice(stream, random, command, key);
        }
        (0..64).for_each(|faults| together(stream, random, command, faults));
    }
}

fn hand_over(stream: &mut Stream, random: &mut Random, pairs: Pairs) {
    let payload = Node::Map(pairs).bytes(random);
    stream.read(&payload, &images::to_read_into(random));
}

/// A valid message of the command in which this key is left out.
fn without(random: &mut Random, command: &Command, key: &str) -> Pairs {
    let record = values::of(random, command.name);
    let mut pairs = dressed(random, &record);
    pairs.retain(|pair| !matches!(&pair.0, Node::Text(text) if text == key.as_bytes()));
    pairs
}

fn absent_or_twice(stream: &mut Stream, random: &mut Random, command: &Command, key: Key) {
    let pairs = without(random, command, key.name);
    hand_over(stream, random, pairs);
    for value in [Node::Nil, Node::Whole(0), d_value(random, command.name, key.name)] {
        let mut pairs = without(random, command, key.name);
        (0..2).for_each(|_| pairs.insert(random.below(pairs.len() + 1), (text(key.name), value.clone())));
        hand_over(stream, random, pairs);
    }
}

/// Any of: command twice, command unknown, command no text, a key twice, a key missing, a value invalid.
fn together(stream: &mut Stream, random: &mut Random, command: &Command, faults: u8) {
    let mut keys: Vec<Key> = command.keys().filter(|key| !key.optional).collect();
    random.shuffle(&mut keys);
    let mut pairs = without(random, command, if faults & 8 != 0 { keys[0].name } else { "" });
    let key = |i: usize| text(keys[i % keys.len()].name);
    if faults & 16 != 0 {
        pairs.extend([(key(1), Node::Nil), (key(1), Node::Nil)]);
    }
    if faults & 32 != 0 {
        pairs.retain(|pair| !matches!((&pair.0, key(2)), (Node::Text(is), Node::Text(odd)) if *is == odd));
        pairs.push((key(2), Node::Nil));
    }
    if let Some(pair) = pairs.iter_mut().find(|pair| matches!(&pair.0, Node::Text(text) if text == b"command")) {
        if faults & 2 != 0 {
            pair.1 = text("pong");
        }
        if faults & 4 != 0 {
            pair.1 = Node::Nil;
        }
    }
    if faults & 1 != 0 {
        pairs.push((text("command"), text(command.name)));
    }
    random.shuffle(&mut pairs);
    hand_over(stream, random, pairs);
}
