//! A message's payload in any lawful dress, or damaged.

use crate::cases::bytes::damage;
use crate::cases::node::{text, Node};
use crate::cases::payloads::{dressed, plain, Pairs};
use crate::cases::random::Random;
use crate::cases::{limits, spoil};
use crate::reference::frame::{HEADER, MOST};
use crate::reference::record::Record;
use crate::reference::write::write;

/// As we would write it, with other widths and keys, or at times as long as a payload may be.
pub fn any(random: &mut Random, record: &Record) -> Vec<u8> {
    match random.below(40) {
        0..=19 => write(record)[HEADER..].to_vec(),
        20 => {
            let (pairs, length) = (plain(random, record), random.pick(&[MOST, MOST, MOST - 1, 3000]));
            padded(random, pairs, length)
        }
        _ => {
            let pairs = dressed(random, record);
            Node::Map(pairs).bytes(random)
        }
    }
}

/// The pairs, and an unknown one that brings the payload to this length.
fn padded(random: &mut Random, mut pairs: Pairs, length: usize) -> Vec<u8> {
    let widths = random.next();
    let mut with = |filler: Vec<u8>| {
        pairs.push((text("x"), Node::Raw(filler)));
        let bytes = Node::Map(pairs.clone()).bytes(&mut Random(widths));
        pairs.pop();
        bytes
    };
    let rest = length.saturating_sub(with(Vec::new()).len() + 3);
    with([&[0xC5], &(rest as u16).to_be_bytes()[..], &vec![0xAB; rest]].concat())
}

/// With a fault in its pairs or in its bytes, or something else at the limits.
pub fn damaged(random: &mut Random, record: &Record) -> Vec<u8> {
    let mut pairs = dressed(random, record);
    match random.below(8) {
        0 => limits::one(random),
        1..=4 => {
            (0..random.pick(&[1, 1, 2])).for_each(|_| spoil::one(random, record, &mut pairs));
            Node::Map(pairs).bytes(random)
        }
        _ => {
            let mut payload = Node::Map(pairs).bytes(random);
            damage(random, &mut payload);
            payload
        }
    }
}
