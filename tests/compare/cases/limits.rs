//! Payloads at the limits: depth 8, 1,024 elements, 4,096 bytes, and what is just over them.

use super::node::{any, text, Node};
use super::payloads::{dressed, plain, Pairs};
use super::random::Random;
use super::values;

pub fn one(random: &mut Random) -> Vec<u8> {
    match random.below(5) {
        0 => deep(random),
        1 => many(random),
        2 => long(random),
        3 => two_at_once(random),
        _ => random.pick(&[
            vec![],
            vec![0x80],
            vec![0x90],
            vec![0xC1],
            vec![0xDF, 0xFF, 0xFF, 0xFF, 0xFF],
            vec![0xDE, 0xFF],
            vec![0xA0],
        ]),
    }
}

fn message(random: &mut Random) -> Pairs {
    let record = values::any(random);
    dressed(random, &record)
}

/// A value of so many levels: arrays and maps in one another, the innermost empty or plain.
fn nested(random: &mut Random, levels: usize) -> Node {
    if levels == 1 {
        return random.pick(&[Node::Array(vec![]), Node::Map(vec![]), Node::Whole(1), Node::Nil, text("x")]);
    }
    let inner = nested(random, levels - 1);
    match random.below(2) {
        0 => Node::Array(vec![inner]),
        _ => Node::Map(vec![(text("epEui"), inner)]),
    }
}

/// Seven levels in the outer map pass, eight don't.
fn deep(random: &mut Random) -> Vec<u8> {
    let mut pairs = message(random);
    let levels = random.pick(&[6, 7, 7, 8, 8, 9, 20]);
    let key = random.pick(&["x", "info", "config", "subpackets"]);
    let value = nested(random, levels);
    pairs.insert(random.below(pairs.len() + 1), (text(key), value));
    Node::Map(pairs).bytes(random)
}

/// An unknown pair that brings the count to just so many.
fn many(random: &mut Random) -> Vec<u8> {
    let mut pairs = message(random);
    let others = Node::Map(pairs.clone()).count() + 2;
    let count = random.pick(&[1023usize, 1024, 1024, 1025, 1025, 1026]).saturating_sub(others);
    let filler = match random.below(3) {
        0 => Node::Array(vec![Node::Nil; count]),
        1 if count % 2 == 0 => Node::Map(vec![(text(""), Node::Flag(true)); count / 2]),
        _ => Node::Array((0..count).map(|i| Node::Whole(i as i128)).collect()),
    };
    pairs.insert(random.below(pairs.len() + 1), (text("x"), filler));
    Node::Map(pairs).bytes(random)
}

/// An unknown pair of bytes that brings the length to just so much.
fn long(random: &mut Random) -> Vec<u8> {
    let record = values::any(random);
    let mut pairs = plain(random, &record);
    let length = random.pick(&[4095usize, 4096, 4096, 4097, 4097, 4098, 5000]);
    let mut wide = Random(random.next());
    let empty = Node::Map([&pairs[..], &[(text("x"), Node::Raw(vec![]))]].concat()).bytes(&mut Random(wide.0)).len();
    let mut filler = vec![0xC5, 0, 0];
    let rest = length.saturating_sub(empty + 3);
    filler[1..].copy_from_slice(&(rest as u16).to_be_bytes());
    filler.extend(random.bytes(rest));
    pairs.push((text("x"), Node::Raw(filler)));
    Node::Map(pairs).bytes(&mut wide)
}

/// Where the thousandth element or the ninth level comes with another break, the order of tests shows.
fn two_at_once(random: &mut Random) -> Vec<u8> {
    let mut list = vec![Node::Nil; random.pick(&[1015, 1016, 1017, 1018, 1019, 1020])];
    let inner = random.pick(&[
        Node::Raw(vec![0xC1]),
        Node::Raw(vec![0xDA, 1]),
        Node::Map(vec![(Node::Whole(1), Node::Nil)]),
        Node::Raw(vec![]),
    ]);
    let levels = random.pick(&[0, 1, 5, 6, 7]);
    let mut value = inner;
    for _ in 0..levels {
        value = if random.one_in(2) {
            Node::Array(vec![value])
        } else {
            Node::Map(vec![(random.pick(&[text("k"), Node::Nil]), value)])
        };
    }
    list.push(value);
    list.push(any(random, 1));
    Node::Map(vec![(text("x"), Node::Array(list))]).bytes(random)
}
