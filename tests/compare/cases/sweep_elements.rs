//! Every lead byte in every place: outermost, as key and as value of few pairs and of many elements, at and over the limits of depth and count,
//! whole and cut.

use super::images::to_read_into;
use super::random::Random;
use crate::stream::Stream;

pub fn all(stream: &mut Stream, random: &mut Random) {
    let tails = [vec![], vec![0], vec![0, 0, 1], vec![0; 40], vec![0xFF; 9]];
    for lead in 0..=255 {
        for tail in &tails {
            let bytes = [&[lead], &tail[..]].concat();
            stream.read(&bytes, &to_read_into(random));
            for is_key in [false, true] {
                for (depth, number) in [(3, 5), (8, 20), (9, 20), (8, 1024), (9, 1024), (8, 1025), (9, 1025)] {
                    stream.read(&placed(&bytes, is_key, depth, number), &to_read_into(random));
                }
                for pairs in 1..=3 {
                    stream.read(&paired(&bytes, is_key, pairs), &to_read_into(random));
                }
            }
        }
    }
}

/// A payload of so many pairs, the last of which has these bytes as its key or as its value.
fn paired(bytes: &[u8], is_key: bool, pairs: u8) -> Vec<u8> {
    let mut out = vec![0x80 + pairs];
    for _ in 1..pairs {
        out.extend_from_slice(&[0xA1, b'x', 0xCC, 0x80]);
    }
    if !is_key {
        out.extend_from_slice(&[0xA1, b'y']);
    }
    out.extend_from_slice(bytes);
    out
}

/// A payload whose element of this number starts with these bytes, at this depth: a list of nils under the key x, and at its
/// end arrays in one another, the innermost a map where the bytes are to be a key.
fn placed(bytes: &[u8], is_key: bool, depth: usize, number: usize) -> Vec<u8> {
    let nils = number - depth - 1;
    let mut out = vec![0x81, 0xA1, b'x', 0xDC];
    out.extend_from_slice(&(nils as u16 + 1).to_be_bytes());
    out.extend(vec![0xC0; nils]);
    out.extend(vec![0x91; depth - 3]);
    if is_key {
        match depth {
            3 => out[3..6].copy_from_slice(&[0xDE, 0, 1]),
            _ => *out.last_mut().expect("an array") = 0x81,
        }
    }
    out.extend_from_slice(bytes);
    out
}
