//! Faults in the bytes themselves, and bytes of no meaning.

use super::random::Random;

const LEADS: [u8; 24] = [
    0x00, 0x7F, 0x80, 0x81, 0x8F, 0x90, 0x9F, 0xA0, 0xBF, 0xC0, 0xC1, 0xC3, 0xC4, 0xC7, 0xCA, 0xCF, 0xD3, 0xD8, 0xD9, 0xDB, 0xDC,
    0xDD, 0xDF, 0xFF,
];

/// Bytes with one to three faults.
pub fn damaged(random: &mut Random, make: &dyn Fn(&mut Random) -> Vec<u8>) -> Vec<u8> {
    let mut bytes = make(random);
    for _ in 0..random.pick(&[1, 1, 1, 2, 3]) {
        damage(random, &mut bytes);
    }
    bytes
}

pub fn damage(random: &mut Random, bytes: &mut Vec<u8>) {
    if bytes.is_empty() {
        return;
    }
    let at = random.below(bytes.len());
    match random.below(8) {
        0 => bytes[at] = random.byte(),
        1 => bytes[at] ^= 1 << random.below(8),
        2 => bytes[at] = random.pick(&LEADS),
        3 => bytes.truncate(at),
        4 => bytes.push(random.byte()),
        5 => bytes.insert(at, random.byte()),
        6 => drop(bytes.remove(at)),
        _ => drop(bytes.pop()),
    }
}

pub fn any(random: &mut Random) -> Vec<u8> {
    let length = random.pick(&[0, 1, 2, 3, 5, 8, 16, 40, 300]);
    let mut bytes = random.bytes(length);
    if random.one_in(3) {
        bytes.iter_mut().for_each(|byte| *byte = random.pick(&LEADS));
    }
    // behind a map's head the walk goes further
    if !bytes.is_empty() && !random.one_in(4) {
        bytes[0] = 0x80 | random.byte() & 0x0F;
        if bytes.len() > 2 {
            bytes[1] = random.pick(&[0xA0, 0xA1, 0xD9]);
        }
    }
    bytes
}
