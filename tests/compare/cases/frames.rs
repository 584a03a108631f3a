//! Cases of chz_frame.

use super::bytes::damage;
use super::random::Random;
use super::values;
use crate::reference::frame::IDENTIFIER;
use crate::reference::write;
use crate::stream::Stream;

pub fn one(stream: &mut Stream, random: &mut Random) {
    stream.frame(&any(random));
}

/// A frame, mostly with a fault or with bytes missing or left over.
pub fn any(random: &mut Random) -> Vec<u8> {
    let mut bytes = match random.below(4) {
        0 => write::write(&values::any(random)),
        _ => sized(random),
    };
    match random.below(6) {
        0 => bytes.truncate(random.below(bytes.len() + 1)),
        1 => bytes.truncate(random.below(16)),
        2 => bytes.extend(vec![0x4D; random.below(20)]),
        3 => bytes[random.below(8)] ^= 1 << random.below(8),
        4 => damage(random, &mut bytes),
        _ => {}
    }
    bytes
}

/// A frame that states a size at the limits, and holds about as much.
fn sized(random: &mut Random) -> Vec<u8> {
    let any = random.number() as u32;
    let size = random.pick(&[0, 1, 2, 255, 256, 4095, 4096, 4097, 65536, 0x0100_0001, u32::MAX, any]);
    let holds = (size.min(5000) as usize + random.below(3)).saturating_sub(random.pick(&[0, 0, 1, 2]));
    [&IDENTIFIER, &size.to_le_bytes()[..], &random.bytes(holds)].concat()
}
