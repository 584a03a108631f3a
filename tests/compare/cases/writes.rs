//! Cases of chz_write.

use super::images;
use super::random::Random;
use crate::reference::calls;
use crate::reference::image::Image;
use crate::reference::layout::MESSAGE;
use crate::stream::Stream;

pub fn one(stream: &mut Stream, random: &mut Random) {
    let image = match random.below(20) {
        0..=8 => images::valid(random),
        9..=17 => images::spoiled(random),
        18 => images::wrong_length(random),
        _ => {
            let length = random.below(300);
            Image { message: random.bytes(MESSAGE), data: random.bytes(length) }
        }
    };
    let need = calls::write(&image, &mut [0; ROOM]) >> 16;
    let room = room(random, need as usize);
    stream.write(&image, &room);
}

/// The header's CHZ_ROOM: the longest frame of all.
pub const ROOM: usize = 1909;

/// A room with any contents: too short by one or more, exact, or longer.
pub fn room(random: &mut Random, need: usize) -> Vec<u8> {
    let shorter = random.below(need.max(1));
    let longer = need + random.below(60);
    let length = random.pick(&[0, shorter, need.saturating_sub(1), need, need, need, need + 1, longer, longer, ROOM, ROOM, ROOM]);
    random.bytes(length)
}
