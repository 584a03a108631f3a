//! Cases of chz_begin.

use super::random::Random;
use super::writes::{room, ROOM};
use super::{images, sessions, values};
use crate::reference::calls;
use crate::reference::image::Image;
use crate::reference::session::{State, CENTRE_STARTS};
use crate::stream::Stream;

pub fn one(stream: &mut Stream, random: &mut Random) {
    let mut session = sessions::any(random);
    if !random.one_in(6) {
        session.state = State::Open;
    }
    if random.one_in(6) {
        session.lowest = random.pick(&[i64::MIN, i64::MIN, i64::MIN + 1]);
    }
    let session = sessions::faulty(random, &session);
    let message = message(random);
    hand_over(stream, random, &session, &message);
}

/// A start of the centre's, mostly valid.
pub fn message(random: &mut Random) -> Image {
    let name = random.pick(&CENTRE_STARTS);
    let record = values::of(random, name);
    let mut message = images::of(random, &record);
    match random.below(24) {
        0 => images::valid(random),
        1 => images::spoiled(random),
        2 => images::wrong_length(random),
        3..=6 => {
            images::spoil(random, &mut message);
            message
        }
        _ => message,
    }
}

/// The session after it.
pub fn hand_over(stream: &mut Stream, random: &mut Random, session: &[u8], message: &Image) -> Vec<u8> {
    let need = calls::begin(&mut session.to_vec(), message, &mut [0; ROOM]) >> 16;
    let room = room(random, need as usize);
    stream.begin(session, message, &room).1
}
