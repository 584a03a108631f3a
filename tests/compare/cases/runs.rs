//! Long runs of one session, from the empty one: connections, starts of both sides, completions, losses and resumes.

use super::random::Random;
use super::{begins, cons, images, sessions, values};
use crate::reference::fields::Value;
use crate::reference::image;
use crate::reference::layout::{size, SESSION};
use crate::reference::record::Record;
use crate::reference::session::{Place, Session, State};
use crate::stream::Stream;

/// How readily operations are completed and connections lost.
#[derive(Clone, Copy)]
struct Mood {
    completes: usize,
    loses: usize,
}

const MOODS: [Mood; 4] = [
    Mood { completes: 40, loses: 5 },
    Mood { completes: 4, loses: 1 },
    Mood { completes: 25, loses: 30 },
    Mood { completes: 12, loses: 0 },
];

pub fn one(stream: &mut Stream, random: &mut Random) {
    let mood = random.pick(&MOODS);
    let mut session = image::to_session(&vec![0; size(SESSION)]).expect("all zeros is a new session");
    // no run gets down to −2^63 by itself
    if random.one_in(6) {
        session.lowest = i64::MIN + random.below(5) as i64;
        session.stored = true;
    }
    let mut bytes = image::of_session(&session);
    for _ in 0..random.within(20, 70) {
        bytes = step(stream, random, &bytes, mood);
    }
}

fn step(stream: &mut Stream, random: &mut Random, bytes: &[u8], mood: Mood) -> Vec<u8> {
    let session = image::to_session(bytes).expect("calls keep a session one");
    if random.below(100) < mood.loses || random.one_in(100) {
        return stream.lost(bytes).1;
    }
    if session.state == State::Open && random.one_in(4) || random.one_in(30) {
        let message = begins::message(random);
        return begins::hand_over(stream, random, bytes, &message);
    }
    let message = message(random, &session, mood);
    let image = images::of(random, &message);
    sessions::hand_over(stream, random, bytes, &image)
}

fn message(random: &mut Random, session: &Session, mood: Mood) -> Record {
    if random.one_in(20) {
        return sessions::fitting(random, session);
    }
    match session.state {
        State::Waiting => cons::one(random, session),
        State::Connecting => Record::new("conCmp", 0),
        State::Open if random.below(50) < mood.completes => finish(random, session),
        State::Open => sessions::start(random, session),
    }
}

/// The Cmp or Rsp that frees an open entry, or one that was freed before.
fn finish(random: &mut Random, session: &Session) -> Record {
    let stations: Vec<&Place> = session.station.iter().filter(|place| place.id != 0).collect();
    let centres: Vec<&Place> = session.centre.iter().filter(|place| place.id != 0).collect();
    let (places, ends): (_, &[(u8, &str)]) = if random.one_in(2) {
        (stations, &[(3, "detCmp"), (7, "ulDataCmp"), (9, "pingCmp")])
    } else {
        (centres, &[(5, "attPrpRsp"), (6, "detPrpRsp"), (9, "pingRsp"), (12, "statusRsp"), (21, "dlDataQueRsp")])
    };
    if places.is_empty() || random.one_in(12) {
        return sessions::about_entry(random, session);
    }
    let place = random.pick(&places);
    let name = ends.iter().find(|end| end.0 == place.kind).map_or("pingCmp", |end| end.1);
    values::of(random, name).with("opId", Value::Whole(place.id.into()))
}
