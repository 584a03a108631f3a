//! Every command in every state under every ID that an entry has; every way to resume or not; every start of the centre.

use super::random::Random;
use super::writes::ROOM;
use super::{images, sessions, values};
use crate::reference::commands::COMMANDS;
use crate::reference::fields::Value;
use crate::reference::image;
use crate::reference::layout::{self, size, SESSION};
use crate::reference::record::Record;
use crate::reference::session::{Place, Session, State};
use crate::stream::Stream;

const STATES: [State; 3] = [State::Waiting, State::Connecting, State::Open];

pub fn all(stream: &mut Stream, random: &mut Random) {
    for state in STATES {
        for command in &COMMANDS {
            arrivals(stream, random, state, command.name);
            starts(stream, random, state, command.name);
        }
    }
    bad_starts(stream, random);
    resumes(stream, random);
    versions(stream, random);
    session_images(stream, random);
}

/// Session images of any length, the former one among them, and with any byte in each of the last: state, stored and reserved.
fn session_images(stream: &mut Stream, random: &mut Random) {
    let usual = size(SESSION);
    for length in (0..20).chain(sessions::FORMER - 12..usual + 13).chain([2 * sessions::FORMER, 2 * usual]) {
        let mut image = image::of_session(&sessions::any(random));
        image.resize(length, 0);
        all_calls(stream, random, &image);
    }
    for at in 344..usual {
        for byte in 0..=255 {
            let mut image = image::of_session(&sessions::any(random));
            image[at] = byte;
            all_calls(stream, random, &image);
        }
    }
}

fn all_calls(stream: &mut Stream, random: &mut Random, session: &[u8]) {
    let ping = values::of(random, "ping");
    let message = images::of(random, &ping);
    stream.lost(session);
    stream.begin(session, &message, &random.bytes(ROOM));
    sessions::hand_over(stream, random, session, &message);
}

/// Entries of each kind under IDs of both signs on both sides, some of them twice; a free place with a kind.
fn entries(random: &mut Random, state: State) -> Session {
    let mut session = sessions::any(random);
    let kinds = random.pick(&[[3, 5, 6, 7, 9, 12, 9, 12], [3, 21, 6, 7, 9, 12, 21, 21]]);
    session.state = state;
    session.station = std::array::from_fn(|i| Place { id: [5, -5][i / 8] + [0, 10][i % 8 / 6], kind: kinds[i % 8] });
    session.centre = session.station;
    session.centre.reverse();
    session.station[random.below(16)].id = 0;
    session.centre[random.below(16)].id = 0;
    session.highest = random.pick(&[4, 5, 15, -5]);
    session
}

fn arrivals(stream: &mut Stream, random: &mut Random, state: State, name: &str) {
    for id in [0, 1, -1, 4, 5, 6, -5, 15, 16, i64::MAX, i64::MIN] {
        for _ in 0..if state == State::Open { 16 } else { 2 } {
            let session = image::of_session(&entries(random, state));
            let record = values::of(random, name).with("opId", Value::Whole(id.into()));
            let message = images::of(random, &record);
            sessions::hand_over(stream, random, &session, &message);
        }
    }
}

fn starts(stream: &mut Stream, random: &mut Random, state: State, name: &str) {
    for lowest in [i64::MIN, i64::MIN + 1, -7, -1, 0, 1, i64::MAX] {
        for free in [16, 0, 7, 15] {
            let mut session = entries(random, state);
            session.lowest = lowest;
            session.centre.iter_mut().for_each(|place| place.id = 3);
            if let Some(place) = session.centre.get_mut(free) {
                place.id = 0;
            }
            let record = values::of(random, name);
            let message = images::of(random, &record);
            stream.begin(&image::of_session(&session), &message, &random.bytes(ROOM));
        }
    }
}

/// "a bad record there is 15 after 19": attPrp and dlDataQue with each mark wrong, or with no entries or too many, where 17, 18
/// or 19 come before it and where none does; then a command that there isn't.
fn bad_starts(stream: &mut Stream, random: &mut Random) {
    let faults = ["attPrp", "dlDataQue"].into_iter().flat_map(|name| {
        let layout = layout::message(name);
        let marks = images::marks(layout).into_iter().flat_map(|at| [(at, 2), (at, 255)]);
        let counts = layout::member(layout, "entries").into_iter().flat_map(|range| [(range.start, 0), (range.start, 17)]);
        marks.chain(counts).chain([(image::COMMAND, 24)]).map(move |(at, byte)| (name, at, byte))
    });
    for (name, at, byte) in faults {
        for (state, lowest, id) in [
            (State::Open, 0, 0),
            (State::Open, 0, 3),
            (State::Open, i64::MIN, 0),
            (State::Open, i64::MIN, 3),
            (State::Waiting, 0, 0),
            (State::Connecting, i64::MIN, 3),
        ] {
            let mut session = entries(random, state);
            session.lowest = lowest;
            session.centre.iter_mut().for_each(|place| place.id = id);
            let record = values::of(random, name);
            let mut message = images::of(random, &record);
            message.message[at] = byte;
            stream.begin(&image::of_session(&session), &message, &random.bytes(ROOM));
        }
    }
}

fn resumes(stream: &mut Stream, random: &mut Random) {
    let known = [i64::MIN, -1, 0, 1, 5, i64::MAX - 1, i64::MAX];
    let stated = [None, Some(0), Some(1), Some(4), Some(5), Some(6), Some(i64::MAX)];
    for highest in known {
        for lowest in known {
            for bs in stated {
                for sc in stated {
                    let mut session = entries(random, State::Waiting);
                    session.stored = !random.one_in(8);
                    session.highest = highest;
                    session.lowest = lowest.checked_neg().unwrap_or(i64::MIN);
                    let mut con = con(random, &session, [1, 0, 0]);
                    set(&mut con, "snBsOpId", bs);
                    set(&mut con, "snScOpId", sc.map(|id| if id == i64::MAX { i64::MIN } else { -id }));
                    let message = images::of(random, &con);
                    sessions::hand_over(stream, random, &image::of_session(&session), &message);
                }
            }
        }
    }
}

fn set(con: &mut Record, key: &'static str, id: Option<i64>) {
    con.fields.remove(key);
    if let Some(id) = id {
        con.fields.insert(key, Value::Whole(id.into()));
    }
}

/// A con of the session's own station.
fn con(random: &mut Random, session: &Session, version: [u16; 3]) -> Record {
    values::of(random, "con")
        .with("opId", Value::Whole(0))
        .with("version", Value::Version(version))
        .with("bsEui", Value::Whole(session.bs_eui.into()))
        .with("snBsUuid", Value::Bytes(session.bs_uuid.to_vec()))
}

/// Versions near 1.0 with and without a wrong ID; and each byte of EUI and UUID wrong in turn.
fn versions(stream: &mut Stream, random: &mut Random) {
    let session = Session { stored: true, highest: 5, lowest: -5, ..entries(random, State::Waiting) };
    let mut hand = |con: Record, random: &mut Random| {
        let message = images::of(random, &con);
        sessions::hand_over(stream, random, &image::of_session(&session), &message)
    };
    for version in
        [[1, 0, 0], [1, 0, 1], [1, 0, 65535], [1, 1, 0], [0, 0, 0], [0, 1, 0], [2, 0, 0], [257, 0, 0], [1, 256, 0], [65535, 0, 0]]
    {
        for id in [0, 1, -1] {
            hand(con(random, &session, version).with("opId", Value::Whole(id)), random);
        }
    }
    for bit in 0..128 {
        let mut uuid = session.bs_uuid.to_vec();
        uuid[bit / 8] ^= 1 << (bit % 8);
        hand(con(random, &session, [1, 0, 0]).with("snBsUuid", Value::Bytes(uuid)), random);
        let eui = session.bs_eui ^ 1 << (bit % 64);
        hand(con(random, &session, [1, 0, 0]).with("bsEui", Value::Whole(eui.into())), random);
    }
}
