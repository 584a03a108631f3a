//! Sessions with any contents, and messages that may fit them: single cases of chz_arrive and chz_lost.

use super::random::Random;
use super::writes::{room, ROOM};
use super::{cons, images, values};
use crate::reference::commands::COMMANDS;
use crate::reference::fields::Value;
use crate::reference::image::Image;
use crate::reference::record::Record;
use crate::reference::session::{Place, Session, State};
use crate::reference::{calls, image};
use crate::stream::Stream;

/// How long a session's image was before it had room for later releases.
pub const FORMER: usize = 352;

pub fn arrive(stream: &mut Stream, random: &mut Random) {
    let session = any(random);
    let message = match random.below(16) {
        0 => images::spoiled(random),
        1 => images::wrong_length(random),
        _ => {
            let record = fitting(random, &session);
            let mut message = images::of(random, &record);
            if random.one_in(16) {
                images::spoil(random, &mut message);
            }
            message
        }
    };
    let session = faulty(random, &session);
    hand_over(stream, random, &session, &message);
}

pub fn lost(stream: &mut Stream, random: &mut Random) {
    let session = any(random);
    stream.lost(&faulty(random, &session));
}

/// Hands a message over with any bytes of the host's and any room; the session after it.
pub fn hand_over(stream: &mut Stream, random: &mut Random, session: &[u8], message: &Image) -> Vec<u8> {
    let sc_eui = random.number();
    let (mut uuid, mut sign) = (random.bytes(16), random.bytes(4));
    match random.below(60) {
        0 => uuid.resize(random.pick(&[0, 15, 17, 32]), 1),
        1 => sign.resize(random.pick(&[0, 3, 5, 16]), 1),
        _ => {}
    }
    let need = calls::arrive(&mut session.to_vec(), message, sc_eui, &uuid, &sign, &mut [0; ROOM]) >> 16;
    let room = room(random, need as usize);
    stream.arrive(session, message, sc_eui, &uuid, &sign, &room).1
}

pub fn any(random: &mut Random) -> Session {
    let mut uuid = [0; 16];
    uuid.copy_from_slice(&random.bytes(16));
    let mut sc_uuid = uuid;
    sc_uuid.reverse();
    Session {
        state: random.pick(&[State::Waiting, State::Connecting, State::Open, State::Open, State::Open]),
        stored: !random.one_in(4),
        bs_eui: random.number(),
        bs_uuid: uuid,
        sc_uuid,
        highest: id(random),
        lowest: -id(random).max(-i64::MAX),
        station: places(random, &[3, 7, 9]),
        centre: places(random, &[5, 6, 9, 12, 21]),
    }
}

/// Small ones of either sign, and the edges.
fn id(random: &mut Random) -> i64 {
    let small = random.below(30) as i64;
    let any = random.next() as i64;
    random.pick(&[small, small, small, -small, 0, any, i64::MAX, i64::MAX - 1, i64::MIN, i64::MIN + 1])
}

/// Sixteen places: all free, some, or none; the kinds mostly those that the side starts.
fn places(random: &mut Random, starts: &[u8]) -> [Place; 16] {
    let free = random.pick(&[0, 0, 1, 4, 4, 8, 15, 16]);
    let mut places = [Place::default(); 16];
    for place in &mut places {
        let any = random.below(COMMANDS.len()) as u8;
        let kind = if random.one_in(5) { any } else { random.pick(starts) };
        place.kind = if random.one_in(20) { random.byte() } else { kind };
        let open = id(random);
        place.id = if random.below(16) < free {
            0
        } else if open == 0 {
            1
        } else {
            open
        };
    }
    places
}

/// The image, at times with a fault that makes it no session's.
pub fn faulty(random: &mut Random, session: &Session) -> Vec<u8> {
    let mut image = image::of_session(session);
    let usual = image.len();
    match random.below(60) {
        0 => image[344] = random.pick(&[3, 4, 255]),
        1 => image[345] = random.pick(&[2, 3, 255]),
        2 => image[random.within(346, usual - 1)] = random.pick(&[1, 0x80]),
        3 => image.resize(random.pick(&[0, 1, usual - 1, usual + 1, FORMER, 584]), 0),
        4 => image = random.bytes(usual),
        // any bytes, but state, stored and reserved stay
        5..=8 => image[..344].copy_from_slice(&random.bytes(344)),
        _ => {}
    }
    image
}

/// A message that may fit the session.
pub fn fitting(random: &mut Random, session: &Session) -> Record {
    if random.one_in(8) {
        return values::any(random);
    }
    match session.state {
        State::Waiting => cons::one(random, session),
        State::Connecting => {
            let name = random.pick(&["conCmp", "conCmp", "conCmp", "con", "ping"]);
            values::of(random, name).with("opId", Value::Whole(random.pick(&[0, 0, 0, 1, -1])))
        }
        State::Open if random.one_in(3) => start(random, session),
        State::Open => about_entry(random, session),
    }
}

/// A start of the station, with an ID just high enough or just not.
pub fn start(random: &mut Random, session: &Session) -> Record {
    let name = random.pick(&["ping", "det", "ulData", "ping", "det", "ulData", "status", "attPrp", "detPrp", "dlDataQue"]);
    let gap = random.pick(&[1, 1, 1, 2, 5, 0, -1]);
    let base = random.pick(&[session.highest.max(0), session.highest.max(0), session.highest, 0]);
    values::of(random, name).with("opId", Value::Whole(base.saturating_add(gap).into()))
}

/// A Rsp or Cmp under the ID of an entry; the kind and side mostly fit.
pub fn about_entry(random: &mut Random, session: &Session) -> Record {
    let stations = random.one_in(2);
    let place = random.pick(if stations { &session.station } else { &session.centre });
    let start = COMMANDS.get(place.kind as usize).map_or("ping", |command| command.name);
    let suffix = if stations { "Cmp" } else { "Rsp" };
    let usual = format!("{}{}", start, random.pick(&[suffix, suffix, suffix, suffix, "Rsp", "Cmp"]));
    let odd = random.pick(&[
        "pingCmp",
        "pingRsp",
        "detCmp",
        "ulDataCmp",
        "statusRsp",
        "attPrpRsp",
        "detPrpRsp",
        "ulDataRsp",
        "statusCmp",
        "dlDataQueRsp",
        "dlDataQueCmp",
    ]);
    let known = COMMANDS.iter().any(|command| command.name == usual);
    let name = if known && !random.one_in(6) { &usual } else { odd };
    let id = if random.one_in(10) { place.id.wrapping_add(1) } else { place.id };
    values::of(random, name).with("opId", Value::Whole(id.into()))
}
