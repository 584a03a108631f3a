//! con messages that nearly resume a session: each of the four conditions true or false.

use super::random::Random;
use super::values;
use crate::reference::fields::Value;
use crate::reference::record::Record;
use crate::reference::session::Session;

pub fn one(random: &mut Random, session: &Session) -> Record {
    let patch = random.number() as u16;
    let version = random.pick(&[[1, 0, 0], [1, 0, patch], [1, 0, patch], [1, 0, 65535]]);
    let mut con = values::of(random, "con").with("opId", Value::Whole(0)).with("version", Value::Version(version));
    if !random.one_in(8) {
        con = con.with("bsEui", Value::Whole(session.bs_eui.into()));
    }
    let mut uuid = session.bs_uuid;
    if random.one_in(8) {
        uuid[random.below(16)] ^= 1 << random.below(8);
    }
    con = con.with("snBsUuid", Value::Bytes(uuid.to_vec()));
    known_ids(random, &mut con, session);
    if random.one_in(10) {
        unfit(random, con)
    } else {
        con
    }
}

/// IDs just enough to resume, and just not, or absent.
fn known_ids(random: &mut Random, con: &mut Record, session: &Session) {
    con.fields.remove("snBsOpId");
    con.fields.remove("snScOpId");
    let near = random.pick(&[0, 0, 0, 1, -1]);
    if random.one_in(2) {
        let id = random.pick(&[session.highest, session.highest.max(0), session.highest.max(0), 0]);
        con.fields.insert("snBsOpId", Value::Whole((i128::from(id) + near).clamp(0, i64::MAX.into())));
    }
    if random.one_in(2) {
        let id = random.pick(&[session.lowest, session.lowest.min(0), session.lowest.min(0), 0]);
        con.fields.insert("snScOpId", Value::Whole((i128::from(id) + near).clamp(i64::MIN.into(), 0)));
    }
}

/// An ID that isn't 0, a version that isn't 1.0, or both.
fn unfit(random: &mut Random, mut con: Record) -> Record {
    let faults = random.within(1, 3);
    if faults & 1 != 0 {
        con = con.with("opId", Value::Whole(random.pick(&[1, -1, i64::MIN, i64::MAX]).into()));
    }
    if faults & 2 != 0 {
        con = con.with(
            "version",
            Value::Version(random.pick(&[[0, 0, 0], [1, 1, 0], [2, 0, 0], [0, 1, 0], [1, 65535, 0], [257, 0, 0], [1, 256, 0]])),
        );
    }
    con
}
