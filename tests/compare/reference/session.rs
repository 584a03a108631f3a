//! One session with a base station: what a message, a start of the centre or a lost connection does to it.

use super::commands::number;
use super::fields::Value;
use super::record::Record;
use super::refusal::*;

/// "States: waiting, connecting, open."
#[derive(Clone, Copy, Debug, PartialEq, Eq)]
pub enum State {
    Waiting = 0,
    Connecting = 1,
    Open = 2,
}

/// "Entries sit in sixteen places for each side; ID 0 is free and never matches." The kind is the number of the start.
#[derive(Clone, Copy, Debug, Default, PartialEq, Eq)]
pub struct Place {
    pub id: i64,
    pub kind: u8,
}

#[derive(Clone, Debug)]
pub struct Session {
    pub state: State,
    pub stored: bool,
    pub bs_eui: u64,
    pub bs_uuid: [u8; 16],
    pub sc_uuid: [u8; 16],
    pub highest: i64,
    pub lowest: i64,
    pub station: [Place; 16],
    pub centre: [Place; 16],
}

/// What the host lends with each message.
pub struct Host {
    pub sc_eui: u64,
    pub uuid: [u8; 16],
    pub sign: [u8; 4],
}

/// What happened, by the header's numbers.
#[derive(Clone, Copy, Debug, PartialEq, Eq)]
pub enum Happened {
    Begun = 1,
    Resumed = 2,
    Opened = 3,
    Started = 4,
    Completed = 5,
    Answered = 6,
    Issued = 7,
    Stored = 8,
    Nothing = 9,
}

/// A step: the session after it and the message to send, if any.
pub struct Step {
    pub session: Session,
    pub happened: Happened,
    pub send: Option<Record>,
}

/// "The centre starts ping, status, attPrp, detPrp", and by document 02's Q-2 dlDataQue.
pub const CENTRE_STARTS: [&str; 5] = ["ping", "status", "attPrp", "detPrp", "dlDataQue"];

/// "the lowest free place is taken"
fn open(places: &mut [Place; 16], id: i64, start: &str) -> Result<(), Refusal> {
    let free = places.iter_mut().find(|place| place.id == 0).ok_or(SIXTEEN_OPEN)?;
    *free = Place { id, kind: number(start) };
    Ok(())
}

/// "of several matching entries the lowest"
fn close(places: &mut [Place; 16], id: i64, start: &str) -> Result<(), Refusal> {
    let matches = |place: &&mut Place| id != 0 && place.id == id && place.kind == number(start);
    *places.iter_mut().find(matches).ok_or(STATE)? = Place::default();
    Ok(())
}

impl Session {
    pub fn arrive(&self, message: &Record, host: &Host) -> Result<Step, Refusal> {
        match (self.state, message.command.name) {
            // "Waiting takes only con"
            (State::Waiting, "con") => self.connect(message, host),
            (State::Connecting, "conCmp") => self.connected(message),
            // "stations start ping, det, ulData"; "the reply is the Rsp"
            (State::Open, "ping") => self.started(message, Record::new("pingRsp", message.op_id())),
            (State::Open, "det") => {
                self.started(message, Record::new("detRsp", message.op_id()).with("sign", Value::Bytes(host.sign.to_vec())))
            }
            (State::Open, "ulData") => self.started(message, Record::new("ulDataRsp", message.op_id())),
            // "The entry is freed by a Cmp of the same kind and ID."
            (State::Open, "pingCmp") => self.completed(message, "ping"),
            (State::Open, "detCmp") => self.completed(message, "det"),
            (State::Open, "ulDataCmp") => self.completed(message, "ulData"),
            // "A matching Rsp is replied to with Cmp and frees the entry."
            (State::Open, "pingRsp") => self.answered(message, "ping", "pingCmp"),
            (State::Open, "statusRsp") => self.answered(message, "status", "statusCmp"),
            (State::Open, "attPrpRsp") => self.answered(message, "attPrp", "attPrpCmp"),
            (State::Open, "detPrpRsp") => self.answered(message, "detPrp", "detPrpCmp"),
            (State::Open, "dlDataQueRsp") => self.answered(message, "dlDataQue", "dlDataQueCmp"),
            _ => Err(STATE),
        }
    }

    /// "tests 17, 18 (opId must be 0), 16"
    fn connect(&self, con: &Record, host: &Host) -> Result<Step, Refusal> {
        if con.op_id() != 0 {
            return Err(ID_OUT_OF_ORDER);
        }
        // "con whose major.minor isn't 1.0"
        if !matches!(con.fields["version"], Value::Version([1, 0, _])) {
            return Err(VERSION);
        }
        let resumed = self.resumes(con);
        let session = if resumed { self.clone() } else { begun(con, host) };
        // "conRsp carries version 1.0.0, the host's scEui, whether it resumed and the session's centre UUID"
        let reply = Record::new("conRsp", 0)
            .with("version", Value::Version([1, 0, 0]))
            .with("scEui", Value::Whole(host.sc_eui.into()))
            .with("snResume", Value::Flag(resumed))
            .with("snScUuid", Value::Bytes(session.sc_uuid.to_vec()));
        let happened = if resumed { Happened::Resumed } else { Happened::Begun };
        Ok(Step { session: Session { state: State::Connecting, ..session }, happened, send: Some(reply) })
    }

    /// "It resumes exactly if a session is stored with the same bsEui and snBsUuid, an snBsOpId if present is at most the
    /// highest station ID known, and an snScOpId if present is at least the lowest centre ID issued."
    fn resumes(&self, con: &Record) -> bool {
        let same_uuid = matches!(&con.fields["snBsUuid"], Value::Bytes(uuid) if uuid[..] == self.bs_uuid);
        self.stored
            && con.whole("bsEui") == Some(self.bs_eui.into())
            && same_uuid
            && con.whole("snBsOpId").map_or(true, |id| id <= self.highest_known().into())
            && con.whole("snScOpId").map_or(true, |id| id >= self.lowest_issued().into())
    }

    /// "Before any, both count as 0, as do a negative highest or a positive lowest handed in."
    fn highest_known(&self) -> i64 {
        self.highest.max(0)
    }

    fn lowest_issued(&self) -> i64 {
        self.lowest.min(0)
    }

    /// "conCmp with ID 0 opens; all else is 17."
    fn connected(&self, message: &Record) -> Result<Step, Refusal> {
        if message.op_id() != 0 {
            return Err(STATE);
        }
        let session = Session { state: State::Open, ..self.clone() };
        Ok(Step { session, happened: Happened::Opened, send: None })
    }

    /// "with an ID above the highest known and above 0 (gaps allowed)"; "Order 17, 18, 19."
    fn started(&self, message: &Record, reply: Record) -> Result<Step, Refusal> {
        if message.op_id() <= self.highest_known() {
            return Err(ID_OUT_OF_ORDER);
        }
        let mut session = self.clone();
        open(&mut session.station, message.op_id(), message.command.name)?;
        session.highest = message.op_id();
        Ok(Step { session, happened: Happened::Started, send: Some(reply) })
    }

    fn completed(&self, message: &Record, start: &str) -> Result<Step, Refusal> {
        let mut session = self.clone();
        close(&mut session.station, message.op_id(), start)?;
        Ok(Step { session, happened: Happened::Completed, send: None })
    }

    fn answered(&self, message: &Record, start: &str, complete: &str) -> Result<Step, Refusal> {
        let mut session = self.clone();
        close(&mut session.centre, message.op_id(), start)?;
        Ok(Step { session, happened: Happened::Answered, send: Some(Record::new(complete, message.op_id())) })
    }

    /// The session after a start of the centre, with the ID issued as its lowest.
    pub fn begin(&self, name: &str) -> Result<Session, Refusal> {
        if self.state != State::Open || !CENTRE_STARTS.contains(&name) {
            return Err(STATE);
        }
        // "downward from −1, each one below the last. At −2^63 no more start (18)."
        let id = self.lowest_issued().checked_sub(1).ok_or(ID_OUT_OF_ORDER)?;
        let mut session = Session { lowest: id, ..self.clone() };
        open(&mut session.centre, id, name)?;
        Ok(session)
    }

    /// "Lost connection while connecting or open: waiting, session stored; while waiting nothing changes."
    pub fn lost(&self) -> Step {
        if self.state == State::Waiting {
            return Step { session: self.clone(), happened: Happened::Nothing, send: None };
        }
        let session = Session { state: State::Waiting, stored: true, ..self.clone() };
        Step { session, happened: Happened::Stored, send: None }
    }
}

/// "Otherwise IDs and open operations are cleared, and bsEui, snBsUuid and the host's new UUID are taken."
fn begun(con: &Record, host: &Host) -> Session {
    let bs_uuid = match &con.fields["snBsUuid"] {
        Value::Bytes(uuid) => uuid[..].try_into().expect("a valid con has 16 bytes"),
        _ => unreachable!(),
    };
    Session {
        state: State::Connecting,
        stored: false,
        bs_eui: con.whole("bsEui").expect("a valid con has one") as u64,
        bs_uuid,
        sc_uuid: host.uuid,
        highest: 0,
        lowest: 0,
        station: Default::default(),
        centre: Default::default(),
    }
}
