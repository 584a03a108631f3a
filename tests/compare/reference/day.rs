//! A recorded day played back, document 02's Q-3: "a program that runs a trace through sessions and meter table".

use super::image;
use super::layout::{size, SESSION};
use super::read::read;
use super::record::Record;
use super::refusal::*;
use super::session::{Happened, Host, Session};
use super::table::{self, Credit, Row};
use super::{frame, trace};

/// "25 station over 63"
pub const STATIONS: usize = 64;
/// "enrolments, 14 bytes each ... at most 1,024"
pub const ENROLMENT: usize = 14;
pub const METERS: usize = 1024;

/// A session for each station, and one table.
pub struct Centre {
    pub sessions: Vec<Session>,
    pub rows: Vec<Row>,
}

/// What became of a whole frame.
#[derive(Clone, Debug, PartialEq, Eq)]
pub enum Outcome {
    /// Its payload is refused, 4 to 15.
    Unread(Refusal),
    /// The session refused the message.
    Unfit(Refusal),
    /// The session took it, and it is no ulData.
    Step(Happened),
    /// A ulData that the session took, and what the table made of it.
    Reading { eui: u64, counter: u32, credit: Result<Credit, Refusal> },
}

/// "A con is played as after a lost connection, with UUID, scEui and signs zero"
const HOST: Host = Host { sc_eui: 0, uuid: [0; 16], sign: [0; 4] };

impl Centre {
    pub fn new(rows: Vec<Row>) -> Centre {
        let new = image::to_session(&vec![0; size(SESSION)]).expect("all zeros is a new session");
        Centre { sessions: vec![new; STATIONS], rows }
    }

    pub fn arrives(&mut self, station: usize, frame: &[u8]) -> Outcome {
        match read(&frame[frame::HEADER..]) {
            Ok((message, _)) => self.message(station, &message),
            Err(refusal) => Outcome::Unread(refusal),
        }
    }

    fn message(&mut self, station: usize, message: &Record) -> Outcome {
        let session = &mut self.sessions[station];
        // a con that is refused has lost the connection all the same
        if message.command.name == "con" {
            *session = session.lost().session;
        }
        let step = match session.arrive(message, &HOST) {
            Ok(step) => step,
            Err(refusal) => return Outcome::Unfit(refusal),
        };
        *session = step.session;
        // "Only a ulData the session accepts goes to the table"
        if message.command.name != "ulData" {
            return Outcome::Step(step.happened);
        }
        let number = |key| message.whole(key).expect("a valid ulData has it");
        let (eui, counter) = (number("epEui") as u64, number("packetCnt") as u32);
        let credit = table::uplink(&mut self.rows, eui, counter, station as u64).map(|credited| credited.0);
        Outcome::Reading { eui, counter, credit }
    }
}

impl Outcome {
    /// "a reading new there prints station, EUI and counter in decimal, other messages nothing"
    pub fn line(&self, station: usize) -> String {
        match self {
            Outcome::Reading { eui, counter, credit: Ok(Credit::New) } => format!("{} {} {}\n", station, eui, counter),
            _ => String::new(),
        }
    }
}

/// "EUI, short address, counter, big endian"; "cut: 33, then EUI twice: 22, then more: 23", entry by entry.
pub fn enrolled(enrolments: &[u8]) -> Result<Vec<Row>, Refusal> {
    let mut rows = vec![Row { used: 0, eui: 0, sh_addr: 0, last: 0, heard: 0 }; METERS];
    let number = |bytes: &[u8]| bytes.iter().fold(0, |number, byte| number * 256 + u64::from(*byte));
    for entry in enrolments.chunks(ENROLMENT) {
        if entry.len() < ENROLMENT {
            return Err(INPUT_ENDS);
        }
        table::enrol(&mut rows, number(&entry[..8]), number(&entry[8..10]) as u16, number(&entry[10..]) as u32)?;
    }
    Ok(rows)
}

/// What is printed of a day: "The first fault from left to right ends the run and prints `refused` and its number."
pub fn play(trace: &[u8], enrolments: &[u8]) -> String {
    let mut lines = String::new();
    if let Err(refusal) = run(trace, enrolments, &mut lines) {
        lines += &format!("refused {}\n", refusal.number);
    }
    lines
}

fn run(trace: &[u8], enrolments: &[u8], lines: &mut String) -> Result<(), Refusal> {
    let mut centre = Centre::new(enrolled(enrolments)?);
    let mut rest = &trace[trace::open(trace)?..];
    let mut time = 0;
    while !rest.is_empty() {
        let record = trace::recorded(time, rest)?;
        let station = record.station as usize;
        *lines += &centre.arrives(station, record.frame).line(station);
        (time, rest) = (record.time, &rest[record.length..]);
    }
    Ok(())
}
