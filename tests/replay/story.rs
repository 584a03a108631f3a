//! The recorded day that ships here: five stations and ten meters, and in the course of eight hours everything that may happen to a
//! station. What is printed of each record is said here, beside the reference.

use crate::messages::{con, det, enrolment, ul_data, whole};
use crate::recording::Recording;
use crate::reference::day::Outcome;
use crate::reference::fields::Value;
use crate::reference::frame::{framed, HEADER};
use crate::reference::record::Record;
use crate::reference::write::write;

const ROOF: usize = 2;
const HILL: usize = 7;
const YARD: usize = 11;
const DOCK: usize = 40;
const TOWER: usize = 63;

/// Meters with the last counter that was billed, and the stations that hear them each hour; the ninth has the first one's last bytes
/// and short address.
const METERS: [(u64, u32, &[usize]); 9] = [
    (0x70B3_D567_7000_0001, 100, &[ROOF, HILL]),
    (0x70B3_D567_7000_0002, 0, &[ROOF]),
    (0x70B3_D567_7000_0003, 65_530, &[YARD, ROOF, DOCK]),
    (0x70B3_D567_7000_0004, 7, &[DOCK]),
    (0x70B3_D567_7000_0005, 250, &[TOWER]),
    (0x70B3_D567_7000_0006, 126, &[HILL, YARD]),
    (0x70B3_D567_7000_0007, 1_000_000, &[DOCK, TOWER]),
    (0x70B3_D567_7000_0008, 4_294_967_280, &[YARD]),
    (0x70B3_D568_7000_0001, 100, &[ROOF, YARD]),
];
/// A meter for what happens between the hours, enrolled with 500; and one that isn't enrolled.
const TENTH: u64 = 0x70B3_D567_7000_000A;
const STRANGER: u64 = 0x70B3_D567_7000_00FF;
/// The counter of packets that are told in vain: taken as new, it would be printed and make all later ones stale.
const VAIN: u32 = 999;

const SECOND: u64 = 1_000_000_000;
const HOUR: u64 = 3600 * SECOND;

pub struct Story {
    pub day: Recording,
    pub enrolments: Vec<u8>,
    /// What must be printed.
    pub said: String,
    /// The last operation of each station.
    id: [i64; 64],
    /// How long it is until the next record.
    gap: u64,
}

/// The whole day.
pub fn tell() -> Story {
    let mut enrolments: Vec<u8> = METERS.iter().flat_map(|(eui, last, _)| enrolment(*eui, *eui as u16, *last)).collect();
    enrolments.extend(enrolment(TENTH, TENTH as u16, 500));
    let mut story = Story { day: Recording::new(&enrolments), enrolments, said: String::new(), id: [0; 64], gap: 0 };
    story.morning();
    let between = [
        Story::other_operations,
        Story::resume,
        Story::new_sessions,
        Story::refused_con,
        Story::unreadable,
        Story::sixteen_open,
        Story::not_for_the_table,
        Story::whole_numbers,
    ];
    for (hour, then) in between.iter().enumerate() {
        story.hour(hour as u32 + 1);
        then(&mut story);
    }
    story
}

impl Story {
    /// A frame of which nothing is printed but what was said.
    fn frame(&mut self, station: usize, frame: &[u8]) -> Outcome {
        let outcome = self.day.add(self.gap, station, frame);
        self.gap = SECOND;
        assert_eq!(self.day.lines, self.said);
        outcome
    }

    fn send(&mut self, station: usize, record: &Record) {
        self.frame(station, &write(record));
    }

    /// Its payload is refused.
    fn unread(&mut self, station: usize, frame: &[u8], refusal: u8) {
        match self.frame(station, frame) {
            Outcome::Unread(is) => assert_eq!(is.number, refusal),
            other => panic!("{:?} instead of {}", other, refusal),
        }
    }

    /// The session refuses it.
    fn refused(&mut self, station: usize, record: &Record, refusal: u8) {
        match self.frame(station, &write(record)) {
            Outcome::Unfit(is) => assert_eq!(is.number, refusal),
            other => panic!("{:?} instead of {}", other, refusal),
        }
    }

    fn next_id(&mut self, station: usize) -> i64 {
        self.id[station] += 1;
        self.id[station]
    }

    fn say(&mut self, station: usize, meter: u64, counter: u32) {
        self.said += &format!("{} {} {}\n", station, meter, counter);
    }

    /// A station tells of a packet that is new, and completes the operation.
    fn tells(&mut self, station: usize, meter: u64, counter: u32) {
        self.say(station, meter, counter);
        self.tells_again(station, meter, counter);
    }

    /// A packet that is a copy, stale or of no meter here.
    fn tells_again(&mut self, station: usize, meter: u64, counter: u32) {
        let id = self.next_id(station);
        self.send(station, &ul_data(id, meter, counter));
        self.send(station, &Record::new("ulDataCmp", id));
    }

    fn con(&self, station: usize) -> Record {
        con(0x70B3_D567_0000_0000 + station as u64, station as u8)
    }

    /// A con that names what the station knows, as after a lost connection.
    fn con_again(&self, station: usize) -> Record {
        self.con(station).with("snBsOpId", whole(self.id[station] as u64)).with("snScOpId", whole(0))
    }

    fn connect(&mut self, station: usize, con: &Record) {
        self.send(station, con);
        self.send(station, &Record::new("conCmp", 0));
    }

    /// Before its con a station is heard in vain. The packet that a meter was enrolled with is billed already.
    fn morning(&mut self) {
        self.refused(TOWER, &ul_data(1, METERS[4].0, VAIN), 17);
        for station in [ROOF, HILL, YARD, DOCK, TOWER] {
            let con = self.con(station);
            self.connect(station, &con);
        }
        self.tells_again(TOWER, METERS[4].0, 250);
    }

    /// Each meter sends one packet: the first station that tells of it makes it new, the others add copies.
    fn hour(&mut self, hour: u32) {
        self.gap = HOUR;
        for (meter, last, hearers) in METERS {
            self.tells(hearers[0], meter, last + hour);
            hearers[1..].iter().for_each(|station| self.tells_again(*station, meter, last + hour));
        }
    }

    /// A ping, and a det whose counter leaves the table as it is.
    fn other_operations(&mut self) {
        for station in [ROOF, YARD] {
            let id = self.next_id(station);
            self.send(station, &Record::new("ping", id));
            self.send(station, &Record::new("pingCmp", id));
        }
        let id = self.next_id(ROOF);
        self.send(ROOF, &det(id, TENTH, VAIN));
        self.send(ROOF, &Record::new("detCmp", id));
        self.tells(ROOF, TENTH, 501);
    }

    /// The session goes on where it was: its IDs stay used, and an operation is completed that was open.
    fn resume(&mut self) {
        let open = self.next_id(HILL);
        self.say(HILL, TENTH, 502);
        self.send(HILL, &ul_data(open, TENTH, 502));
        let con = self.con_again(HILL);
        self.send(HILL, &con);
        self.connect(HILL, &con);
        self.refused(HILL, &ul_data(1, TENTH, VAIN), 18);
        self.send(HILL, &Record::new("ulDataCmp", open));
        self.tells(HILL, TENTH, 503);
    }

    /// Another UUID, another EUI, or an ID that isn't known here: a new session, whose IDs begin again.
    fn new_sessions(&mut self) {
        let other_uuid = self.con_again(DOCK).with("snBsUuid", Value::Bytes(vec![0xD0; 16]));
        let other_eui = other_uuid.clone().with("bsEui", whole(0xD0)).with("snBsOpId", whole(1));
        let unknown_id = other_eui.clone().with("snBsOpId", whole(2));
        let never_issued = other_eui.clone().with("snScOpId", Value::Whole(-1));
        for (con, counter) in [(other_uuid, 504), (other_eui, 505), (unknown_id, 506), (never_issued, 507)] {
            self.connect(DOCK, &con);
            self.id[DOCK] = 0;
            self.tells(DOCK, TENTH, counter);
        }
        self.refused(DOCK, &Record::new("ulDataCmp", 7), 17);
    }

    /// A con that is refused has lost the connection all the same; one that can't be read does nothing.
    fn refused_con(&mut self) {
        let con = self.con_again(TOWER);
        let id = self.id[TOWER] + 1;
        let other_version = con.clone().with("version", Value::Version([2, 0, 0]));
        let other_id = con.clone().with("opId", Value::Whole(1));
        for (wrong, refusal) in [(other_version, 16), (other_id, 18)] {
            self.refused(TOWER, &wrong, refusal);
            self.refused(TOWER, &Record::new("conCmp", 0), 17);
            self.refused(TOWER, &ul_data(id, TENTH, VAIN), 17);
        }
        self.send(TOWER, &con);
        self.refused(TOWER, &Record::new("conCmp", 1), 17);
        self.refused(TOWER, &ul_data(id, TENTH, VAIN), 17);
        self.send(TOWER, &Record::new("conCmp", 0));
        self.tells(TOWER, TENTH, 508);

        let mut unreadable = self.con_again(YARD);
        unreadable.fields.remove("bidi");
        self.unread(YARD, &write(&unreadable), 14);
        self.tells(YARD, TENTH, 509);
    }

    /// A payload for each refusal from 4 to 15.
    fn unreadable(&mut self) {
        for (refusal, payload) in unreadable_payloads() {
            self.unread(ROOF, &framed(&payload), refusal);
        }
        self.tells(ROOF, TENTH, 510);
    }

    /// The seventeenth is refused, and taken when one of the sixteen is completed.
    fn sixteen_open(&mut self) {
        let pings: Vec<i64> = (0..16).map(|_| self.next_id(YARD)).collect();
        pings.iter().for_each(|id| self.send(YARD, &Record::new("ping", *id)));
        let id = self.next_id(YARD);
        self.refused(YARD, &Record::new("ulDataCmp", pings[4]), 17);
        self.refused(YARD, &ul_data(id, TENTH, VAIN), 19);
        self.send(YARD, &Record::new("pingCmp", pings[4]));
        self.say(YARD, TENTH, 511);
        self.send(YARD, &ul_data(id, TENTH, 511));
        self.refused(YARD, &Record::new("pingCmp", pings[4]), 17);
        pings.iter().filter(|ping| **ping != pings[4]).for_each(|ping| self.send(YARD, &Record::new("pingCmp", *ping)));
        self.send(YARD, &Record::new("ulDataCmp", id));
    }

    /// A stale packet, one again from the same station, a meter that isn't enrolled; and what a station can't send at all.
    fn not_for_the_table(&mut self) {
        self.tells_again(HILL, METERS[0].0, 103);
        self.tells_again(ROOF, METERS[0].0, 107);
        self.tells_again(DOCK, STRANGER, 5);
        self.refused(DOCK, &ul_data(self.id[DOCK], TENTH, VAIN), 18);
        for name in ["pingRsp", "attPrpRsp", "dlDataQueRsp", "dlDataQueCmp", "ulDataRsp", "conCmp"] {
            self.refused(DOCK, &Record::new(name, -1), 17);
        }
        let downlink = Record::new("dlDataQue", self.id[DOCK] + 1)
            .with("epEui", whole(TENTH))
            .with("queId", whole(1))
            .with("cntDepend", Value::Flag(false))
            .with("userData", Value::Entries(vec![vec![1]]));
        self.refused(DOCK, &downlink, 17);
        self.tells(DOCK, TENTH, 512);
    }

    /// The second maker's station sends rssi as the integer −97.
    fn whole_numbers(&mut self) {
        let id = self.next_id(TOWER);
        self.say(TOWER, TENTH, 513);
        let payload = &write(&ul_data(id, TENTH, 513))[HEADER..];
        let float = b"\xA4rssi\xCB\xC0\x58\x40\0\0\0\0\0";
        let at = payload.windows(float.len()).position(|part| part == float).expect("rssi is a float");
        self.frame(TOWER, &framed(&[&payload[..at], b"\xA4rssi\xD0\x9F", &payload[at + float.len()..]].concat()));
        self.send(TOWER, &Record::new("ulDataCmp", id));
    }
}

fn unreadable_payloads() -> Vec<(u8, Vec<u8>)> {
    let ping = b"\x82\xA7command\xA4ping\xA4opId\x01";
    let with = |pair: &[u8]| [&[0x83], &ping[1..], pair].concat();
    vec![
        (4, ping[..19].to_vec()),
        (5, with(b"\xA1x\xC1")),
        (6, with(b"\xA1x\x91\x91\x91\x91\x91\x91\x91\x90")),
        (7, with(&[&b"\xA1x\xDC\x04\x00"[..], &[0xC0; 1024]].concat())),
        (8, with(b"\x07\x07")),
        (9, vec![0x90]),
        (10, [&ping[..], &[0]].concat()),
        (11, vec![0x80]),
        (12, b"\x82\xA7command\xA5error\xA4opId\x01".to_vec()),
        (13, with(b"\xA4opId\x01")),
        (14, b"\x82\xA7command\xA6ulData\xA4opId\x01".to_vec()),
        (15, b"\x82\xA7command\xA4ping\xA4opId\xC0".to_vec()),
    ]
}
