//! What stations send in the course of a random day.

use crate::cases::random::Random;
use crate::cases::{cons, sessions, values};
use crate::dress;
use crate::moods::Mood;
use crate::recording::Recording;
use crate::reference::commands::COMMANDS;
use crate::reference::day::{Outcome, STATIONS};
use crate::reference::fields::Value;
use crate::reference::frame::{framed, MOST};
use crate::reference::record::Record;
use crate::reference::session::{Place, Session, State};
use crate::world::{Meter, Station};

/// A packet that a station has heard and not sent yet.
#[derive(Clone, Copy)]
struct Packet {
    station: usize,
    eui: u64,
    counter: u32,
}

pub struct Traffic<'a> {
    random: &'a mut Random,
    mood: Mood,
    pub recording: Recording,
    stations: Vec<Station>,
    meters: Vec<Meter>,
    heard: Vec<Packet>,
    /// How many messages a station still sends as if it were open.
    blind: [usize; STATIONS],
}

impl<'a> Traffic<'a> {
    pub fn new(
        random: &'a mut Random,
        mood: Mood,
        recording: Recording,
        stations: Vec<Station>,
        meters: Vec<Meter>,
    ) -> Traffic<'a> {
        Traffic { random, mood, recording, stations, meters, heard: Vec::new(), blind: [0; STATIONS] }
    }

    fn session(&self, station: &Station) -> Session {
        self.recording.centre.sessions[station.number].clone()
    }

    /// One record more, of any station.
    pub fn step(&mut self) -> Outcome {
        let station = self.random.pick(&self.stations);
        let blind = self.blind[station.number] > 0;
        self.blind[station.number] -= usize::from(blind);
        let stubborn = blind || self.random.below(100) < self.mood.stubborn;
        match self.session(&station).state {
            State::Waiting if !stubborn => self.connect(&station),
            State::Connecting if !stubborn => self.connected(&station),
            State::Waiting if blind && self.random.one_in(3) => self.connected(&station),
            _ => self.work(&station),
        }
    }

    fn work(&mut self, station: &Station) -> Outcome {
        let mood = self.mood;
        let mut kind = self.random.below(100);
        let mut is = |share: usize| {
            let is = kind < share;
            kind = kind.wrapping_sub(share);
            is
        };
        if is(mood.damaged) {
            self.damaged(station)
        } else if is(mood.odd) {
            self.odd(station)
        } else if is(mood.connects) {
            self.connect(station)
        } else if is(mood.completes) {
            self.complete(station)
        } else if is(8) {
            let name = self.random.pick(&["ping", "det"]);
            self.start(station, name)
        } else {
            self.uplink(station)
        }
    }

    /// What connects a station; where it is refused, the station may not notice.
    fn connecting(&mut self, station: &Station, record: &Record) -> Outcome {
        let outcome = self.send(station, record);
        if matches!(outcome, Outcome::Unfit(_)) && self.random.one_in(2) {
            self.blind[station.number] = self.random.within(1, 4);
        }
        outcome
    }

    fn connected(&mut self, station: &Station) -> Outcome {
        let id = if self.random.one_in(10) { self.random.pick(&[1, -1, i64::MAX]) } else { 0 };
        self.connecting(station, &Record::new("conCmp", id))
    }

    /// The first con of a station, or one that nearly resumes its session; at times one that is refused.
    fn connect(&mut self, station: &Station) -> Outcome {
        let mut con = self.con(station);
        if self.random.one_in(12) {
            con = con.with("version", Value::Version(self.random.pick(&[[1, 1, 0], [2, 0, 0], [0, 0, 0]])));
        }
        self.connecting(station, &con)
    }

    fn con(&mut self, station: &Station) -> Record {
        let session = self.session(station);
        let con = cons::one(self.random, &session);
        let own =
            con.clone().with("bsEui", Value::Whole(station.eui.into())).with("snBsUuid", Value::Bytes(station.uuid.to_vec()));
        let began = session.bs_eui == station.eui;
        if began && !self.random.one_in(12) {
            con
        } else {
            own
        }
    }

    /// An ID that is high enough, or at times isn't.
    fn id(&mut self, station: &Station) -> i64 {
        let highest = self.session(station).highest;
        if self.random.one_in(30) {
            return self.random.pick(&[highest, highest - 1, 0, -1, i64::MIN, 1]);
        }
        if self.random.one_in(2000) {
            return i64::MAX;
        }
        highest.saturating_add(self.random.pick(&[1, 1, 1, 1, 1, 2, 300]))
    }

    fn start(&mut self, station: &Station, name: &str) -> Outcome {
        let id = self.id(station);
        let record = values::of(self.random, name).with("opId", Value::Whole(id.into()));
        self.send(station, &record)
    }

    /// A packet that this station has heard; where it isn't taken, it is mostly sent again later.
    fn uplink(&mut self, station: &Station) -> Outcome {
        let packet = self.take_packet(station);
        let record = self.ul_data(station, packet);
        let outcome = self.send(station, &record);
        if matches!(outcome, Outcome::Unfit(_)) && !self.random.one_in(4) {
            self.heard.push(packet);
        }
        outcome
    }

    fn ul_data(&mut self, station: &Station, packet: Packet) -> Record {
        let id = self.id(station);
        values::of(self.random, "ulData")
            .with("opId", Value::Whole(id.into()))
            .with("epEui", Value::Whole(packet.eui.into()))
            .with("packetCnt", Value::Whole(packet.counter.into()))
    }

    /// Mostly the one that has waited longest; where none waits, a meter sends one.
    fn take_packet(&mut self, station: &Station) -> Packet {
        loop {
            let waiting: Vec<usize> = (0..self.heard.len()).filter(|i| self.heard[*i].station == station.number).collect();
            if !waiting.is_empty() {
                let any = self.random.pick(&waiting);
                let which = if self.random.one_in(5) { any } else { waiting[0] };
                return self.heard.remove(which);
            }
            self.meter_sends(station);
        }
    }

    /// Heard by this station, and mostly by others besides.
    fn meter_sends(&mut self, station: &Station) {
        let random = &mut *self.random;
        let meter = random.below(self.meters.len());
        let last = self.meters[meter].counter;
        let counter = match random.below(20) {
            0 => last,
            1 => last.saturating_sub(random.within(1, 4) as u32),
            2 => last.saturating_add(random.within(2, 400) as u32),
            _ => last.saturating_add(1),
        };
        let counter = if random.one_in(300) { random.number() as u32 } else { counter };
        let (eui, hearers) = (self.meters[meter].eui, random.within(0, self.mood.hearers - 1));
        self.meters[meter].counter = counter;
        self.heard.push(Packet { station: station.number, eui, counter });
        for _ in 0..hearers {
            let other = random.pick(&self.stations).number;
            self.heard.push(Packet { station: other, eui, counter });
        }
    }

    /// The Cmp of an operation that is open.
    fn complete(&mut self, station: &Station) -> Outcome {
        let session = self.session(station);
        let open: Vec<&Place> = session.station.iter().filter(|place| place.id != 0).collect();
        if open.is_empty() {
            return self.uplink(station);
        }
        let place = self.random.pick(&open);
        let name = format!("{}Cmp", COMMANDS[place.kind as usize].name);
        self.send(station, &Record::new(&name, place.id))
    }

    /// What mostly doesn't fit: any command under any ID, answers to what the centre never started, its own starts.
    fn odd(&mut self, station: &Station) -> Outcome {
        const ANSWERS: [&str; 5] = ["pingRsp", "statusRsp", "attPrpRsp", "detPrpRsp", "dlDataQueRsp"];
        let session = self.session(station);
        let random = &mut *self.random;
        let record = match random.below(7) {
            0 => sessions::fitting(random, &session),
            1 => sessions::about_entry(random, &session),
            2 => sessions::start(random, &session),
            3 => values::any(random),
            4 => {
                let name = random.pick(&ANSWERS);
                values::of(random, name).with("opId", Value::Whole(random.pick(&[-1, -2, 0, 1])))
            }
            5 => {
                let name = random.pick(&["dlDataQue", "dlDataQueCmp", "status", "attPrp", "detPrp"]);
                values::of(random, name).with("opId", Value::Whole((session.highest.saturating_add(1)).into()))
            }
            _ => {
                let name = random.pick(&["conCmp", "conRsp", "ulDataRsp", "detRsp"]);
                values::of(random, name).with("opId", Value::Whole(random.pick(&[0, 0, 1])))
            }
        };
        self.send(station, &record)
    }

    /// A message that mostly can't be read any more, in a whole frame.
    fn damaged(&mut self, station: &Station) -> Outcome {
        let record = match self.random.below(6) {
            0 => self.con(station),
            1 => Record::new("conCmp", 0),
            2 => values::any(self.random),
            _ => {
                let packet = self.take_packet(station);
                self.ul_data(station, packet)
            }
        };
        let payload = dress::damaged(self.random, &record);
        self.add(station, &payload)
    }

    fn send(&mut self, station: &Station, record: &Record) -> Outcome {
        let payload = dress::any(self.random, record);
        self.add(station, &payload)
    }

    /// A payload that is empty or too long for a frame is left out for a plain one.
    fn add(&mut self, station: &Station, payload: &[u8]) -> Outcome {
        let lawful = !payload.is_empty() && payload.len() <= MOST;
        let frame = framed(if lawful { payload } else { &[0x80] });
        let gap = self.gap();
        self.recording.add(gap, station.number, &frame)
    }

    /// Mostly some seconds; at times 0, any number of bits, or all that is left.
    fn gap(&mut self) -> u64 {
        let left = u64::MAX - self.recording.time();
        let random = &mut *self.random;
        let gap = match random.below(40) {
            0 | 1 => 0,
            2 | 3 => random.number().min(left / 2),
            4 if random.one_in(60) => left,
            _ => random.below(5_000_000_000) as u64,
        };
        gap.min(left)
    }
}
