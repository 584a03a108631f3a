//! The header's calls on bytes and columns: the answer, and the lent bytes afterwards.
//! "Lent memory and session keep what they held" where a call is refused.

use super::commands::{number, COMMANDS};
use super::fields::Value;
use super::image::{of_record, of_session, to_record, to_session, Image, COMMAND};
use super::layout::{DATA, ENTRIES, MESSAGE};
use super::queue::{Queue, PLACES};
use super::record::Record;
use super::refusal::*;
use super::session::{Happened, Host};
use super::table::{self, Row};
use super::trace;

fn answer(happened: u8, value: usize) -> u64 {
    u64::from(happened) << 8 | (value as u64) << 16
}

fn answered(result: Result<u64, Refusal>) -> u64 {
    result.unwrap_or_else(|refusal| u64::from(refusal.number) | (refusal.place as u64) << 16)
}

pub fn frame(bytes: &[u8]) -> u64 {
    answered(super::frame::frame(bytes).map(|used| answer(0, used)))
}

pub fn form(payload: &[u8]) -> u64 {
    answered(super::elements::walk(payload).map(|(_, count)| answer(0, count)))
}

/// "All CHZ_MESSAGE bytes of the message are set, and as many of data as the message says. A message that is not CHZ_MESSAGE
/// bytes long, or data of fewer than CHZ_DATA, are 15 before all others."
pub fn read(payload: &[u8], lent: &mut Image) -> u64 {
    if lent.message.len() != MESSAGE || lent.data.len() < DATA {
        return answered(Err(INVALID));
    }
    answered(super::read::read(payload).map(|(record, count)| {
        let image = of_record(&record);
        lent.message.copy_from_slice(&image.message);
        lent.data[..image.data.len()].copy_from_slice(&image.data);
        answer(0, count)
    }))
}

/// At the start of the room, where the bytes must fit: "20 output shorter than the message needs".
fn fill(room: &mut [u8], bytes: &[u8]) -> Result<usize, Refusal> {
    room.get_mut(..bytes.len()).ok_or(ROOM_TOO_SHORT)?.copy_from_slice(bytes);
    Ok(bytes.len())
}

/// "it writes a whole frame at the start of the room, and the rest of the room stays"
fn put(record: &Record, room: &mut [u8]) -> Result<usize, Refusal> {
    fill(room, &super::write::write(record))
}

/// "Writing: 15 before 20."
pub fn write(image: &Image, room: &mut [u8]) -> u64 {
    let record = to_record(image).ok_or(INVALID);
    answered(record.and_then(|record| put(&record, room)).map(|length| answer(0, length)))
}

/// "An arriving record outside its ranges, or host bytes of a wrong length, is 15 before all these."
/// "A session step that can't fit its reply gives 20 last and takes no step."
pub fn arrive(session: &mut [u8], image: &Image, sc_eui: u64, uuid: &[u8], sign: &[u8], room: &mut [u8]) -> u64 {
    let mut step = || {
        let before = to_session(session).ok_or(INVALID)?;
        let host = Host { sc_eui, uuid: uuid.try_into().or(Err(INVALID))?, sign: sign.try_into().or(Err(INVALID))? };
        let step = before.arrive(&to_record(image).ok_or(INVALID)?, &host)?;
        let length = step.send.map_or(Ok(0), |reply| put(&reply, room))?;
        session.copy_from_slice(&of_session(&step.session));
        Ok(answer(step.happened as u8, length))
    };
    answered(step())
}

/// "a centre start writes its message under the ID issued, and a bad record there is 15 after 19"
pub fn begin(session: &mut [u8], image: &Image, room: &mut [u8]) -> u64 {
    let mut step = || {
        let before = to_session(session).ok_or(INVALID)?;
        // "bytes that are no session or a buffer of a wrong length are 15 before these"
        if image.message.len() != MESSAGE {
            return Err(INVALID);
        }
        let after = before.begin(COMMANDS.get(image.message[COMMAND] as usize).ok_or(STATE)?.name)?;
        let record = to_record(image).ok_or(INVALID)?.with("opId", Value::Whole(after.lowest.into()));
        let length = put(&record, room)?;
        session.copy_from_slice(&of_session(&after));
        Ok(answer(Happened::Issued as u8, length))
    };
    answered(step())
}

pub fn lost(session: &mut [u8]) -> u64 {
    answered(to_session(session).ok_or(INVALID).map(|before| {
        let step = before.lost();
        session.copy_from_slice(&of_session(&step.session));
        answer(step.happened as u8, 0)
    }))
}

/// A lent queue: its bytes, and what the calls have made of them since they were all zeros.
#[derive(Clone, Debug)]
pub struct Store {
    pub bytes: Vec<u8>,
    pub queue: Queue,
}

/// "Each of its CHZ_QUEUE places is a message, used exactly if its command is CHZ_DL_DATA_QUE."
pub const PLACE: usize = MESSAGE + DATA;
pub const QUEUE: usize = PLACES * PLACE;

/// The bytes beside a dlDataQue up to the end of its last entry.
pub fn said(record: &Record) -> usize {
    ENTRIES + record.entries().iter().map(Vec::len).sum::<usize>()
}

fn downlink(image: &Image) -> Option<Record> {
    to_record(image).filter(|record| record.command.name == "dlDataQue")
}

impl Store {
    /// "All zeros is an empty one."
    pub fn empty() -> Store {
        Store { bytes: vec![0; QUEUE], queue: Queue::empty() }
    }

    /// Any bytes as a queue, if each used place has a valid record.
    pub fn of(bytes: &[u8]) -> Option<Store> {
        if bytes.len() != QUEUE {
            return None;
        }
        let mut queue = Queue::empty();
        for (place, bytes) in bytes.chunks(PLACE).enumerate() {
            if bytes[COMMAND] == number("dlDataQue") {
                queue.0[place] = Some(downlink(&Image { message: bytes[..MESSAGE].to_vec(), data: bytes[MESSAGE..].to_vec() })?);
            }
        }
        Some(Store { bytes: bytes.to_vec(), queue })
    }

    /// "a queue that is not sizeof(chz_queue) bytes long is 15 in each of these calls"
    fn whole(&mut self) -> Result<&mut Queue, Refusal> {
        if self.bytes.len() == QUEUE {
            Ok(&mut self.queue)
        } else {
            Err(INVALID)
        }
    }

    /// "It is removed: its place is free, and all but its command still stands there."
    fn free(&mut self, place: usize) {
        self.bytes[place * PLACE + COMMAND] = 0;
    }
}

/// "15 bad record, then 27 queue ID there, then 28 exactly if all 32 are used"; "Takes the lowest free place for a dlDataQue; the
/// value is the place." The record stands there as it would be read, and behind it the data that it says as they were handed in.
pub fn add(store: &mut Store, image: &Image) -> u64 {
    let mut step = || {
        store.whole()?;
        let record = downlink(image).ok_or(INVALID)?;
        let place = store.queue.add(record.clone())?;
        let (message, data) = store.bytes[place * PLACE..][..PLACE].split_at_mut(MESSAGE);
        message.copy_from_slice(&of_record(&record).message);
        data[..said(&record)].copy_from_slice(&image.data[..said(&record)]);
        Ok(answer(0, place))
    };
    answered(step())
}

/// "Frees the place of a queue ID; the value is the place."
pub fn cancel(store: &mut Store, que_id: u64) -> u64 {
    let place = store.whole().and_then(|queue| queue.cancel(que_id));
    answered(place.map(|place| {
        store.free(place);
        answer(0, place)
    }))
}

/// The answer and the data that it shows: the value is the place and, 256 times, their length and, 65,536 times, where they stand
/// among the bytes beside the message.
pub fn choose(store: &mut Store, meter: u64, counter: u32, expected: u8) -> (u64, Vec<u8>) {
    match store.whole().and_then(|queue| queue.choose(meter, counter, expected != 0)) {
        Ok(chosen) => {
            store.free(chosen.place);
            let (before, rest) = chosen.record.entries().split_at(chosen.entry);
            let from = ENTRIES + before.iter().map(Vec::len).sum::<usize>();
            (answer(0, chosen.place + 256 * rest[0].len() + 65536 * from), rest[0].clone())
        }
        Err(refusal) => (answered(Err(refusal)), Vec::new()),
    }
}

/// "Whether these bytes are a queue that the calls made from an empty one: the value is 1 or 0."
pub fn sound(bytes: &[u8]) -> u64 {
    answer(0, Store::of(bytes).map_or(false, |store| store.queue.ids_differ()).into())
}

/// "Columns lent by the caller"
#[derive(Clone, Debug)]
pub struct Columns {
    pub used: Vec<u8>,
    pub eui: Vec<u64>,
    pub sh_addr: Vec<u16>,
    pub last: Vec<u32>,
    pub heard: Vec<u64>,
}

impl Columns {
    /// "table columns of unequal length" are 24, before all else.
    fn rows(&self) -> Result<Vec<Row>, Refusal> {
        let count = self.used.len();
        if [self.eui.len(), self.sh_addr.len(), self.last.len(), self.heard.len()] != [count; 4] {
            return Err(UNEQUAL_COLUMNS);
        }
        let row =
            |i| Row { used: self.used[i], eui: self.eui[i], sh_addr: self.sh_addr[i], last: self.last[i], heard: self.heard[i] };
        Ok((0..count).map(row).collect())
    }

    fn set(&mut self, rows: &[Row]) {
        self.used = rows.iter().map(|row| row.used).collect();
        self.eui = rows.iter().map(|row| row.eui).collect();
        self.sh_addr = rows.iter().map(|row| row.sh_addr).collect();
        self.last = rows.iter().map(|row| row.last).collect();
        self.heard = rows.iter().map(|row| row.heard).collect();
    }

    /// A call on the rows, which are put back where it isn't refused.
    fn call<T>(&mut self, call: impl Fn(&mut Vec<Row>) -> Result<T, Refusal>) -> Result<T, Refusal> {
        let mut rows = self.rows()?;
        let result = call(&mut rows)?;
        self.set(&rows);
        Ok(result)
    }
}

pub fn find(columns: &Columns, meter: u64) -> u64 {
    answered(columns.rows().and_then(|rows| table::find(&rows, meter)).map(|row| answer(0, row)))
}

pub fn enrol(columns: &mut Columns, meter: u64, sh_addr: u16, counter: u32) -> u64 {
    answered(columns.call(|rows| table::enrol(rows, meter, sh_addr, counter)).map(|row| answer(0, row)))
}

pub fn withdraw(columns: &mut Columns, meter: u64) -> u64 {
    answered(columns.call(|rows| table::withdraw(rows, meter)).map(|row| answer(0, row)))
}

/// The header: "the value is how many stations heard it so far and, 256 times, the row"
pub fn uplink(columns: &mut Columns, meter: u64, counter: u32, station: u64) -> u64 {
    let credited = columns.call(|rows| table::uplink(rows, meter, counter, station));
    answered(credited.map(|(credit, heard, row)| answer(credit as u8, heard as usize + 256 * row)))
}

/// "The start of a trace, at the start of the room: the value is its length, 1. Refusal 20."
pub fn trace_start(room: &mut [u8]) -> u64 {
    answered(fill(room, &trace::start()).map(|length| answer(0, length)))
}

/// "A record at the start of the room: the value is its length." The gap "is added to *time where the call is not refused".
pub fn record(time: &mut u64, gap: u64, station: u64, frame: &[u8], room: &mut [u8]) -> u64 {
    let mut write = || {
        let (sum, bytes) = trace::record(*time, gap, station, frame)?;
        let length = fill(room, &bytes)?;
        *time = sum;
        Ok(answer(0, length))
    };
    answered(write())
}

pub fn trace_open(bytes: &[u8]) -> u64 {
    answered(trace::open(bytes).map(|length| answer(0, length)))
}

/// The value is the record's length and, 2^16 times, its frame's length and, 2^32 times, its station.
pub fn recorded(time: &mut u64, bytes: &[u8]) -> u64 {
    answered(trace::recorded(*time, bytes).map(|record| {
        *time = record.time;
        answer(0, record.length | record.frame.len() << 16 | (record.station as usize) << 32)
    }))
}
