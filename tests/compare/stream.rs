//! Cases as bytes on standard output, each with the answer and the lent bytes that the reference expects.
//!
//! The stream is "CHZCASES" and the seed; then cases; then the byte 255 and the count of cases. A case is the call's number,
//! its arguments in the header's order and the expected answer. A number takes eight bytes, little endian. A buffer is the
//! count of its elements, its bytes before the call, and 0 (it must stay so) or 1 and its bytes after the call.
//!
//! A queue is long and little of it changes: it is the count of its bytes; 0 and its bytes before the call, or 1 (it is as the
//! last case with a queue left it); and 0 (it must stay so) or 1, where the bytes start that change, how many, and these after
//! the call. Behind the arguments of chz_choose stand the data that its answer shows. On a queue that no calls made an answer
//! isn't known: it is UNKNOWN, and means that the call must end and stay in range.

use crate::reference::calls::{self, Columns, Store};
use crate::reference::image::Image;
use std::io::{BufWriter, Stdout, Write};

pub struct Stream {
    out: BufWriter<Stdout>,
    cases: u64,
    /// The queue as the last case with one left it.
    left: Vec<u8>,
    /// A queue for records that are added one by one.
    kept: Option<Store>,
    /// How many messages were read, written or arrived.
    pub messages: u64,
}

/// The calls by number, as compare.c has them.
#[derive(Clone, Copy)]
enum Call {
    Frame,
    Read,
    Write,
    Arrive,
    Begin,
    Lost,
    Find,
    Enrol,
    Withdraw,
    Uplink,
    Form,
    Add,
    Cancel,
    Choose,
    Sound,
    TraceStart,
    Record,
    TraceOpen,
    Recorded,
}

const UNKNOWN: u64 = u64::MAX;

/// The queue ID of a downlink's image.
fn que_id(image: &Image) -> u64 {
    image.message.get(24..32).map_or(0, |id| u64::from_le_bytes(id.try_into().expect("eight bytes")))
}

struct Case(Vec<u8>);

impl Case {
    fn new(call: Call) -> Case {
        Case(vec![call as u8])
    }

    fn number(mut self, number: u64) -> Case {
        self.0.extend_from_slice(&number.to_le_bytes());
        self
    }

    /// A buffer of bytes before and after the call.
    fn buffer(self, before: &[u8], after: &[u8]) -> Case {
        self.column(before.len(), before, after)
    }

    /// A message and its data, as the calls take them.
    fn image(self, before: &Image, after: &Image) -> Case {
        self.buffer(&before.message, &after.message).buffer(&before.data, &after.data)
    }

    /// The time of a trace, which a call is lent as a pointer to one number.
    fn time(self, before: u64, after: u64) -> Case {
        self.column(1, &before.to_le_bytes(), &after.to_le_bytes())
    }

    fn column(mut self, count: usize, before: &[u8], after: &[u8]) -> Case {
        self = self.number(count as u64);
        self.0.extend_from_slice(before);
        self.0.push(u8::from(before != after));
        if before != after {
            self.0.extend_from_slice(after);
        }
        self
    }

    /// Bytes that are shown by the answer, not lent.
    fn shown(mut self, bytes: &[u8]) -> Case {
        self = self.number(bytes.len() as u64);
        self.0.extend_from_slice(bytes);
        self
    }

    fn columns(self, before: &Columns, after: &Columns) -> Case {
        let wide = |column: &[u64]| column.iter().flat_map(|entry| entry.to_le_bytes()).collect::<Vec<u8>>();
        let short = |column: &[u16]| column.iter().flat_map(|entry| entry.to_le_bytes()).collect::<Vec<u8>>();
        let middle = |column: &[u32]| column.iter().flat_map(|entry| entry.to_le_bytes()).collect::<Vec<u8>>();
        self.buffer(&before.used, &after.used)
            .column(before.eui.len(), &wide(&before.eui), &wide(&after.eui))
            .column(before.sh_addr.len(), &short(&before.sh_addr), &short(&after.sh_addr))
            .column(before.last.len(), &middle(&before.last), &middle(&after.last))
            .column(before.heard.len(), &wide(&before.heard), &wide(&after.heard))
    }
}

impl Stream {
    pub fn start(out: Stdout, seed: u64) -> Stream {
        let mut stream = Stream { out: BufWriter::new(out), cases: 0, left: Vec::new(), kept: None, messages: 0 };
        stream.put(b"CHZCASES");
        stream.put(&seed.to_le_bytes());
        stream
    }

    pub fn end(mut self) {
        self.put(&[255]);
        self.put(&self.cases.to_le_bytes());
        self.out.flush().unwrap_or_else(|_| std::process::exit(1));
    }

    /// Ends where nobody reads on.
    fn put(&mut self, bytes: &[u8]) {
        self.out.write_all(bytes).unwrap_or_else(|_| std::process::exit(1));
    }

    fn case(&mut self, case: Case, answer: u64) -> u64 {
        self.put(&case.number(answer).0);
        self.cases += 1;
        answer
    }

    pub fn frame(&mut self, bytes: &[u8]) -> u64 {
        self.case(Case::new(Call::Frame).buffer(bytes, bytes), calls::frame(bytes))
    }

    /// Each payload's form is judged alone, too.
    pub fn read(&mut self, payload: &[u8], lent: &Image) -> u64 {
        self.case(Case::new(Call::Form).buffer(payload, payload), calls::form(payload));
        let mut after = lent.clone();
        let answer = calls::read(payload, &mut after);
        self.messages += 1;
        self.case(Case::new(Call::Read).buffer(payload, payload).image(lent, &after), answer)
    }

    pub fn write(&mut self, image: &Image, room: &[u8]) -> u64 {
        let mut after = room.to_vec();
        let answer = calls::write(image, &mut after);
        self.messages += 1;
        self.case(Case::new(Call::Write).image(image, image).buffer(room, &after), answer)
    }

    /// The answer and the session after the call.
    pub fn arrive(
        &mut self,
        session: &[u8],
        image: &Image,
        sc_eui: u64,
        uuid: &[u8],
        sign: &[u8],
        room: &[u8],
    ) -> (u64, Vec<u8>) {
        let (mut after, mut room_after) = (session.to_vec(), room.to_vec());
        let answer = calls::arrive(&mut after, image, sc_eui, uuid, sign, &mut room_after);
        let case = Case::new(Call::Arrive).buffer(session, &after).image(image, image).number(sc_eui);
        self.messages += 1;
        self.case(case.buffer(uuid, uuid).buffer(sign, sign).buffer(room, &room_after), answer);
        (answer, after)
    }

    pub fn begin(&mut self, session: &[u8], image: &Image, room: &[u8]) -> (u64, Vec<u8>) {
        let (mut after, mut room_after) = (session.to_vec(), room.to_vec());
        let answer = calls::begin(&mut after, image, &mut room_after);
        let case = Case::new(Call::Begin).buffer(session, &after).image(image, image);
        self.case(case.buffer(room, &room_after), answer);
        (answer, after)
    }

    pub fn lost(&mut self, session: &[u8]) -> (u64, Vec<u8>) {
        let mut after = session.to_vec();
        let answer = calls::lost(&mut after);
        self.case(Case::new(Call::Lost).buffer(session, &after), answer);
        (answer, after)
    }

    /// A case of a call with a queue, up to its queue.
    fn on_queue(&mut self, call: Call, before: &[u8], after: &[u8]) -> Case {
        let mut case = Case::new(call).number(before.len() as u64);
        let same = before == self.left;
        case.0.push(u8::from(same));
        if !same {
            case.0.extend_from_slice(before);
        }
        case.0.push(u8::from(before != after));
        if let Some(first) = before.iter().zip(after).position(|(one, other)| one != other) {
            let last = before.iter().zip(after).rposition(|(one, other)| one != other).expect("there is a first");
            case = case.number(first as u64).shown(&after[first..=last]);
        }
        self.left = after.to_vec();
        case
    }

    /// The queue calls leave the queue as the call does.
    pub fn add(&mut self, store: &mut Store, image: &Image) -> u64 {
        let before = store.bytes.clone();
        let answer = calls::add(store, image);
        let case = self.on_queue(Call::Add, &before, &store.bytes).image(image, image);
        self.case(case, answer)
    }

    pub fn cancel(&mut self, store: &mut Store, que_id: u64) -> u64 {
        let before = store.bytes.clone();
        let answer = calls::cancel(store, que_id);
        let case = self.on_queue(Call::Cancel, &before, &store.bytes).number(que_id);
        self.case(case, answer)
    }

    /// The answer and the data that it shows.
    pub fn choose(&mut self, store: &mut Store, meter: u64, counter: u32, expected: u8) -> (u64, Vec<u8>) {
        let before = store.bytes.clone();
        let (answer, data) = calls::choose(store, meter, counter, expected);
        let case = self.on_queue(Call::Choose, &before, &store.bytes).number(meter).number(counter.into());
        (self.case(case.number(expected.into()).shown(&data), answer), data)
    }

    /// The record is added to a queue that is kept for this, and cancelled again.
    pub fn queued(&mut self, image: &Image) {
        let mut store = self.kept.take().unwrap_or_else(Store::empty);
        if self.add(&mut store, image) & 0xFF == 0 {
            self.cancel(&mut store, que_id(image));
        }
        self.kept = Some(store);
    }

    pub fn sound(&mut self, bytes: &[u8]) -> u64 {
        let case = self.on_queue(Call::Sound, bytes, bytes);
        self.case(case, calls::sound(bytes))
    }

    /// The three calls that change a queue, on one that no calls made.
    pub fn on_any_bytes(&mut self, bytes: &[u8], image: &Image, meter: u64, counter: u32, expected: u8) {
        let case = self.on_queue(Call::Add, bytes, bytes).image(image, image);
        self.case(case, UNKNOWN);
        let case = self.on_queue(Call::Cancel, bytes, bytes).number(que_id(image));
        self.case(case, UNKNOWN);
        let case = self.on_queue(Call::Choose, bytes, bytes).number(meter).number(counter.into()).number(expected.into());
        self.case(case.shown(&[]), UNKNOWN);
    }

    pub fn find(&mut self, columns: &Columns, meter: u64) -> u64 {
        self.case(Case::new(Call::Find).columns(columns, columns).number(meter), calls::find(columns, meter))
    }

    /// The table calls below leave the columns as the call does.
    pub fn enrol(&mut self, columns: &mut Columns, meter: u64, sh_addr: u16, counter: u32) -> u64 {
        let before = columns.clone();
        let answer = calls::enrol(columns, meter, sh_addr, counter);
        let case = Case::new(Call::Enrol).columns(&before, columns).number(meter);
        self.case(case.number(sh_addr.into()).number(counter.into()), answer)
    }

    pub fn withdraw(&mut self, columns: &mut Columns, meter: u64) -> u64 {
        let before = columns.clone();
        let answer = calls::withdraw(columns, meter);
        self.case(Case::new(Call::Withdraw).columns(&before, columns).number(meter), answer)
    }

    pub fn uplink(&mut self, columns: &mut Columns, meter: u64, counter: u32, station: u64) -> u64 {
        let before = columns.clone();
        let answer = calls::uplink(columns, meter, counter, station);
        let case = Case::new(Call::Uplink).columns(&before, columns).number(meter);
        self.case(case.number(counter.into()).number(station), answer)
    }

    pub fn trace_start(&mut self, room: &[u8]) -> u64 {
        let mut after = room.to_vec();
        let answer = calls::trace_start(&mut after);
        self.case(Case::new(Call::TraceStart).buffer(room, &after), answer)
    }

    /// The answer and the room after the call; the time is left as the call leaves it, here and in the last call.
    pub fn record(&mut self, time: &mut u64, gap: u64, station: u64, frame: &[u8], room: &[u8]) -> (u64, Vec<u8>) {
        let (before, mut after) = (*time, room.to_vec());
        let answer = calls::record(time, gap, station, frame, &mut after);
        let case = Case::new(Call::Record).time(before, *time).number(gap).number(station);
        (self.case(case.buffer(frame, frame).buffer(room, &after), answer), after)
    }

    pub fn trace_open(&mut self, bytes: &[u8]) -> u64 {
        self.case(Case::new(Call::TraceOpen).buffer(bytes, bytes), calls::trace_open(bytes))
    }

    pub fn recorded(&mut self, time: &mut u64, bytes: &[u8]) -> u64 {
        let before = *time;
        let answer = calls::recorded(time, bytes);
        self.case(Case::new(Call::Recorded).time(before, *time).buffer(bytes, bytes), answer)
    }
}
