//! Runs of stations' queues, from the empty one: few meters, queue IDs, counters and priorities, so that they meet often. At
//! times a queue with a fault, of a wrong length, or with any contents.

use super::random::Random;
use super::{downlinks, images, values};
use crate::reference::calls::{Store, PLACE, QUEUE};
use crate::reference::fields::Value;
use crate::reference::image::{self, Image, COMMAND};
use crate::reference::layout::MESSAGE;
use crate::reference::queue::PLACES;
use crate::reference::record::Record;
use crate::stream::Stream;

/// How many of a hundred calls add, cancel and choose; the others ask whether the queue is sound.
#[derive(Clone, Copy)]
struct Mood {
    adds: usize,
    cancels: usize,
    chooses: usize,
}

/// Full most of the time, half full, nearly empty, and without cancels.
const MOODS: [Mood; 4] = [
    Mood { adds: 70, cancels: 12, chooses: 12 },
    Mood { adds: 45, cancels: 10, chooses: 40 },
    Mood { adds: 28, cancels: 12, chooses: 54 },
    Mood { adds: 50, cancels: 0, chooses: 46 },
];

const METERS: [u64; 4] = [0, 7, 1 << 63 | 7, u64::MAX];
const COUNTERS: [u32; 6] = [0, 1, 2, 3, 256, u32::MAX];

/// One queue for each mood, which goes on from round to round.
pub struct Queues([Store; MOODS.len()]);

impl Queues {
    pub fn new() -> Queues {
        Queues(std::array::from_fn(|_| Store::empty()))
    }

    pub fn run(&mut self, stream: &mut Stream, random: &mut Random) {
        let which = random.below(MOODS.len());
        let store = &mut self.0[which];
        if random.one_in(50) {
            *store = Store::empty();
        }
        for _ in 0..random.within(20, 70) {
            step(stream, random, store, MOODS[which]);
        }
        // the bytes are those of the records
        let again = Store::of(&store.bytes).expect("a run leaves a queue");
        for (one, other) in store.queue.0.iter().zip(&again.queue.0) {
            assert_eq!(one.as_ref().map(image::of_record), other.as_ref().map(image::of_record));
        }
    }
}

fn step(stream: &mut Stream, random: &mut Random, store: &mut Store, mood: Mood) {
    if random.one_in(60) {
        return odd(stream, random, store);
    }
    let kind = random.below(100);
    if kind < mood.adds {
        let image = message(random, store);
        stream.add(store, &image);
    } else if kind < mood.adds + mood.cancels {
        let id = if random.one_in(4) { any_id(random) } else { used_id(random, store) };
        stream.cancel(store, id);
    } else if kind < mood.adds + mood.cancels + mood.chooses {
        let (meter, counter, expected) = window(random, store);
        let (answer, data) = stream.choose(store, meter, counter, expected);
        shown(store, answer, &data);
    } else {
        assert_eq!(stream.sound(&store.bytes), 1 << 16);
    }
}

/// The data that an answer of choose shows stand where it says.
fn shown(store: &Store, answer: u64, data: &[u8]) {
    if answer & 0xFF == 0 {
        let (place, length, from) = ((answer >> 16 & 0xFF) as usize, (answer >> 24 & 0xFF) as usize, (answer >> 32) as usize);
        assert_eq!(&store.bytes[place * PLACE + MESSAGE + from..][..length], data);
    }
}

/// Fifty IDs: enough to fill a queue, few enough to come again.
fn any_id(random: &mut Random) -> u64 {
    let small = random.below(46) as u64;
    random.pick(&[small, small, small, small, small, small, 1 << 32, 1 << 63, (1 << 63) - 1, u64::MAX])
}

fn used_id(random: &mut Random, store: &Store) -> u64 {
    let used: Vec<u64> = store.queue.0.iter().flatten().map(|record| record.whole("queId").unwrap_or(0) as u64).collect();
    if used.is_empty() {
        0
    } else {
        random.pick(&used)
    }
}

/// A downlink of which much may be the same as another's.
fn downlink(random: &mut Random) -> Record {
    let mut record = values::of(random, "dlDataQue")
        .with("epEui", Value::Whole(random.pick(&METERS).into()))
        .with("queId", Value::Whole(any_id(random).into()));
    if let Some(count) = record.counters().map(<[u32]>::len) {
        record.fields.insert("packetCnt", Value::Counters((0..count).map(|_| random.pick(&COUNTERS)).collect()));
    }
    let any = downlinks::prio(random);
    let smallest = f64::from(f32::from_bits(1));
    let prio = random.pick(&[0.0, 0.0, -0.0, 1.0, 1.0, -1.0, smallest, -smallest, f32::MAX.into(), f32::MIN.into(), any, any]);
    record.fields.insert("prio", Value::Real(prio));
    record.normal()
}

/// A message to be added: mostly a downlink, mostly valid, mostly with an ID that isn't there.
fn message(random: &mut Random, store: &Store) -> Image {
    let mut record = downlink(random);
    for _ in 0..random.below(4) {
        if store.queue.place_of(record.whole("queId").unwrap_or(0) as u64).is_some() {
            record = downlink(random);
        }
    }
    let mut image = images::of(random, &record);
    match random.below(40) {
        0 => images::valid(random),
        1 => images::wrong_length(random),
        2..=5 => {
            images::spoil(random, &mut image);
            image
        }
        _ => image,
    }
}

/// A downlink window: mostly of a meter and a counter that an entry has.
fn window(random: &mut Random, store: &Store) -> (u64, u32, u8) {
    let expected = random.pick(&[0, 0, 0, 1, 1, 2, 128, 255]);
    let used: Vec<&Record> = store.queue.0.iter().flatten().collect();
    if used.is_empty() || random.one_in(5) {
        return (random.pick(&METERS), random.pick(&COUNTERS), expected);
    }
    let entry = random.pick(&used);
    let counters = entry.counters().unwrap_or(&COUNTERS);
    (entry.whole("epEui").unwrap_or(0) as u64, random.pick(counters), expected)
}

/// A wrong length, a fault, or contents that no call made.
fn odd(stream: &mut Stream, random: &mut Random, store: &Store) {
    match random.below(4) {
        0 => wrong_length(stream, random, store),
        1 | 2 => {
            let bytes = faulty(random, store);
            stream.sound(&bytes);
            any_calls(stream, random, store, &bytes);
        }
        _ => {
            let bytes = any_bytes(random);
            any_calls(stream, random, store, &bytes);
        }
    }
}

/// The three calls that change a queue, whose answer isn't known.
fn any_calls(stream: &mut Stream, random: &mut Random, store: &Store, bytes: &[u8]) {
    let image = message(random, store);
    let (meter, counter, expected) = window(random, store);
    stream.on_any_bytes(bytes, &image, meter, counter, expected);
}

pub const WRONG_LENGTHS: [usize; 11] =
    [0, 1, PLACE - 1, PLACE, MESSAGE, QUEUE / 2, QUEUE - PLACE, QUEUE - 1, QUEUE + 1, QUEUE + PLACE, 2 * QUEUE];

fn wrong_length(stream: &mut Stream, random: &mut Random, store: &Store) {
    let length = random.pick(&WRONG_LENGTHS);
    let image = message(random, store);
    let (meter, counter, expected) = window(random, store);
    let id = used_id(random, store);
    all_calls(stream, &resized(store, length), &image, id, (meter, counter, expected));
}

/// The same queue, longer or shorter than it must be.
pub fn resized(store: &Store, length: usize) -> Store {
    let mut store = store.clone();
    store.bytes.resize(length, 0);
    store
}

pub fn all_calls(stream: &mut Stream, store: &Store, image: &Image, id: u64, window: (u64, u32, u8)) {
    stream.add(&mut store.clone(), image);
    stream.cancel(&mut store.clone(), id);
    stream.choose(&mut store.clone(), window.0, window.1, window.2);
    stream.sound(&store.bytes);
}

/// A message's bytes at a place of the queue.
pub fn place_image(bytes: &[u8], place: usize) -> Image {
    let (message, data) = bytes[place * PLACE..][..PLACE].split_at(MESSAGE);
    Image { message: message.to_vec(), data: data.to_vec() }
}

/// The queue with a change in a used place that makes its record bad, or another good one; or with an ID twice. In what isn't
/// looked at of a record nothing changes: whether such a queue is sound is left open.
fn faulty(random: &mut Random, store: &Store) -> Vec<u8> {
    let mut bytes = store.bytes.clone();
    let used: Vec<usize> = (0..PLACES).filter(|place| store.queue.0[*place].is_some()).collect();
    if used.is_empty() {
        return bytes;
    }
    let (last, any) = (used[used.len() - 1], random.pick(&used));
    let place = random.pick(&[last, any]);
    if random.one_in(5) {
        let other = random.pick(&used);
        let free: Vec<usize> = (0..PLACES).filter(|place| store.queue.0[*place].is_none()).collect();
        if random.one_in(2) && !free.is_empty() {
            bytes.copy_within(place * PLACE..(place + 1) * PLACE, random.pick(&free) * PLACE);
        } else {
            bytes.copy_within(other * PLACE + 24..other * PLACE + 32, place * PLACE + 24);
        }
        return bytes;
    }
    let plain = place_image(&bytes, place);
    for _ in 0..20 {
        let mut image = plain.clone();
        images::spoil(random, &mut image);
        image.data.extend_from_slice(&plain.data[image.data.len()..]);
        let settled = image::to_record(&image).map_or(true, |record| image::of_record(&record).message == image.message);
        if image != plain && image.message[COMMAND] == plain.message[COMMAND] && settled {
            bytes[place * PLACE..][..PLACE].copy_from_slice(&[&image.message[..], &image.data].concat());
            break;
        }
    }
    bytes
}

/// Any bytes, mostly used places, which at times have lengths at their edges and one ID.
fn any_bytes(random: &mut Random) -> Vec<u8> {
    let mut bytes = random.bytes(QUEUE);
    let few = random.one_in(2);
    for place in bytes.chunks_mut(PLACE) {
        if !random.one_in(8) {
            place[COMMAND] = 21;
        }
        if few {
            place[16..24].copy_from_slice(&random.pick(&METERS).to_le_bytes());
            place[24..32].copy_from_slice(&any_id(random).to_le_bytes());
            place[40] = random.pick(&[0, 1, 16, 17, 255]);
            place[42] = random.pick(&[0, 1, 2, 255]);
            place[MESSAGE..MESSAGE + 64].copy_from_slice(&random.pick(&COUNTERS).to_le_bytes().repeat(16));
            place[MESSAGE + 64..MESSAGE + 80].fill(random.pick(&[0, 50, 245, 255]));
        }
    }
    bytes
}

/// A queue in which these records stand, one behind the other.
pub fn of(stream: &mut Stream, random: &mut Random, records: &[Record]) -> Store {
    let mut store = Store::empty();
    for record in records {
        let image = images::of(random, record);
        assert_eq!(stream.add(&mut store, &image) & 0xFF, 0);
    }
    store
}
