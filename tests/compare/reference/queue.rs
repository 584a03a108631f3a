//! The downlink queue of a station, document 02's Q-2: "a queue of 32 entries per station: add, cancel, and choose by EUI,
//! counter and response flag".

use super::record::Record;
use super::refusal::*;

pub const PLACES: usize = 32;

/// Each place holds a valid dlDataQue or is free.
#[derive(Clone, Debug)]
pub struct Queue(pub [Option<Record>; PLACES]);

/// What is chosen: the place where it stood, its record, and which of its data entries is for the counter.
pub struct Chosen {
    pub place: usize,
    pub record: Record,
    pub entry: usize,
}

fn id(record: &Record) -> u64 {
    record.whole("queId").expect("a valid dlDataQue has one") as u64
}

impl Queue {
    pub fn empty() -> Queue {
        Queue(std::array::from_fn(|_| None))
    }

    /// "27 queue ID there, then 28 exactly if all 32 are used"; a new entry takes the lowest free place.
    pub fn add(&mut self, record: Record) -> Result<usize, Refusal> {
        if self.place_of(id(&record)).is_some() {
            return Err(QUEUE_ID_THERE);
        }
        let free = self.0.iter().position(Option::is_none).ok_or(QUEUE_FULL)?;
        self.0[free] = Some(record);
        Ok(free)
    }

    /// "29 cancel of an unknown ID"; the EUI has no part in it.
    pub fn cancel(&mut self, que_id: u64) -> Result<usize, Refusal> {
        let place = self.place_of(que_id).ok_or(NO_QUEUE_ID)?;
        self.0[place] = None;
        Ok(place)
    }

    /// "Chosen is the highest prio, then the smallest queue ID; it is removed, its room is used again"; "30 nothing suitable".
    pub fn choose(&mut self, meter: u64, counter: u32, expected: bool) -> Result<Chosen, Refusal> {
        let suitable = self.0.iter().enumerate().filter_map(|(place, record)| {
            let record = record.as_ref()?;
            Some((place, record.prio(), id(record), suits(record, meter, counter, expected)?))
        });
        // minus and plus zero are equal
        let before = |one: &(usize, f64, u64, usize), other: &(usize, f64, u64, usize)| {
            one.1 > other.1 || one.1 == other.1 && one.2 < other.2
        };
        let best = suitable.reduce(|best, one| if before(&one, &best) { one } else { best });
        let (place, _, _, entry) = best.ok_or(NOTHING_SUITABLE)?;
        let record = self.0[place].take().expect("a used place");
        Ok(Chosen { place, record, entry })
    }

    pub fn place_of(&self, que_id: u64) -> Option<usize> {
        self.0.iter().position(|record| record.as_ref().map_or(false, |record| id(record) == que_id))
    }

    /// No two entries have one ID.
    pub fn ids_differ(&self) -> bool {
        let mut ids: Vec<u64> = self.0.iter().flatten().map(id).collect();
        let count = ids.len();
        ids.sort_unstable();
        ids.dedup();
        ids.len() == count
    }
}

/// "Suitable is an entry for that EUI which isn't counter dependent or names that counter, and isn't expOnly unless the flag is
/// set." Which of its data entries is for that counter: "the first where it repeats", or its only one.
fn suits(record: &Record, meter: u64, counter: u32, expected: bool) -> Option<usize> {
    if record.whole("epEui") != Some(meter.into()) || record.flag("expOnly") && !expected {
        return None;
    }
    match record.counters() {
        Some(counters) => counters.iter().position(|named| *named == counter),
        None => Some(0),
    }
}
