//! What kind of day it is: how many take part, and what stations tend to do.

use crate::cases::random::Random;

#[derive(Clone, Copy)]
pub struct Mood {
    pub stations: usize,
    pub meters: usize,
    pub records: usize,
    /// At most so many stations hear a packet.
    pub hearers: usize,
    /// Of a hundred messages of a station, how many complete an operation, connect, don't fit, or are damaged.
    pub completes: usize,
    pub connects: usize,
    pub odd: usize,
    pub damaged: usize,
    /// Of a hundred messages of a station that isn't open, how many are sent all the same.
    pub stubborn: usize,
}

const MOODS: [Mood; 5] = [
    // an ordinary day
    Mood { stations: 5, meters: 30, records: 1200, hearers: 3, completes: 50, connects: 1, odd: 2, damaged: 2, stubborn: 4 },
    // all stations, and most packets heard by several
    Mood { stations: 64, meters: 60, records: 2000, hearers: 8, completes: 48, connects: 1, odd: 1, damaged: 1, stubborn: 3 },
    // operations are left open until sixteen are
    Mood { stations: 3, meters: 12, records: 700, hearers: 2, completes: 15, connects: 3, odd: 5, damaged: 3, stubborn: 10 },
    // connections are lost again and again
    Mood { stations: 4, meters: 12, records: 900, hearers: 3, completes: 40, connects: 8, odd: 4, damaged: 8, stubborn: 30 },
    // much doesn't fit or can't be read
    Mood { stations: 8, meters: 20, records: 800, hearers: 4, completes: 26, connects: 4, odd: 20, damaged: 25, stubborn: 20 },
];

/// One of these, at times with other numbers of stations, meters or records.
pub fn any(random: &mut Random) -> Mood {
    let mood = random.pick(&MOODS);
    let stations = random.pick(&[mood.stations, mood.stations, mood.stations, 1, 2]);
    let records = random.pick(&[mood.records, mood.records, 100, 2000]);
    Mood { stations, records, meters: random.within(1, mood.meters), ..mood }
}
