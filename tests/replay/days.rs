//! Random days from a seed: each ends well, is cut anywhere, starts wrong, or has one record with a fault.

use crate::cases::random::Random;
use crate::counts::Counts;
use crate::endings::{faulty_records, wrong_starts};
use crate::files::Files;
use crate::moods;
use crate::reference::frame::framed;
use crate::traffic::Traffic;
use crate::{recording::Recording, world};

pub fn all(files: &mut Files, seed: u64, days: u64) -> Counts {
    let mut counts = Counts::default();
    let mut seeds = Random(seed);
    for number in 0..days as usize {
        one(files, &mut Random(seeds.next()), &mut counts, number);
    }
    counts
}

fn one(files: &mut Files, random: &mut Random, counts: &mut Counts, number: usize) {
    let mood = moods::any(random);
    let (meters, enrolments) = world::meters(random, &mood);
    let stations = world::stations(random, &mood);
    let mut traffic = Traffic::new(random, mood, Recording::new(&enrolments), stations, meters);
    for _ in 0..mood.records {
        counts.record(&traffic.step());
    }
    let recording = traffic.recording;
    let (end, trace, expected) = ended(random, &recording, number);
    counts.day(&expected);
    files.day(&format!("random day {}, {} records, {}", number + 1, mood.records, end), &trace, &enrolments, &expected);
}

/// The day with an end: in turn as it is, cut, with a wrong start, and with each of the faults.
fn ended(random: &mut Random, day: &Recording, number: usize) -> (String, Vec<u8>, String) {
    match number % 8 {
        0 | 4 => ("whole".to_string(), day.trace.clone(), day.lines.clone()),
        1 | 5 => {
            let length = late(random, day.trace.len());
            let (trace, expected) = day.cut(length);
            (format!("cut after {} bytes", length), trace, expected)
        }
        7 => {
            let mut starts = wrong_starts();
            let start = starts.swap_remove(number / 8 % starts.len());
            let trace = [&start.bytes[..], &day.trace[1..]].concat();
            (start.name.to_string(), trace, format!("refused {}\n", start.refusal))
        }
        rest => with_fault(random, day, number / 8 * 3 + rest / 3),
    }
}

/// A number below this, mostly in its second half.
fn late(random: &mut Random, end: usize) -> usize {
    random.below(end).max(random.below(end))
}

/// A fault of this number between two records, or behind the last.
fn with_fault(random: &mut Random, day: &Recording, number: usize) -> (String, Vec<u8>, String) {
    let end = day.ends[1 + late(random, day.ends.len() - 1)];
    let length = random.within(1, 200);
    let frame = framed(&random.bytes(length));
    let mut faults = faulty_records(end.time, &frame);
    let fault = faults.swap_remove(number % faults.len());
    let trace = [&day.trace[..end.at], &fault.bytes, &day.trace[end.at..]].concat();
    let expected = format!("{}refused {}\n", day.printed(&end), fault.refusal);
    (format!("{} at byte {}", fault.name, end.at), trace, expected)
}
