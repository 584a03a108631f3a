//! The files that ship here: a recorded day, and for each refusal of a trace or an enrolment file a small day that ends in it. What
//! these print was worked out by hand.

use crate::files::put;
use crate::messages::{enrolment, reading};
use crate::recording::Recording;
use crate::reference::day;
use crate::reference::frame::framed;
use crate::story;
use std::fs;
use std::path::PathBuf;

struct Directory(PathBuf);

impl Directory {
    fn new(directory: &str, name: &str) -> Directory {
        let path = PathBuf::from(directory).join(name);
        fs::create_dir_all(&path).expect("the directory can be made");
        Directory(path)
    }

    fn day(&self, name: &str, trace: &[u8], enrolments: &[u8], expected: &str) {
        assert_eq!(day::play(trace, enrolments), expected, "{}", name);
        put(&self.0, &format!("{}.trace", name), trace);
        put(&self.0, &format!("{}.enrolments", name), enrolments);
        put(&self.0, &format!("{}.expected", name), expected.as_bytes());
    }
}

pub fn all(directory: &str) {
    let story = story::tell();
    Directory::new(directory, "day").day("day", &story.day.trace, &story.enrolments, &story.said);
    let refused = Directory::new(directory, "refused");
    refused_enrolments(&refused);
    refused_traces(&refused);
}

/// So many readings of meter 7, a second from record to record; where it is enrolled with 40, they print "5 7 41" and "5 7 42".
fn readings(count: u32) -> Recording {
    let mut day = Recording::new(&enrolment(7, 1, 40));
    for i in 1..=count {
        reading(i.into(), 40 + i).iter().for_each(|frame| drop(day.add(1_000_000_000, 5, frame)));
    }
    day
}

fn refused_enrolments(refused: &Directory) {
    let once = enrolment(7, 1, 40);
    let trace = readings(1).trace;
    let twice = [enrolment(6, 1, 0), once.clone(), enrolment(7, 2, 39)].concat();
    let many: Vec<u8> = (1..=1025).flat_map(|meter| enrolment(meter, 1, 40)).collect();
    refused.day("22", &trace, &twice, "refused 22\n");
    refused.day("23", &trace, &many, "refused 23\n");
    refused.day("33-enrolments", &trace, &[&once[..], &once[..13]].concat(), "refused 33\n");
}

/// The fault stands between two readings: the second isn't played.
fn refused_traces(refused: &Directory) {
    let once = enrolment(7, 1, 40);
    let two = readings(2);
    assert_eq!(two.lines, "5 7 41\n5 7 42\n");
    let (first, second) = two.trace.split_at(two.ends[3].at);
    let frame = framed(&[0x80]);
    let mut wrong_size = frame.clone();
    wrong_size[8] = 2;
    let with = |name: &str, fault: &[&[u8]], expected: &str| {
        refused.day(name, &[first, &fault.concat(), second].concat(), &once, expected);
    };
    with("25", &[&[0, 64, 13], &frame], "5 7 41\nrefused 25\n");
    with("32", &[&[0x80, 0, 5, 13], &frame], "5 7 41\nrefused 32\n");
    with("34", &[&[0xFF; 9], &[1, 5, 13], &frame], "5 7 41\nrefused 34\n");
    with("35", &[&[0, 5, 13], &wrong_size], "5 7 41\nrefused 35\n");
    refused.day("31", &[&[2], &two.trace[1..]].concat(), &once, "refused 31\n");
    refused.day("33", &two.trace[..two.trace.len() - 1], &once, "5 7 41\nrefused 33\n");
}
