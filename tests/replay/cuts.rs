//! Every cut of a small trace, and every cut of a record with a fault: each of them a trace of its own.

use crate::endings::{faulty_records, wrong_starts, Fault};
use crate::files::Files;
use crate::messages::{enrolment, reading, ul_data};
use crate::recording::Recording;
use crate::reference::frame::framed;
use crate::reference::record::Record;
use crate::reference::write::write;

const CUT: &str = "refused 33\n";

pub fn all(files: &mut Files) {
    small(files);
    // no gap but 0 fits behind this record
    let mut day = Recording::new(&[]);
    day.add(u64::MAX, 63, &framed(&[0x80]));
    for fault in faulty_records(u64::MAX, &framed(&[0x80])) {
        cut_fault(files, &day, &fault);
    }
    starts(files);
}

/// Two readings of two meters, and between them a payload that is refused; gaps of one, two, three and ten bytes.
fn small(files: &mut Files) {
    let enrolments = [enrolment(7, 1, 40), enrolment(8, 1, 0)].concat();
    let mut day = Recording::new(&enrolments);
    reading(1, 41).iter().zip([300, 0, 1 << 63]).for_each(|(frame, gap)| drop(day.add(gap, 5, frame)));
    day.add(127, 5, &framed(&[0x80]));
    day.add(128, 5, &write(&Record::new("ulDataCmp", 1)));
    day.add(16384, 5, &write(&ul_data(2, 8, 1)));
    assert_eq!(day.lines, "5 7 41\n5 8 1\n");
    for length in 0..=day.trace.len() {
        let (trace, expected) = day.cut(length);
        files.day(&format!("a small trace, cut after {} bytes", length), &trace, &enrolments, &expected);
    }
}

/// A record with a fault: cut before the fault shows it is 33. What stands behind it isn't read.
fn cut_fault(files: &mut Files, day: &Recording, fault: &Fault) {
    let refused = format!("refused {}\n", fault.refusal);
    for length in 0..=fault.bytes.len() {
        let expected = match length {
            0 => "",
            _ if length < fault.shows => CUT,
            _ => &refused,
        };
        let name = format!("{}, cut after {} bytes", fault.name, length);
        files.day(&name, &[&day.trace[..], &fault.bytes[..length]].concat(), &[], expected);
    }
    let name = format!("{}, and a right record", fault.name);
    files.day(&name, &[&day.trace[..], &fault.bytes, &day.trace[1..]].concat(), &[], &refused);
}

/// A first number that isn't 1: in front of a reading, alone, and each cut of it.
fn starts(files: &mut Files) {
    let enrolments = enrolment(7, 1, 40);
    let mut day = Recording::new(&enrolments);
    reading(1, 41).iter().for_each(|frame| drop(day.add(9, 5, frame)));
    files.day("a right start", &day.trace, &enrolments, "5 7 41\n");
    for start in wrong_starts() {
        let refused = format!("refused {}\n", start.refusal);
        files.day(start.name, &[&start.bytes[..], &day.trace[1..]].concat(), &enrolments, &refused);
        for length in 0..=start.bytes.len() {
            let name = format!("{}, cut after {} bytes", start.name, length);
            let expected = if length < start.shows { CUT } else { &refused };
            files.day(&name, &start.bytes[..length], &enrolments, expected);
        }
    }
}
