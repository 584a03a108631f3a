//! Records with one fault each, and first numbers that aren't 1, with the refusal that each must have.

use crate::reference::trace::form;

pub struct Fault {
    pub name: &'static str,
    pub refusal: u8,
    pub bytes: Vec<u8>,
    /// After so many of the bytes it is refused; before that the trace is cut.
    pub shows: usize,
}

/// The parts up to the fault, and what stands behind it.
fn fault(name: &'static str, refusal: u8, parts: &[&[u8]], behind: &[&[u8]]) -> Fault {
    let shows = parts.concat();
    Fault { name, refusal, shows: shows.len(), bytes: [shows, behind.concat()].concat() }
}

/// A number in a form that is one byte too long.
fn longer(number: u64) -> Vec<u8> {
    let mut form = form(number);
    *form.last_mut().expect("a number has a byte") |= 0x80;
    form.push(0);
    form
}

/// Ten bytes, the tenth of which is this.
fn tenth(byte: u8) -> Vec<u8> {
    [vec![0x85; 9], vec![byte]].concat()
}

/// Each way in which a record may be wrong, behind records whose gaps have this sum; the frame is a right one, of station 5.
pub fn faulty_records(time: u64, frame: &[u8]) -> Vec<Fault> {
    let gap = form(300.min(u64::MAX - time));
    let mut faults = vec![
        fault("a gap in a longer form", 32, &[&longer(0)], &[&[5], &form(frame.len() as u64), frame]),
        fault("a gap whose tenth byte is 2", 32, &[&tenth(2)], &[&[5], &form(frame.len() as u64), frame]),
        fault("a gap whose tenth byte is 129", 32, &[&tenth(129)], &[&[5], &form(frame.len() as u64), frame]),
        fault("station 64", 25, &[&gap, &[64]], &[&form(frame.len() as u64), frame]),
        fault("station 2^32 + 5", 25, &[&gap, &form(1 << 32 | 5)], &[&form(frame.len() as u64), frame]),
        fault("a station in a longer form", 32, &[&gap, &longer(5)], &[&form(frame.len() as u64), frame]),
    ];
    if time > 0 {
        let past = form(u64::MAX - time + 1);
        faults.push(fault("a time of 2^64", 34, &[&past], &[&[5], &form(frame.len() as u64), frame]));
    }
    faults.extend(faulty_lengths(&gap, frame));
    faults.extend(faulty_frames(&gap, frame));
    faults
}

fn faulty_lengths(gap: &[u8], frame: &[u8]) -> Vec<Fault> {
    vec![
        fault("length 0", 35, &[gap, &[5, 0]], &[]),
        fault("length 12", 35, &[gap, &[5, 12]], &[&frame[..12]]),
        fault("length 4,109", 35, &[gap, &[5], &form(4109)], &[frame]),
        fault("length 2^64 - 1", 35, &[gap, &[5], &form(u64::MAX)], &[frame]),
        fault("a length in a longer form", 32, &[gap, &[5], &longer(frame.len() as u64)], &[frame]),
    ]
}

/// Whether the bytes are one whole frame shows where all of them are there.
fn faulty_frames(gap: &[u8], frame: &[u8]) -> Vec<Fault> {
    let changed = |at: usize, byte: u8| {
        let mut changed = frame.to_vec();
        changed[at] = byte;
        changed
    };
    let length = form(frame.len() as u64);
    vec![
        fault("a wrong identifier", 35, &[gap, &[5], &length, &changed(7, b'2')], &[]),
        fault("a size one less", 35, &[gap, &[5], &length, &changed(8, frame[8].wrapping_sub(1))], &[]),
        fault("a size with a high byte", 35, &[gap, &[5], &length, &changed(11, 1)], &[]),
        fault("a length one more than the frame's", 35, &[gap, &[5], &form(frame.len() as u64 + 1), frame, &[0]], &[]),
    ]
}

/// Bytes in place of a trace's first, which is the number 1.
pub fn wrong_starts() -> Vec<Fault> {
    vec![
        fault("a first number 0", 31, &[&[0]], &[]),
        fault("a first number 2", 31, &[&[2]], &[]),
        fault("a first number 128", 31, &[&form(128)], &[]),
        fault("a first number 2^64 - 1", 31, &[&form(u64::MAX)], &[]),
        fault("a first number in a longer form", 32, &[&longer(1)], &[]),
        fault("a first number whose tenth byte is 2", 32, &[&tenth(2)], &[]),
    ]
}
