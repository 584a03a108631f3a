//! Enrolment files: empty, cut, with an EUI twice, as many as there may be and one more. Where they are refused, the trace is never
//! read, and `refused` with its number is the only line.

use crate::files::Files;
use crate::messages::{con, enrolment, ul_data};
use crate::recording::Recording;
use crate::reference::day::METERS;
use crate::reference::record::Record;
use crate::reference::write::write;

/// The meters 1, 2, 3 and so on, all with one short address.
fn meters(count: usize) -> Vec<u8> {
    (1..=count as u64).flat_map(|meter| enrolment(meter, 0xABCD, 5)).collect()
}

/// Readings of meters that are the first, the last, one too many and none; of each the counter 6.
fn readings() -> Vec<u8> {
    let mut day = Recording::new(&meters(METERS));
    day.add(1, 0, &write(&con(1, 1)));
    day.add(1, 0, &write(&Record::new("conCmp", 0)));
    for (i, meter) in [1, METERS as u64, METERS as u64 + 1, 0].into_iter().enumerate() {
        day.add(1, 0, &write(&ul_data(i as i64 + 1, meter, 6)));
    }
    assert_eq!(day.lines, "0 1 6\n0 1024 6\n");
    day.trace
}

pub fn all(files: &mut Files) {
    let trace = readings();
    let full = meters(METERS);
    let mut with = |name: &str, enrolments: &[u8], expected: &str| files.day(name, &trace, enrolments, expected);
    with("no enrolments", &[], "");
    with("one enrolment", &meters(1), "0 1 6\n");
    with("1,023 enrolments", &meters(METERS - 1), "0 1 6\n");
    with("1,024 enrolments", &full, "0 1 6\n0 1024 6\n");
    with("1,025 enrolments", &meters(METERS + 1), "refused 23\n");
    with("3,000 enrolments", &meters(3000), "refused 23\n");
    let last_again = |meter| [&full[..], &enrolment(meter, 1, 1)].concat();
    with("1,025 enrolments, the last of which is the first again", &last_again(1), "refused 22\n");
    with("1,025 enrolments, the last of which is that before it", &last_again(METERS as u64), "refused 22\n");
    for length in 1..14 {
        with("one enrolment, cut", &meters(1)[..length], "refused 33\n");
        with("1,025 enrolments, the last cut", &meters(METERS + 1)[..full.len() + length], "refused 33\n");
        with("1,025 enrolments, the last the first again and cut", &last_again(1)[..full.len() + length], "refused 33\n");
    }
    twice(files, &trace);
    columns(files);
    files.day("enrolments cut, and a first number 2", &[2], &[0], "refused 33\n");
    files.day("an EUI twice, and no trace", &[], &meters(1).repeat(2), "refused 22\n");
    files.day("no enrolments and no trace", &[], &[], "refused 33\n");
}

/// An EUI twice, with what else there may be wrong with the file.
fn twice(files: &mut Files, trace: &[u8]) {
    let again = enrolment(1, 0xABCD, 5);
    let other = enrolment(1, 0x1234, 99);
    let mut with = |name: &str, parts: &[&[u8]], expected: &str| files.day(name, trace, &parts.concat(), expected);
    with("an EUI twice", &[&again, &again], "refused 22\n");
    with("an EUI twice, with another short address and counter", &[&again, &other], "refused 22\n");
    with("an EUI twice, far apart", &[&meters(1000), &other], "refused 22\n");
    with("an EUI twice, then cut", &[&again, &again, &[0; 5]], "refused 22\n");
    with("an EUI twice, then too many", &[&again, &again, &meters(1100)], "refused 22\n");
    with("the second of an EUI cut", &[&again, &again[..13]], "refused 33\n");
    // EUIs that differ in one byte are two meters
    let near: Vec<u8> = (0..8).flat_map(|byte| enrolment(1 ^ 1 << (8 * byte), 0xABCD, 5)).collect();
    with("EUIs that differ in one byte, 0 among them", &[&again, &near], "0 1 6\n0 0 6\n");
}

/// EUI, short address and counter are told apart: each is big endian, and all its bytes count.
fn columns(files: &mut Files) {
    let (eui, counter) = (0x0102_0304_0506_0708, 0x0A0B_0C0D);
    let enrolments = enrolment(eui, 0xFFFF, counter);
    let mut day = Recording::new(&enrolments);
    day.add(1, 63, &write(&con(1, 1)));
    day.add(1, 63, &write(&Record::new("conCmp", 0)));
    // the counter enrolled with was billed before; the next one is new
    day.add(1, 63, &write(&ul_data(1, eui, counter)));
    day.add(1, 63, &write(&ul_data(2, eui.swap_bytes(), counter + 1)));
    day.add(1, 63, &write(&ul_data(3, eui, counter + 1)));
    files.day("each byte of an enrolment", &day.trace, &enrolments, "63 72623859790382856 168496142\n");
}
