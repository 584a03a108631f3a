//! A trace, document 02's Q-3: "the number 1, then records: nanoseconds since the previous record, station number, length, and that
//! many bytes of a whole frame".

use super::frame::{frame, HEADER, MOST};
use super::refusal::*;

/// A number has at most so many bytes: nine groups of seven bits, and one bit more.
const LONGEST: usize = 10;

/// "Numbers are groups of seven bits, lowest group first, high bit set on all but the last byte, below 2^64, shortest form only;
/// 300 is AC 02."
pub fn form(number: u64) -> Vec<u8> {
    if number < 128 {
        return vec![number as u8];
    }
    [vec![128 + (number % 128) as u8], form(number / 128)].concat()
}

/// The number at the start of the bytes, and how many it takes: "33 input ends inside a number", "32 tenth byte over 1 or not
/// shortest".
pub fn number(bytes: &[u8]) -> Result<(u64, usize), Refusal> {
    let nine_go_on = bytes.len() >= LONGEST && bytes[..LONGEST - 1].iter().all(|byte| *byte >= 128);
    if nine_go_on && bytes[LONGEST - 1] > 1 {
        return Err(NOT_SHORTEST);
    }
    let last = bytes.iter().position(|byte| *byte < 128).ok_or(INPUT_ENDS)?;
    let form = &bytes[..=last];
    let number = form.iter().rev().fold(0, |number, byte| number * 128 + u64::from(byte % 128));
    if self::form(number) == form {
        Ok((number, form.len()))
    } else {
        Err(NOT_SHORTEST)
    }
}

/// A trace without records.
pub fn start() -> Vec<u8> {
    form(1)
}

/// How many bytes the start of a trace takes: "31 first number not 1", after 33 and 32.
pub fn open(bytes: &[u8]) -> Result<usize, Refusal> {
    match number(bytes)? {
        (1, length) => Ok(length),
        _ => Err(NOT_A_TRACE),
    }
}

/// "35 length under 13 or over 4,108, or bytes not exactly one whole frame"
fn is_one_frame(bytes: &[u8]) -> bool {
    frame(bytes) == Ok(bytes.len())
}

/// The sum of the gaps with this record's, and the record: "the writer's order is 34, 25, 35, 20".
pub fn record(time: u64, gap: u64, station: u64, frame: &[u8]) -> Result<(u64, Vec<u8>), Refusal> {
    let sum = time.checked_add(gap).ok_or(TIME_SUM)?;
    if station > 63 {
        return Err(STATION_NUMBER);
    }
    if !is_one_frame(frame) {
        return Err(NOT_ONE_FRAME);
    }
    Ok((sum, [form(gap), form(station), form(frame.len() as u64), frame.to_vec()].concat()))
}

/// A record at the start of some bytes.
#[derive(Debug, PartialEq, Eq)]
pub struct Recorded<'a> {
    /// The sum of the gaps up to this record.
    pub time: u64,
    pub station: u64,
    pub frame: &'a [u8],
    /// How many bytes the record takes; the frame is its last bytes.
    pub length: usize,
}

/// "The first fault from left to right": each number's 33 and 32, 34 behind the gap, 25 behind the station, 35 behind the length
/// "(before 33)", then whether the bytes are one whole frame.
pub fn recorded(time: u64, bytes: &[u8]) -> Result<Recorded<'_>, Refusal> {
    let mut at = 0;
    let mut next = || {
        let (number, length) = number(&bytes[at..])?;
        at += length;
        Ok(number)
    };
    let time = time.checked_add(next()?).ok_or(TIME_SUM)?;
    let station = next()?;
    if station > 63 {
        return Err(STATION_NUMBER);
    }
    let length = next()?;
    if length < HEADER as u64 + 1 || length > (HEADER + MOST) as u64 {
        return Err(NOT_ONE_FRAME);
    }
    let frame = bytes[at..].get(..length as usize).ok_or(INPUT_ENDS)?;
    if !is_one_frame(frame) {
        return Err(NOT_ONE_FRAME);
    }
    Ok(Recorded { time, station, frame, length: at + frame.len() })
}
