//! What a field may hold: its kind and range by its command and key, and an element taken as a value of that kind.

use super::elements::Element;
use std::ops::RangeInclusive;

#[derive(Clone, Debug)]
pub enum Kind {
    Whole(RangeInclusive<i128>),
    Real,
    /// A real that single precision holds exactly.
    Single,
    Location,
    Flag,
    Version,
    Bytes(RangeInclusive<usize>),
    Text(RangeInclusive<usize>),
    /// Packet counters.
    Counters,
    /// Data entries.
    Entries,
    AnyText,
    AnyMap,
}

#[derive(Clone, Debug)]
pub enum Value {
    Whole(i128),
    Real(f64),
    Location([f64; 3]),
    Flag(bool),
    Version([u16; 3]),
    Bytes(Vec<u8>),
    Text(Vec<u8>),
    Counters(Vec<u32>),
    Entries(Vec<Vec<u8>>),
}

/// "userData 0 to 245"; document 02, Q-2: "at most 16 counters and 16 data entries, each of 0 to 245 bytes and together at most
/// 800"
pub const MOST_DATA: usize = 245;
pub const MOST_COUNTERS: usize = 16;
pub const MOST_ENTRIES: usize = 16;
pub const MOST_TOGETHER: usize = 800;

/// dlDataQue has several of what det and ulData have one of.
pub fn kind(command: &str, key: &str) -> Kind {
    match (command, key) {
        ("dlDataQue", "packetCnt") => Kind::Counters,
        ("dlDataQue", "userData") => Kind::Entries,
        _ => usual(key),
    }
}

/// Document 01's "Ranges", and Q-2's: "queId is 64 bits unsigned", "prio is a finite real that fits single precision exactly".
fn usual(key: &str) -> Kind {
    let whole = |low: i128, high: i128| Kind::Whole(low..=high);
    match key {
        "opId" => whole(i64::MIN.into(), i64::MAX.into()),
        "bsEui" | "scEui" | "epEui" | "queId" | "time" | "rxTime" | "rxDuration" | "uptime" => whole(0, u64::MAX.into()),
        "packetCnt" | "lastPacketCnt" => whole(0, u32::MAX.into()),
        "shAddr" => whole(0, u16::MAX.into()),
        "format" => whole(0, u8::MAX.into()),
        "code" => whole(i32::MIN.into(), i32::MAX.into()),
        "snBsOpId" => whole(0, i64::MAX.into()),
        "snScOpId" => whole(i64::MIN.into(), 0),
        "snBsUuid" | "snScUuid" | "nwkSnKey" => Kind::Bytes(16..=16),
        "sign" => Kind::Bytes(4..=4),
        "userData" => Kind::Bytes(0..=MOST_DATA),
        "profile" => Kind::Text(1..=16),
        "message" => Kind::Text(0..=64),
        "version" => Kind::Version,
        "geoLocation" => Kind::Location,
        "dutyCycle" | "temp" | "cpuLoad" | "memLoad" | "snr" | "rssi" | "eqSnr" => Kind::Real,
        "prio" => Kind::Single,
        "vendor" | "model" | "name" | "swVersion" | "mode" => Kind::AnyText,
        "info" | "config" | "subpackets" => Kind::AnyMap,
        _ => Kind::Flag,
    }
}

/// The element as a value of this kind; ranges are judged with the whole record.
pub fn value(kind: &Kind, element: &Element) -> Option<Value> {
    match (kind, element) {
        (Kind::Whole(_), Element::Whole(number)) => Some(Value::Whole(*number)),
        (Kind::Real | Kind::Single, element) => real(element).map(Value::Real),
        (Kind::Location, Element::Array(entries)) => location(entries).map(Value::Location),
        (Kind::Flag, Element::Flag(flag)) => Some(Value::Flag(*flag)),
        (Kind::Version, Element::Text(text)) => version(text).map(Value::Version),
        (Kind::Bytes(_), Element::Array(entries)) => bytes(entries).map(Value::Bytes),
        (Kind::Text(_), Element::Text(text)) => Some(Value::Text(text.clone())),
        (Kind::Counters, Element::Array(entries)) => counters(entries).map(Value::Counters),
        (Kind::Entries, Element::Array(entries)) => data_entries(entries).map(Value::Entries),
        _ => None,
    }
}

/// Whether a D field has its type.
pub fn has_type(kind: &Kind, element: &Element) -> bool {
    matches!((kind, element), (Kind::AnyText, Element::Text(_)) | (Kind::AnyMap, Element::Map(_)))
}

/// Whether a value lies in its range; reals must be "finite".
pub fn in_range(kind: &Kind, value: &Value) -> bool {
    match (kind, value) {
        (Kind::Whole(range), Value::Whole(number)) => range.contains(number),
        (Kind::Real, Value::Real(real)) => real.is_finite(),
        (Kind::Single, Value::Real(real)) => real.is_finite() && is_single(*real),
        (Kind::Location, Value::Location(reals)) => reals.iter().all(|real| real.is_finite()),
        (Kind::Flag, Value::Flag(_)) | (Kind::Version, Value::Version(_)) => true,
        (Kind::Bytes(range), Value::Bytes(bytes)) => range.contains(&bytes.len()),
        (Kind::Text(range), Value::Text(text)) => range.contains(&text.len()),
        (Kind::Counters, Value::Counters(counters)) => counters.len() <= MOST_COUNTERS,
        (Kind::Entries, Value::Entries(entries)) => {
            let together: usize = entries.iter().map(Vec::len).sum();
            entries.len() <= MOST_ENTRIES && entries.iter().all(|entry| entry.len() <= MOST_DATA) && together <= MOST_TOGETHER
        }
        _ => false,
    }
}

/// Reals "must be float 32 or 64". Document 02, Q-1: "Every real field must also take an integer from −2^53 to 2^53 as the real of
/// exactly that number, 0 as plus zero; others remain 15."
fn real(element: &Element) -> Option<f64> {
    match element {
        Element::Real(real) => Some(*real),
        Element::Whole(number) if (-(1 << 53)..=1 << 53).contains(number) => Some(*number as f64),
        _ => None,
    }
}

/// Whether a finite real is one of float 32: a whole number of less than 25 bits times a power of two that is at least 2^−149,
/// and below 2^128. Both zeros are.
pub fn is_single(real: f64) -> bool {
    let bits = real.to_bits();
    let (exponent, fraction) = ((bits >> 52 & 0x7FF) as i64, bits & ((1 << 52) - 1));
    // real = number * 2^power, the number odd
    let (number, power) = match exponent {
        0 if fraction == 0 => return true,
        0 => (fraction, -1074),
        _ => (fraction | 1 << 52, exponent - 1075),
    };
    let (number, power) = (number >> number.trailing_zeros(), power + i64::from(number.trailing_zeros()));
    let length = 64 - i64::from(number.leading_zeros());
    length <= 24 && power >= -149 && power + length <= 128
}

fn location(entries: &[Element]) -> Option<[f64; 3]> {
    match entries {
        [latitude, longitude, altitude] => Some([real(latitude)?, real(longitude)?, real(altitude)?]),
        _ => None,
    }
}

/// "all arrays of 0 to 255"
fn bytes(entries: &[Element]) -> Option<Vec<u8>> {
    let byte = |entry: &Element| match entry {
        Element::Whole(number) if (0..=255).contains(number) => Some(*number as u8),
        _ => None,
    };
    entries.iter().map(byte).collect()
}

/// "counters 0 to 2^32−1"
fn counters(entries: &[Element]) -> Option<Vec<u32>> {
    let counter = |entry: &Element| match entry {
        Element::Whole(number) => u32::try_from(*number).ok(),
        _ => None,
    };
    entries.iter().map(counter).collect()
}

/// Numeric[m][n]: "n Byte End Point user data for each of the m packet counters"
fn data_entries(entries: &[Element]) -> Option<Vec<Vec<u8>>> {
    let entry = |entry: &Element| match entry {
        Element::Array(list) => bytes(list),
        _ => None,
    };
    entries.iter().map(entry).collect()
}

/// "version three decimal numbers 0 to 65,535 joined by dots, no leading zero"
fn version(text: &[u8]) -> Option<[u16; 3]> {
    let parts: Option<Vec<u16>> = text.split(|byte| *byte == b'.').map(decimal).collect();
    match parts?[..] {
        [major, minor, patch] => Some([major, minor, patch]),
        _ => None,
    }
}

fn decimal(digits: &[u8]) -> Option<u16> {
    if digits.is_empty() || !digits.iter().all(u8::is_ascii_digit) || (digits[0] == b'0' && digits.len() > 1) {
        return None;
    }
    std::str::from_utf8(digits).ok()?.parse().ok()
}
