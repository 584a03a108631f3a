//! A record as a whole frame.
//! "The writer uses the shortest integer (unsigned forms where it isn't negative) and length, always float 64 for reals,
//! keys in listed order."

use super::fields::Value;
use super::frame::framed;
use super::record::Record;

pub fn write(record: &Record) -> Vec<u8> {
    let keys: Vec<&str> = record.command.keys().map(|key| key.name).filter(|key| record.fields.contains_key(key)).collect();
    let mut out = Vec::new();
    head(&mut out, 0x80, 15, &[0xDE, 0xDF], 2, keys.len() + 1);
    text(&mut out, b"command");
    text(&mut out, record.command.name.as_bytes());
    for key in keys {
        text(&mut out, key.as_bytes());
        value(&mut out, &record.fields[key]);
    }
    framed(&out)
}

fn value(out: &mut Vec<u8>, value: &Value) {
    match value {
        Value::Whole(number) => whole(out, *number),
        Value::Real(number) => real(out, *number),
        Value::Flag(flag) => out.push(if *flag { 0xC3 } else { 0xC2 }),
        Value::Text(bytes) => text(out, bytes),
        Value::Version([major, minor, patch]) => text(out, format!("{}.{}.{}", major, minor, patch).as_bytes()),
        Value::Location(numbers) => {
            array(out, 3);
            numbers.iter().for_each(|number| real(out, *number));
        }
        Value::Bytes(list) => bytes(out, list),
        Value::Counters(counters) => {
            array(out, counters.len());
            counters.iter().for_each(|counter| whole(out, (*counter).into()));
        }
        Value::Entries(entries) => {
            array(out, entries.len());
            entries.iter().for_each(|entry| bytes(out, entry));
        }
    }
}

fn bytes(out: &mut Vec<u8>, bytes: &[u8]) {
    array(out, bytes.len());
    bytes.iter().for_each(|byte| whole(out, (*byte).into()));
}

fn whole(out: &mut Vec<u8>, number: i128) {
    let bytes = number.to_be_bytes();
    let mut put = |lead: u8, width: usize| {
        out.push(lead);
        out.extend_from_slice(&bytes[16 - width..]);
    };
    match number {
        -32..=0x7F => out.push(number as u8),
        0x80..=0xFF => put(0xCC, 1),
        0x100..=0xFFFF => put(0xCD, 2),
        0x1_0000..=0xFFFF_FFFF => put(0xCE, 4),
        0x1_0000_0000..=i128::MAX => put(0xCF, 8),
        -0x80..=-33 => put(0xD0, 1),
        -0x8000..=-0x81 => put(0xD1, 2),
        -0x8000_0000..=-0x8001 => put(0xD2, 4),
        _ => put(0xD3, 8),
    }
}

fn real(out: &mut Vec<u8>, number: f64) {
    out.push(0xCB);
    out.extend_from_slice(&number.to_bits().to_be_bytes());
}

fn text(out: &mut Vec<u8>, bytes: &[u8]) {
    head(out, 0xA0, 31, &[0xD9, 0xDA, 0xDB], 1, bytes.len());
    out.extend_from_slice(bytes);
}

fn array(out: &mut Vec<u8>, count: usize) {
    head(out, 0x90, 15, &[0xDC, 0xDD], 2, count);
}

/// The shortest head for a count: in the lead byte up to `most`, else in as many bytes as it needs, from `width` doubling.
fn head(out: &mut Vec<u8>, fixed: u8, most: usize, leads: &[u8], width: usize, count: usize) {
    if count <= most {
        return out.push(fixed | count as u8);
    }
    let widths = leads.iter().enumerate().map(|(step, lead)| (*lead, width << step));
    let (lead, width) = widths.into_iter().find(|(_, width)| count >> (8 * width) == 0).expect("no count is longer");
    out.push(lead);
    out.extend_from_slice(&count.to_be_bytes()[8 - width..]);
}
