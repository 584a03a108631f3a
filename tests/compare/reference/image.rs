//! A record or a session as the bytes of the header's struct, and back.
//! "Nothing else is looked at" than a command's own fields, and of these a record's bytes are the only ones: marks 0 or 1, absent
//! fields and what stands behind a profile zero. So an image is a record's exactly if laying that record out gives the same
//! fields again. Of the data only what the fields say is looked at.

use super::commands::{self, COMMANDS};
use super::fields::{kind, Kind, Value};
use super::layout::{self, fields, member, size, Layout, COUNTER, DATA, ENTRIES, LENGTHS, MESSAGE, SESSION};
use super::record::Record;
use super::session::{Place, Session, State};
use std::collections::HashMap;

/// What a call takes as one message: the struct's bytes in front of its data, and the data.
#[derive(Clone, Debug, PartialEq, Eq)]
pub struct Image {
    pub message: Vec<u8>,
    pub data: Vec<u8>,
}

/// Where a message says its command.
pub const COMMAND: usize = 8;

/// bsEui is bs_eui in the header, and so on.
fn snake(key: &str) -> String {
    let letter = |c: char| if c.is_ascii_uppercase() { format!("_{}", c.to_ascii_lowercase()) } else { c.to_string() };
    key.chars().map(letter).collect()
}

/// "User data or the status text goes into data, its length into user_len or message_len."
fn length_beside(key: &str) -> Option<&'static str> {
    match key {
        "userData" => Some("user_len"),
        "message" => Some("message_len"),
        _ => None,
    }
}

const LOCATION: [&str; 3] = ["latitude", "longitude", "altitude"];
const VERSION: [&str; 3] = ["version_major", "version_minor", "version_patch"];

fn get<'a>(layout: Layout, image: &'a [u8], name: &str) -> &'a [u8] {
    &image[member(layout, name).expect(name)]
}

fn put(layout: Layout, image: &mut [u8], name: &str, bytes: &[u8]) {
    let range = member(layout, name).expect(name);
    image[range][..bytes.len()].copy_from_slice(bytes);
}

/// A little-endian number without sign.
fn number(bytes: &[u8]) -> u64 {
    bytes.iter().rev().fold(0, |number, byte| number << 8 | u64::from(*byte))
}

/// Zeros where the command has nothing; no more data than the record has: of a dlDataQue all counters and lengths, zeros in
/// those that it doesn't use, and the bytes of its entries.
pub fn of_record(record: &Record) -> Image {
    let layout = layout::message(record.command.name);
    let data = if record.command.name == "dlDataQue" { vec![0; DATA] } else { Vec::new() };
    let mut image = Image { message: vec![0; MESSAGE], data };
    put(layout, &mut image.message, "command", &[commands::number(record.command.name)]);
    for (key, value) in &record.fields {
        put_value(layout, &mut image, key, value);
        let mark = format!("has_{}", snake(key));
        if member(layout, &mark).is_some() {
            put(layout, &mut image.message, &mark, &[1]);
        }
    }
    image
}

fn put_value(layout: Layout, image: &mut Image, key: &str, value: &Value) {
    let name = snake(key);
    let message = &mut image.message;
    let real = |number: &f64| number.to_bits().to_le_bytes();
    match value {
        Value::Whole(number) => {
            let width = member(layout, &name).expect(&name).len();
            put(layout, message, &name, &number.to_le_bytes()[..width]);
        }
        Value::Real(number) => put(layout, message, &name, &real(number)),
        Value::Flag(flag) => put(layout, message, &name, &[u8::from(*flag)]),
        Value::Location(reals) => LOCATION.iter().zip(reals).for_each(|(name, number)| put(layout, message, name, &real(number))),
        Value::Version(parts) => {
            VERSION.iter().zip(parts).for_each(|(name, part)| put(layout, message, name, &part.to_le_bytes()));
        }
        Value::Bytes(bytes) | Value::Text(bytes) => put_bytes(layout, image, key, bytes),
        Value::Counters(counters) => {
            let bytes: Vec<u8> = counters.iter().flat_map(|counter| counter.to_le_bytes()).collect();
            image.data[..bytes.len()].copy_from_slice(&bytes);
        }
        Value::Entries(entries) => {
            put(layout, message, "entries", &[entries.len() as u8]);
            let (lengths, bytes): (Vec<u8>, Vec<u8>) =
                (entries.iter().map(|entry| entry.len() as u8).collect(), entries.concat());
            image.data[LENGTHS..][..lengths.len()].copy_from_slice(&lengths);
            image.data[ENTRIES..][..bytes.len()].copy_from_slice(&bytes);
            image.data.truncate(ENTRIES + bytes.len());
        }
    }
}

fn put_bytes(layout: Layout, image: &mut Image, key: &str, bytes: &[u8]) {
    if let Some(length) = length_beside(key) {
        image.data = bytes.to_vec();
        return put(layout, &mut image.message, length, &[bytes.len() as u8]);
    }
    put(layout, &mut image.message, &snake(key), bytes);
    if key == "profile" {
        put(layout, &mut image.message, "profile_len", &[bytes.len() as u8]);
    }
}

/// The record whose image this is, if it is one's and the record is valid.
pub fn to_record(image: &Image) -> Option<Record> {
    if image.message.len() != MESSAGE {
        return None;
    }
    let command = COMMANDS.get(image.message[COMMAND] as usize)?;
    let layout = layout::message(command.name);
    let mut values = HashMap::new();
    for key in command.keys().filter(|key| key.kept) {
        let mark = format!("has_{}", snake(key.name));
        if member(layout, &mark).map_or(true, |mark| image.message[mark][0] == 1) {
            if let Some(value) = get_value(command.name, layout, image, key.name)? {
                values.insert(key.name, value);
            }
        }
    }
    let record = Record { command, fields: values };
    Some(record).filter(|record| record.is_valid() && same_fields(layout, &of_record(record), image))
}

fn same_fields(layout: Layout, one: &Image, other: &Image) -> bool {
    fields(layout).all(|(_, range)| one.message[range.clone()] == other.message[range])
}

/// None: a length that its bytes don't have. Some(None): a profile of length 0, a format of 0, a prio of plus zero or the
/// counters of what isn't counter dependent, which mean absent.
fn get_value(command: &str, layout: Layout, image: &Image, key: &str) -> Option<Option<Value>> {
    let name = snake(key);
    let part = |name: &str| get(layout, &image.message, name);
    let real = |name: &str| f64::from_bits(number(part(name)));
    let value = match kind(command, key) {
        Kind::Whole(range) => {
            let (bits, unused) = (number(part(&name)), 64 - 8 * part(&name).len() as u32);
            // snBsOpId is a signed member though its range starts at 0
            let signed = *range.start() < 0 || key == "snBsOpId";
            Value::Whole(if signed { ((bits << unused) as i64 >> unused).into() } else { bits.into() })
        }
        Kind::Real | Kind::Single => Value::Real(real(&name)),
        Kind::Location => Value::Location([real(LOCATION[0]), real(LOCATION[1]), real(LOCATION[2])]),
        Kind::Version => Value::Version([0, 1, 2].map(|i: usize| number(part(VERSION[i])) as u16)),
        Kind::Bytes(_) => Value::Bytes(counted(layout, image, key)?),
        Kind::Text(_) => Value::Text(counted(layout, image, key)?),
        Kind::Counters if part("cnt_depend")[0] == 0 => return Some(None),
        Kind::Counters => Value::Counters(counters(part("entries")[0] as usize, &image.data)?),
        Kind::Entries => Value::Entries(entries(part("entries")[0] as usize, &image.data)?),
        _ => Value::Flag(part(&name)[0] == 1),
    };
    let absent = match &value {
        Value::Text(text) => key == "profile" && text.is_empty(),
        Value::Whole(number) => key == "format" && *number == 0,
        Value::Real(number) => key == "prio" && number.to_bits() == 0,
        _ => false,
    };
    Some(if absent { None } else { Some(value) })
}

/// The first counters of the data beside a dlDataQue.
fn counters(count: usize, data: &[u8]) -> Option<Vec<u32>> {
    let bytes = data.get(..LENGTHS)?.get(..COUNTER * count)?;
    Some(bytes.chunks(COUNTER).map(|counter| number(counter) as u32).collect())
}

/// The first entries of the data beside a dlDataQue: "The entries' bytes stand one behind the other."
fn entries(count: usize, data: &[u8]) -> Option<Vec<Vec<u8>>> {
    let lengths = data.get(LENGTHS..ENTRIES)?.get(..count)?;
    let mut bytes = &data[ENTRIES..];
    let mut entries = Vec::new();
    for length in lengths {
        entries.push(bytes.get(..*length as usize)?.to_vec());
        bytes = &bytes[*length as usize..];
    }
    Some(entries)
}

/// The first bytes of the data or of an array, as many as a length member states; all where there is none.
fn counted(layout: Layout, image: &Image, key: &str) -> Option<Vec<u8>> {
    let stated = |name: &str| get(layout, &image.message, name)[0] as usize;
    if let Some(length) = length_beside(key) {
        return image.data.get(..stated(length)).map(<[u8]>::to_vec);
    }
    let all = get(layout, &image.message, &snake(key));
    let length = if key == "profile" { stated("profile_len") } else { all.len() };
    all.get(..length).map(<[u8]>::to_vec)
}

pub fn of_session(session: &Session) -> Vec<u8> {
    let mut image = vec![0; size(SESSION)];
    let ids = |places: &[Place; 16]| places.iter().flat_map(|place| place.id.to_le_bytes()).collect::<Vec<u8>>();
    let kinds = |places: &[Place; 16]| places.iter().map(|place| place.kind).collect::<Vec<u8>>();
    put(SESSION, &mut image, "bs_eui", &session.bs_eui.to_le_bytes());
    put(SESSION, &mut image, "highest", &session.highest.to_le_bytes());
    put(SESSION, &mut image, "lowest", &session.lowest.to_le_bytes());
    put(SESSION, &mut image, "station_id", &ids(&session.station));
    put(SESSION, &mut image, "centre_id", &ids(&session.centre));
    put(SESSION, &mut image, "station_kind", &kinds(&session.station));
    put(SESSION, &mut image, "centre_kind", &kinds(&session.centre));
    put(SESSION, &mut image, "sn_bs_uuid", &session.bs_uuid);
    put(SESSION, &mut image, "sn_sc_uuid", &session.sc_uuid);
    put(SESSION, &mut image, "state", &[session.state as u8]);
    put(SESSION, &mut image, "stored", &[u8::from(session.stored)]);
    image
}

/// None: a wrong length, a state over 2, a stored mark over 1 or reserved bytes that aren't zero.
pub fn to_session(image: &[u8]) -> Option<Session> {
    if image.len() != size(SESSION) {
        return None;
    }
    let part = |name: &str| get(SESSION, image, name);
    let places = |ids: &str, kinds: &str| {
        let (ids, kinds) = (part(ids), part(kinds));
        std::array::from_fn(|i| Place { id: number(&ids[8 * i..8 * i + 8]) as i64, kind: kinds[i] })
    };
    let session = Session {
        state: *[State::Waiting, State::Connecting, State::Open].get(part("state")[0] as usize)?,
        stored: part("stored")[0] == 1,
        bs_eui: number(part("bs_eui")),
        bs_uuid: part("sn_bs_uuid").try_into().ok()?,
        sc_uuid: part("sn_sc_uuid").try_into().ok()?,
        highest: number(part("highest")) as i64,
        lowest: number(part("lowest")) as i64,
        station: places("station_id", "station_kind"),
        centre: places("centre_id", "centre_kind"),
    };
    Some(session).filter(|session| of_session(session) == image)
}
