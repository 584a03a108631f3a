//! Messages of every command: every member with contents at its edges, every byte that the command doesn't have, every mark,
//! every length, every room. Each is written, arrives at a session, and is started by the centre where its command can be, else
//! at times; and added to a queue where it is a downlink, else at times.

use super::random::Random;
use super::writes::ROOM;
use super::{images, sessions, values};
use crate::reference::commands::{number, COMMANDS};
use crate::reference::image::{self, Image, COMMAND};
use crate::reference::layout::{self, fields, member, DATA, MESSAGE};
use crate::reference::session::{State, CENTRE_STARTS};
use crate::reference::{calls, write};
use crate::stream::Stream;

pub fn all(stream: &mut Stream, random: &mut Random) {
    for command in &COMMANDS {
        members(stream, random, command.name);
        others(stream, random, command.name);
        reals(stream, random, command.name);
        marks(stream, random, command.name);
        rooms(stream, random, command.name);
        message_lengths(stream, random, command.name);
        data_lengths(stream, random, command.name);
    }
    unknown_commands(stream, random);
    stated_lengths(stream, random);
}

fn valid(random: &mut Random, name: &str) -> Image {
    let record = values::of(random, name);
    images::of(random, &record)
}

pub fn hand_over(stream: &mut Stream, random: &mut Random, image: &Image) {
    stream.write(image, &random.bytes(ROOM));
    let mut session = sessions::any(random);
    sessions::hand_over(stream, random, &image::of_session(&session), image);
    let is_one = |names: &[&str]| image.message.get(COMMAND).map_or(true, |is| names.iter().any(|name| number(name) == *is));
    if is_one(&CENTRE_STARTS) || random.one_in(8) {
        session.state = State::Open;
        session.centre = Default::default();
        stream.begin(&image::of_session(&session), image, &random.bytes(ROOM));
    }
    if is_one(&["dlDataQue"]) || random.one_in(16) {
        stream.queued(image);
    }
}

fn members(stream: &mut Stream, random: &mut Random, name: &str) {
    for (_, range) in fields(layout::message(name)) {
        let size = range.len();
        let one_byte = |at: usize, byte: u8| {
            let mut bytes = vec![0; size];
            bytes[at] = byte;
            bytes
        };
        for bytes in [one_byte(0, 1), one_byte(size - 1, 1), one_byte(size - 1, 0x80), vec![0xFF; size], vec![0; size]] {
            for _ in 0..5 {
                let mut image = valid(random, name);
                image.message[range.clone()].copy_from_slice(&bytes);
                hand_over(stream, random, &image);
            }
        }
    }
}

/// Each byte that the command doesn't have, alone among zeros: the record is written all the same.
fn others(stream: &mut Stream, random: &mut Random, name: &str) {
    for at in images::not_its_own(name) {
        for byte in [1, 2, 0x80, 0xFF] {
            let record = values::of(random, name);
            let mut image = image::of_record(&record);
            image.message[at] = byte;
            assert_eq!(calls::write(&image, &mut [0; ROOM]) >> 16, write::write(&record).len() as u64);
            hand_over(stream, random, &image);
        }
    }
}

/// Bits of reals at their edges in each word behind the head, whether the command has a real there, another field or none.
fn reals(stream: &mut Stream, random: &mut Random, name: &str) {
    let greatest: u64 = (0x7FF0 << 48) - 1;
    for at in (16..MESSAGE).step_by(8) {
        for bits in [1, greatest, greatest + 1, greatest + 2, 0x7FF8 << 48, 0] {
            for sign in [0, 1 << 63] {
                let mut image = valid(random, name);
                image.message[at..at + 8].copy_from_slice(&(bits | sign).to_le_bytes());
                hand_over(stream, random, &image);
            }
        }
    }
}

/// Every byte in every mark of the command.
fn marks(stream: &mut Stream, random: &mut Random, name: &str) {
    for at in images::marks(layout::message(name)) {
        for byte in 0..=255 {
            let mut image = valid(random, name);
            image.message[at] = byte;
            hand_over(stream, random, &image);
        }
    }
}

/// Rooms of every length up to more than the message needs.
fn rooms(stream: &mut Stream, random: &mut Random, name: &str) {
    let image = valid(random, name);
    let need = (calls::write(&image, &mut [0; ROOM]) >> 16) as usize;
    for length in 0..need + 3 {
        stream.write(&image, &random.bytes(length));
    }
}

/// Messages that aren't as long as the header says, to be handed in and to be read into.
fn message_lengths(stream: &mut Stream, random: &mut Random, name: &str) {
    for length in images::WRONG_LENGTHS.into_iter().chain(0..20).chain(MESSAGE - 8..MESSAGE + 9) {
        let mut image = valid(random, name);
        let payload = write::write(&values::of(random, name))[12..].to_vec();
        image.message.resize(length, 0);
        hand_over(stream, random, &image);
        let data = random.bytes(DATA);
        stream.read(&payload, &Image { message: image.message, data });
    }
}

/// Data of any length, to be handed in and to be read into; of every length that decides where the message has some.
fn data_lengths(stream: &mut Stream, random: &mut Random, name: &str) {
    let every = match name {
        "ulData" | "statusRsp" => 260,
        "dlDataQue" => DATA,
        _ => 0,
    };
    let lengths = (0..DATA + 12).filter(|length| *length < every || length % 60 == 0 || *length >= DATA - 2);
    for length in lengths.chain([300, 584, 4096]) {
        let record = values::of(random, name);
        let mut image = images::of(random, &record);
        image.data.truncate(length);
        image.data.extend(random.bytes(length - image.data.len()));
        hand_over(stream, random, &image);
        let payload = write::write(&record)[12..].to_vec();
        stream.read(&payload, &Image { message: random.bytes(MESSAGE), data: image.data });
    }
}

/// Every number that no command has, over the bytes of any message.
fn unknown_commands(stream: &mut Stream, random: &mut Random) {
    for command in 24..=255 {
        let mut image = images::valid(random);
        image.message[COMMAND] = command;
        hand_over(stream, random, &image);
    }
}

/// Every stated length: of a profile, over an array of zeros, a full one, and one that is filled just so far; of data, over less
/// than it says, just as much, and more.
fn stated_lengths(stream: &mut Stream, random: &mut Random) {
    for stated in 0..=255 {
        for name in ["det", "ulData"] {
            let profile = member(layout::message(name), "profile").expect("a member");
            for filled in [0, 16, stated.min(16), (stated + 1).min(16)] {
                let mut image = stating(random, name, "profile_len", stated);
                let bytes = &mut image.message[profile.clone()];
                bytes.fill(0);
                bytes[..filled].fill(0xA5);
                hand_over(stream, random, &image);
            }
        }
        for (name, length) in [("ulData", "user_len"), ("statusRsp", "message_len")] {
            for has in [0, stated.saturating_sub(1), stated, stated + 1, DATA, 300] {
                let mut image = stating(random, name, length, stated);
                image.data = random.bytes(has);
                hand_over(stream, random, &image);
            }
        }
    }
}

fn stating(random: &mut Random, name: &str, length: &str, stated: usize) -> Image {
    let mut image = valid(random, name);
    image.message[member(layout::message(name), length).expect("a member")][0] = stated as u8;
    image
}
