//! Messages as a host hands them in: with anything in the bytes that the command doesn't have and behind the data, and with faults.

use super::random::Random;
use super::values;
use crate::reference::commands::COMMANDS;
use crate::reference::image::{self, Image, COMMAND};
use crate::reference::layout::{self, fields, member, Layout, COUNTER, DATA, ENTRIES, LENGTHS, MESSAGE};
use crate::reference::record::Record;

/// The image of a valid record, of any command.
pub fn valid(random: &mut Random) -> Image {
    let record = values::any(random);
    of(random, &record)
}

/// The record's image; what its command doesn't have mostly holds something, as do the places beside a downlink that it doesn't
/// use. The reference must take it for the record.
pub fn of(random: &mut Random, record: &Record) -> Image {
    let plain = image::of_record(record);
    let mut image = plain.clone();
    let unused = not_said(record);
    match random.below(4) {
        0 => {}
        1 => {
            not_its_own(record.command.name).for_each(|at| image.message[at] = 0xFF);
            unused.iter().for_each(|at| image.data[*at] = 0xFF);
        }
        _ => {
            not_its_own(record.command.name).for_each(|at| image.message[at] = random.byte());
            unused.iter().for_each(|at| image.data[*at] = random.byte());
        }
    }
    let longer = random.pick(&[0, 0, 1, DATA - image.data.len(), DATA - image.data.len(), 60]);
    image.data.extend(random.bytes(longer));
    assert_eq!(image::to_record(&image).map(|again| image::of_record(&again)), Some(plain));
    image
}

/// The bytes of a message that its command doesn't have.
pub fn not_its_own(command: &str) -> impl Iterator<Item = usize> {
    let layout = layout::message(command);
    (0..MESSAGE).filter(move |at| !fields(layout).any(|(_, range)| range.contains(at)))
}

/// The counters and lengths that a downlink doesn't use.
pub fn not_said(record: &Record) -> Vec<usize> {
    if record.command.name != "dlDataQue" {
        return Vec::new();
    }
    let (counters, entries) = (record.counters().map_or(0, <[u32]>::len), record.entries().len());
    (COUNTER * counters..LENGTHS).chain(LENGTHS + entries..ENTRIES).collect()
}

/// Buffers with any contents to read a message into.
pub fn to_read_into(random: &mut Random) -> Image {
    let longer = random.pick(&[0, 0, 0, 1, 60]);
    Image { message: random.bytes(MESSAGE), data: random.bytes(DATA + longer) }
}

/// An image with one to three faults; what a fault hits may also stay valid.
pub fn spoiled(random: &mut Random) -> Image {
    let mut image = valid(random);
    for _ in 0..random.pick(&[1, 1, 1, 2, 3]) {
        spoil(random, &mut image);
    }
    image
}

/// A message of another length than CHZ_MESSAGE: among them the whole struct's and the former ones.
pub const WRONG_LENGTHS: [usize; 9] = [0, 1, 9, MESSAGE - 1, MESSAGE + 1, 2 * MESSAGE, 352, 584, MESSAGE + DATA];

pub fn wrong_length(random: &mut Random) -> Image {
    let mut image = valid(random);
    image.message.resize(random.pick(&WRONG_LENGTHS), 0);
    image
}

pub fn spoil(random: &mut Random, image: &mut Image) {
    if image.message.len() != MESSAGE {
        return;
    }
    let layout = layout::message(COMMANDS.get(image.message[COMMAND] as usize).map_or("", |command| command.name));
    match random.below(16) {
        0 => image.message[random.below(MESSAGE)] = random.byte(),
        1 | 2 => one_member(random, layout, &mut image.message),
        3 => one_of(random, &marks(layout), |at, random| {
            image.message[at] = random.pick(&[0, 1, 2, 3, 127, 128, 254, 255]);
        }),
        4 => one_of(random, &marks(layout), |at, _| image.message[at] ^= 1),
        5 | 6 => real(random, layout, &mut image.message),
        7 => length(random, layout, &mut image.message),
        13..=15 if member(layout, "entries").is_some() => beside(random, image),
        8 => behind_profile(random, layout, &mut image.message),
        9 => image.message[random.pick(&[9, 12, 15, 87, 103])] = random.pick(&[1, 0x80, 0xFF]),
        10 => image.message[COMMAND] = command(random),
        11 => image.data.truncate(random.pick(&[0, 1, image.data.len().saturating_sub(1), image.data.len() / 2])),
        _ => signed(random, layout, &mut image.message),
    }
}

/// Does it with one of these, if there is one.
fn one_of<T: Clone>(random: &mut Random, from: &[T], mut act: impl FnMut(T, &mut Random)) {
    if !from.is_empty() {
        let one = random.pick(from);
        act(one, random);
    }
}

/// Fields that say yes or no.
const YES_OR_NO: [&str; 13] = [
    "bidi",
    "sn_resume",
    "dual_chan",
    "repetition",
    "wide_carr_off",
    "long_blk_dist",
    "dl_open",
    "response_exp",
    "dl_ack",
    "cnt_depend",
    "response_prio",
    "dl_wind_req",
    "exp_only",
];

/// Where a command has its marks.
pub fn marks(layout: Layout) -> Vec<usize> {
    starts(layout, |name| name.starts_with("has_") || YES_OR_NO.contains(&name))
}

const REALS: [&str; 11] =
    ["latitude", "longitude", "altitude", "duty_cycle", "temp", "cpu_load", "mem_load", "snr", "rssi", "eq_snr", "prio"];

/// Where the members start whose names are of this sort.
fn starts(layout: Layout, is_one: impl Fn(&str) -> bool) -> Vec<usize> {
    fields(layout).filter(|(name, _)| is_one(name)).map(|(_, range)| range.start).collect()
}

/// Another command over the same bytes, or a number that no command has.
fn command(random: &mut Random) -> u8 {
    let any = random.below(COMMANDS.len()) as u8;
    random.pick(&[any, any, any, 21, 23, 24, 25, 127, 128, 255])
}

/// Any member gets any contents, a one, or zeros.
fn one_member(random: &mut Random, layout: Layout, message: &mut [u8]) {
    let all: Vec<_> = fields(layout).map(|(_, range)| range).collect();
    let range = random.pick(&all);
    let size = range.len();
    let mut bytes = match random.below(3) {
        0 => random.bytes(size),
        _ => vec![0; size],
    };
    if random.one_in(2) {
        let at = random.pick(&[0, size - 1]);
        bytes[at] = random.pick(&[1, 0x80, 0xFF]);
    }
    message[range].copy_from_slice(&bytes);
}

/// Reals that are no number, not finite, no singles, or minus zero where there is none.
fn real(random: &mut Random, layout: Layout, message: &mut [u8]) {
    let any = random.next();
    let bits = random.pick(&[
        0,
        1 << 63,
        0x7FF0 << 48,
        0xFFF0 << 48,
        0x7FF8 << 48,
        0x7FF0 << 48 | 1,
        0x7FEF << 48,
        1,
        0x3690 << 48,
        0x36A0 << 48,
        0x47EF_FFFF_E000_0000,
        0x47F0 << 48,
        any,
    ]);
    let all = starts(layout, |name| REALS.contains(&name));
    one_of(random, &all, |at, _| message[at..at + 8].copy_from_slice(&u64::to_le_bytes(bits)));
}

/// A length member at or over the end of what it counts.
fn length(random: &mut Random, layout: Layout, message: &mut [u8]) {
    let (any, over) = (random.byte(), random.within(246, 255) as u8);
    let length = random.pick(&[0, 1, 15, 16, 17, 63, 64, 65, 244, 245, over, over, any]);
    let all = starts(layout, |name| name.ends_with("_len") || name == "entries");
    one_of(random, &all, |at, _| message[at] = length);
}

/// What a downlink says of the data beside it: how many entries, how long they are, and whether they have counters; and how much
/// is there.
fn beside(random: &mut Random, image: &mut Image) {
    let entries = member(layout::message("dlDataQue"), "entries").expect("a member").start;
    let depends = member(layout::message("dlDataQue"), "cnt_depend").expect("a member").start;
    let used = image.message[entries] as usize;
    match random.below(5) {
        0 => image.message[entries] = random.pick(&[0, 1, 1, 2, 3, 15, 16, 16, 17, 32, 255]),
        1 => image.message[entries] = image.message[entries].wrapping_add(random.pick(&[1, 255])),
        2 => image.message[depends] ^= 1,
        3 => {
            let at = LENGTHS + random.pick(&[0, used.wrapping_sub(1) & 15, used & 15]);
            if at < image.data.len() {
                let length = image.data[at];
                image.data[at] = random.pick(&[0, 244, 245, 246, 255, length.wrapping_add(1), length.wrapping_sub(1)]);
            }
        }
        _ => image.data.truncate(random.pick(&[LENGTHS, ENTRIES - 1, ENTRIES, image.data.len().saturating_sub(1)])),
    }
}

/// A byte that isn't zero just behind the stated length, or at the array's end.
fn behind_profile(random: &mut Random, layout: Layout, message: &mut [u8]) {
    if let (Some(length), Some(profile)) = (member(layout, "profile_len"), member(layout, "profile")) {
        let last = profile.len() - 1;
        let behind = (message[length][0] as usize).min(last);
        message[profile.start + random.pick(&[behind, last])] = random.pick(&[1, 0xFF]);
    }
}

/// Signed members at the edge of their ranges, with their marks.
fn signed(random: &mut Random, layout: Layout, message: &mut [u8]) {
    let name = random.pick(&["sn_bs_op_id", "sn_sc_op_id", "op_id"]);
    if let Some(range) = member(layout, name) {
        message[range].copy_from_slice(&random.pick(&[0, 1, -1, i64::MAX, i64::MIN]).to_le_bytes());
    }
    if let Some(mark) = member(layout, &format!("has_{}", name)) {
        message[mark][0] = random.pick(&[1, 1, 0]);
    }
}
