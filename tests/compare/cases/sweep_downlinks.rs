//! dlDataQue on both sides of every limit: counts that agree or don't, lengths, sums, bytes, counters, priorities and flags; as
//! payloads and as records that a host hands in. What must be taken and what refused is said here once more, besides the
//! reference.

use super::downlinks::{edges, entries, splits};
use super::node::{text, Node};
use super::payloads::{dressed, Pairs};
use super::random::Random;
use super::{images, near, sweep_images, values};
use crate::reference::calls;
use crate::reference::fields::Value;
use crate::reference::image::{self, Image};
use crate::reference::layout::{self, member, DATA, ENTRIES, LENGTHS, MESSAGE};
use crate::reference::record::Record;
use crate::stream::Stream;

const GOOD: u64 = 0;
const MISSING: u64 = 14;
const INVALID: u64 = 15;

pub fn all(stream: &mut Stream, random: &mut Random) {
    counts(stream, random);
    lengths(stream, random);
    sums(stream, random);
    odd_bytes(stream, random);
    odd_counters(stream, random);
    prios(stream, random);
    flags(stream, random);
    stated_entries(stream, random);
    stated_lengths(stream, random);
    stated_sums(stream, random);
    kept_prios(stream, random);
    kept_flags(stream, random);
}

fn good_if(good: bool) -> u64 {
    if good {
        GOOD
    } else {
        INVALID
    }
}

/// Reads a dlDataQue in which these keys have these values or are absent.
fn read(stream: &mut Stream, random: &mut Random, set: &[(&str, Option<Node>)], refused: u64) {
    let record = values::of(random, "dlDataQue");
    let mut pairs: Pairs = dressed(random, &record);
    for (key, value) in set {
        pairs.retain(|pair| !matches!(&pair.0, Node::Text(text) if text == key.as_bytes()));
        if let Some(value) = value {
            pairs.insert(random.below(pairs.len() + 1), (text(key), value.clone()));
        }
    }
    let message = Node::Map(pairs);
    let payload = message.bytes(random);
    let answer = stream.read(&payload, &images::to_read_into(random));
    if payload.len() <= 4096 && message.count() <= 1024 {
        assert_eq!(answer & 0xFF, refused, "{:?}", set);
    }
}

/// The same with these counters and data entries; counter dependent where there are counters.
fn read_entries(stream: &mut Stream, random: &mut Random, counters: Option<Vec<Node>>, data: Vec<Node>, refused: u64) {
    let set = [
        ("cntDepend", Some(Node::Flag(counters.is_some()))),
        ("packetCnt", counters.map(Node::Array)),
        ("userData", Some(Node::Array(data))),
    ];
    read(stream, random, &set, refused);
}

/// Counters for so many entries, where there must be some.
fn counters_for(count: usize) -> Option<Vec<Node>> {
    (count > 1).then(|| near::some_counters(count))
}

fn counts(stream: &mut Stream, random: &mut Random) {
    let depends =
        [None, Some(Node::Flag(false)), Some(Node::Flag(true)), Some(Node::Nil), Some(Node::Whole(1)), Some(text("true"))];
    for depend in depends {
        for counters in [None, Some(0), Some(1), Some(2), Some(14), Some(15), Some(16), Some(17), Some(18)] {
            for data in [0, 1, 2, 14, 15, 16, 17, 18] {
                let refused = match depend {
                    None => MISSING,
                    Some(Node::Flag(true)) => good_if(counters == Some(data) && (1..=16).contains(&data)),
                    Some(Node::Flag(false)) => good_if(counters.is_none() && data == 1),
                    _ => INVALID,
                };
                let set = [
                    ("cntDepend", depend.clone()),
                    ("packetCnt", counters.map(|count| Node::Array(near::some_counters(count)))),
                    ("userData", Some(Node::Array((0..data).map(near::entry).collect()))),
                ];
                read(stream, random, &set, refused);
            }
        }
    }
    // what isn't there at all, and what is no list
    for odd in [None, Some(Node::Nil), Some(Node::Whole(1)), Some(text("")), Some(Node::Bin(vec![])), Some(Node::Map(vec![]))] {
        let missing = if odd.is_some() { INVALID } else { MISSING };
        read(stream, random, &[("userData", odd.clone())], missing);
        for depend in [false, true] {
            let data = Some(Node::Array(vec![near::entry(3)]));
            let refused = good_if(odd.is_none() && !depend);
            read(
                stream,
                random,
                &[("cntDepend", Some(Node::Flag(depend))), ("packetCnt", odd.clone()), ("userData", data)],
                refused,
            );
        }
    }
}

fn lengths(stream: &mut Stream, random: &mut Random) {
    for length in [0, 1, 2, 14, 15, 16, 17, 31, 32, 127, 128, 243, 244, 245, 246, 247, 255, 256, 257] {
        for count in [1, 2, 3, 15, 16] {
            for at in [0, count / 2, count - 1] {
                let mut data = vec![near::entry(1); count];
                data[at] = near::entry(length);
                read_entries(stream, random, counters_for(count), data, good_if(length <= 245));
            }
        }
    }
}

fn sums(stream: &mut Stream, random: &mut Random) {
    for together in 797..=803 {
        for count in [4, 5, 10, 15, 16] {
            for _ in 0..3 {
                let data = splits(random, count, together).into_iter().map(near::entry).collect();
                read_entries(stream, random, counters_for(count), data, good_if(together <= 800));
            }
        }
        // all of 50 bytes but the first or the last
        for at in [0, 15] {
            let data = (0..16).map(|i| near::entry(if i == at { together - 750 } else { 50 })).collect();
            read_entries(stream, random, counters_for(16), data, good_if(together <= 800));
        }
    }
}

/// Any byte and what is none, first and last in the first and the last entry; and what is no entry there.
fn odd_bytes(stream: &mut Stream, random: &mut Random) {
    let odd = [
        Node::Whole(0),
        Node::Whole(127),
        Node::Whole(128),
        Node::Whole(255),
        Node::Whole(256),
        Node::Whole(-1),
        Node::Whole(1 << 32),
        Node::Nil,
        Node::Flag(true),
        Node::Float32(0),
        Node::Float64(0),
        text("1"),
        Node::Bin(vec![1]),
        Node::Array(vec![]),
        Node::Array(vec![Node::Whole(1)]),
        Node::Map(vec![]),
    ];
    for odd in odd {
        let is_byte = matches!(odd, Node::Whole(0..=255));
        let is_entry = matches!(odd, Node::Array(_));
        for count in [1, 2, 16] {
            for at in [0, count - 1] {
                for byte in [0, 19] {
                    let mut entry = vec![Node::Whole(77); 20];
                    entry[byte] = odd.clone();
                    let mut data = vec![near::entry(2); count];
                    data[at] = Node::Array(entry);
                    read_entries(stream, random, counters_for(count), data, good_if(is_byte));
                }
                let mut data = vec![near::entry(2); count];
                data[at] = odd.clone();
                read_entries(stream, random, counters_for(count), data, good_if(is_entry));
            }
        }
    }
}

fn odd_counters(stream: &mut Stream, random: &mut Random) {
    for odd in near::odd_counters() {
        let good = matches!(odd, Node::Whole(0..=0xFFFF_FFFF));
        for count in [1, 2, 15, 16] {
            for at in [0, count - 1] {
                let mut counters = near::some_counters(count);
                counters[at] = odd.clone();
                read_entries(stream, random, Some(counters), vec![near::entry(2); count], good_if(good));
            }
        }
    }
}

/// The bits under which a prio is kept, if it is one: "a finite real that fits single precision exactly", or an integer within
/// ±2^53.
fn kept(prio: &Node) -> Option<u64> {
    let real = match prio {
        Node::Float32(bits) => f64::from(f32::from_bits(*bits)),
        Node::Float64(bits) => f64::from_bits(*bits),
        Node::Whole(number) if number.unsigned_abs() <= 1 << 53 => *number as f64,
        _ => f64::NAN,
    };
    (real.is_finite() && f64::from(real as f32).to_bits() == real.to_bits()).then(|| real.to_bits())
}

fn prios(stream: &mut Stream, random: &mut Random) {
    for prio in near::values("dlDataQue", "prio") {
        let record = values::of(random, "dlDataQue");
        let mut pairs = dressed(random, &record);
        pairs.retain(|pair| !matches!(&pair.0, Node::Text(text) if text == b"prio"));
        pairs.push((text("prio"), prio.clone()));
        let payload = Node::Map(pairs).bytes(random);
        let mut lent = images::to_read_into(random);
        if calls::read(&payload, &mut lent) & 0xFF == 0 {
            assert_eq!(Some(bits(&lent, "prio")), kept(&prio), "{:?}", prio);
        }
        read(stream, random, &[("prio", Some(prio.clone()))], good_if(kept(&prio).is_some()));
    }
}

fn bits(image: &Image, name: &str) -> u64 {
    let range = member(layout::message("dlDataQue"), name).expect("a member");
    u64::from_le_bytes(image.message[range].try_into().expect("eight bytes"))
}

const FLAGS: [&str; 4] = ["responseExp", "responsePrio", "dlWindReq", "expOnly"];

/// Each flag absent, false or true with the others: none has a tie to another.
fn flags(stream: &mut Stream, random: &mut Random) {
    for which in 0..81 {
        let flag = |i: u32| [None, Some(Node::Flag(false)), Some(Node::Flag(true))][which / 3usize.pow(i) % 3].clone();
        let set: Vec<_> = FLAGS.iter().zip(0..).map(|(key, i)| (*key, flag(i))).collect();
        read(stream, random, &set, GOOD);
    }
}

/// A record that a host hands in, which must be one or not.
fn hand_over(stream: &mut Stream, random: &mut Random, image: &Image, good: bool) {
    assert_eq!(image::to_record(image).is_some(), good);
    round_trip(image);
    sweep_images::hand_over(stream, random, image);
}

fn set(image: &mut Image, name: &str, byte: usize) {
    image.message[member(layout::message("dlDataQue"), name).expect("a member")][0] = byte as u8;
}

/// A downlink with entries of these lengths, counter dependent if it says so; anything in the places that it doesn't use.
fn downlink(random: &mut Random, depends: bool, lengths: &[usize]) -> Image {
    let mut record = values::of(random, "dlDataQue").with("cntDepend", Value::Flag(depends));
    record.fields.remove("packetCnt");
    if depends {
        record.fields.insert("packetCnt", Value::Counters(lengths.iter().map(|_| random.number() as u32).collect()));
    }
    record.fields.insert("userData", Value::Entries(entries(random, lengths)));
    assert!(record.is_valid());
    images::of(random, &record)
}

/// Every count of entries, over sixteen lengths of zero, where it is counter dependent, isn't, or says neither.
fn stated_entries(stream: &mut Stream, random: &mut Random) {
    for depends in [0, 1, 2] {
        for stated in 0..=255 {
            let mut image = downlink(random, true, &[0; 16]);
            set(&mut image, "entries", stated);
            set(&mut image, "cnt_depend", depends);
            let good = depends == 1 && (1..=16).contains(&stated) || depends == 0 && stated == 1;
            hand_over(stream, random, &image, good);
        }
    }
}

/// Every length of the first entry, of the last, and in the place behind it, which isn't looked at.
fn stated_lengths(stream: &mut Stream, random: &mut Random) {
    for stated in 0..=255 {
        for count in [1, 3, 15, 16] {
            for at in [0, count - 1, count] {
                let mut image = downlink(random, count > 1, &vec![0; count]);
                image.data.resize(DATA, 0xA5);
                if at < 16 {
                    image.data[LENGTHS + at] = stated as u8;
                }
                hand_over(stream, random, &image, at == count || stated <= 245);
            }
        }
    }
}

/// Sums about 800, over one byte less than they say, just as many, all and more.
fn stated_sums(stream: &mut Stream, random: &mut Random) {
    for together in 797..=803 {
        for count in [4, 7, 15, 16] {
            for has in [ENTRIES + together - 1, ENTRIES + together, DATA, DATA + 20] {
                let mut image = downlink(random, true, &vec![0; count]);
                image.data.resize(ENTRIES, 0);
                for (at, length) in splits(random, count, together).into_iter().enumerate() {
                    image.data[LENGTHS + at] = length as u8;
                }
                image.data.extend(random.bytes(has - ENTRIES));
                hand_over(stream, random, &image, together <= 800 && has >= ENTRIES + together);
            }
        }
    }
}

/// Priorities as a host may hand them in: those of near, as float 64.
fn kept_prios(stream: &mut Stream, random: &mut Random) {
    let near = near::prios().into_iter().filter_map(|prio| match prio {
        Node::Float64(bits) => Some(bits),
        _ => None,
    });
    for bits in near.chain(edges().iter().map(|edge| edge.to_bits())) {
        let mut image = downlink(random, false, &[3]);
        let range = member(layout::message("dlDataQue"), "prio").expect("a member");
        image.message[range].copy_from_slice(&bits.to_le_bytes());
        hand_over(stream, random, &image, kept(&Node::Float64(bits)).is_some());
    }
}

/// Each flag with each mark; "an absent flag that is 1" is 15.
fn kept_flags(stream: &mut Stream, random: &mut Random) {
    for name in ["response_exp", "response_prio", "dl_wind_req", "exp_only"] {
        for has in [0, 1, 2, 128, 255] {
            for says in [0, 1, 2, 128, 255] {
                let mut image = downlink(random, false, &[3]);
                set(&mut image, &format!("has_{}", name), has);
                set(&mut image, name, says);
                hand_over(stream, random, &image, has <= 1 && says <= has);
            }
        }
    }
}

/// What the reference writes it reads as the same record.
fn round_trip(image: &Image) {
    let mut room = vec![0; super::writes::ROOM];
    let answer = calls::write(image, &mut room);
    if let Some(record) = image::to_record(image) {
        let mut lent = Image { message: vec![0xEE; MESSAGE], data: vec![0xEE; DATA] };
        calls::read(&room[12..(answer >> 16) as usize], &mut lent);
        let plain = image::of_record(&record);
        assert_eq!((&lent.message, &lent.data[..plain.data.len()]), (&plain.message, &plain.data[..]));
        assert!(lent.data[plain.data.len()..].iter().all(|&byte| byte == 0xEE));
        same(&record, &image::to_record(&lent).expect("what is read is a record"));
    }
}

fn same(one: &Record, other: &Record) {
    assert_eq!((one.entries(), one.counters()), (other.entries(), other.counters()));
    assert_eq!(one.prio().to_bits(), other.prio().to_bits());
}
