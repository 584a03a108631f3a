//! Document 01's examples, with the answers that it states; and for document 02, which states none, some that were worked out by
//! hand.

use crate::reference::calls;
use crate::reference::fields::Value;
use crate::reference::frame::{framed, IDENTIFIER};
use crate::reference::image::{self, Image};
use crate::reference::layout::{DATA, MESSAGE};
use crate::reference::record::Record;
use crate::stream::Stream;

/// An answer that isn't refused and has this value.
fn value(value: u64) -> u64 {
    value << 16
}

fn refused(number: u64, place: u64) -> u64 {
    number | place << 16
}

/// Buffers to read into, filled with one byte.
fn filled(byte: u8) -> Image {
    Image { message: vec![byte; MESSAGE], data: vec![byte; DATA] }
}

const P: [u8; 20] = *b"\x82\xA7command\xA4ping\xA4opId\x01";

/// P with one pair more, whose value is this.
fn with_extra(value: &[u8]) -> Vec<u8> {
    [&[0x83], &P[1..], b"\xA5epEui", value].concat()
}

pub fn all(stream: &mut Stream) {
    readings(stream);
    reals(stream);
    limits(stream);
    frames(stream);
    writings(stream);
    longest(stream);
    texts(stream);
    downlinks(stream);
    prios(stream);
    longest_downlink(stream);
}

fn readings(stream: &mut Stream) {
    let wide_id = [&P[..19], &[0xD3, 0, 0, 0, 0, 0, 0, 0, 1]].concat();
    let arrays = |count: usize| with_extra(&[vec![0x91; count - 1], vec![0x90]].concat());
    let examples = [
        (P.to_vec(), value(5)),
        (with_extra(&[7]), value(7)),
        (wide_id, value(5)),
        ([&P[..], &[0]].concat(), refused(10, 20)),
        (P[..19].to_vec(), refused(4, 19)),
        (vec![0x80], refused(11, 0)),
        (vec![0x90], refused(9, 0)),
        (vec![0xC1], refused(5, 0)),
        (arrays(7), value(13)),
        (arrays(8), refused(6, 33)),
        (vec![], refused(3, 0)),
    ];
    for (payload, answer) in examples {
        assert_eq!(stream.read(&payload, &filled(0xEE)), answer, "{:02X?}", payload);
    }
}

/// "CA C2 C2 00 00 is −97, kept as C0 58 40 00 00 00 00 00", and document 02's Q-1: so is the integer −97; 2^53 and −2^53 are taken,
/// one further is 15; 0 is plus zero in any form.
fn reals(stream: &mut Stream) {
    let examples: [(&[u8], Option<u64>); 10] = [
        (b"\xCA\xC2\xC2\0\0", Some(0xC058_4000_0000_0000)),
        (b"\xD0\x9F", Some(0xC058_4000_0000_0000)),
        (b"\xCF\0\x20\0\0\0\0\0\0", Some(0x4340_0000_0000_0000)),
        (b"\xD3\xFF\xE0\0\0\0\0\0\0", Some(0xC340_0000_0000_0000)),
        (b"\xCF\0\x20\0\0\0\0\0\x01", None),
        (b"\xD3\xFF\xDF\xFF\xFF\xFF\xFF\xFF\xFF", None),
        (b"\xCF\0\x40\0\0\0\0\0\0", None),
        (b"\0", Some(0)),
        (b"\xD3\0\0\0\0\0\0\0\0", Some(0)),
        (b"\xCB\x80\0\0\0\0\0\0\0", Some(1 << 63)),
    ];
    let before = b"\x88\xA7command\xA3det\xA4opId\x01\xA5epEui\x02\xA6rxTime\x03\xA9packetCnt\x04\xA3snr\xCA\0\0\0\0\xA4rssi";
    for (rssi, bits) in examples {
        let payload = [before, rssi, b"\xA4sign\x94\0\0\0\0"].concat();
        let mut lent = filled(0xEE);
        calls::read(&payload, &mut lent);
        bits.iter().for_each(|bits| assert_eq!(lent.message[48..56], bits.to_le_bytes()));
        assert_eq!(stream.read(&payload, &filled(0xEE)), if bits.is_some() { value(21) } else { refused(15, 0) });
    }
}

/// "size 4,096 accepted, 4,097 refused; 1,024 elements pass, 1,025 not"
fn limits(stream: &mut Stream) {
    let elements = |count: usize| [vec![0xDC, ((count - 7) >> 8) as u8, (count - 7) as u8], vec![0xC0; count - 7]].concat();
    assert_eq!(stream.read(&with_extra(&elements(1024)), &filled(0)), value(1024));
    assert_eq!(stream.read(&with_extra(&elements(1025)), &filled(0)), refused(7, 26 + 3 + 1017));
    let bin = |count: usize| [vec![0xC5, (count >> 8) as u8, count as u8], vec![0xAB; count]].concat();
    assert_eq!(stream.read(&with_extra(&bin(4096 - 29)), &filled(0)), value(7));
    assert_eq!(stream.read(&with_extra(&bin(4097 - 29)), &filled(0)), refused(3, 0));
    for (size, answer) in [(1, value(13)), (4096, value(4108)), (4097, refused(3, 0)), (0, refused(3, 0))] {
        assert_eq!(stream.frame(&framed(&vec![0; size])), answer);
    }
}

/// Frame P cut anywhere, and an identifier wrong anywhere.
fn frames(stream: &mut Stream) {
    let whole = framed(&P);
    for length in 0..whole.len() {
        assert_eq!(stream.frame(&whole[..length]), refused(1, 0));
    }
    assert_eq!(stream.frame(&whole), value(32));
    for (at, _) in IDENTIFIER.iter().enumerate() {
        let mut wrong = whole.clone();
        wrong[at] ^= 0x20;
        (at + 1..=whole.len()).for_each(|length| assert_eq!(stream.frame(&wrong[..length]), refused(2, 0)));
    }
}

/// "pingRsp 1 takes 23 bytes, 35 framed; 34 bytes of room: 20"
fn writings(stream: &mut Stream) {
    let ping_rsp = image::of_record(&Record::new("pingRsp", 1));
    for room in 0..35 {
        assert_eq!(stream.write(&ping_rsp, &vec![0xEE; room]), refused(20, 0));
    }
    assert_eq!(stream.write(&ping_rsp, &[0xEE; 35]), value(35));
    assert_eq!(stream.write(&ping_rsp, &[0xEE; 60]), value(35));
}

/// The longest message that a station sends takes 714 bytes framed.
fn longest(stream: &mut Stream) {
    let whole = |number: u64| Value::Whole(number.into());
    let longest = Record::new("ulData", i64::MIN)
        .with("epEui", whole(u64::MAX))
        .with("rxTime", whole(u64::MAX))
        .with("rxDuration", whole(u64::MAX))
        .with("packetCnt", whole(u32::MAX.into()))
        .with("snr", Value::Real(1.5))
        .with("rssi", Value::Real(-97.0))
        .with("eqSnr", Value::Real(f64::MIN_POSITIVE))
        .with("profile", Value::Text(vec![b'p'; 16]))
        .with("userData", Value::Bytes(vec![0xFF; 245]))
        .with("format", whole(255))
        .with("dlOpen", Value::Flag(true))
        .with("responseExp", Value::Flag(true))
        .with("dlAck", Value::Flag(true));
    let image = image::of_record(&longest);
    assert_eq!(stream.write(&image, &[0xEE; 713]), refused(20, 0));
    assert_eq!(stream.write(&image, &[0xEE; 714]), value(714));
}

/// A dlDataQue with no optional field and one with all, as they are kept, each byte of it; and written again as the same bytes.
fn downlinks(stream: &mut Stream) {
    let least =
        b"\x86\xA7command\xA9dlDataQue\xA4opId\xFF\xA5epEui\x07\xA5queId\x02\xA9cntDepend\xC2\xA8userData\x91\x92\x01\xCC\xFF";
    let mut kept = filled(0);
    kept.message[..8].fill(0xFF);
    [(8, 21), (16, 7), (24, 2), (40, 1)].iter().for_each(|(at, byte)| kept.message[*at] = *byte);
    [(64, 2), (80, 1), (81, 255)].iter().for_each(|(at, byte)| kept.data[*at] = *byte);
    downlink(stream, least, 16, &kept);

    let most = [
        &b"\x8D\xA7command\xA9dlDataQue\xA4opId\xFE\xA5epEui\xCF\x70\xB3\xD5\x67\x70\0\0\x01\xA5queId\xCD\x01\0\xA9cntDepend\xC3"
            [..],
        b"\xA9packetCnt\x92\x05\xCE\xFF\xFF\xFF\xFE\xA8userData\x92\x90\x91\0\xA6format\x09\xA4prio\xCB\x80\0\0\0\0\0\0\0",
        b"\xABresponseExp\xC2\xACresponsePrio\xC3\xA9dlWindReq\xC2\xA7expOnly\xC3",
    ];
    let mut kept = filled(0);
    kept.message[..8].copy_from_slice(&(-2i64).to_le_bytes());
    kept.message[8] = 21;
    kept.message[16..24].copy_from_slice(&[0x01, 0, 0, 0x70, 0x67, 0xD5, 0xB3, 0x70]);
    kept.message[24..32].copy_from_slice(&[0, 1, 0, 0, 0, 0, 0, 0]);
    kept.message[32..40].copy_from_slice(&[0, 0, 0, 0, 0, 0, 0, 0x80]);
    kept.message[40..51].copy_from_slice(&[2, 9, 1, 1, 0, 1, 1, 1, 0, 1, 1]);
    kept.data[..8].copy_from_slice(&[5, 0, 0, 0, 0xFE, 0xFF, 0xFF, 0xFF]);
    kept.data[64..66].copy_from_slice(&[0, 1]);
    downlink(stream, &most.concat(), 32, &kept);
}

fn downlink(stream: &mut Stream, payload: &[u8], elements: u64, kept: &Image) {
    let mut lent = filled(0xEE);
    let mut expected = kept.clone();
    let bytes: usize = kept.data[64..80].iter().map(|&n| n as usize).sum();
    expected.data[80 + bytes..].fill(0xEE);
    assert_eq!(calls::read(payload, &mut lent), value(elements));
    assert_eq!(lent, expected);
    assert_eq!(stream.read(payload, &filled(0xEE)), value(elements));
    let mut room = vec![0; payload.len() + 12];
    calls::write(kept, &mut room);
    assert_eq!(room, framed(payload));
    assert_eq!(stream.write(kept, &room), value(room.len() as u64));
}

/// "prio is a finite real that fits single precision exactly", "a real field too: an integer there must lie within ±2^53".
fn prios(stream: &mut Stream) {
    let examples: [(&[u8], Option<u64>); 18] = [
        (b"\0", Some(0)),
        (b"\xCA\x80\0\0\0", Some(1 << 63)),
        (b"\xCB\x80\0\0\0\0\0\0\0", Some(1 << 63)),
        (b"\xCA\0\0\0\x01", Some(0x36A0 << 48)),
        (b"\xCB\x36\xA0\0\0\0\0\0\0", Some(0x36A0 << 48)),
        (b"\xCB\x36\x90\0\0\0\0\0\0", None),
        (b"\xCB\0\0\0\0\0\0\0\x01", None),
        (b"\xCE\x01\0\0\0", Some(0x4170 << 48)),
        (b"\xCE\x01\0\0\x01", None),
        (b"\xCF\0\x20\0\0\0\0\0\0", Some(0x4340 << 48)),
        (b"\xCF\0\x1F\xFF\xFF\xFF\xFF\xFF\xFF", None),
        (b"\xCF\0\x40\0\0\0\0\0\0", None),
        (b"\xCB\x43\x50\0\0\0\0\0\0", Some(0x4350 << 48)),
        (b"\xCB\x47\xEF\xFF\xFF\xE0\0\0\0", Some(0x47EF_FFFF_E000_0000)),
        (b"\xCB\x47\xF0\0\0\0\0\0\0", None),
        (b"\xCA\x7F\x80\0\0", None),
        (b"\xCA\x7F\xC0\0\0", None),
        (b"\xCB\x3F\xB9\x99\x99\x99\x99\x99\x9A", None),
    ];
    let before = b"\x87\xA7command\xA9dlDataQue\xA4opId\0\xA5epEui\0\xA5queId\0\xA9cntDepend\xC2\xA8userData\x91\x90\xA4prio";
    for (prio, bits) in examples {
        let payload = [before, prio].concat();
        let mut lent = filled(0xEE);
        calls::read(&payload, &mut lent);
        bits.iter().for_each(|bits| assert_eq!(lent.message[32..40], bits.to_le_bytes()));
        assert_eq!(stream.read(&payload, &filled(0xEE)), if bits.is_some() { value(16) } else { refused(15, 0) });
    }
}

/// The longest message of all takes 1,909 bytes framed.
fn longest_downlink(stream: &mut Stream) {
    let whole = |number: u64| Value::Whole(number.into());
    let mut longest = Record::new("dlDataQue", i64::MIN)
        .with("epEui", whole(u64::MAX))
        .with("queId", whole(u64::MAX))
        .with("cntDepend", Value::Flag(true))
        .with("packetCnt", Value::Counters(vec![u32::MAX; 16]))
        .with("userData", Value::Entries(vec![vec![0xFF; 50]; 16]))
        .with("format", whole(255))
        .with("prio", Value::Real(1.5));
    for key in ["responseExp", "responsePrio", "dlWindReq", "expOnly"] {
        longest = longest.with(key, Value::Flag(true));
    }
    let image = image::of_record(&longest);
    assert_eq!(stream.write(&image, &[0xEE; 1908]), refused(20, 0));
    assert_eq!(stream.write(&image, &[0xEE; 1909]), value(1909));
    let mut frame = [0; 1909];
    calls::write(&image, &mut frame);
    assert_eq!(stream.read(&frame[12..], &filled(0xEE)), value(859));
}

/// "Taking nil for absent: it is 15 (11 for command)."
fn texts(stream: &mut Stream) {
    let examples: [(&[u8], u64); 3] = [
        (b"\x82\xA7command\xA4ping\xA4opId\xC0", refused(15, 0)),
        (b"\x82\xA7command\xC0\xA4opId\x01", refused(11, 0)),
        (b"\x83\xA7command\xA4ping\xA4opId\x01\xA4opId\x01", refused(13, 0)),
    ];
    for (payload, answer) in examples {
        assert_eq!(stream.read(payload, &filled(0xEE)), answer);
    }
}
