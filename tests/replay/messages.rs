//! Plain messages of a station, and enrolments, for the traces that are made by hand.

use crate::reference::fields::Value;
use crate::reference::record::Record;
use crate::reference::write::write;

/// A con of version 1.0.0; the UUID is sixteen times this byte.
pub fn con(station: u64, uuid: u8) -> Record {
    Record::new("con", 0)
        .with("version", Value::Version([1, 0, 0]))
        .with("bsEui", whole(station))
        .with("bidi", Value::Flag(false))
        .with("snBsUuid", Value::Bytes(vec![uuid; 16]))
}

pub fn ul_data(id: i64, meter: u64, counter: u32) -> Record {
    Record::new("ulData", id)
        .with("epEui", whole(meter))
        .with("rxTime", whole(0))
        .with("packetCnt", whole(counter.into()))
        .with("snr", Value::Real(11.5))
        .with("rssi", Value::Real(-97.0))
        .with("userData", Value::Bytes(vec![1, 2]))
        .with("dlOpen", Value::Flag(false))
        .with("responseExp", Value::Flag(false))
        .with("dlAck", Value::Flag(false))
}

pub fn det(id: i64, meter: u64, counter: u32) -> Record {
    Record::new("det", id)
        .with("epEui", whole(meter))
        .with("rxTime", whole(0))
        .with("packetCnt", whole(counter.into()))
        .with("snr", Value::Real(3.25))
        .with("rssi", Value::Real(-120.5))
        .with("sign", Value::Bytes(vec![1, 2, 3, 4]))
}

pub fn whole(number: u64) -> Value {
    Value::Whole(number.into())
}

/// con, conCmp and a ulData of meter 7. The con resumes where this was sent before: then the ID must be higher.
pub fn reading(id: i64, counter: u32) -> [Vec<u8>; 3] {
    [write(&con(9, 1)), write(&Record::new("conCmp", 0)), write(&ul_data(id, 7, counter))]
}

/// "14 bytes each: EUI, short address, counter, big endian"
pub fn enrolment(meter: u64, sh_addr: u16, counter: u32) -> Vec<u8> {
    [&meter.to_be_bytes()[..], &sh_addr.to_be_bytes(), &counter.to_be_bytes()].concat()
}
