//! The table calls on two rows: every way in which counter, heard set, station and used mark can stand to each other.

use crate::reference::calls::Columns;
use crate::stream::Stream;

fn columns(used: [u8; 2], last: u32, heard: u64) -> Columns {
    Columns { used: used.to_vec(), eui: vec![7, 7], sh_addr: vec![1, 1], last: vec![last, 5], heard: vec![heard, 2] }
}

pub fn all(stream: &mut Stream) {
    for used in [[0, 0], [0, 1], [1, 0], [1, 1], [2, 255], [0, 128]] {
        uplinks(stream, used);
        for meter in [7, 8] {
            stream.find(&columns(used, 5, 1), meter);
            stream.enrol(&mut columns(used, 5, 1), meter, 0xFFFF, u32::MAX);
            stream.withdraw(&mut columns(used, 5, 1), meter);
            stream.uplink(&mut columns(used, 5, 1), meter, 9, 64);
        }
        unequal(stream, used);
    }
}

fn uplinks(stream: &mut Stream, used: [u8; 2]) {
    for (last, counter) in [(0, 0), (0, 1), (5, 4), (5, 5), (5, 6), (u32::MAX, u32::MAX), (u32::MAX, 0), (u32::MAX - 1, u32::MAX)]
    {
        for heard in [0, 1, 1 << 31, 1 << 32, 1 << 63, u64::MAX] {
            for station in [0, 1, 31, 32, 33, 62, 63, 64, 65, 127, 128, 255, 256, 259, 1 << 32, 1 << 63, u64::MAX] {
                stream.uplink(&mut columns(used, last, heard), 7, counter, station);
            }
        }
    }
}

/// Each column longer or shorter than the others, with all that could be refused besides.
fn unequal(stream: &mut Stream, used: [u8; 2]) {
    for which in 0..5 {
        for length in [0, 1, 3, 9] {
            for station in [0, 64] {
                let mut table = columns(used, 5, 1);
                match which {
                    0 => table.used.resize(length, 1),
                    1 => table.eui.resize(length, 7),
                    2 => table.sh_addr.resize(length, 7),
                    3 => table.last.resize(length, 7),
                    _ => table.heard.resize(length, 7),
                }
                stream.find(&table, 7);
                stream.enrol(&mut table, 7, 1, 1);
                stream.withdraw(&mut table, 7);
                stream.uplink(&mut table, 7, 9, station);
            }
        }
    }
}
