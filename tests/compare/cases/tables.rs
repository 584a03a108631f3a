//! Cases of the four table calls: single ones on any contents, and runs from a table with no used rows.

use super::random::Random;
use crate::reference::calls::Columns;
use crate::stream::Stream;

const METERS: [u64; 8] = [0, 1, 2, 3, 0x70B3_D567_7000_0001, 0x70B3_D567_7000_0002, 0x70B3_D568_7000_0001, u64::MAX];

pub fn one(stream: &mut Stream, random: &mut Random) {
    let rows = random.pick(&[0, 1, 1, 2, 3, 5, 8, 16, 40]);
    let rows = if random.one_in(50) { 700 } else { rows };
    let mut columns = any(random, rows);
    if random.one_in(8) {
        unequal(random, &mut columns);
    }
    call(stream, random, &mut columns);
}

pub fn run(stream: &mut Stream, random: &mut Random) {
    let rows = random.pick(&[1, 2, 4, 8, 12]);
    let mut columns = any(random, rows);
    columns.used = vec![0; rows];
    for _ in 0..random.within(10, 40) {
        call(stream, random, &mut columns);
    }
}

fn any(random: &mut Random, rows: usize) -> Columns {
    let full = random.one_in(4);
    let mut column = |make: &dyn Fn(&mut Random) -> u64| (0..rows).map(|_| make(random)).collect::<Vec<u64>>();
    let used = column(&|random| random.pick(&[if full { 1 } else { 0 }, 1, 1, 2, 0x80, 0xFF]));
    let eui = column(&|random| random.pick(&METERS));
    let sh_addr = column(&|random| random.pick(&[0, 1, 1, 0xFFFF]));
    let last = column(&|random| counter(random).into());
    let heard = column(&|random| {
        random.pick(&[0, 0, 1, 1 << 63, 1 << 31, 1 << 32, u64::MAX, u64::MAX >> 1]) & !(random.next() & random.next())
    });
    Columns {
        used: used.iter().map(|entry| *entry as u8).collect(),
        eui,
        sh_addr: sh_addr.iter().map(|entry| *entry as u16).collect(),
        last: last.iter().map(|entry| *entry as u32).collect(),
        heard,
    }
}

fn counter(random: &mut Random) -> u32 {
    let any = random.number() as u32;
    random.pick(&[0, 1, 2, 5, 6, u32::MAX, u32::MAX - 1, any])
}

/// One column or two get longer or shorter.
fn unequal(random: &mut Random, columns: &mut Columns) {
    for _ in 0..random.pick(&[1, 1, 2]) {
        let rows = columns.used.len();
        let length = random.pick(&[rows + 1, rows.saturating_sub(1), 0, rows + 7]);
        match random.below(5) {
            0 => columns.used.resize(length, 1),
            1 => columns.eui.resize(length, 1),
            2 => columns.sh_addr.resize(length, 1),
            3 => columns.last.resize(length, 1),
            _ => columns.heard.resize(length, 1),
        }
    }
}

fn call(stream: &mut Stream, random: &mut Random, columns: &mut Columns) {
    let any = random.number();
    let meter = match random.below(20) {
        0 => any,
        1..=12 if !columns.eui.is_empty() => random.pick(&columns.eui),
        _ => random.pick(&METERS),
    };
    match random.below(9) {
        0 => stream.find(columns, meter),
        1 | 2 => {
            let sh_addr = random.pick(&[0, 1, 1, 0xFFFF, any as u16]);
            let counter = counter(random);
            stream.enrol(columns, meter, sh_addr, counter)
        }
        3 => stream.withdraw(columns, meter),
        _ => {
            let counter = near(random, columns, meter);
            let station = random.pick(&[0, 1, 7, 31, 32, 62, 63, 63, any & 63, any & 63, 64, any | 64, 128, 259]);
            stream.uplink(columns, meter, counter, station)
        }
    };
}

/// A counter just below, at or just above the last one of the meter.
fn near(random: &mut Random, columns: &Columns, meter: u64) -> u32 {
    let row = (0..columns.used.len()).find(|row| columns.used[*row] != 0 && columns.eui.get(*row) == Some(&meter));
    match row.and_then(|row| columns.last.get(row)) {
        Some(last) if !random.one_in(6) => {
            random.pick(&[*last, *last, last.wrapping_add(1), last.wrapping_sub(1), last.wrapping_add(9)])
        }
        _ => counter(random),
    }
}
