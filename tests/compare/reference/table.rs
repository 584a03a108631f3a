//! The meter table, as rows.

use super::refusal::*;

#[derive(Clone, Debug, PartialEq, Eq)]
pub struct Row {
    /// "a byte: 0 free, else used; enrol writes 1"
    pub used: u8,
    pub eui: u64,
    pub sh_addr: u16,
    pub last: u32,
    /// "64 bits, one per station"
    pub heard: u64,
}

#[derive(Clone, Copy, Debug, PartialEq, Eq)]
pub enum Credit {
    New = 17,
    Copy = 18,
}

/// A credited packet: new or a copy, how many stations heard it so far, and the row.
pub type Credited = (Credit, u32, usize);

/// "A lookup finds the first used row with that EUI; short addresses may repeat."
pub fn find(rows: &[Row], meter: u64) -> Result<usize, Refusal> {
    rows.iter().position(|row| row.used != 0 && row.eui == meter).ok_or(NO_ROW)
}

/// "Enrol takes the lowest free row (22, then 23), heard empty."
pub fn enrol(rows: &mut [Row], meter: u64, sh_addr: u16, counter: u32) -> Result<usize, Refusal> {
    if find(rows, meter).is_ok() {
        return Err(ALREADY_ENROLLED);
    }
    let free = rows.iter().position(|row| row.used == 0).ok_or(NO_FREE_ROW)?;
    rows[free] = Row { used: 1, eui: meter, sh_addr, last: counter, heard: 0 };
    Ok(free)
}

/// "Withdraw clears the used mark and nothing else (21)."
pub fn withdraw(rows: &mut [Row], meter: u64) -> Result<usize, Refusal> {
    let row = find(rows, meter)?;
    rows[row].used = 0;
    Ok(row)
}

/// "counter above last: new, last set, heard is this station only; equal with heard not empty: copy, station added; else
/// 26. The answer says how many base stations heard the packet so far."
pub fn uplink(rows: &mut [Row], meter: u64, counter: u32, station: u64) -> Result<Credited, Refusal> {
    // "Test 24 first, 25 next."
    if station > 63 {
        return Err(STATION_NUMBER);
    }
    let at = find(rows, meter)?;
    let row = &mut rows[at];
    let credit = if counter > row.last {
        row.last = counter;
        row.heard = 1 << station;
        Credit::New
    } else if counter == row.last && row.heard != 0 {
        row.heard |= 1 << station;
        Credit::Copy
    } else {
        return Err(STALE);
    };
    Ok((credit, row.heard.count_ones(), at))
}
