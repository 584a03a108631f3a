//! The stations and meters of a day, and the enrolments.

use crate::cases::random::Random;
use crate::messages::enrolment;
use crate::moods::Mood;
use crate::reference::day::{METERS, STATIONS};

#[derive(Clone)]
pub struct Station {
    pub number: usize,
    pub eui: u64,
    pub uuid: [u8; 16],
}

#[derive(Clone)]
pub struct Meter {
    pub eui: u64,
    /// Of the packet that it sent last.
    pub counter: u32,
}

/// Any numbers of stations; at times all say the same EUI and UUID, and yet each has its own session.
pub fn stations(random: &mut Random, mood: &Mood) -> Vec<Station> {
    let mut numbers: Vec<usize> = (0..STATIONS).collect();
    random.shuffle(&mut numbers);
    let same = random.one_in(6);
    let station = |number: usize| Station {
        number,
        eui: if same { 9 } else { 0x70B3_D567_0000_0000 + number as u64 },
        uuid: [if same { 9 } else { number as u8 }; 16],
    };
    numbers[..mood.stations].iter().map(|number| station(*number)).collect()
}

/// EUIs of which many have the same last bytes.
fn euis(random: &mut Random, count: usize) -> Vec<u64> {
    const FIRST: [u64; 6] =
        [0x70B3_D567_7000_0000, 0x70B3_D568_7000_0000, 0x70B3_D567_7001_0000, 0, 1 << 63, 0xFFFF_FFFF_FFFF_0000];
    let mut euis = Vec::new();
    while euis.len() < count {
        let any = random.next();
        let eui = random.pick(&FIRST) | random.below(10) as u64;
        let eui = random.pick(&[eui, eui, eui, eui, eui, any]);
        if !euis.contains(&eui) {
            euis.push(eui);
        }
    }
    euis
}

/// The meters, and the enrolments of most of them: at times with so many others that all rows are used.
pub fn meters(random: &mut Random, mood: &Mood) -> (Vec<Meter>, Vec<u8>) {
    let mut meters = Vec::new();
    let mut entries = Vec::new();
    for eui in euis(random, mood.meters) {
        let any = random.number() as u32;
        let enrolled = random.pick(&[0, 0, 0, 5, 5, 70_000, any, any, u32::MAX - 3, u32::MAX]);
        // the first packets may be billed already
        let before = random.pick(&[0, 0, 1, 2]);
        meters.push(Meter { eui, counter: enrolled.saturating_sub(before) });
        if !random.one_in(6) {
            let sh_addr = random.pick(&[eui as u16, eui as u16, 0xABCD]);
            entries.push(enrolment(eui, sh_addr, enrolled));
        }
    }
    let others = if random.one_in(3) { METERS - entries.len() } else { random.below(20) };
    // no meter's EUI begins so
    entries.extend((0..others as u64).map(|other| enrolment(0xAAAA_0000_0000_0000 | other, other as u16, 0)));
    random.shuffle(&mut entries);
    (meters, entries.concat())
}
