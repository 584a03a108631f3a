//! What became of the records of all days, so that it shows whether everything was tried.

use crate::reference::day::Outcome;
use crate::reference::session::Happened;
use crate::reference::table::Credit;
use std::collections::BTreeMap;
use std::fmt;

/// How often each number came.
type Often = BTreeMap<u8, usize>;

#[derive(Default)]
pub struct Counts {
    pub days: usize,
    records: usize,
    new: usize,
    copies: usize,
    resumed: usize,
    unread: Often,
    unfit: Often,
    uncredited: Often,
    ended: Often,
}

impl Counts {
    pub fn record(&mut self, outcome: &Outcome) {
        self.records += 1;
        let one_more = |often: &mut Often, number: u8| *often.entry(number).or_default() += 1;
        match outcome {
            Outcome::Unread(refusal) => one_more(&mut self.unread, refusal.number),
            Outcome::Unfit(refusal) => one_more(&mut self.unfit, refusal.number),
            Outcome::Step(happened) => self.resumed += usize::from(*happened == Happened::Resumed),
            Outcome::Reading { credit: Ok(Credit::New), .. } => self.new += 1,
            Outcome::Reading { credit: Ok(Credit::Copy), .. } => self.copies += 1,
            Outcome::Reading { credit: Err(refusal), .. } => one_more(&mut self.uncredited, refusal.number),
        }
    }

    /// What a day printed last, if that is a refusal.
    pub fn day(&mut self, printed: &str) {
        self.days += 1;
        if let Some(number) = printed.lines().last().and_then(|line| line.strip_prefix("refused ")) {
            *self.ended.entry(number.parse().expect("a number")).or_default() += 1;
        }
    }
}

impl fmt::Display for Counts {
    fn fmt(&self, f: &mut fmt::Formatter) -> fmt::Result {
        let often = |often: &Often| often.iter().map(|(number, times)| format!(" {}:{}", number, times)).collect::<String>();
        write!(f, "{} random days, {} records: {} new, {} copies, ", self.days, self.records, self.new, self.copies)?;
        write!(f, "{} resumed; readings refused{}; ", self.resumed, often(&self.uncredited))?;
        write!(f, "messages refused{}; payloads refused{}; ", often(&self.unfit), often(&self.unread))?;
        write!(f, "days refused{}", often(&self.ended))
    }
}
