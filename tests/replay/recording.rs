//! A day while it is recorded: its trace so far, and what the centre has made of it.

use crate::reference::day::{self, Centre, Outcome};
use crate::reference::trace;

pub struct Recording {
    pub trace: Vec<u8>,
    /// Behind the start of the trace, and behind each record.
    pub ends: Vec<End>,
    pub centre: Centre,
    /// What is printed of it.
    pub lines: String,
}

#[derive(Clone, Copy)]
pub struct End {
    pub at: usize,
    /// The sum of the gaps.
    pub time: u64,
    /// The length of the lines.
    printed: usize,
}

impl Recording {
    pub fn new(enrolments: &[u8]) -> Recording {
        let trace = trace::start();
        let ends = vec![End { at: trace.len(), time: 0, printed: 0 }];
        let rows = day::enrolled(enrolments).expect("right enrolments");
        Recording { trace, ends, centre: Centre::new(rows), lines: String::new() }
    }

    pub fn time(&self) -> u64 {
        self.ends[self.ends.len() - 1].time
    }

    /// A record more; what became of its frame.
    pub fn add(&mut self, gap: u64, station: usize, frame: &[u8]) -> Outcome {
        let (time, record) = trace::record(self.time(), gap, station as u64, frame).expect("a right record");
        self.trace.extend(record);
        let outcome = self.centre.arrives(station, frame);
        self.lines += &outcome.line(station);
        self.ends.push(End { at: self.trace.len(), time, printed: self.lines.len() });
        outcome
    }

    /// What is printed up to an end.
    pub fn printed(&self, end: &End) -> &str {
        &self.lines[..end.printed]
    }

    /// The first bytes of the trace, and what is printed of them: "33 input ends inside a number or record".
    pub fn cut(&self, length: usize) -> (Vec<u8>, String) {
        let printed = match self.ends.iter().rev().find(|end| end.at <= length) {
            Some(end) if end.at == length => self.printed(end).to_string(),
            Some(end) => format!("{}refused 33\n", self.printed(end)),
            None => "refused 33\n".to_string(),
        };
        (self.trace[..length].to_vec(), printed)
    }
}
