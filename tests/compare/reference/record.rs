//! A record: a command and the values that it keeps, by key. What is absent isn't in the map.

use super::commands::{self, Command, COMMANDS};
use super::fields::{in_range, kind, Value};
use std::collections::HashMap;

#[derive(Clone, Debug)]
pub struct Record {
    pub command: &'static Command,
    pub fields: HashMap<&'static str, Value>,
}

impl Record {
    pub fn new(name: &str, op_id: i64) -> Record {
        let command = &COMMANDS[commands::number(name) as usize];
        Record { command, fields: HashMap::new() }.with("opId", Value::Whole(op_id.into()))
    }

    pub fn with(mut self, key: &'static str, value: Value) -> Record {
        self.fields.insert(key, value);
        self
    }

    pub fn whole(&self, key: &str) -> Option<i128> {
        match self.fields.get(key) {
            Some(Value::Whole(number)) => Some(*number),
            _ => None,
        }
    }

    pub fn flag(&self, key: &str) -> bool {
        matches!(self.fields.get(key), Some(Value::Flag(true)))
    }

    /// dlDataQue's packetCnt.
    pub fn counters(&self) -> Option<&[u32]> {
        match self.fields.get("packetCnt") {
            Some(Value::Counters(counters)) => Some(counters),
            _ => None,
        }
    }

    /// dlDataQue's userData.
    pub fn entries(&self) -> &[Vec<u8>] {
        match self.fields.get("userData") {
            Some(Value::Entries(entries)) => entries,
            _ => &[],
        }
    }

    pub fn prio(&self) -> f64 {
        match self.fields.get("prio") {
            Some(Value::Real(prio)) => *prio,
            _ => 0.0,
        }
    }

    pub fn op_id(&self) -> i64 {
        self.whole("opId").expect("every record has one") as i64
    }

    /// Whether each value is there that must be, each lies in its range, and they go together.
    pub fn is_valid(&self) -> bool {
        let valid = self.command.keys().filter(|key| key.kept).all(|key| match self.fields.get(key.name) {
            Some(value) => in_range(&kind(self.command.name, key.name), value),
            None => key.optional,
        });
        valid && self.go_together()
    }

    /// The rules between fields, of values that are each valid. dlDataQue's responseExp has none.
    fn go_together(&self) -> bool {
        match self.command.name {
            // "responseExp true with dlOpen false is invalid."
            "ulData" => self.flag("dlOpen") || !self.flag("responseExp"),
            // "cntDepend true needs as many data entries as counters, at least one; false, one data entry and no packetCnt"
            "dlDataQue" => match (self.flag("cntDepend"), self.counters()) {
                (true, Some(counters)) => !counters.is_empty() && self.entries().len() == counters.len(),
                (true, None) => false,
                (false, counters) => counters.is_none() && self.entries().len() == 1,
            },
            _ => true,
        }
    }

    /// "An absent format is 0", and prio is "plus zero when absent": these are kept as absent. Minus zero is kept.
    pub fn normal(mut self) -> Record {
        if self.whole("format") == Some(0) {
            self.fields.remove("format");
        }
        if self.prio().to_bits() == 0 {
            self.fields.remove("prio");
        }
        self
    }
}
