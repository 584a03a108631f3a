//! A payload into a record.
//! "After form come 11, 12, 13, 14, 15, in that order over the whole message, so pair order never matters."

use super::commands::{self, Command};
use super::elements::{walk, Element, Pairs};
use super::fields::{has_type, kind, value};
use super::record::Record;
use super::refusal::*;
use std::collections::HashMap;

/// The record and the count of elements.
pub fn read(payload: &[u8]) -> Result<(Record, usize), Refusal> {
    let (pairs, count) = walk(payload)?;
    let command = command(&pairs)?;
    // "Keys outside the command's list are ignored, also when repeated."
    if command.keys().any(|key| all(&pairs, key.name).count() > 1) {
        return Err(KEY_TWICE);
    }
    if command.keys().any(|key| !key.optional && all(&pairs, key.name).count() == 0) {
        return Err(FIELD_MISSING);
    }
    let record = values(command, &pairs).filter(Record::is_valid).ok_or(INVALID)?;
    Ok((record.normal(), count))
}

/// Keys are "compared as bytes".
fn all<'a>(pairs: &'a Pairs, key: &'a str) -> impl Iterator<Item = &'a Element> {
    pairs.iter().filter(move |pair| pair.0 == key.as_bytes()).map(|pair| &pair.1)
}

/// "11: command missing, twice or not text"; "12: command not among the 21", now 24.
fn command(pairs: &Pairs) -> Result<&'static Command, Refusal> {
    let found: Vec<&Element> = all(pairs, "command").collect();
    match found[..] {
        [Element::Text(name)] => commands::named(name).ok_or(UNKNOWN_COMMAND),
        _ => Err(NO_COMMAND),
    }
}

/// "Taking nil for absent: it is 15": whatever stands under a key must have its type.
fn values(command: &'static Command, pairs: &Pairs) -> Option<Record> {
    let mut fields = HashMap::new();
    for key in command.keys() {
        let kind = kind(command.name, key.name);
        match all(pairs, key.name).next() {
            Some(element) if key.kept => fields.insert(key.name, value(&kind, element)?),
            Some(element) if !has_type(&kind, element) => return None,
            _ => None,
        };
    }
    Some(Record { command, fields })
}
