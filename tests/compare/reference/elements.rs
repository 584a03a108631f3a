//! The walk over a payload: a tree of elements and their count, or the first break and its place.
//! "The walk goes left to right and gives the first break."

use super::frame;
use super::lead::{lead, Lead, Length};
use super::refusal::*;

/// "An element may be a map, and a map holds elements in turn."
#[derive(Clone, Debug)]
pub enum Element {
    Nil,
    Flag(bool),
    Whole(i128),
    Real(f64),
    Text(Vec<u8>),
    Bin,
    Ext,
    Array(Vec<Element>),
    Map(Pairs),
}

pub type Pairs = Vec<(Vec<u8>, Element)>;

/// "the outer element has depth 1, what it holds depth 2, and so on to 8"
const DEEPEST: usize = 8;
/// "at most 1,024 elements, keys and the outer map counted"
const MOST: usize = 1024;

/// The outer map's pairs and the count of elements read.
pub fn walk(payload: &[u8]) -> Result<(Pairs, usize), Refusal> {
    // "A payload handed in alone with length 0 or over 4,096: 3."
    if payload.is_empty() || payload.len() > frame::MOST {
        return Err(SIZE);
    }
    let mut walk = Walk { bytes: payload, at: 0, count: 0 };
    let outer = walk.element(1, false)?;
    // "Bytes left over at the end: 10. ... for 10, the first byte left over."
    if walk.at < payload.len() {
        return Err(LEFT_OVER.at(walk.at));
    }
    match outer {
        Element::Map(pairs) => Ok((pairs, walk.count)),
        _ => Err(OUTER_NOT_MAP),
    }
}

struct Walk<'a> {
    bytes: &'a [u8],
    at: usize,
    count: usize,
}

impl<'a> Walk<'a> {
    /// "At one element: no byte (4), C1 (5), outer not a map (9), count (7), depth (6), key not text (8), length or
    /// body cut (4). ... The place given is where that element starts."
    fn element(&mut self, depth: usize, is_key: bool) -> Result<Element, Refusal> {
        let start = self.at;
        let lead = lead(self.take(1, start)?[0]);
        if lead == Lead::NeverUsed {
            return Err(NEVER_USED.at(start));
        }
        if depth == 1 && !matches!(lead, Lead::Map(_)) {
            return Err(OUTER_NOT_MAP.at(start));
        }
        if self.count == MOST {
            return Err(TOO_MANY_ELEMENTS.at(start));
        }
        self.count += 1;
        if depth > DEEPEST {
            return Err(TOO_DEEP.at(start));
        }
        // "Keys are text at every depth"
        if is_key && !matches!(lead, Lead::Text(_)) {
            return Err(KEY_NOT_TEXT.at(start));
        }
        self.body(lead, depth, start)
    }

    fn body(&mut self, lead: Lead, depth: usize, start: usize) -> Result<Element, Refusal> {
        Ok(match lead {
            Lead::Nil | Lead::NeverUsed => Element::Nil,
            Lead::Flag(flag) => Element::Flag(flag),
            Lead::Small(number) => Element::Whole(number.into()),
            Lead::Unsigned(width) => Element::Whole(self.big_endian(width, start)?.into()),
            Lead::Signed(width) => Element::Whole(signed(self.big_endian(width, start)?, width)),
            Lead::Float(4) => Element::Real(widened(self.big_endian(4, start)?)),
            Lead::Float(_) => Element::Real(f64::from_bits(self.big_endian(8, start)?)),
            Lead::Text(length) => Element::Text(self.counted(length, 0, start)?.to_vec()),
            Lead::Bin(length) => self.counted(length, 0, start).map(|_| Element::Bin)?,
            Lead::Ext(length) => self.counted(length, 1, start).map(|_| Element::Ext)?,
            Lead::Array(length) => self.array(length, depth, start)?,
            Lead::Map(length) => self.map(length, depth, start)?,
        })
    }

    /// "what a map or array holds is judged element by element", whatever length it states.
    fn array(&mut self, length: Length, depth: usize, start: usize) -> Result<Element, Refusal> {
        let mut entries = Vec::new();
        for _ in 0..self.length(length, start)? {
            entries.push(self.element(depth + 1, false)?);
        }
        Ok(Element::Array(entries))
    }

    fn map(&mut self, length: Length, depth: usize, start: usize) -> Result<Element, Refusal> {
        let mut pairs = Vec::new();
        for _ in 0..self.length(length, start)? {
            let key = match self.element(depth + 1, true)? {
                Element::Text(key) => key,
                _ => return Err(KEY_NOT_TEXT),
            };
            pairs.push((key, self.element(depth + 1, false)?));
        }
        Ok(Element::Map(pairs))
    }

    /// The bytes that a length counts, with the type byte of an ext besides.
    fn counted(&mut self, length: Length, besides: usize, start: usize) -> Result<&'a [u8], Refusal> {
        let count = self.length(length, start)?;
        self.take(count + besides, start)
    }

    fn length(&mut self, length: Length, start: usize) -> Result<usize, Refusal> {
        match length {
            Length::Is(count) => Ok(count),
            Length::In(width) => Ok(self.big_endian(width, start)? as usize),
        }
    }

    /// "Multi-byte numbers are big endian."
    fn big_endian(&mut self, width: usize, start: usize) -> Result<u64, Refusal> {
        let bytes = self.take(width, start)?;
        Ok(bytes.iter().fold(0, |number, byte| number << 8 | u64::from(*byte)))
    }

    fn take(&mut self, count: usize, start: usize) -> Result<&'a [u8], Refusal> {
        let taken = self.bytes[self.at..].get(..count).ok_or(CUT.at(start))?;
        self.at += count;
        Ok(taken)
    }
}

/// "float 32 is widened exactly": by its value, mantissa times a power of two, which float 64 holds. The mode of the floating
/// point unit has no part in it: whole numbers become reals, and powers of two are put together from their bits.
fn widened(bits: u64) -> f64 {
    let (sign, exponent, mantissa) = (bits >> 31 << 63, bits >> 23 & 0xFF, bits & 0x7F_FFFF);
    let power = |exponent: u64| f64::from_bits(exponent << 52);
    let size = match exponent {
        0 => mantissa as f64 * power(1023 - 149),
        0xFF => f64::from_bits(0x7FF << 52 | mantissa << 29),
        _ => (mantissa | 0x80_0000) as f64 * power(1023 - 150 + exponent),
    };
    f64::from_bits(size.to_bits() | sign)
}

/// The two's complement number in the lowest bytes.
fn signed(bits: u64, width: usize) -> i128 {
    let unused = 64 - 8 * width as u32;
    i128::from((bits << unused) as i64 >> unused)
}
