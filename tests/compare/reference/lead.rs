//! What a lead byte says, as document 01 lists them under Elements.

/// A length that the lead byte holds, or the count of bytes behind it that do.
#[derive(Clone, Copy, Debug, PartialEq, Eq)]
pub enum Length {
    Is(usize),
    In(usize),
}

#[derive(Clone, Copy, Debug, PartialEq, Eq)]
pub enum Lead {
    Small(i8),
    Map(Length),
    Array(Length),
    Text(Length),
    Nil,
    NeverUsed,
    Flag(bool),
    Bin(Length),
    Ext(Length),
    Float(usize),
    Unsigned(usize),
    Signed(usize),
}

pub fn lead(byte: u8) -> Lead {
    let low = |mask: u8| Length::Is((byte & mask) as usize);
    // 1, 2, 4 or 8 bytes, from the first byte of its row of lead bytes
    let width = |first: u8| 1usize << (byte - first);
    match byte {
        0x00..=0x7F | 0xE0..=0xFF => Lead::Small(byte as i8),
        0x80..=0x8F => Lead::Map(low(0x0F)),
        0x90..=0x9F => Lead::Array(low(0x0F)),
        0xA0..=0xBF => Lead::Text(low(0x1F)),
        0xC0 => Lead::Nil,
        0xC1 => Lead::NeverUsed,
        0xC2 | 0xC3 => Lead::Flag(byte == 0xC3),
        0xC4..=0xC6 => Lead::Bin(Length::In(width(0xC4))),
        0xC7..=0xC9 => Lead::Ext(Length::In(width(0xC7))),
        0xCA | 0xCB => Lead::Float(4 * width(0xCA)),
        0xCC..=0xCF => Lead::Unsigned(width(0xCC)),
        0xD0..=0xD3 => Lead::Signed(width(0xD0)),
        0xD4..=0xD8 => Lead::Ext(Length::Is(width(0xD4))),
        0xD9..=0xDB => Lead::Text(Length::In(width(0xD9))),
        0xDC | 0xDD => Lead::Array(Length::In(2 * width(0xDC))),
        0xDE | 0xDF => Lead::Map(Length::In(2 * width(0xDE))),
    }
}
