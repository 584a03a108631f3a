//! "Eight bytes 4D 49 4F 54 59 42 30 31, four bytes payload size, little endian, payload."

use super::refusal::{Refusal, FRAME_IDENTIFIER, FRAME_INCOMPLETE, SIZE};

pub const IDENTIFIER: [u8; 8] = [0x4D, 0x49, 0x4F, 0x54, 0x59, 0x42, 0x30, 0x31];
pub const HEADER: usize = 12;
/// "H: size 1 to 4,096."
pub const MOST: usize = 4096;

/// How many bytes the frame at the start of these takes.
/// "Check the identifier on the bytes present (2), then whether 12 are there (1), the size (3), the whole frame (1)."
pub fn frame(bytes: &[u8]) -> Result<usize, Refusal> {
    if bytes.iter().zip(IDENTIFIER.iter()).any(|(is, must)| is != must) {
        return Err(FRAME_IDENTIFIER);
    }
    if bytes.len() < HEADER {
        return Err(FRAME_INCOMPLETE);
    }
    let size = u32::from_le_bytes([bytes[8], bytes[9], bytes[10], bytes[11]]) as usize;
    if size < 1 || size > MOST {
        return Err(SIZE);
    }
    if bytes.len() < HEADER + size {
        return Err(FRAME_INCOMPLETE);
    }
    Ok(HEADER + size)
}

/// A payload as a whole frame.
pub fn framed(payload: &[u8]) -> Vec<u8> {
    let size = payload.len() as u32;
    [&IDENTIFIER, &size.to_le_bytes()[..], payload].concat()
}
