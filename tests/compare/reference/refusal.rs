//! Why a call is refused: its number in document 01's table, or in document 02's.
//! "A refusal returns its number, the byte place for 4–10, and zeros besides."

#[derive(Clone, Copy, Debug, PartialEq, Eq)]
pub struct Refusal {
    pub number: u8,
    pub place: usize,
}

const fn plain(number: u8) -> Refusal {
    Refusal { number, place: 0 }
}

impl Refusal {
    /// The same refusal, at a byte place of the payload.
    pub fn at(self, place: usize) -> Refusal {
        Refusal { place, ..self }
    }
}

pub const FRAME_INCOMPLETE: Refusal = plain(1);
pub const FRAME_IDENTIFIER: Refusal = plain(2);
pub const SIZE: Refusal = plain(3);
pub const CUT: Refusal = plain(4);
pub const NEVER_USED: Refusal = plain(5);
pub const TOO_DEEP: Refusal = plain(6);
pub const TOO_MANY_ELEMENTS: Refusal = plain(7);
pub const KEY_NOT_TEXT: Refusal = plain(8);
pub const OUTER_NOT_MAP: Refusal = plain(9);
pub const LEFT_OVER: Refusal = plain(10);
pub const NO_COMMAND: Refusal = plain(11);
pub const UNKNOWN_COMMAND: Refusal = plain(12);
pub const KEY_TWICE: Refusal = plain(13);
pub const FIELD_MISSING: Refusal = plain(14);
pub const INVALID: Refusal = plain(15);
pub const VERSION: Refusal = plain(16);
pub const STATE: Refusal = plain(17);
pub const ID_OUT_OF_ORDER: Refusal = plain(18);
pub const SIXTEEN_OPEN: Refusal = plain(19);
pub const ROOM_TOO_SHORT: Refusal = plain(20);
pub const NO_ROW: Refusal = plain(21);
pub const ALREADY_ENROLLED: Refusal = plain(22);
pub const NO_FREE_ROW: Refusal = plain(23);
pub const UNEQUAL_COLUMNS: Refusal = plain(24);
pub const STATION_NUMBER: Refusal = plain(25);
pub const STALE: Refusal = plain(26);
pub const QUEUE_ID_THERE: Refusal = plain(27);
pub const QUEUE_FULL: Refusal = plain(28);
pub const NO_QUEUE_ID: Refusal = plain(29);
pub const NOTHING_SUITABLE: Refusal = plain(30);
pub const NOT_A_TRACE: Refusal = plain(31);
pub const NOT_SHORTEST: Refusal = plain(32);
pub const INPUT_ENDS: Refusal = plain(33);
pub const TIME_SUM: Refusal = plain(34);
pub const NOT_ONE_FRAME: Refusal = plain(35);
