//! Why a call was refused, and where.
#![forbid(unsafe_code)]

use core::error::Error;
use core::fmt;

/// Why a call was refused: the answers of the library but 0. `answer as u8` is its number.
#[derive(Clone, Copy, Debug, PartialEq, Eq)]
#[repr(u8)]
pub enum Answer {
    /// An input, a text, an image or the output is over its limit.
    OverLimit = 1,
    /// A field is not whole, or a count or a length exceeds the bytes that are left.
    NotWhole = 2,
    /// A fixed byte is wrong, a text is not UTF-8, no value has this marker, or bytes are left over.
    NotRight = 3,
    /// There is no room in the image, the output, the index or the list of entries.
    NoRoom = 4,
    /// A value stands at depth 33.
    TooDeep = 5,
    /// The image is no tree of the kind that the call takes, or names a text that isn't inside or isn't UTF-8.
    NoTree = 6,
    /// The version byte of the packet is 03.
    OtherVersion = 7,
    /// The packet has no such entry, or no such part.
    NoEntry = 8,
    /// The entry is damaged: its value is short, malformed or not used to the end.
    Damaged = 9,
}

impl Answer {
    /// What the answer means.
    pub fn words(self) -> &'static str {
        match self {
            Answer::OverLimit => "an input, a text, an image or the output is over its limit",
            Answer::NotWhole => "a field is not whole, or a count or a length exceeds the bytes that are left",
            Answer::NotRight => "a fixed byte is wrong, a text is not UTF-8, a value's marker is 04, 09 or 0E, or bytes are left over",
            Answer::NoRoom => "there is no room in the image, the output, the index or the list of entries",
            Answer::TooDeep => "a value stands at depth 33",
            Answer::NoTree => "the image is no tree of the kind that the call takes, or names a text that isn't inside or isn't UTF-8",
            Answer::OtherVersion => "the version byte of the packet is 03",
            Answer::NoEntry => "the packet has no such entry, or no such part",
            Answer::Damaged => "the entry is damaged",
        }
    }
}

impl fmt::Display for Answer {
    fn fmt(&self, f: &mut fmt::Formatter<'_>) -> fmt::Result {
        write!(f, "refused with answer {}: {}", *self as u8, self.words())
    }
}

impl Error for Answer {}

/// A reading or a cut that was refused: why, and the place in the input, counted from its first byte, of the first byte of the field that caused it.
///
/// For [`Answer::NoRoom`] and [`Answer::TooDeep`] it is the marker of the value; for another record that didn't fit it is the first byte of the key's length, the
/// end marker, the first byte of the length of a header's or a message's first text, or that of the file or packet itself, 0. For bytes left over it is the
/// first of them. For [`Answer::OverLimit`], [`Answer::NoEntry`] and a list too short it is 0. In an entry it counts from the packet's start.
/// `include/riddoskam.h` has it answer by answer ("Places").
///
/// ```
/// # use riddoskam::{Answer, Refusal, Value};
/// let refusal = Value::read(b"\x02\0\x03ab", &mut [0; 15]).unwrap_err();
/// assert_eq!(refusal, Refusal { answer: Answer::NotWhole, place: 3 });
/// assert_eq!(
///     refusal.to_string(),
///     "refused with answer 2 at byte 3: a field is not whole, or a count or a length exceeds the bytes that are left"
/// );
/// ```
#[derive(Clone, Copy, Debug, PartialEq, Eq)]
pub struct Refusal {
    /// Why.
    pub answer: Answer,
    /// Where.
    pub place: usize,
}

impl fmt::Display for Refusal {
    /// `refused with answer 3 at byte 572: ..`; without a byte for the answers that never have a place.
    fn fmt(&self, f: &mut fmt::Formatter<'_>) -> fmt::Result {
        match self.answer {
            Answer::OverLimit | Answer::NoEntry => self.answer.fmt(f),
            answer => write!(f, "refused with answer {} at byte {}: {}", answer as u8, self.place, answer.words()),
        }
    }
}

impl Error for Refusal {}

impl From<Refusal> for Answer {
    fn from(refusal: Refusal) -> Answer {
        refusal.answer
    }
}

pub(crate) fn judged<T>(answer: u8, value: T) -> Result<T, Answer> {
    use Answer::*;
    Err(match answer {
        0 => return Ok(value),
        1 => OverLimit,
        2 => NotWhole,
        3 => NotRight,
        4 => NoRoom,
        5 => TooDeep,
        6 => NoTree,
        7 => OtherVersion,
        8 => NoEntry,
        // No call answers more than 9.
        _ => Damaged,
    })
}

/// Of a reading or a cut, whose place is told where the bytes used would be.
pub(crate) fn placed<T>(answer: u8, used: usize, value: T) -> Result<T, Refusal> {
    judged(answer, value).map_err(|answer| Refusal { answer, place: used })
}
