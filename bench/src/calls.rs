//! The calls that a C host makes, as every implementation here offers them.

/// The byte that stands for an unknown symbol in a reception.
pub const UNKNOWN: u8 = 255;

/// The answer of a call: the first question that got "no", its place, and after decoding how many
/// known symbols were altered and how many were unknown.
#[repr(C)]
#[derive(Clone, Copy, Debug, Default, PartialEq, Eq)]
pub struct Answer {
    pub number: u32,
    pub altered: u32,
    pub place: u64,
    pub unknown: u32,
}

impl Answer {
    /// Every question got "yes".
    pub const YES: Answer = Answer { number: 0, altered: 0, place: 0, unknown: 0 };

    /// A refusal whose place is 0.
    pub const fn no(number: u32) -> Answer {
        Answer::no_at(number, 0)
    }

    /// A refusal with its place.
    pub const fn no_at(number: u32, place: usize) -> Answer {
        Answer { number, place: place as u64, ..Answer::YES }
    }
}

/// The differences of a window and its unknown symbols, the earliest symbol in the lowest bit, and
/// how many there are.
#[repr(C)]
#[derive(Clone, Copy, Debug, Default, PartialEq, Eq)]
pub struct Marks {
    pub answer: Answer,
    pub marks: u64,
    pub set: u32,
}

/// The most frames that are woven.
pub const MOST_FRAMES: usize = 8;

/// The answer of the questions before 7, and each frame's own; zeros where there is no frame or
/// no answer of it.
#[repr(C)]
#[derive(Clone, Copy, Debug, Default, PartialEq, Eq)]
pub struct Woven {
    pub answer: Answer,
    pub frame: [Answer; MOST_FRAMES],
}

/// Setting, message and transmission area.
pub type Encode = fn(u64, &[u8], &mut [u8]) -> Answer;

/// Setting, reception, message area and transmission area.
pub type Decode = fn(u64, &[u8], &mut [u8], &mut [u8]) -> Answer;

/// Setting, reception, transmission and window j.
pub type Mark = fn(u64, &[u8], &[u8], u64) -> Marks;

/// Setting, frames D, incoming area and out area.
pub type Weave = fn(u64, u64, &[u8], &mut [u8]) -> Answer;

/// Setting, frames D, woven receptions, message area and transmission area.
pub type DecodeWoven = fn(u64, u64, &[u8], &mut [u8], &mut [u8]) -> Woven;

/// One implementation of the calls.
#[derive(Clone, Copy)]
pub struct Calls {
    pub name: &'static str,
    pub encode: Encode,
    pub decode: Decode,
    pub marks: Mark,
    pub weave: Weave,
    pub unweave: Weave,
    pub decode_woven: DecodeWoven,
}
