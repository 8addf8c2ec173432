//! The order link in plain Rust: one code for all settings, no allocation.

mod block;
mod code;
mod decoder;
mod field;
mod line;
mod received;
mod woven;

pub use line::{line, MAX_ANSWER};

use crate::calls::{Answer, Calls, Marks, UNKNOWN};
use code::{Code, MAX_T};
use woven::{decode_woven, unweave, weave};

/// The code with a length that the questions found, or the refusal.
type Allowed = Result<(&'static Code, usize), Answer>;

/// The calls of the C interface, answered by this module.
pub const CALLS: Calls =
    Calls { name: "plain Rust", encode, decode, marks, weave, unweave, decode_woven };

/// Writes the transmission of a message.
fn encode(setting: u64, message: &[u8], transmission: &mut [u8]) -> Answer {
    match encode_questions(setting, message, transmission.len()) {
        Err(refusal) => refusal,
        Ok((code, length)) => {
            decoder::encode(code, message, &mut transmission[..length]);
            Answer::YES
        }
    }
}

/// Writes the message that fits a reception and its transmission, or zeros after number 7.
fn decode(setting: u64, reception: &[u8], message: &mut [u8], transmission: &mut [u8]) -> Answer {
    match decode_questions(setting, reception, message.len(), transmission.len()) {
        Err(refusal) => refusal,
        Ok((code, blocks)) => {
            let message = &mut message[..blocks * code.k];
            decode_frame(code, reception, message, &mut transmission[..reception.len()])
        }
    }
}

/// Question 7, past all others, with areas of just the bytes that are filled.
fn decode_frame(
    code: &Code,
    reception: &[u8],
    message: &mut [u8],
    transmission: &mut [u8],
) -> Answer {
    match decoder::decode(code, reception, message, transmission) {
        Some(counts) => {
            Answer { altered: counts.altered as u32, unknown: counts.unknown as u32, ..Answer::YES }
        }
        None => {
            message.fill(0);
            transmission.fill(0);
            Answer::no(7)
        }
    }
}

/// Window j as a part of the reception; empty if refused.
pub fn window(setting: u64, reception: &[u8], j: u64) -> &[u8] {
    match window_questions(setting, reception, j) {
        Err(_) => &[],
        Ok((code, start)) => &reception[start..][..code.window_length()],
    }
}

/// Number and place of the same `window` call.
pub fn window_answer(setting: u64, reception: &[u8], j: u64) -> Answer {
    window_questions(setting, reception, j).err().unwrap_or(Answer::YES)
}

/// Marks the differences of a reception and a transmission in window j, and the unknown symbols.
fn marks(setting: u64, reception: &[u8], transmission: &[u8], j: u64) -> Marks {
    match marks_questions(setting, reception, transmission, j) {
        Err(answer) => Marks { answer, marks: 0, set: 0 },
        Ok((code, start)) => {
            let received = &reception[start..][..code.window_length()];
            let pairs = received.iter().zip(&transmission[start..]).enumerate();
            let set = |a: &u8, b: &u8| *a == UNKNOWN || a != b;
            let marks = pairs.fold(0, |marks, (i, (a, b))| marks | u64::from(set(a, b)) << i);
            Marks { answer: Answer::YES, marks, set: marks.count_ones() }
        }
    }
}

/// Questions 1, 8, 3, 4, 6; then the code and the transmission's length.
fn encode_questions(setting: u64, message: &[u8], area: usize) -> Allowed {
    let code = code_of(setting)?;
    if message.is_empty() || !message.len().is_multiple_of(code.k) {
        return Err(Answer::no(8));
    }
    let blocks = message.len() / code.k;
    if blocks > MAX_T {
        return Err(Answer::no(3));
    }
    check_symbols(message, |symbol| symbol < code.field.q() as u8)?;
    let length = (blocks + code.m) * code.n;
    if area < length {
        return Err(Answer::no(6));
    }
    Ok((code, length))
}

/// Questions 1 to 6; then the code and T.
fn decode_questions(
    setting: u64,
    reception: &[u8],
    message_area: usize,
    transmission_area: usize,
) -> Allowed {
    let (code, blocks) = reception_questions(setting, reception)?;
    check_received(code, reception)?;
    if message_area < blocks * code.k {
        return Err(Answer::no(5));
    }
    if transmission_area < reception.len() {
        return Err(Answer::no(6));
    }
    Ok((code, blocks))
}

/// Questions 1, 2, 3, 12; then the code and the window's first symbol.
fn window_questions(setting: u64, reception: &[u8], j: u64) -> Allowed {
    let (code, blocks) = reception_questions(setting, reception)?;
    if j >= blocks as u64 {
        return Err(Answer::no(12));
    }
    Ok((code, j as usize * code.n))
}

/// Questions 1, 2, 3, 12, 13; then the code and the window's first symbol.
fn marks_questions(setting: u64, reception: &[u8], transmission: &[u8], j: u64) -> Allowed {
    let found = window_questions(setting, reception, j)?;
    if reception.len() != transmission.len() {
        return Err(Answer::no(13));
    }
    Ok(found)
}

/// Questions 1, 2, 3; then the code and T.
fn reception_questions(setting: u64, reception: &[u8]) -> Allowed {
    let code = code_of(setting)?;
    Ok((code, length_questions(code, reception.len())?))
}

/// Question 1; then the code.
fn code_of(setting: u64) -> Result<&'static Code, Answer> {
    Code::of(setting).ok_or(Answer::no(1))
}

/// Questions 2 and 3 of a reception of this length; then T.
fn length_questions(code: &Code, length: usize) -> Result<usize, Answer> {
    let blocks = length / code.n;
    if !length.is_multiple_of(code.n) || blocks <= code.m {
        return Err(Answer::no(2));
    }
    if blocks - code.m > MAX_T {
        return Err(Answer::no(3));
    }
    Ok(blocks - code.m)
}

/// Question 4 of what was received, where symbols may be unknown.
fn check_received(code: &Code, symbols: &[u8]) -> Result<(), Answer> {
    check_symbols(symbols, |symbol| symbol < code.field.q() as u8 || symbol == UNKNOWN)
}

/// Question 4. All symbols are looked at first, since that loop is a fast one.
fn check_symbols(symbols: &[u8], admitted: impl Fn(u8) -> bool) -> Result<(), Answer> {
    if symbols.iter().fold(true, |all, &symbol| all & admitted(symbol)) {
        return Ok(());
    }
    let place = symbols.iter().take_while(|&&symbol| admitted(symbol)).count();
    Err(Answer::no_at(4, place))
}
