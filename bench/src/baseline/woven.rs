//! D frames woven against bursts: symbol i of frame f stands at i × D + f (02, #104).

use super::code::{Code, MAX_SYMBOLS};
use super::{check_received, code_of, decode_frame, length_questions};
use crate::calls::{Answer, Woven, MOST_FRAMES};

/// A frame of so many symbols is a short one.
const FEW_SYMBOLS: usize = 8192;

/// The code, D and one frame's T, which the questions found, or the refusal.
type Allowed = Result<(&'static Code, usize, usize), Answer>;

/// Writes frames that lie one after another as woven ones.
pub fn weave(setting: u64, frames: u64, incoming: &[u8], out: &mut [u8]) -> Answer {
    match weaving_questions(setting, frames, incoming, out.len()) {
        Err(refusal) => refusal,
        Ok(frames) => {
            for (f, frame) in incoming.chunks_exact(incoming.len() / frames).enumerate() {
                for (place, &symbol) in out[f..].iter_mut().step_by(frames).zip(frame) {
                    *place = symbol;
                }
            }
            Answer::YES
        }
    }
}

/// Writes woven frames as ones that lie one after another.
pub fn unweave(setting: u64, frames: u64, incoming: &[u8], out: &mut [u8]) -> Answer {
    match weaving_questions(setting, frames, incoming, out.len()) {
        Err(refusal) => refusal,
        Ok(frames) => {
            let out = out[..incoming.len()].chunks_exact_mut(incoming.len() / frames);
            out.enumerate().for_each(|(f, frame)| copy_frame(incoming, frames, f, frame));
            Answer::YES
        }
    }
}

/// Decodes each of the woven frames, copied out of them to lie alone.
pub fn decode_woven(
    setting: u64,
    frames: u64,
    reception: &[u8],
    message: &mut [u8],
    transmission: &mut [u8],
) -> Woven {
    let mut woven = Woven::default();
    match decode_questions(setting, frames, reception, message.len(), transmission.len()) {
        Err(refusal) => woven.answer = refusal,
        Ok((code, frames, blocks)) => {
            let length = reception.len() / frames;
            let messages = message.chunks_exact_mut(blocks * code.k);
            let areas = messages.zip(transmission.chunks_exact_mut(length)).take(frames);
            with_zeros(length, |alone| {
                for (f, (message, transmission)) in areas.enumerate() {
                    copy_frame(reception, frames, f, alone);
                    woven.frame[f] = decode_frame(code, alone, message, transmission);
                }
            });
        }
    }
    woven
}

/// Lends so many zeros. Few of them do not take the time of as many as there may be.
fn with_zeros(length: usize, work: impl FnOnce(&mut [u8])) {
    if length <= FEW_SYMBOLS {
        work(&mut [0; FEW_SYMBOLS][..length]);
    } else {
        work(&mut [0; MAX_SYMBOLS][..length]);
    }
}

/// Copies frame f out of woven ones.
fn copy_frame(woven: &[u8], frames: usize, f: usize, frame: &mut [u8]) {
    for (symbol, &place) in frame.iter_mut().zip(woven[f..].iter().step_by(frames)) {
        *symbol = place;
    }
}

/// Questions 1, 14, 15, 2, 3, 4 and, for as many bytes as come in, 6; then D.
fn weaving_questions(
    setting: u64,
    frames: u64,
    incoming: &[u8],
    area: usize,
) -> Result<usize, Answer> {
    let (_, frames, _) = frames_questions(setting, frames, incoming)?;
    if area < incoming.len() {
        return Err(Answer::no(6));
    }
    Ok(frames)
}

/// Questions 1, 14, 15 and 2 to 6.
fn decode_questions(
    setting: u64,
    frames: u64,
    reception: &[u8],
    message_area: usize,
    transmission_area: usize,
) -> Allowed {
    let (code, frames, blocks) = frames_questions(setting, frames, reception)?;
    if message_area < frames * blocks * code.k {
        return Err(Answer::no(5));
    }
    if transmission_area < reception.len() {
        return Err(Answer::no(6));
    }
    Ok((code, frames, blocks))
}

/// Questions 1, 14, 15, 2 and 3 of one frame's length, and 4 of the whole area.
fn frames_questions(setting: u64, frames: u64, incoming: &[u8]) -> Allowed {
    let code = code_of(setting)?;
    if !(2..=MOST_FRAMES as u64).contains(&frames) {
        return Err(Answer::no(14));
    }
    let frames = frames as usize;
    if !incoming.len().is_multiple_of(frames) {
        return Err(Answer::no(15));
    }
    let blocks = length_questions(code, incoming.len() / frames)?;
    check_received(code, incoming)?;
    Ok((code, frames, blocks))
}
