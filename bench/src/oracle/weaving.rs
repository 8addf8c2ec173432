//! What the calls on woven frames must answer and leave in their areas (02, #104).

use super::definition::Setting;
use super::questions::{decode, first_wrong_symbol, reception_questions};
use crate::calls::{Answer, Woven};

/// Frames of one setting and length, as the questions before 5 found them.
struct Frames {
    setting: &'static Setting,
    count: usize,
    length: usize,
    blocks: usize,
}

impl Frames {
    /// Questions 1, 14, 15; 2 and 3 of one frame; 4 of the whole area.
    fn asked(number: u64, frames: u64, area: &[u8]) -> Result<Frames, Answer> {
        if Setting::of(number).is_none() {
            return Err(Answer::no(1));
        }
        if !(2..=8).contains(&frames) {
            return Err(Answer::no(14));
        }
        let count = frames as usize;
        if !area.len().is_multiple_of(count) {
            return Err(Answer::no(15));
        }
        let length = area.len() / count;
        let (setting, blocks) = reception_questions(number, length)?;
        if let Some(place) = first_wrong_symbol(setting, area) {
            return Err(Answer::no_at(4, place));
        }
        Ok(Frames { setting, count, length, blocks })
    }

    /// Each symbol's place in the frames one after another, with its place among the woven ones.
    fn places(&self) -> impl Iterator<Item = (usize, usize)> + '_ {
        let symbols = |f| (0..self.length).map(move |i| (f, i));
        let symbols = (0..self.count).flat_map(symbols);
        symbols.map(|(f, i)| (f * self.length + i, i * self.count + f))
    }
}

/// Questions 1, 14, 15, 2, 3, 4, 6; then each symbol goes to its place among the woven ones.
pub fn weave(number: u64, frames: u64, incoming: &[u8], out: &mut [u8]) -> Answer {
    moved(number, frames, incoming, out, |(place, woven)| (place, woven))
}

/// The same questions; then each symbol goes back.
pub fn unweave(number: u64, frames: u64, incoming: &[u8], out: &mut [u8]) -> Answer {
    moved(number, frames, incoming, out, |(place, woven)| (woven, place))
}

/// Moves each symbol between its two places, from the first to the second that `way` gives.
fn moved(
    number: u64,
    frames: u64,
    incoming: &[u8],
    out: &mut [u8],
    way: fn((usize, usize)) -> (usize, usize),
) -> Answer {
    let frames = match Frames::asked(number, frames, incoming) {
        Err(refusal) => return refusal,
        Ok(frames) => frames,
    };
    if out.len() < incoming.len() {
        return Answer::no(6);
    }
    for (from, to) in frames.places().map(way) {
        out[to] = incoming[from];
    }
    Answer::YES
}

/// Questions 1, 14, 15 and 2 to 6; then each frame is unwoven and decoded alone.
pub fn decode_woven(
    number: u64,
    frames: u64,
    reception: &[u8],
    message_area: &mut [u8],
    transmission_area: &mut [u8],
) -> Woven {
    let refused = |answer| Woven { answer, ..Woven::default() };
    let frames = match Frames::asked(number, frames, reception) {
        Err(refusal) => return refused(refusal),
        Ok(frames) => frames,
    };
    let message_length = frames.setting.message_length(frames.blocks);
    let transmission_length = frames.setting.transmission_length(frames.blocks);
    if message_area.len() < frames.count * message_length {
        return refused(Answer::no(5));
    }
    if transmission_area.len() < frames.count * transmission_length {
        return refused(Answer::no(6));
    }
    let mut received = vec![0; reception.len()];
    frames.places().for_each(|(place, woven)| received[place] = reception[woven]);
    let mut woven = Woven::default();
    for f in 0..frames.count {
        let received = &received[f * frames.length..][..frames.length];
        let message = &mut message_area[f * message_length..][..message_length];
        let transmission = &mut transmission_area[f * transmission_length..][..transmission_length];
        woven.frame[f] = decode(number, received, message, transmission);
    }
    woven
}
