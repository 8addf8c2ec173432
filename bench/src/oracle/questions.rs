//! What each call must answer and leave in its areas, question by question.

use super::definition::Setting;
use super::search::fitting;
use super::sending::transmission;
use crate::calls::{Answer, Marks, UNKNOWN};

/// Questions 1, 8, 3, 4, 6; then fills the area.
pub fn encode(number: u64, message: &[u8], area: &mut [u8]) -> Answer {
    let Some(setting) = Setting::of(number) else {
        return Answer::no(1);
    };
    if !message.len().is_multiple_of(setting.k) || message.len() < setting.k {
        return Answer::no(8);
    }
    let blocks = message.len() / setting.k;
    if blocks > 4096 {
        return Answer::no(3);
    }
    if let Some(place) = message.iter().position(|&symbol| symbol >= setting.q) {
        return Answer::no_at(4, place);
    }
    let length = setting.transmission_length(blocks);
    if area.len() < length {
        return Answer::no(6);
    }
    area[..length].copy_from_slice(&transmission(setting, message));
    Answer::YES
}

/// Questions 1 to 7; fills both areas, after 7 with zeros.
pub fn decode(
    number: u64,
    reception: &[u8],
    message_area: &mut [u8],
    transmission_area: &mut [u8],
) -> Answer {
    let (setting, blocks) = match reception_questions(number, reception.len()) {
        Err(refusal) => return refusal,
        Ok(found) => found,
    };
    if let Some(place) = first_wrong_symbol(setting, reception) {
        return Answer::no_at(4, place);
    }
    let message_length = setting.message_length(blocks);
    if message_area.len() < message_length {
        return Answer::no(5);
    }
    if transmission_area.len() < reception.len() {
        return Answer::no(6);
    }
    let message_area = &mut message_area[..message_length];
    let transmission_area = &mut transmission_area[..reception.len()];
    let messages = fitting(setting, reception);
    assert!(messages.len() <= 1, "two messages fit one reception: {messages:?}");
    let Some(message) = messages.first() else {
        message_area.fill(0);
        transmission_area.fill(0);
        return Answer::no(7);
    };
    message_area.copy_from_slice(message);
    transmission_area.copy_from_slice(&transmission(setting, message));
    // Of altered symbols, which are known ones, those in closing blocks do not count (02, #102,
    // #106).
    let differs = |&place: &usize| transmission_area[place] != reception[place];
    let places = (0..blocks * setting.n).filter(|&place| reception[place] != UNKNOWN);
    let altered = places.filter(differs).count() as u32;
    let unknown = reception.iter().filter(|&&symbol| symbol == UNKNOWN).count() as u32;
    Answer { altered, unknown, ..Answer::YES }
}

/// Questions 1, 2, 3, 12, 13; then a mark for each difference and each unknown symbol in window j.
pub fn marks(number: u64, reception: &[u8], transmission: &[u8], j: u64) -> Marks {
    let refused = |answer| Marks { answer, marks: 0, set: 0 };
    let (setting, blocks) = match reception_questions(number, reception.len()) {
        Err(refusal) => return refused(refusal),
        Ok(found) => found,
    };
    if j >= blocks as u64 {
        return refused(Answer::no(12));
    }
    if reception.len() != transmission.len() {
        return refused(Answer::no(13));
    }
    let mut marks = Marks::default();
    for bit in 0..setting.window_length() {
        let place = j as usize * setting.n + bit;
        if reception[place] == UNKNOWN || reception[place] != transmission[place] {
            marks.marks += 1 << bit;
            marks.set += 1;
        }
    }
    marks
}

/// Questions 1, 2, 3 of a reception of this length; then the setting and T.
pub fn reception_questions(
    number: u64,
    length: usize,
) -> Result<(&'static Setting, usize), Answer> {
    let setting = Setting::of(number).ok_or(Answer::no(1))?;
    if !length.is_multiple_of(setting.n) || length < setting.window_length() {
        return Err(Answer::no(2));
    }
    let blocks = length / setting.n - setting.m;
    if blocks > 4096 {
        return Err(Answer::no(3));
    }
    Ok((setting, blocks))
}

/// Question 4's place in what was received, where symbols may be unknown.
pub fn first_wrong_symbol(setting: &Setting, received: &[u8]) -> Option<usize> {
    received.iter().position(|&symbol| symbol >= setting.q && symbol != UNKNOWN)
}
