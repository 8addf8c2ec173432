//! One line of the planning desk in, one line out.

use super::code::{Code, MAX_K, MAX_SYMBOLS, MAX_T};
use super::decode;
use crate::calls::{Answer, UNKNOWN};

/// The most characters of a line that is read on.
const MAX_LINE: usize = LONG_HEAD + MAX_SYMBOLS;

/// The most characters of an answer.
pub const MAX_ANSWER: usize = 6 + LONG_HEAD + MAX_T * MAX_K;

/// The characters of a head: the setting's, then the digits of T, three or, where the setting is a
/// letter (02, #107), four.
const SHORT_HEAD: usize = 4;
const LONG_HEAD: usize = 5;

/// The most blocks of a line with a short head.
const SHORT_MAX_T: usize = 512;

const DIGITS: &[u8; 16] = b"0123456789abcdef";

/// What stands for an unknown symbol, after the head.
const UNKNOWN_SYMBOL: u8 = b'-';

/// A line that got "yes" to every question before 4.
struct Frame<'a> {
    setting: u64,
    head: &'a [u8],
    symbols: &'a [u8],
    message_length: usize,
}

/// The characters of a head, the digit of setting 1, and the most blocks.
struct Form {
    head_length: usize,
    first_setting: usize,
    max_t: usize,
}

/// The answer to a line with a message.
struct Success<'a> {
    altered: usize,
    head: &'a [u8],
    message: &'a [u8],
}

/// Answers a line, without its newline; the answer is the returned part of `output`.
pub fn line<'a>(line: &[u8], output: &'a mut [u8; MAX_ANSWER]) -> &'a [u8] {
    let mut message = [0; MAX_T * MAX_K];
    match read_frame(line, &mut message) {
        Err(refusal) => {
            write_hexadecimal(&mut output[..2], refusal.number as usize);
            write_hexadecimal(&mut output[2..6], refusal.place as usize);
            &output[..6]
        }
        Ok(Success { altered, head, message }) => {
            let start = 6 + head.len();
            write_hexadecimal(&mut output[..2], 0);
            write_hexadecimal(&mut output[2..6], altered);
            output[6..start].copy_from_slice(head);
            for (character, &symbol) in output[start..].iter_mut().zip(message) {
                *character = DIGITS[symbol as usize];
            }
            &output[..start + message.len()]
        }
    }
}

/// Decodes a line's frame.
fn read_frame<'a>(
    line: &'a [u8],
    message: &'a mut [u8; MAX_T * MAX_K],
) -> Result<Success<'a>, Answer> {
    let frame = frame(line)?;
    let mut reception = [0; MAX_SYMBOLS];
    let reception = &mut reception[..frame.symbols.len()];
    for (symbol, &character) in reception.iter_mut().zip(frame.symbols) {
        *symbol = digit(character).unwrap_or(UNKNOWN);
    }
    let message = &mut message[..frame.message_length];
    let answer = decode(frame.setting, reception, message, &mut [0; MAX_SYMBOLS]);
    match answer.number {
        0 => Ok(Success { altered: answer.altered as usize, head: frame.head, message }),
        _ => Err(answer),
    }
}

/// Questions 11, 9, 1, 3, 10.
fn frame(line: &[u8]) -> Result<Frame<'_>, Answer> {
    if line.len() > MAX_LINE {
        return Err(Answer::no(11));
    }
    let Form { head_length, first_setting, max_t } = form(line);
    let wrong_place = line.iter().enumerate().position(|(place, &character)| {
        digit(character).is_none() && (place < head_length || character != UNKNOWN_SYMBOL)
    });
    if let Some(place) = wrong_place {
        return Err(Answer::no_at(9, place));
    }
    if line.len() < head_length {
        return Err(Answer::no_at(9, line.len()));
    }
    let (head, symbols) = line.split_at(head_length);
    let setting = (read_hexadecimal(&head[..1]) + 1 - first_setting) as u64;
    let blocks = read_hexadecimal(&head[1..]);
    let code = Code::of(setting).ok_or(Answer::no(1))?;
    if blocks > max_t {
        return Err(Answer::no(3));
    }
    if blocks == 0 || symbols.len() != (blocks + code.m) * code.n {
        return Err(Answer::no(10));
    }
    Ok(Frame { setting, head, symbols, message_length: blocks * code.k })
}

/// How a line's head is read, by its first character.
fn form(line: &[u8]) -> Form {
    match line.first() {
        Some(b'a'..=b'e') => Form { head_length: LONG_HEAD, first_setting: 10, max_t: MAX_T },
        _ => Form { head_length: SHORT_HEAD, first_setting: 1, max_t: SHORT_MAX_T },
    }
}

/// The value of a lowercase hexadecimal digit.
fn digit(character: u8) -> Option<u8> {
    match character {
        b'0'..=b'9' => Some(character - b'0'),
        b'a'..=b'f' => Some(character - b'a' + 10),
        _ => None,
    }
}

/// The number that hexadecimal digits write, highest first.
fn read_hexadecimal(digits: &[u8]) -> usize {
    let value = |number, &character| 16 * number + usize::from(digit(character).unwrap_or(0));
    digits.iter().fold(0, value)
}

/// Fills `digits` with a number in hexadecimal, highest digit first.
fn write_hexadecimal(digits: &mut [u8], number: usize) {
    let mut rest = number;
    for character in digits.iter_mut().rev() {
        *character = DIGITS[rest % 16];
        rest /= 16;
    }
}
