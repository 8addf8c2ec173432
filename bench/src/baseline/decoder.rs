//! Encoding, and decoding window by window (000, Algorithms 2.3 and 3.3).

use super::block::repair;
use super::code::{Block, Code, Information, MAX_K};
use super::received::{known, Known, Received};
use crate::calls::UNKNOWN;

/// What decoding counts: the altered symbols of blocks 0 to T−1, the unknown ones of all blocks.
pub struct Counts {
    pub altered: usize,
    pub unknown: usize,
}

/// Writes the transmission of a message: sent block s is the sum of information block s−j × G_j.
pub fn encode(code: &Code, message: &[u8], transmission: &mut [u8]) {
    let blocks = message.len() / code.k;
    for (s, sent) in transmission.chunks_exact_mut(code.n).enumerate() {
        sent.fill(0);
        for i in s.saturating_sub(code.m)..=s.min(blocks - 1) {
            add_contribution(code, sent, &message[i * code.k..(i + 1) * code.k], s - i);
        }
    }
}

/// Writes the message that fits a reception and its transmission, and returns what it counted.
/// Where no message fits, both areas are left half done.
pub fn decode(
    code: &Code,
    reception: &[u8],
    message: &mut [u8],
    transmission: &mut [u8],
) -> Option<Counts> {
    transmission.copy_from_slice(reception);
    let counts = if reception.contains(&UNKNOWN) {
        transmission.iter_mut().for_each(|symbol| *symbol = known(*symbol));
        find_message(code, reception, message, transmission)
    } else {
        find_message(code, Known, message, transmission)
    }?;
    for (symbol, &received) in transmission.iter_mut().zip(reception) {
        *symbol = code.field.subtract(known(received), *symbol);
    }
    Some(counts)
}

/// Writes the message that fits, and what was counted. The residual, at first the reception with 0
/// for each unknown symbol, becomes what is left of it without the message's transmission.
fn find_message(
    code: &Code,
    received: impl Received,
    message: &mut [u8],
    residual: &mut [u8],
) -> Option<Counts> {
    for (j, found) in message.chunks_exact_mut(code.k).enumerate() {
        let window = &mut residual[j * code.n..][..code.window_length()];
        let received = received.part(j * code.n, window.len());
        found.copy_from_slice(&first_information(code, window, received)?[..code.k]);
        strip(code, window, found);
    }
    let mut windows = residual.windows(code.window_length()).step_by(code.n).enumerate();
    let damage = |(j, window): (usize, &[u8])| {
        let received = received.part(j * code.n, window.len());
        2 * received.weight(window) + received.unknown()
    };
    if windows.any(|window| damage(window) > code.limit()) {
        return None;
    }
    // Closing blocks do not count (02, #102).
    let altered = received.weight(&residual[..message.len() / code.k * code.n]);
    Some(Counts { altered, unknown: received.unknown() })
}

/// The information of the highest level that serves; only its first block is certain.
fn first_information(code: &Code, window: &[u8], received: impl Received) -> Option<Information> {
    (0..=code.m).rev().find_map(|l| {
        let length = (l + 1) * code.n;
        information_at(code, l, &window[..length], received.part(0, length))
    })
}

/// The information behind the repaired block l, if the blocks rebuilt from it are near enough.
fn information_at(
    code: &Code,
    l: usize,
    blocks: &[u8],
    received: impl Received,
) -> Option<Information> {
    let (earlier, last) = blocks.split_at(l * code.n);
    let repaired = repair(code, l, last, received.part(l * code.n, code.n))?;
    let information = code.information(l, &repaired.codeword);
    let mut differences = repaired.marks.iter().filter(|&&mark| mark).count();
    for (i, block) in earlier.chunks_exact(code.n).enumerate() {
        let received = received.part(i * code.n, code.n);
        differences += received.distance(&rebuilt(code, &information, i), block);
    }
    let damage = 2 * differences + received.unknown();
    (damage <= code.window_limit(l)).then_some(information)
}

/// Block i of a window that begins with this information.
fn rebuilt(code: &Code, information: &Information, i: usize) -> Block {
    let mut block = Block::default();
    for (a, symbols) in information.chunks_exact(code.k).take(i + 1).enumerate() {
        add_contribution(code, &mut block[..code.n], symbols, i - a);
    }
    block
}

/// Takes what an information block contributes away from the window that it begins.
fn strip(code: &Code, window: &mut [u8], information: &[u8]) {
    let mut negative = [0; MAX_K];
    for (symbol, &found) in negative.iter_mut().zip(information) {
        *symbol = code.field.negate(found);
    }
    for (j, block) in window.chunks_exact_mut(code.n).enumerate() {
        add_contribution(code, block, &negative[..code.k], j);
    }
}

/// Adds information × G_j to a block.
fn add_contribution(code: &Code, block: &mut [u8], information: &[u8], j: usize) {
    for (r, &symbol) in information.iter().enumerate() {
        code.field.add_multiple(block, symbol, code.row(j, r));
    }
}
