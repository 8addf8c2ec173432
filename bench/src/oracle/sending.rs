//! What is sent for a message, and whether a message fits what was received.

use super::definition::{Setting, SETTINGS};
use crate::calls::UNKNOWN;
use std::sync::OnceLock;

/// By j, r and factor: the factor times row r of G_j.
type Generator = Vec<Vec<Vec<Vec<u8>>>>;

/// The transmission of a well-formed message: sent block s is the sum over j of
/// (information block s−j) × G_j.
pub fn transmission(setting: &Setting, message: &[u8]) -> Vec<u8> {
    let information: Vec<&[u8]> = message.chunks(setting.k).collect();
    let mut transmission = vec![0; setting.transmission_length(information.len())];
    for (s, sent) in transmission.chunks_mut(setting.n).enumerate() {
        for j in 0..=setting.m.min(s) {
            if let Some(block) = information.get(s - j) {
                add_contribution(setting, sent, block, j);
            }
        }
    }
    transmission
}

/// Whether in every window of a reception twice the known symbols that differ from a message's
/// transmission plus the unknown ones is at most d.
pub fn fits(setting: &Setting, message: &[u8], reception: &[u8]) -> bool {
    let damage: Vec<usize> = transmission(setting, message)
        .iter()
        .zip(reception)
        .map(|(&sent, &received)| damage(sent, received))
        .collect();
    let mut windows = damage.windows(setting.window_length()).step_by(setting.n);
    windows.all(|window| window.iter().sum::<usize>() <= setting.d)
}

/// What a received symbol adds to that sum.
pub fn damage(sent: u8, received: u8) -> usize {
    match received {
        UNKNOWN => 1,
        _ if received != sent => 2,
        _ => 0,
    }
}

/// Adds information block × G_j to a block.
pub fn add_contribution(setting: &Setting, block: &mut [u8], information: &[u8], j: usize) {
    for (&factor, multiples) in information.iter().zip(&generator(setting)[j]) {
        for (sum, &symbol) in block.iter_mut().zip(&multiples[factor as usize]) {
            *sum = setting.add(*sum, symbol);
        }
    }
}

/// The generator of a setting, made once.
fn generator(setting: &Setting) -> &'static Generator {
    static TABLES: [OnceLock<Generator>; SETTINGS.len()] =
        [const { OnceLock::new() }; SETTINGS.len()];
    TABLES[setting.number as usize - 1].get_or_init(|| {
        let rows = |j| (0..setting.k).map(|r| setting.multiples(j, r)).collect();
        (0..=setting.m).map(rows).collect()
    })
}
