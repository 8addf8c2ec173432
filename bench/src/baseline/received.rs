//! Which received symbols are unknown (02, #106). A reception without unknown symbols takes no time
//! for them: the decoder is compiled for it apart.

use crate::calls::UNKNOWN;

/// A part of a reception, to look for its unknown symbols.
pub trait Received: Copy {
    /// So many of the symbols, from a place on.
    fn part(self, start: usize, length: usize) -> Self;

    /// Whether the symbol at a place is unknown.
    fn is_unknown(self, place: usize) -> bool;

    /// How many symbols are unknown.
    fn unknown(self) -> usize;

    /// In how many known symbols two rows differ, as far as both reach.
    #[inline(always)]
    fn distance(self, a: &[u8], b: &[u8]) -> usize {
        let pairs = a.iter().zip(b).enumerate();
        pairs.filter(|(place, (a, b))| a != b && !self.is_unknown(*place)).count()
    }

    /// How many known symbols of a row are nonzero.
    #[inline(always)]
    fn weight(self, symbols: &[u8]) -> usize {
        let symbols = symbols.iter().enumerate();
        symbols.filter(|(place, &symbol)| symbol != 0 && !self.is_unknown(*place)).count()
    }
}

/// Symbols all of which are known.
#[derive(Clone, Copy)]
pub struct Known;

impl Received for Known {
    #[inline(always)]
    fn part(self, _: usize, _: usize) -> Known {
        Known
    }

    #[inline(always)]
    fn is_unknown(self, _: usize) -> bool {
        false
    }

    #[inline(always)]
    fn unknown(self) -> usize {
        0
    }
}

/// Symbols as they were received.
impl Received for &[u8] {
    fn part(self, start: usize, length: usize) -> Self {
        &self[start..][..length]
    }

    fn is_unknown(self, place: usize) -> bool {
        self[place] == UNKNOWN
    }

    fn unknown(self) -> usize {
        self.iter().filter(|&&symbol| symbol == UNKNOWN).count()
    }
}

/// A received symbol, 0 for an unknown one.
pub fn known(symbol: u8) -> u8 {
    if symbol == UNKNOWN {
        0
    } else {
        symbol
    }
}
