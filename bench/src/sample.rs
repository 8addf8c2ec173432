//! Messages and receptions to try: random, clean, and damaged up to a chosen limit.

use crate::calls::UNKNOWN;
use crate::oracle::Setting;
use std::ops::Range;

/// A small generator of random numbers (SplitMix64); the same seed gives the same numbers.
pub struct Random(u64);

impl Random {
    pub fn new(seed: u64) -> Random {
        Random(seed)
    }

    pub fn number(&mut self) -> u64 {
        self.0 = self.0.wrapping_add(0x9e37_79b9_7f4a_7c15);
        let mut mixed = self.0;
        mixed = (mixed ^ (mixed >> 30)).wrapping_mul(0xbf58_476d_1ce4_e5b9);
        mixed = (mixed ^ (mixed >> 27)).wrapping_mul(0x94d0_49bb_1331_11eb);
        mixed ^ (mixed >> 31)
    }

    /// A number below `bound`.
    pub fn below(&mut self, bound: usize) -> usize {
        (self.number() % bound as u64) as usize
    }

    /// A number from `low` to `high`, both among them.
    pub fn between(&mut self, low: usize, high: usize) -> usize {
        low + self.below(high - low + 1)
    }

    /// True once in `times` on average.
    pub fn once_in(&mut self, times: usize) -> bool {
        self.below(times) == 0
    }

    /// One of some values.
    pub fn pick<'a, T>(&mut self, values: &'a [T]) -> &'a T {
        &values[self.below(values.len())]
    }

    /// Symbols of a setting.
    pub fn symbols(&mut self, setting: &Setting, length: usize) -> Vec<u8> {
        (0..length).map(|_| self.below(setting.q as usize) as u8).collect()
    }

    /// Bytes of any value.
    pub fn bytes(&mut self, length: usize) -> Vec<u8> {
        (0..length).map(|_| self.number() as u8).collect()
    }

    /// The numbers below `bound` in random order.
    pub fn order(&mut self, bound: usize) -> Vec<usize> {
        let mut order: Vec<usize> = (0..bound).collect();
        for last in (1..bound).rev() {
            order.swap(last, self.below(last + 1));
        }
        order
    }
}

/// Changes a symbol to another one below q.
pub fn alter(random: &mut Random, setting: &Setting, symbol: &mut u8) {
    let step = random.between(1, setting.q as usize - 1);
    *symbol = ((*symbol as usize + step) % setting.q as usize) as u8;
}

/// Alters and drops symbols so that each window of m+1 blocks has exactly so many of either, spread
/// evenly.
pub fn damage_evenly(
    random: &mut Random,
    setting: &Setting,
    symbols: &mut [u8],
    altered: usize,
    unknown: usize,
) {
    let window = setting.m + 1;
    let turn = random.below(window);
    for (s, block) in symbols.chunks_mut(setting.n).enumerate() {
        // Where one of the shares is rounded up, the other is rounded down.
        let altered = (altered + (s + turn) % window) / window;
        let unknown = (unknown + window - 1 - (s + turn) % window) / window;
        let places = random.order(setting.n);
        damage_places(random, setting, block, &places, altered, unknown);
    }
}

/// Alters symbols in random order wherever no window then has more than `limit` altered ones.
pub fn damage_up_to(random: &mut Random, setting: &Setting, symbols: &mut [u8], limit: usize) {
    let mut damage = vec![0; symbols.len() / setting.n];
    for place in random.order(symbols.len()) {
        if has_room(setting, &mut damage, place, 1, limit) {
            alter(random, setting, &mut symbols[place]);
        }
    }
}

/// Alters and drops symbols in random order, one in `times` altered, wherever in no window twice
/// the altered ones plus the dropped ones are then more than `limit`. A symbol that is left as it
/// was stands in a window where they are just as many.
pub fn damage_mixed(
    random: &mut Random,
    setting: &Setting,
    symbols: &mut [u8],
    limit: usize,
    times: usize,
) {
    let mut damage = vec![0; symbols.len() / setting.n];
    for place in random.order(symbols.len()) {
        if random.once_in(times) && has_room(setting, &mut damage, place, 2, limit) {
            alter(random, setting, &mut symbols[place]);
        } else if has_room(setting, &mut damage, place, 1, limit) {
            symbols[place] = UNKNOWN;
        }
    }
}

/// Alters and drops so many symbols of the closing blocks.
pub fn damage_closing(
    random: &mut Random,
    setting: &Setting,
    symbols: &mut [u8],
    altered: usize,
    unknown: usize,
) {
    let closing = symbols.len() - setting.m * setting.n;
    let places = random.order(setting.m * setting.n);
    damage_places(random, setting, &mut symbols[closing..], &places, altered, unknown);
}

/// Alters every symbol of a run.
pub fn damage_run(random: &mut Random, setting: &Setting, symbols: &mut [u8], run: Range<usize>) {
    symbols[run].iter_mut().for_each(|symbol| alter(random, setting, symbol));
}

/// Alters the symbols at the first places, and drops those at the next.
fn damage_places(
    random: &mut Random,
    setting: &Setting,
    symbols: &mut [u8],
    places: &[usize],
    altered: usize,
    unknown: usize,
) {
    let (altered, rest) = places.split_at(altered);
    altered.iter().for_each(|&place| alter(random, setting, &mut symbols[place]));
    rest[..unknown].iter().for_each(|&place| symbols[place] = UNKNOWN);
}

/// Frames of one length woven: the first symbol of each, then the second of each, and so on.
pub fn woven(frames: &[Vec<u8>]) -> Vec<u8> {
    let symbols = 0..frames.first().map_or(0, Vec::len);
    symbols.flat_map(|i| frames.iter().map(move |frame| frame[i])).collect()
}

/// Adds to the damage of a place's block, unless a window then has more than `limit`.
fn has_room(
    setting: &Setting,
    damage: &mut [usize],
    place: usize,
    more: usize,
    limit: usize,
) -> bool {
    let block = place / setting.n;
    let room = worst_window(setting, damage, block) + more <= limit;
    damage[block] += if room { more } else { 0 };
    room
}

/// The most damage in a window that holds a block.
fn worst_window(setting: &Setting, damage: &[usize], block: usize) -> usize {
    let first = block.saturating_sub(setting.m);
    let last = block.min(damage.len() - setting.m - 1);
    let sum = |j: usize| damage[j..=j + setting.m].iter().sum();
    (first..=last).map(sum).max().unwrap_or(0)
}
