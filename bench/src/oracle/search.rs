//! The messages that fit a reception, found by trying all of them where they are not too many.

use super::definition::{Setting, SETTINGS};
use super::sending::{add_contribution, damage, fits};
use crate::baseline;
use std::sync::OnceLock;

/// The most information blocks of a setting that is searched: settings 1 to 3 are.
const MAX_INFORMATION: usize = 512;

/// What every information block contributes to the sent block j places later, for each j.
struct Contributions {
    /// All information blocks, the zero block first.
    information: Vec<Vec<u8>>,
    /// By j, then by the information block's place in that list.
    blocks: Vec<Vec<Vec<u8>>>,
}

/// A search half way: the information blocks chosen so far, the closing zeros among them.
struct Search<'a> {
    setting: &'a Setting,
    contributions: &'a Contributions,
    reception: Vec<&'a [u8]>,
    chosen: Vec<usize>,
    damage: Vec<usize>,
}

/// Every message that fits a well-formed reception. Demand 3 says that there is at most one.
pub fn fitting(setting: &Setting, reception: &[u8]) -> Vec<Vec<u8>> {
    if (setting.q as usize).pow(setting.k as u32) <= MAX_INFORMATION {
        searched(setting, reception)
    } else {
        returned(setting, reception).into_iter().collect()
    }
}

/// The message that the plain Rust returns, if it fits. That none does is here the plain Rust's
/// word; orders with too much damage need no such word (tests/calls/orders.rs).
fn returned(setting: &Setting, reception: &[u8]) -> Option<Vec<u8>> {
    let blocks = reception.len() / setting.n - setting.m;
    let mut message = vec![0; setting.message_length(blocks)];
    let transmission = &mut vec![0; reception.len()];
    let answer = (baseline::CALLS.decode)(setting.number, reception, &mut message, transmission);
    (answer.number == 0 && fits(setting, &message, reception)).then_some(message)
}

/// Every message that fits, by trying all.
fn searched(setting: &Setting, reception: &[u8]) -> Vec<Vec<u8>> {
    let search = Search {
        setting,
        contributions: contributions(setting),
        reception: reception.chunks(setting.n).collect(),
        chosen: Vec::new(),
        damage: Vec::new(),
    };
    search.messages()
}

impl Search<'_> {
    /// Chooses block after block, as long as those of a window are within d; where none is left to
    /// try, the one before it is chosen anew. Not by recursion: an order may have 4,096 blocks.
    fn messages(mut self) -> Vec<Vec<u8>> {
        let mut found = Vec::new();
        let mut candidate = Some(0);
        while let Some(first) = candidate {
            let is_whole = self.chosen.len() == self.reception.len();
            if is_whole {
                found.push(self.message());
            }
            candidate = if !is_whole && self.choose(first) { Some(0) } else { self.take_back() };
        }
        found
    }

    /// Chooses for the next block the first information block, from this one on, with which the
    /// blocks of the last window are within d. Closing blocks have none but zero.
    fn choose(&mut self, first: usize) -> bool {
        let closing = self.chosen.len() >= self.reception.len() - self.setting.m;
        let candidates = if closing { 1 } else { self.contributions.information.len() };
        let earlier = earlier_part(self.setting, self.contributions, &self.chosen);
        let before: usize = self.damage.iter().rev().take(self.setting.m).sum();
        for candidate in first..candidates {
            let damage = self.block_damage(&earlier, candidate);
            if before + damage <= self.setting.d {
                self.chosen.push(candidate);
                self.damage.push(damage);
                return true;
            }
        }
        false
    }

    /// Takes the last choice back; returns the next candidate for its block.
    fn take_back(&mut self) -> Option<usize> {
        self.damage.pop();
        self.chosen.pop().map(|chosen| chosen + 1)
    }

    /// The damage of the next received block where this candidate was sent.
    fn block_damage(&self, earlier: &[u8], candidate: usize) -> usize {
        let received = self.reception[self.damage.len()];
        let own = &self.contributions.blocks[0][candidate];
        let sent = earlier.iter().zip(own).map(|(&a, &b)| self.setting.add(a, b));
        sent.zip(received).map(|(sent, &received)| damage(sent, received)).sum()
    }

    fn message(&self) -> Vec<u8> {
        let blocks = &self.chosen[..self.chosen.len() - self.setting.m];
        blocks.iter().flat_map(|&block| self.contributions.information[block].clone()).collect()
    }
}

/// What the information blocks chosen so far contribute to the next sent block.
fn earlier_part(setting: &Setting, contributions: &Contributions, chosen: &[usize]) -> Vec<u8> {
    let recent = chosen.iter().rev().zip(&contributions.blocks[1..]);
    recent.fold(vec![0; setting.n], |sum, (&block, contribution)| {
        sum.iter().zip(&contribution[block]).map(|(&a, &b)| setting.add(a, b)).collect()
    })
}

/// The contributions of a setting, made once.
fn contributions(setting: &Setting) -> &'static Contributions {
    static TABLES: [OnceLock<Contributions>; SETTINGS.len()] =
        [const { OnceLock::new() }; SETTINGS.len()];
    TABLES[setting.number as usize - 1].get_or_init(|| {
        let information = all_blocks(setting.q, setting.k);
        let contribution = |information: &Vec<u8>, j| {
            let mut block = vec![0; setting.n];
            add_contribution(setting, &mut block, information, j);
            block
        };
        let contributions = |j| information.iter().map(|u| contribution(u, j)).collect();
        let blocks = (0..=setting.m).map(contributions).collect();
        Contributions { information, blocks }
    })
}

/// All rows of k symbols, the zero row first.
fn all_blocks(q: u8, k: usize) -> Vec<Vec<u8>> {
    (0..k).fold(vec![Vec::new()], |rows, _| {
        let longer = |row: &Vec<u8>| -> Vec<Vec<u8>> {
            (0..q).map(|symbol| [row.as_slice(), &[symbol]].concat()).collect()
        };
        rows.iter().flat_map(longer).collect()
    })
}
