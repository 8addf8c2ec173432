//! Calls on woven frames whose outcome is known: frames woven, unwoven and decoded after a run of
//! altered or of unknown symbols, as long as it can be and one longer; the longest frames; every
//! refusal.

use crate::call::{Call, Outcome, Way};
use crate::orders::{counted, Known, LONGEST, UNUSED};
use orderlink_bench::calls::{Answer, Woven, MOST_FRAMES, UNKNOWN};
use orderlink_bench::oracle::{self, transmission, Setting, SETTINGS};
use orderlink_bench::sample::{damage_run, woven, Random};
use std::collections::BTreeSet;
use std::ops::Range;

/// What a run does to its symbols.
#[derive(Clone, Copy)]
pub enum Damage {
    Alter,
    Drop,
}

impl Damage {
    /// The most of its symbols that a window may have.
    fn most(self, setting: &Setting) -> usize {
        match self {
            Damage::Alter => setting.t,
            Damage::Drop => setting.d,
        }
    }

    fn strike(self, random: &mut Random, setting: &Setting, symbols: &mut [u8], run: Range<usize>) {
        match self {
            Damage::Alter => damage_run(random, setting, symbols, run),
            Damage::Drop => symbols[run].fill(UNKNOWN),
        }
    }
}

/// Random orders of one length, with what is sent for each.
struct Frames<'a> {
    setting: &'a Setting,
    blocks: usize,
    messages: Vec<Vec<u8>>,
    sent: Vec<Vec<u8>>,
}

impl Frames<'_> {
    fn new<'a>(
        random: &mut Random,
        setting: &'a Setting,
        count: usize,
        blocks: usize,
    ) -> Frames<'a> {
        let message = |_| random.symbols(setting, setting.message_length(blocks));
        let messages: Vec<Vec<u8>> = (0..count).map(message).collect();
        let sent = messages.iter().map(|message| transmission(setting, message)).collect();
        Frames { setting, blocks, messages, sent }
    }

    /// The frames woven, and unwoven.
    fn woven_and_back(&self) -> [Known; 2] {
        let (number, frames) = (self.setting.number, self.sent.len() as u64);
        let (apart, woven) = (self.sent.concat(), woven(&self.sent));
        [
            weaving(Way::Weave, number, frames, apart.clone(), Answer::YES, woven.clone()),
            weaving(Way::Unweave, number, frames, woven, Answer::YES, apart),
        ]
    }

    /// The woven frames decoded after a run of damage: a frame with no more of it than a window may
    /// have comes back.
    fn struck(&self, random: &mut Random, damage: Damage, run: Range<usize>) -> Known {
        let count = self.sent.len();
        let mut reception = woven(&self.sent);
        damage.strike(random, self.setting, &mut reception, run.clone());
        let mut answers = Woven::default();
        let (mut messages, mut transmissions) = (Vec::new(), Vec::new());
        for (f, (message, sent)) in self.messages.iter().zip(&self.sent).enumerate() {
            let received: Vec<u8> = reception[f..].iter().step_by(count).copied().collect();
            let hit = run.clone().filter(|place| place % count == f).count();
            let (answer, message, transmission) = if hit <= damage.most(self.setting) {
                (counted(self.setting, sent, &received), message.clone(), sent.clone())
            } else {
                not_as_sent(self.setting, damage, &received, message.len(), sent)
            };
            answers.frame[f] = answer;
            messages.extend(message);
            transmissions.extend(transmission);
        }
        decoding(self.setting.number, count as u64, reception, answers, messages, transmissions)
    }

    /// Where runs of a length begin, at every place modulo D: with the first symbol, across the
    /// border of a block, of a window and of the closing blocks, and so that they end with the last
    /// symbol.
    fn starts(&self, run: usize) -> BTreeSet<usize> {
        let (setting, count) = (self.setting, self.sent.len());
        let last = count * self.sent[0].len() - run;
        let across = |symbols: usize| (count * symbols).saturating_sub(run / 2);
        let borders = [setting.n, setting.window_length(), self.blocks * setting.n];
        let firsts = [0, last.saturating_sub(count - 1)].into_iter().chain(borders.map(across));
        firsts.flat_map(|first| (first..first + count).map(|start| start.min(last))).collect()
    }
}

/// What comes of a frame with one neighbouring symbol more than a window may have altered, or
/// dropped. One window holds them all, so what was sent does not fit. Where twice the altered ones
/// plus the dropped ones are d + 1 no message does (orders.rs); else the search says.
fn not_as_sent(
    setting: &Setting,
    damage: Damage,
    received: &[u8],
    message_length: usize,
    sent: &[u8],
) -> (Answer, Vec<u8>, Vec<u8>) {
    assert!(setting.n + damage.most(setting) <= setting.window_length());
    let none_fits = matches!(damage, Damage::Drop) || 2 * (setting.t + 1) == setting.d + 1;
    let (mut message, mut transmission) = (vec![UNUSED; message_length], vec![UNUSED; sent.len()]);
    let decode = oracle::CALLS.decode;
    let answer = decode(setting.number, received, &mut message, &mut transmission);
    assert!(answer == Answer::no(7) || !none_fits && transmission != sent);
    (answer, message, transmission)
}

/// A run of D × t altered or D × d unknown symbols leaves every order whole; with `more` symbols in
/// it, one order fails for each.
pub fn struck(
    random: &mut Random,
    setting: &Setting,
    damage: Damage,
    count: usize,
    more: usize,
) -> Vec<Known> {
    let run = count * damage.most(setting) + more;
    let mut known = Vec::new();
    for blocks in [1, random.between(2, setting.m + 4)] {
        let frames = Frames::new(random, setting, count, blocks);
        known.extend(frames.woven_and_back());
        for start in frames.starts(run) {
            known.push(frames.struck(random, damage, start..start + run));
        }
    }
    known
}

/// As many frames as can be, each of 4,096 blocks, with the end of the woven area altered, or
/// dropped.
pub fn longest() -> Vec<Known> {
    let random = &mut Random::new(104);
    let calls = |setting: &Setting| {
        let frames = Frames::new(random, setting, MOST_FRAMES, LONGEST);
        let length = MOST_FRAMES * setting.transmission_length(LONGEST);
        let struck = [Damage::Alter, Damage::Drop].map(|damage| {
            let run = length - MOST_FRAMES * damage.most(setting)..length;
            frames.struck(random, damage, run)
        });
        frames.woven_and_back().into_iter().chain(struck)
    };
    SETTINGS.iter().flat_map(calls).collect()
}

/// The same with a byte at the very last place that is no symbol: up to 8 × 61,485 − 1.
pub fn longest_with_a_wrong_symbol() -> Vec<Known> {
    let calls = |setting: &Setting| {
        let mut incoming = vec![0; MOST_FRAMES * setting.transmission_length(LONGEST)];
        let last = incoming.len() - 1;
        incoming[last] = setting.q;
        refusals(setting.number, MOST_FRAMES as u64, incoming, Answer::no_at(4, last))
    };
    SETTINGS.iter().flat_map(calls).collect()
}

/// Every refusal, where all later questions would get "no" too, but for those of a frame's length.
pub fn refused(
    setting: &Setting,
    count: usize,
    no_settings: &[u64],
    no_frames: &[u64],
) -> Vec<Known> {
    let (number, frames) = (setting.number, count as u64);
    let (message, sent) = (setting.message_length(2), setting.transmission_length(2));
    // The last symbol of the woven area is wrong, and the one before it; before these one is
    // unknown.
    let wrong = |length: usize| {
        let mut symbols = vec![0; length];
        let last = symbols.iter_mut().rev().zip([254, setting.q, UNKNOWN]);
        last.for_each(|(symbol, byte)| *symbol = byte);
        symbols
    };
    let mut known = Vec::new();
    let mut all = |number, frames, length, answer| {
        known.extend(refusals(number, frames, wrong(length), answer));
    };
    for &no_setting in no_settings {
        all(no_setting, 0, 1, Answer::no(1));
    }
    for &no_frames in no_frames {
        all(number, no_frames, count * sent + 1, Answer::no(14));
        all(number, no_frames, 0, Answer::no(14));
    }
    for length in [1, count * sent - 1, count * sent + 1] {
        all(number, frames, length, Answer::no(15));
    }
    for length in [0, setting.m * setting.n, setting.window_length() - 1, sent + 1] {
        all(number, frames, count * length, Answer::no(2));
    }
    all(number, frames, count * setting.transmission_length(LONGEST + 1), Answer::no(3));
    all(number, frames, count * sent, Answer::no_at(4, count * sent - 2));
    let (clean, areas) = (vec![0; count * sent], (count * message, count * sent));
    let no = |question| Woven { answer: Answer::no(question), ..Woven::default() };
    let unused = |length| vec![UNUSED; length];
    for (message, sent, question) in [(areas.0 - 1, 0, 5), (areas.0, areas.1 - 1, 6)] {
        let (message, sent) = (unused(message), unused(sent));
        known.push(decoding(number, frames, clean.clone(), no(question), message, sent));
    }
    for way in [Way::Weave, Way::Unweave] {
        let out = unused(areas.1 - 1);
        known.push(weaving(way, number, frames, clean.clone(), Answer::no(6), out));
    }
    known
}

/// A refusal of all three calls on the same incoming area, with areas to fill that are too short.
fn refusals(setting: u64, frames: u64, incoming: Vec<u8>, answer: Answer) -> [Known; 3] {
    let short = vec![UNUSED; 3];
    let woven = Woven { answer, ..Woven::default() };
    [
        weaving(Way::Weave, setting, frames, incoming.clone(), answer, short.clone()),
        weaving(Way::Unweave, setting, frames, incoming.clone(), answer, short.clone()),
        decoding(setting, frames, incoming, woven, short.clone(), short),
    ]
}

fn weaving(
    way: Way,
    setting: u64,
    frames: u64,
    incoming: Vec<u8>,
    answer: Answer,
    after: Vec<u8>,
) -> Known {
    let call = Call::Weave { way, setting, frames, incoming, out: vec![UNUSED; after.len()] };
    (call, Outcome::Woven { answer, out: after })
}

fn decoding(
    setting: u64,
    frames: u64,
    reception: Vec<u8>,
    woven: Woven,
    message: Vec<u8>,
    transmission: Vec<u8>,
) -> Known {
    let lengths = [message.len(), transmission.len()];
    let outcome = Outcome::DecodedWoven { woven, message, transmission };
    let [message, transmission] = lengths.map(|length| vec![UNUSED; length]);
    (Call::DecodeWoven { setting, frames, reception, message, transmission }, outcome)
}
