//! Random calls: mostly well-formed, received with every kind of damage, breaking every rule of 01
//! and 02.

use crate::call::{Call, Way};
use crate::orders::mixes;
use orderlink_bench::calls::{MOST_FRAMES, UNKNOWN};
use orderlink_bench::oracle::{transmission, Setting, SETTINGS};
use orderlink_bench::sample::{
    alter, damage_closing, damage_evenly, damage_mixed, damage_run, damage_up_to, woven, Random,
};

/// Numbers that are no setting, some of which are one in their lowest 8, 16 or 32 bits.
pub const NO_SETTINGS: [u64; 14] = [
    0,
    6,
    7,
    8,
    255,
    257,
    260,
    261,
    65_537,
    (1 << 32) - 1,
    (1 << 32) + 1,
    (1 << 32) + 4,
    1 << 63,
    u64::MAX,
];

/// Numbers that are no D, some of which are one in their lowest 8, 16 or 32 bits.
pub const NO_FRAMES: [u64; 14] = [
    0,
    1,
    9,
    10,
    16,
    255,
    256,
    258,
    65_538,
    (1 << 32) - 1,
    (1 << 32) + 2,
    (1 << 32) + 8,
    1 << 63,
    u64::MAX,
];

/// A decoding call with at most `longest` information blocks.
pub fn decode(random: &mut Random, longest: usize) -> Call {
    let (setting, blocks) = (random.pick(&SETTINGS), random.between(1, longest));
    let mut number = setting.number;
    let mut reception = reception(random, setting, blocks);
    let mut message = area(random, setting.message_length(blocks));
    let mut transmission = area(random, setting.transmission_length(blocks));
    for rule in broken(random, 5) {
        match rule {
            0 => number = *random.pick(&NO_SETTINGS),
            1 => change_length(random, &mut reception, 1),
            2 => spoil(random, setting, &mut reception),
            3 => shorten(random, &mut message, setting.message_length(blocks)),
            _ => shorten(random, &mut transmission, setting.transmission_length(blocks)),
        }
    }
    Call::Decode { setting: number, reception, message, transmission }
}

/// An encoding call with at most `longest` information blocks.
pub fn encode(random: &mut Random, longest: usize) -> Call {
    let (setting, blocks) = (random.pick(&SETTINGS), random.between(1, longest));
    let mut number = setting.number;
    let mut message = message(random, setting, blocks);
    let mut transmission = area(random, setting.transmission_length(blocks));
    for rule in broken(random, 4) {
        match rule {
            0 => number = *random.pick(&NO_SETTINGS),
            1 => change_length(random, &mut message, 1),
            2 => spoil(random, setting, &mut message),
            _ => shorten(random, &mut transmission, setting.transmission_length(blocks)),
        }
    }
    Call::Encode { setting: number, message, transmission }
}

/// A marking call with at most `longest` information blocks.
pub fn marks(random: &mut Random, longest: usize) -> Call {
    let (setting, blocks) = (random.pick(&SETTINGS), random.between(1, longest));
    let mut number = setting.number;
    let mut reception = reception(random, setting, blocks);
    let mut transmission = reception.clone();
    if random.once_in(4) {
        transmission = random.symbols(setting, reception.len());
    }
    for _ in 0..random.below(20) {
        let place = random.below(transmission.len());
        transmission[place] = if random.once_in(4) { UNKNOWN } else { random.number() as u8 };
    }
    let mut j = random.below(blocks) as u64;
    for rule in broken(random, 5) {
        match rule {
            0 => number = *random.pick(&NO_SETTINGS),
            1 => change_length(random, &mut reception, 1),
            2 => change_length(random, &mut transmission, 1),
            3 => j = blocks as u64 + random.below(3) as u64,
            _ => j = *random.pick(&[1 << 32, 1 << 63, u64::MAX]),
        }
    }
    Call::Marks { setting: number, reception, transmission, j }
}

/// A call that weaves or unweaves frames with at most `longest` information blocks each.
pub fn weave(random: &mut Random, longest: usize) -> Call {
    let (setting, blocks) = (random.pick(&SETTINGS), random.between(1, longest));
    let (mut number, count) = (setting.number, random.between(2, MOST_FRAMES));
    let mut frames = count as u64;
    let length = count * setting.transmission_length(blocks);
    let mut incoming = random.symbols(setting, length);
    drop_some(random, setting, &mut incoming);
    let mut out = area(random, length);
    for rule in broken(random, 6) {
        match rule {
            0 => number = *random.pick(&NO_SETTINGS),
            1 => frames = *random.pick(&NO_FRAMES),
            2 => change_length(random, &mut incoming, 1),
            3 => change_length(random, &mut incoming, count),
            4 => spoil(random, setting, &mut incoming),
            _ => shorten(random, &mut out, length),
        }
    }
    let way = *random.pick(&[Way::Weave, Way::Unweave]);
    Call::Weave { way, setting: number, frames, incoming, out }
}

/// A decoding call of woven frames with at most `longest` information blocks each.
pub fn decode_woven(random: &mut Random, longest: usize) -> Call {
    let (setting, blocks) = (random.pick(&SETTINGS), random.between(1, longest));
    let (mut number, count) = (setting.number, random.between(2, MOST_FRAMES));
    let mut frames = count as u64;
    let mut reception = woven_reception(random, setting, blocks, count);
    let lengths = (setting.message_length(blocks), setting.transmission_length(blocks));
    let mut message = area(random, count * lengths.0);
    let mut transmission = area(random, count * lengths.1);
    for rule in broken(random, 7) {
        match rule {
            0 => number = *random.pick(&NO_SETTINGS),
            1 => frames = *random.pick(&NO_FRAMES),
            2 => change_length(random, &mut reception, 1),
            3 => change_length(random, &mut reception, count),
            4 => spoil(random, setting, &mut reception),
            5 => shorten(random, &mut message, count * lengths.0),
            _ => shorten(random, &mut transmission, count * lengths.1),
        }
    }
    Call::DecodeWoven { setting: number, frames, reception, message, transmission }
}

/// Which of a number of rules a call breaks: none in three of four calls, else one or two.
fn broken(random: &mut Random, rules: usize) -> Vec<usize> {
    let count = if random.once_in(4) { random.between(1, 2) } else { 0 };
    (0..count).map(|_| random.below(rules)).collect()
}

/// A random message, often one with many zero blocks.
fn message(random: &mut Random, setting: &Setting, blocks: usize) -> Vec<u8> {
    let mut message = random.symbols(setting, setting.message_length(blocks));
    if random.once_in(3) {
        for block in message.chunks_mut(setting.k) {
            if !random.once_in(4) {
                block.fill(0);
            }
        }
    }
    message
}

/// A well-formed reception: a transmission clean or damaged below, at or above the limit, or noise;
/// often some more symbols are dropped.
fn reception(random: &mut Random, setting: &Setting, blocks: usize) -> Vec<u8> {
    let mut reception = transmission(setting, &message(random, setting, blocks));
    match random.below(12) {
        0 => {}
        1 => reception = random.symbols(setting, reception.len()),
        2 => mix(random, setting, blocks, &mut reception),
        3 => replace_block(random, setting, &mut reception),
        4 => scatter(random, setting, &mut reception),
        5 => damage_up_to(random, setting, &mut reception, setting.t - 1),
        6 => damage_up_to(random, setting, &mut reception, setting.t),
        7 => {
            let (altered, unknown) = some_mix(random, setting.d);
            damage_evenly(random, setting, &mut reception, altered, unknown);
        }
        8 => {
            let damage = setting.d + random.below(2);
            let (altered, unknown) = some_mix(random, damage);
            let room = setting.m * setting.n - altered;
            damage_closing(random, setting, &mut reception, altered, unknown.min(room));
        }
        9 => {
            damage_up_to(random, setting, &mut reception, setting.t);
            let place = random.below(reception.len());
            alter(random, setting, &mut reception[place]);
        }
        _ => {
            let limit = setting.d - 1 + random.below(3);
            let times = random.between(1, 8);
            damage_mixed(random, setting, &mut reception, limit, times);
        }
    }
    if random.once_in(3) {
        drop_some(random, setting, &mut reception);
    }
    reception
}

/// Some number of altered symbols, with as many unknown ones as bring twice the altered ones plus
/// the unknown ones to `damage`; or of altered ones alone one in three times, as many as there may
/// be.
fn some_mix(random: &mut Random, damage: usize) -> (usize, usize) {
    if random.once_in(3) {
        return (damage / 2, 0);
    }
    *random.pick(&Vec::from_iter(mixes(damage)))
}

/// Drops a few symbols anywhere, or a block.
fn drop_some(random: &mut Random, setting: &Setting, symbols: &mut [u8]) {
    if random.once_in(4) {
        let start = random.below(symbols.len() / setting.n) * setting.n;
        symbols[start..][..setting.n].fill(UNKNOWN);
        return;
    }
    let most = *random.pick(&[2, 5, symbols.len() / 4]);
    for _ in 0..random.below(most + 1) {
        let place = random.below(symbols.len());
        symbols[place] = UNKNOWN;
    }
}

/// Woven frames: each received on its own, or sent clean and then struck by one run of about as
/// many altered or dropped symbols as can be.
fn woven_reception(random: &mut Random, setting: &Setting, blocks: usize, count: usize) -> Vec<u8> {
    if random.once_in(2) {
        let frame = |_| reception(random, setting, blocks);
        return woven(&(0..count).map(frame).collect::<Vec<_>>());
    }
    let frame = |_| transmission(setting, &message(random, setting, blocks));
    let mut symbols = woven(&(0..count).map(frame).collect::<Vec<_>>());
    let dropped = random.once_in(2);
    let run = count * if dropped { setting.d } else { setting.t } + random.below(count + 1);
    let start = random.below(symbols.len() - run + 1);
    if dropped {
        symbols[start..start + run].fill(UNKNOWN);
    } else {
        damage_run(random, setting, &mut symbols, start..start + run);
    }
    symbols
}

/// Takes every other symbol, about, from another transmission.
fn mix(random: &mut Random, setting: &Setting, blocks: usize, reception: &mut [u8]) {
    let other = transmission(setting, &message(random, setting, blocks));
    for (symbol, other) in reception.iter_mut().zip(other) {
        if random.once_in(2) {
            *symbol = other;
        }
    }
}

/// Fills one block with random symbols.
fn replace_block(random: &mut Random, setting: &Setting, reception: &mut [u8]) {
    let start = random.below(reception.len() / setting.n) * setting.n;
    let block = random.symbols(setting, setting.n);
    reception[start..][..setting.n].copy_from_slice(&block);
}

/// Alters symbols anywhere.
fn scatter(random: &mut Random, setting: &Setting, reception: &mut [u8]) {
    for _ in 0..random.between(1, 2 + reception.len() / 3) {
        let place = random.below(reception.len());
        alter(random, setting, &mut reception[place]);
    }
}

/// A lent area of at least `length` bytes that holds anything.
fn area(random: &mut Random, length: usize) -> Vec<u8> {
    let more = if random.once_in(2) { 0 } else { random.below(20) };
    random.bytes(length + more)
}

/// Makes an area too short for `length` bytes, often by just one.
fn shorten(random: &mut Random, area: &mut Vec<u8>, length: usize) {
    area.truncate(if random.once_in(2) { length - 1 } else { random.below(length) });
}

/// Takes bytes away, or adds a few zeros, or leaves as many as a short order has; so many at a
/// time.
fn change_length(random: &mut Random, bytes: &mut Vec<u8>, step: usize) {
    let steps = bytes.len() / step;
    let steps = match random.below(3) {
        0 => random.below(steps + 1),
        1 => steps + random.between(1, 8),
        _ => random.below(62),
    };
    bytes.resize(step * steps, 0);
}

/// Puts one to three bytes not below q somewhere; the greatest stands for an unknown symbol.
fn spoil(random: &mut Random, setting: &Setting, bytes: &mut [u8]) {
    for _ in 0..random.between(1, 3) {
        if bytes.is_empty() {
            return;
        }
        let place = random.below(bytes.len());
        let any = random.between(setting.q as usize, 255) as u8;
        bytes[place] = *random.pick(&[any, setting.q, 254, UNKNOWN]);
    }
}
