//! The calls of the C interface: every implementation gives the right answer and leaves the
//! right bytes in the areas lent to it and round them.

mod call;
mod cases;
mod json;
mod orders;
mod stored;
mod woven;

#[cfg(archive)]
use orderlink_bench::archive;
use orderlink_bench::baseline;
use orderlink_bench::calls::{Answer, Calls, MOST_FRAMES};
use orderlink_bench::oracle::{self, SETTINGS};
use orderlink_bench::sample::Random;

use call::{Call, Outcome};
use std::collections::BTreeSet;
use woven::Damage;

/// The search is right by definition. The plain Rust and, where it is linked, the verified library
/// must do the same.
const SEARCH: Calls = oracle::CALLS;
const OTHERS: &[Calls] = &[
    baseline::CALLS,
    #[cfg(archive)]
    archive::CALLS,
];

fn assert_outcome(random: &mut Random, calls: &Calls, call: &Call, right: &Outcome) {
    assert_eq!(call.make(random, calls), *right, "{}: {call:?}", calls.name);
}

/// Calls with their known outcome, which the search must find too.
fn assert_known(known: impl IntoIterator<Item = (Call, Outcome)>) {
    let random = &mut Random::new(1);
    for (call, right) in known {
        assert_outcome(random, &SEARCH, &call, &right);
        OTHERS.iter().for_each(|calls| assert_outcome(random, calls, &call, &right));
    }
}

/// Random calls, a count of them for each limit on T: the search says what is right. These numbers
/// must come up, and no others.
fn assert_searched(
    case: fn(&mut Random, usize) -> Call,
    counts: &[(usize, usize)],
    numbers: &[u32],
) {
    let mut seen = BTreeSet::new();
    for &(count, longest) in counts {
        let random = &mut Random::new(longest as u64);
        for _ in 0..count {
            let call = case(random, longest);
            let right = call.make(random, &SEARCH);
            OTHERS.iter().for_each(|calls| assert_outcome(random, calls, &call, &right));
            seen.extend(right.answers().iter().map(|answer| answer.number));
        }
    }
    assert_eq!(seen, BTreeSet::from_iter(numbers.iter().copied()));
}

#[test]
fn stored_calls() {
    let known = stored::calls();
    assert!(!known.is_empty());
    assert_known(known);
}

#[test]
fn worked_orders() {
    assert_known(orders::worked());
}

#[test]
fn orders_at_the_limit() {
    let random = &mut Random::new(2);
    for setting in &SETTINGS {
        assert_known((0..30).flat_map(|_| orders::at_the_limit(random, setting)));
    }
}

#[test]
fn orders_beyond_the_limit() {
    let random = &mut Random::new(3);
    for setting in &SETTINGS {
        assert_known((0..30).flat_map(|_| orders::beyond_the_limit(random, setting)));
    }
}

#[test]
fn every_byte() {
    let random = &mut Random::new(4);
    SETTINGS.iter().for_each(|setting| assert_known(orders::bytes(random, setting)));
}

#[test]
fn every_mark() {
    let random = &mut Random::new(5);
    SETTINGS.iter().for_each(|setting| assert_known(orders::marked(random, setting)));
}

#[test]
fn longest_orders() {
    assert_known(orders::longest());
    assert_known(orders::too_long());
}

#[test]
fn no_settings() {
    cases::NO_SETTINGS.into_iter().for_each(|number| assert_known(orders::no_setting(number)));
}

#[test]
fn runs_at_the_limit() {
    assert_struck(0);
}

#[test]
fn runs_beyond_the_limit() {
    assert_struck(1);
}

/// Woven frames of every setting and D, hit by a run of D × t altered or D × d unknown symbols and
/// so many more.
fn assert_struck(more: usize) {
    let random = &mut Random::new(6);
    for setting in &SETTINGS {
        for frames in 2..=MOST_FRAMES {
            for damage in [Damage::Alter, Damage::Drop] {
                assert_known(woven::struck(random, setting, damage, frames, more));
            }
        }
    }
}

#[test]
fn longest_woven_frames() {
    assert_known(woven::longest());
    assert_known(woven::longest_with_a_wrong_symbol());
}

#[test]
fn refused_woven_frames() {
    for setting in &SETTINGS {
        for frames in 2..=MOST_FRAMES {
            let none = (&cases::NO_SETTINGS, &cases::NO_FRAMES);
            assert_known(woven::refused(setting, frames, none.0, none.1));
        }
    }
}

#[test]
fn random_short_decodings() {
    assert_searched(cases::decode, &[(400_000, 6)], &[0, 1, 2, 4, 5, 6, 7]);
}

#[test]
fn random_long_decodings() {
    let counts = [(100_000, 24), (3_000, 520), (100, 4_400)];
    assert_searched(cases::decode, &counts, &[0, 1, 2, 3, 4, 5, 6, 7]);
}

#[test]
fn random_encodings() {
    let counts = [(150_000, 24), (3_000, 520), (300, 4_400)];
    assert_searched(cases::encode, &counts, &[0, 1, 3, 4, 6, 8]);
}

#[test]
fn random_markings() {
    let counts = [(150_000, 24), (3_000, 520), (300, 4_400)];
    assert_searched(cases::marks, &counts, &[0, 1, 2, 3, 12, 13]);
}

#[test]
fn random_weavings() {
    let counts = [(60_000, 12), (2_000, 520), (100, 4_400)];
    assert_searched(cases::weave, &counts, &[0, 1, 2, 3, 4, 6, 14, 15]);
}

#[test]
fn random_woven_decodings() {
    let counts = [(60_000, 5), (10_000, 24), (1_000, 520), (30, 4_400)];
    assert_searched(cases::decode_woven, &counts, &[0, 1, 2, 3, 4, 5, 6, 7, 14, 15]);
}

/// Window j, which C has no call for: the right part, and a part of the caller's own reception.
#[test]
fn stored_windows() {
    let windows = stored::windows();
    assert!(!windows.is_empty());
    for call in windows {
        let part = baseline::window(call.setting, &call.reception, call.j);
        let answer = baseline::window_answer(call.setting, &call.reception, call.j);
        assert_eq!((answer, part), (call.answer, call.part.as_slice()), "{call:?}");
        let start = &call.reception[call.start..];
        assert!(part.is_empty() || std::ptr::eq(part.as_ptr(), start.as_ptr()), "{call:?}");
    }
}

/// The windows of the longest orders, and none of those too long.
#[test]
fn longest_windows() {
    for setting in &SETTINGS {
        let random = &mut Random::new(setting.number);
        let received = random.bytes(setting.transmission_length(orders::LONGEST + 1));
        let longest = &received[..setting.transmission_length(orders::LONGEST)];
        let last = orders::LONGEST as u64 - 1;
        let expect = |reception, j, number, part| {
            assert_eq!(baseline::window(setting.number, reception, j), part);
            assert_eq!(baseline::window_answer(setting.number, reception, j), Answer::no(number));
        };
        expect(longest, 0, 0, &longest[..setting.window_length()]);
        expect(longest, last, 0, &longest[last as usize * setting.n..]);
        expect(longest, last + 1, 12, &[]);
        expect(&received, 0, 3, &[]);
        expect(&received, last + 2, 3, &[]);
    }
}

/// The block steps are tried in `baseline::block`, as crates/block_test has them.
#[test]
fn no_stored_call_is_left_out() {
    let made = stored::calls().len() + stored::windows().len() + stored::block_steps();
    assert_eq!(made, stored::LINES.lines().count());
}
