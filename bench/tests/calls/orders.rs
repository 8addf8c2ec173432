//! Calls whose outcome needs no search: the orders worked through in documents 01 and 02, orders
//! damaged up to the limit and just beyond it by every mix of altered and unknown symbols, the
//! longest orders and those too long, every symbol and byte that is none, every mark, and numbers
//! that are no setting.

use crate::call::{Call, Outcome};
use orderlink_bench::calls::{Answer, Marks, UNKNOWN};
use orderlink_bench::oracle::{transmission, Setting, SETTINGS};
use orderlink_bench::sample::{
    alter, damage_closing, damage_evenly, damage_mixed, damage_up_to, Random,
};

pub type Known = (Call, Outcome);

/// What the areas that a call may write hold before it.
pub const UNUSED: u8 = 0xee;

/// The most information blocks of an order.
pub const LONGEST: usize = 4096;

/// The ten starred orders, and those of 02's request 106, among them every choice of nine unknown
/// symbols.
pub fn worked() -> Vec<Known> {
    let mut known = starred();
    known.push(decoded("2431 ---- ----", "1", 0));
    for mask in 0..1 << 12 {
        let text = |symbols: &str| {
            let dropped = |(i, symbol)| if mask >> i & 1 == 1 { '-' } else { symbol };
            String::from_iter(symbols.chars().enumerate().map(dropped))
        };
        if u32::count_ones(mask) == 9 {
            known.extend(["000000000000", "243123232134"].map(|symbols| refused(&text(symbols))));
        }
    }
    known
}

/// The ten starred orders.
fn starred() -> Vec<Known> {
    vec![
        encoded(1, "1", "2431 2323 2134"),
        encoded(1, "12214334", "2431 1130 0032 0230 4100 1004 0023 0320 4024 3421"),
        encoded(2, "10", "3132210 3411430 3665350"),
        encoded(3, "100", "5774100 5266700"),
        encoded(3, "010", "0577410 0461120"),
        decoded("2400 1100 0000 0230 4100 0000 0023 0320 0000 3400", "00000000", 12),
        refused("2431 1130 0000 0200 4100 0004 0003 0020 0004 3400"),
        decoded("0000 0000 0000", "0", 0),
        decoded("2431 2323 0000", "1", 0),
        refused("2431 2320 0000"),
    ]
}

/// Every number of altered symbols that a window may have, each with as many unknown ones as bring
/// twice the altered ones plus the unknown ones to `damage`.
pub fn mixes(damage: usize) -> impl Iterator<Item = (usize, usize)> {
    (0..=damage / 2).map(move |altered| (altered, damage - 2 * altered))
}

/// Random orders that come back: with every mix of altered and unknown symbols that is just d, in
/// every window or in closing blocks alone, and with as many anywhere as leave at most that in a
/// window; with at most t altered ones and none unknown.
pub fn at_the_limit(random: &mut Random, setting: &Setting) -> Vec<Known> {
    let mut known = Vec::new();
    let mut order = |damage: &dyn Fn(&mut Random, &mut [u8])| {
        let (message, sent) = random_order(random, setting);
        let mut reception = sent.clone();
        damage(random, &mut reception);
        let answer = counted(setting, &sent, &reception);
        known.push(decoding(setting.number, reception, answer, message, sent));
    };
    order(&|random, symbols| damage_up_to(random, setting, symbols, setting.t));
    for (altered, unknown) in mixes(setting.d).chain([(setting.t, 0)]) {
        order(&|random, symbols| damage_evenly(random, setting, symbols, altered, unknown));
        order(&|random, symbols| damage_mixed(random, setting, symbols, setting.d, altered + 1));
        order(&|random, symbols| damage_closing(random, setting, symbols, altered, unknown));
    }
    known
}

/// Random orders with every mix that is d + 1 in a window, and never more. No message fits: of the
/// window where two messages first differ, d + 1 symbols or more are sent differently, each of
/// which is unknown or altered for one of the two; so for both together twice the altered ones plus
/// the unknown ones are at least 2 (d + 1), and another message has as many of them there as the
/// sent one, or more.
pub fn beyond_the_limit(random: &mut Random, setting: &Setting) -> Vec<Known> {
    let mut known = Vec::new();
    let mut order = |damage: &dyn Fn(&mut Random, &mut [u8])| {
        let (message, mut reception) = random_order(random, setting);
        damage(random, &mut reception);
        let zeros = (vec![0; message.len()], vec![0; reception.len()]);
        known.push(decoding(setting.number, reception, Answer::no(7), zeros.0, zeros.1));
    };
    let limit = setting.d + 1;
    for (altered, unknown) in mixes(limit) {
        order(&|random, symbols| damage_evenly(random, setting, symbols, altered, unknown));
        order(&|random, symbols| damage_mixed(random, setting, symbols, limit, altered + 1));
        if altered + unknown <= setting.m * setting.n {
            order(&|random, symbols| damage_closing(random, setting, symbols, altered, unknown));
        }
    }
    known
}

/// Every byte in the place of a symbol: those below q are symbols, the last is an unknown one but
/// in encoding, the others get 4 and the place.
pub fn bytes(random: &mut Random, setting: &Setting) -> Vec<Known> {
    let calls = |byte| {
        let message = random.symbols(setting, setting.message_length(3));
        let sent = transmission(setting, &message);
        let unused = (vec![UNUSED; message.len()], vec![UNUSED; sent.len()]);
        let with = |symbols: &[u8], place: usize| {
            let mut symbols = symbols.to_vec();
            symbols[place] = byte;
            symbols
        };
        let place = random.below(message.len());
        let encoded = with(&message, place);
        let encoding = if byte < setting.q {
            let sent = transmission(setting, &encoded);
            encoding(setting.number, encoded, Answer::YES, sent)
        } else {
            encoding(setting.number, encoded, Answer::no_at(4, place), unused.1.clone())
        };
        let place = random.below(sent.len());
        let reception = with(&sent, place);
        let decoding = if byte < setting.q || byte == UNKNOWN {
            let answer = counted(setting, &sent, &reception);
            decoding(setting.number, reception, answer, message, sent)
        } else {
            decoding(setting.number, reception, Answer::no_at(4, place), unused.0, unused.1)
        };
        [encoding, decoding]
    };
    (0..=255).flat_map(calls).collect()
}

/// Every difference alone, all symbols differing, and every unknown symbol alone, whatever was
/// sent, marked in every window.
pub fn marked(random: &mut Random, setting: &Setting) -> Vec<Known> {
    let blocks = setting.m + 3;
    // No byte is the mark of an unknown symbol, and none becomes it below.
    let bytes = random.bytes(setting.transmission_length(blocks));
    let bytes = Vec::from_iter(bytes.iter().map(|byte| byte % 254));
    let mut known = Vec::new();
    for j in 0..blocks {
        let window = j * setting.n..j * setting.n + setting.window_length();
        let mut mark = |received: &[u8], sent: &[u8], marks: u64| {
            let marks = Marks { answer: Answer::YES, marks, set: marks.count_ones() };
            let (received, sent) = (received.to_vec(), sent.to_vec());
            known.push(marking(setting.number, received, sent, j as u64, marks));
        };
        for place in 0..bytes.len() {
            let set = if window.contains(&place) { 1 << (place - window.start) } else { 0 };
            let with = |byte| {
                let mut bytes = bytes.clone();
                bytes[place] = byte;
                bytes
            };
            let (other, unknown) = (with(bytes[place] ^ 1), with(UNKNOWN));
            mark(&bytes, &other, set);
            mark(&bytes, &unknown, set);
            mark(&unknown, &bytes, set);
            mark(&unknown, &unknown, set);
        }
        let all = (1 << setting.window_length()) - 1;
        mark(&bytes, &Vec::from_iter(bytes.iter().map(|byte| byte ^ 1)), all);
        let unknown = vec![UNKNOWN; bytes.len()];
        mark(&unknown, &unknown, all);
    }
    known
}

/// Orders of 4,096 blocks: encoded; decoded with the last symbol that counts and the last of all
/// altered, the first and the one before the last unknown; and these marked in the last window.
pub fn longest() -> Vec<Known> {
    let random = &mut Random::new(512);
    let calls = |setting: &Setting| {
        let message = random.symbols(setting, setting.message_length(LONGEST));
        let sent = transmission(setting, &message);
        let mut reception = sent.clone();
        alter(random, setting, &mut reception[LONGEST * setting.n - 1]);
        alter(random, setting, &mut reception[sent.len() - 1]);
        reception[0] = UNKNOWN;
        reception[sent.len() - 2] = UNKNOWN;
        let marks = 1 << (setting.n - 1) | 0b11 << (setting.window_length() - 2);
        let marks = Marks { answer: Answer::YES, marks, set: 3 };
        let answer = Answer { altered: 1, unknown: 2, ..Answer::YES };
        [
            encoding(setting.number, message.clone(), Answer::YES, sent.clone()),
            marking(setting.number, reception.clone(), sent.clone(), LONGEST as u64 - 1, marks),
            decoding(setting.number, reception, answer, message, sent),
        ]
    };
    SETTINGS.iter().flat_map(calls).collect()
}

/// Orders of 4,097 blocks get 3 from every call, and nothing is written.
pub fn too_long() -> Vec<Known> {
    let calls = |setting: &Setting| {
        let message = vec![0; setting.message_length(LONGEST + 1)];
        let sent = vec![0; setting.transmission_length(LONGEST + 1)];
        let unused = (vec![UNUSED; message.len()], vec![UNUSED; sent.len()]);
        let answer = Answer::no(3);
        let marks = Marks { answer, marks: 0, set: 0 };
        [
            encoding(setting.number, message, answer, unused.1.clone()),
            marking(setting.number, sent.clone(), sent.clone(), LONGEST as u64, marks),
            decoding(setting.number, sent, answer, unused.0, unused.1),
        ]
    };
    SETTINGS.iter().flat_map(calls).collect()
}

/// Orders of a number that is no setting get 1 from every call, and nothing is written.
pub fn no_setting(number: u64) -> Vec<Known> {
    let (message, sent) = (vec![1], symbols("2431 2323 2134"));
    let unused = (vec![UNUSED; message.len()], vec![UNUSED; sent.len()]);
    let answer = Answer::no(1);
    vec![
        encoding(number, message, answer, unused.1.clone()),
        marking(number, sent.clone(), sent.clone(), 0, Marks { answer, marks: 0, set: 0 }),
        decoding(number, sent, answer, unused.0, unused.1),
    ]
}

/// A random message, often a short one, with its transmission.
fn random_order(random: &mut Random, setting: &Setting) -> (Vec<u8>, Vec<u8>) {
    let longest = if random.once_in(100) { LONGEST } else { *random.pick(&[4, 32, 512]) };
    let blocks = random.between(1, longest);
    let message = random.symbols(setting, setting.message_length(blocks));
    let sent = transmission(setting, &message);
    (message, sent)
}

/// The answer where what was sent comes back: of the altered symbols those in closing blocks do not
/// count.
pub fn counted(setting: &Setting, sent: &[u8], reception: &[u8]) -> Answer {
    let is_unknown = |&place: &usize| reception[place] == UNKNOWN;
    let closing = sent.len() - setting.m * setting.n;
    let known = (0..closing).filter(|place| !is_unknown(place));
    let altered = known.filter(|&place| sent[place] != reception[place]).count();
    let unknown = (0..sent.len()).filter(is_unknown).count();
    Answer { altered: altered as u32, unknown: unknown as u32, ..Answer::YES }
}

/// A message with its transmission.
fn encoded(setting: u64, message: &str, sent: &str) -> Known {
    encoding(setting, symbols(message), Answer::YES, symbols(sent))
}

/// A reception in setting 1 with the message that fits and the altered count.
fn decoded(reception: &str, message: &str, altered: u32) -> Known {
    let (reception, message) = (symbols(reception), symbols(message));
    let sent = transmission(&SETTINGS[0], &message);
    let answer = counted(&SETTINGS[0], &sent, &reception);
    assert_eq!(answer.altered, altered);
    decoding(1, reception, answer, message, sent)
}

/// A reception in setting 1 that no message fits.
fn refused(reception: &str) -> Known {
    let reception = symbols(reception);
    let zeros = (vec![0; reception.len() / 4 - 2], vec![0; reception.len()]);
    decoding(1, reception, Answer::no(7), zeros.0, zeros.1)
}

fn encoding(setting: u64, message: Vec<u8>, answer: Answer, after: Vec<u8>) -> Known {
    let call = Call::Encode { setting, message, transmission: vec![UNUSED; after.len()] };
    (call, Outcome::Encoded { answer, transmission: after })
}

fn decoding(
    setting: u64,
    reception: Vec<u8>,
    answer: Answer,
    message: Vec<u8>,
    transmission: Vec<u8>,
) -> Known {
    let before = (vec![UNUSED; message.len()], vec![UNUSED; transmission.len()]);
    let call = Call::Decode { setting, reception, message: before.0, transmission: before.1 };
    (call, Outcome::Decoded { answer, message, transmission })
}

fn marking(setting: u64, reception: Vec<u8>, sent: Vec<u8>, j: u64, marks: Marks) -> Known {
    let call = Call::Marks { setting, reception, transmission: sent, j };
    (call, Outcome::Marked(marks))
}

/// The digits of a text as symbols, `-` as an unknown one.
fn symbols(text: &str) -> Vec<u8> {
    let symbols = text.bytes().filter(|&byte| byte != b' ');
    symbols.map(|byte| if byte == b'-' { UNKNOWN } else { byte - b'0' }).collect()
}
