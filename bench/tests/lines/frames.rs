//! Random lines for the desk: frames with damage about the limit, some with one thing wrong.

use orderlink_bench::calls::UNKNOWN;
use orderlink_bench::oracle::{transmission, SETTINGS};
use orderlink_bench::sample::{damage_mixed, damage_up_to, Random};

/// A number of lines as one input; half of the inputs lack the last newline.
pub fn random_input(random: &mut Random, count: usize) -> Vec<u8> {
    let lines: Vec<_> = (0..count).map(|_| random_line(random)).collect();
    let mut input = lines.join(&b'\n');
    if random.once_in(2) {
        input.push(b'\n');
    }
    input
}

/// A frame as a line; about half of them have one thing wrong.
fn random_line(random: &mut Random) -> Vec<u8> {
    let mut text = frame(random);
    let place = random.below(text.len());
    match random.below(14) {
        0 => text.truncate(random.below(6)),
        1 => text.truncate(place),
        2 => text.resize(*random.pick(&[7_729, 7_730, 7_731, 7_732, 61_490, 61_491]), b'0'),
        3 => text.push(b'0'),
        4 => text[place] = *random.pick(b"0123456789abcdef"),
        5 => text[place] = random.number() as u8,
        6 => text[place] = b'-',
        7 => text[place % 6] = b'-',
        _ => {}
    }
    text.iter().map(|&byte| if byte == b'\n' { b' ' } else { byte }).collect()
}

/// A frame that fits two times in three, behind either head; one in twenty is a long one, and some
/// have more blocks than their head admits.
fn frame(random: &mut Random) -> Vec<u8> {
    let setting = random.pick(&SETTINGS);
    let long_head = random.once_in(2);
    let longest = match random.below(100) {
        0 if long_head => 4_120,
        0..5 => 520,
        _ => 12,
    };
    let blocks = random.between(1, longest);
    let message = random.symbols(setting, setting.message_length(blocks));
    let mut symbols = transmission(setting, &message);
    let more = usize::from(random.once_in(3));
    if random.once_in(2) {
        damage_up_to(random, setting, &mut symbols, setting.t + more);
    } else {
        let times = random.between(1, 8);
        damage_mixed(random, setting, &mut symbols, setting.d + more, times);
    }
    let head = if long_head {
        format!("{:x}{blocks:04x}", setting.number + 9)
    } else {
        format!("{}{blocks:03x}", setting.number)
    };
    head.bytes().chain(symbols.into_iter().map(character)).collect()
}

/// What stands for a symbol in a line.
fn character(symbol: u8) -> u8 {
    match symbol {
        UNKNOWN => b'-',
        _ => b"0123456789abcdef"[symbol as usize],
    }
}
