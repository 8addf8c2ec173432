//! What the planning desk must answer to one line.

use super::definition::Setting;
use super::questions::decode;

/// How a line begins: with so many characters for setting and T, of which the first is this one for
/// setting 1, and with T up to a limit.
struct Head {
    length: usize,
    first_setting: u8,
    limit: usize,
}

/// "Lines beginning 1 to 5 keep their limit 512 and their meaning", and so do all others but for
/// these: "A line beginning a, b, c, d or e names settings 1 to 5 and carries four digits of T, 1
/// to 4,096" (02, #107).
fn head(text: &[u8]) -> Head {
    match text.first() {
        Some(b'a'..=b'e') => Head { length: 5, first_setting: b'a', limit: 4096 },
        _ => Head { length: 4, first_setting: b'1', limit: 512 },
    }
}

/// The answer to a line without its newline.
pub fn line(text: &[u8]) -> String {
    if text.len() > 61_490 {
        return refusal(11, 0);
    }
    let head = head(text);
    // "Question 9 needs five characters for the new heads, with unknown marks only after them"; for
    // the others `-` may stand "after its first four characters" (02, #106).
    let admitted =
        |place| if place < head.length { "0123456789abcdef" } else { "0123456789abcdef-" };
    let is_wrong = |&place: &usize| !admitted(place).as_bytes().contains(&text[place]);
    if let Some(place) = (0..text.len()).find(is_wrong) {
        return refusal(9, place);
    }
    if text.len() < head.length {
        return refusal(9, text.len());
    }
    let digits = String::from_utf8_lossy(text);
    let (before, symbols) = digits.split_at(head.length);
    let number = u64::from(text[0] + 1 - head.first_setting);
    let blocks = usize::from_str_radix(&before[1..], 16).expect("digits");
    let Some(setting) = Setting::of(number) else {
        return refusal(1, 0);
    };
    if blocks > head.limit {
        return refusal(3, 0);
    }
    if blocks < 1 || symbols.len() != setting.transmission_length(blocks) {
        return refusal(10, 0);
    }
    let symbol = |c: char| if c == '-' { 255 } else { c.to_digit(16).expect("a digit") as u8 };
    let reception: Vec<u8> = symbols.chars().map(symbol).collect();
    let mut message = vec![0; setting.message_length(blocks)];
    let transmission = &mut vec![0; reception.len()];
    let answer = decode(setting.number, &reception, &mut message, transmission);
    if answer.number != 0 {
        return refusal(answer.number, answer.place as usize);
    }
    let message: String = message.iter().map(|symbol| format!("{symbol:x}")).collect();
    format!("00{:04x}{before}{message}", answer.altered)
}

fn refusal(number: u32, place: usize) -> String {
    format!("{number:02x}{place:04x}")
}
