//! The planning desk's lines: every implementation writes the right line for each.

mod frames;
#[cfg(desk)]
mod program;

use orderlink_bench::baseline::{self, MAX_ANSWER};
use orderlink_bench::oracle;
use orderlink_bench::sample::Random;
use std::collections::BTreeSet;
use std::iter;

/// What a desk writes for a whole input.
type Desk = fn(&[u8]) -> Vec<u8>;

/// The words of 01 and 02 are right by definition. The plain Rust and, where it is named, the desk
/// program must do the same.
const DEFINITION: (&str, Desk) = ("words of 01 and 02", by_definition);
const OTHERS: &[(&str, Desk)] = &[
    ("plain Rust", by_baseline),
    #[cfg(desk)]
    ("desk program", program::at_once),
    #[cfg(desk)]
    ("desk program, input in pieces", program::in_pieces),
];

fn by_definition(input: &[u8]) -> Vec<u8> {
    line_by_line(input, |line| oracle::line(line).into_bytes())
}

fn by_baseline(input: &[u8]) -> Vec<u8> {
    line_by_line(input, |line| baseline::line(line, &mut [0; MAX_ANSWER]).to_vec())
}

/// Answers each line; the last one may lack its newline.
fn line_by_line(input: &[u8], answer: fn(&[u8]) -> Vec<u8>) -> Vec<u8> {
    let lines = input.split_inclusive(|&byte| byte == b'\n');
    let lines = lines.map(|line| line.strip_suffix(b"\n").unwrap_or(line));
    lines.flat_map(|line| [answer(line).as_slice(), b"\n"].concat()).collect()
}

/// Compares line by line, so that a failure shows where.
fn assert_output((name, desk): (&str, Desk), input: &[u8], right: &[u8]) {
    let output = desk(input);
    let lines = output.split(|&byte| byte == b'\n').zip(right.split(|&byte| byte == b'\n'));
    for (number, (got, right)) in lines.enumerate() {
        let (got, right) = (String::from_utf8_lossy(got), String::from_utf8_lossy(right));
        assert_eq!(got, right, "{name}: line {number}, counted from 0");
    }
    assert_eq!(output.len(), right.len(), "{name}");
}

/// An input whose output is known, which these words must give too.
fn assert_known(input: &[u8], right: &[u8]) {
    for &desk in iter::once(&DEFINITION).chain(OTHERS) {
        assert_output(desk, input, right);
    }
}

/// A line and its answer, between two others.
fn assert_line(line: &[u8], answer: &str) {
    let input = [b"1001243123230000\n", line, b"\n1001243123200000"].concat();
    assert_known(&input, format!("00000010011\n{answer}\n070000\n").as_bytes());
}

#[test]
fn stored_lines() {
    let input = include_bytes!("../../../tests/vectors/desk-in.txt");
    let output = include_bytes!("../../../tests/vectors/desk-out.txt");
    assert!(!input.is_empty());
    assert_known(input, output);
}

/// The desk's own stored input: lines across reads, lines too long, and no newline at the end.
#[test]
fn desk_input() {
    let input = include_bytes!("../../../crates/desk/stdin");
    let output = include_bytes!("../../../crates/desk/stdout");
    assert!(input.len() > 3 * 4096 && !input.ends_with(b"\n"));
    assert_known(input, output);
}

#[test]
fn sample_of_01() {
    let input = "1001243123230000\n1001243123200000\n1001243523230000\n\n4001\n1201\n1001243\n";
    let output = "00000010011\n070000\n040003\n090000\n0a0000\n030000\n0a0000\n";
    assert_known(input.as_bytes(), output.as_bytes());
    assert_known(input.trim_end().as_bytes(), output.as_bytes());
}

#[test]
fn empty_lines() {
    assert_known(b"", b"");
    assert_known(b"\n", b"090000\n");
    assert_known(b"\n\n", b"090000\n090000\n");
}

#[test]
fn wrong_characters() {
    assert_line(b"12g", "090002");
    assert_line(b"12", "090002");
    assert_line(b"1001A43123230000", "090004");
    assert_line(b"1001\0", "090004");
    assert_line(b"1001243123230000\r", "090010");
}

/// Unknown symbols stand after the head, whichever it is, and count as digits.
#[test]
fn unknown_symbols() {
    assert_line(b"10012431--------", "00000010011");
    assert_line(b"1001243-232---3-", "00000010011");
    assert_line(b"10011431------34", "00000110011");
    assert_line(b"10011431-------4", "070000");
    assert_line(b"1001243---------", "070000");
    assert_line(b"1001------------", "070000");
    assert_line(b"10012431-------", "0a0000");
    assert_line(b"10012431---------", "0a0000");
    assert_line(b"10012431-----5--", "040009");
    assert_line(b"10012431----g---", "09000c");
    for (line, head) in [("10012431--------", 4), ("a00012431--------", 5)] {
        for place in 0..head {
            let mut line = line.to_string().into_bytes();
            line[place] = b'-';
            let answer = format!("09{place:04x}");
            assert_line(&line, &answer);
            assert_line(&line[..place + 1], &answer);
        }
    }
    assert_line(b"1001-", "0a0000");
    assert_line(b"1000-", "0a0000");
    assert_line(b"f000-", "010000");
    assert_line(b"0001-", "010000");
    assert_line(b"1201-", "030000");
    assert_line(&[b'-'; 61_490], "090000");
    assert_line(&[b'-'; 61_491], "0b0000");
}

#[test]
fn no_blocks() {
    assert_line(b"1000", "0a0000");
    assert_line(b"100000000000", "0a0000");
    assert_line(b"a0000", "0a0000");
    assert_line(b"a000000000000", "0a0000");
}

/// Lines beginning 1 to 5 have three digits of T, up to 512, those beginning a to e four, up to
/// 4,096.
#[test]
fn settings() {
    for setting in "12345".chars() {
        assert_line(format!("{setting}00").as_bytes(), "090003");
        assert_line(format!("{setting}001").as_bytes(), "0a0000");
        assert_line(format!("{setting}201").as_bytes(), "030000");
        assert_line(format!("{setting}fff").as_bytes(), "030000");
    }
    for setting in "abcde".chars() {
        assert_line(format!("{setting}001").as_bytes(), "090004");
        assert_line(format!("{setting}0001").as_bytes(), "0a0000");
        assert_line(format!("{setting}1001").as_bytes(), "030000");
        assert_line(format!("{setting}ffff").as_bytes(), "030000");
    }
    for setting in "06789f".chars() {
        assert_line(format!("{setting}00").as_bytes(), "090003");
        assert_line(format!("{setting}001").as_bytes(), "010000");
        assert_line(format!("{setting}0001").as_bytes(), "010000");
        assert_line(format!("{setting}0011").as_bytes(), "010000");
    }
}

/// The same frame behind either head.
#[test]
fn heads() {
    assert_line(b"a0001243123230000", "000000a00011");
    assert_line(b"a00012431--------", "000000a00011");
    assert_line(b"a0001243123200000", "070000");
    assert_line(b"a0001243523230000", "040003");
    assert_line(b"a0001243123230000-", "0a0000");
    assert_line(b"a001243123230000", "0a0000");
    assert_line(b"c00015774100----700", "000000c0001100");
    assert_line(b"30015774100----700", "0000003001100");
    assert_line(b"e000g", "090004");
    assert_line(b"e000", "090004");
    assert_line(b"e", "090001");
}

/// A line that begins so and goes on with zeros to a length.
fn zeros(begin: &str, length: usize) -> String {
    format!("{begin:0<length$}")
}

/// The longest frame of every setting, behind either head, and one character less or more.
#[test]
fn long_lines() {
    let short = [(2060, 522), (3602, 1034), (3595, 1546), (7729, 1546), (7714, 2570)];
    let long = [(16397, 4107), (28691, 8203), (28684, 12299), (61490, 12299), (61475, 20491)];
    let heads = (1..=5).map(|setting| format!("{setting}200"));
    let heads = heads.chain("abcde".chars().map(|letter| format!("{letter}1000")));
    for (head, (length, answer)) in heads.zip(short.into_iter().chain(long)) {
        let answer = zeros(&format!("000000{head}"), answer);
        assert_line(zeros(&head, length).as_bytes(), &answer);
        assert_line(zeros(&head, length - 1).as_bytes(), "0a0000");
        let refusal = if length == 61_490 { "0b0000" } else { "0a0000" };
        assert_line(zeros(&head, length + 1).as_bytes(), refusal);
    }
}

/// 61,490 characters are read on, also where the head admits no frame so long: they get what
/// characters and head get. 61,491 get 11, whatever they are.
#[test]
fn lines_too_long() {
    for length in [7_730, 61_490] {
        assert_line(zeros("4200", length).as_bytes(), "0a0000");
        assert_line(zeros("4201", length).as_bytes(), "030000");
        assert_line(zeros("4200g", length).as_bytes(), "090004");
        assert_line(zeros("6200", length).as_bytes(), "010000");
    }
    assert_line(zeros("4200", 61_491).as_bytes(), "0b0000");
    assert_line(&[b'z'; 61_490], "090000");
    assert_line(&[b'z'; 61_491], "0b0000");
    assert_line(&[b'0'; 3_000_000], "0b0000");
    assert_known(&[b'z'; 70_000], b"0b0000\n");
}

/// The largest places of a wrong character and a wrong symbol, and the largest count, in four
/// digits.
#[test]
fn largest_numbers() {
    assert_line((zeros("d1000", 61_489) + "g").as_bytes(), "09f031");
    assert_line((zeros("b1000", 28_690) + "8").as_bytes(), "04700d");
    let altered = format!("d1000{}", "111100000000000".repeat(4_099));
    let answer = zeros("004000d1000", 12_299);
    assert_line(altered.as_bytes(), &answer);
}

#[test]
fn random_lines() {
    let random = &mut Random::new(9);
    let mut numbers = BTreeSet::new();
    for _ in 0..100 {
        let input = frames::random_input(random, 500);
        let right = by_definition(&input);
        OTHERS.iter().for_each(|&desk| assert_output(desk, &input, &right));
        numbers.extend(String::from_utf8_lossy(&right).lines().map(|line| line[..2].to_string()));
    }
    let numbers: Vec<String> = numbers.into_iter().collect();
    assert_eq!(numbers, ["00", "01", "03", "04", "07", "09", "0a", "0b"]);
}
