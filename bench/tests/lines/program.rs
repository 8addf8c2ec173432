//! The desk program that ORDERLINK_DESK names.

use orderlink_bench::sample::Random;
use std::io::{Read, Write};
use std::process::{Command, Stdio};
use std::thread;

/// What the program writes for an input that arrives at once.
pub fn at_once(input: &[u8]) -> Vec<u8> {
    run(input, || usize::MAX)
}

/// What it writes for an input that arrives in a hundred pieces or more, a short one byte by byte.
pub fn in_pieces(input: &[u8]) -> Vec<u8> {
    let random = &mut Random::new(input.len() as u64);
    run(input, || random.between(1, 1 + input.len() / 100))
}

/// Runs the program on an input cut into pieces of given lengths.
fn run(input: &[u8], mut piece: impl FnMut() -> usize + Send) -> Vec<u8> {
    let mut program = Command::new(env!("DESK_PROGRAM"))
        .stdin(Stdio::piped())
        .stdout(Stdio::piped())
        .spawn()
        .expect("the desk program starts");
    let mut stdin = program.stdin.take().unwrap();
    let mut output = Vec::new();
    thread::scope(|scope| {
        scope.spawn(move || {
            let mut rest = input;
            while !rest.is_empty() {
                let (next, later) = rest.split_at(piece().min(rest.len()));
                stdin.write_all(next).expect("the desk program reads on");
                rest = later;
            }
        });
        program.stdout.take().unwrap().read_to_end(&mut output).unwrap();
    });
    assert!(program.wait().unwrap().success());
    output
}
