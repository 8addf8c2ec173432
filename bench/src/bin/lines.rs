//! Times desk programs on lines of eight information blocks, and prints how many lines a second each
//! answers. Arguments are the programs, which take turns.

use orderlink_bench::oracle::{self, transmission, Setting, SETTINGS};
use orderlink_bench::sample::{damage_evenly, Random};
use std::io::{Read, Write};
use std::process::{Command, Stdio};
use std::time::Instant;
use std::{env, thread};

/// T of the orders, and how many lines a program gets at once.
const BLOCKS: usize = 8;
const LINES: usize = 50_000;

/// How many of the lines differ.
const DIFFERENT: usize = 500;

/// Timed runs of each program on each input.
const RUNS: usize = 10;

fn main() {
    let programs: Vec<String> = env::args().skip(1).collect();
    println!("Lines a second, T = {BLOCKS}, the best of {RUNS} runs on {LINES} lines\n");
    println!("| setting | line | head | {} |", programs.join(" | "));
    println!("|{}", "---|".repeat(3 + programs.len()));
    for setting in &SETTINGS {
        for (damage, altered) in [("clean", 0), ("at the limit", setting.t)] {
            let heads = [("short", setting.number, 3), ("long", setting.number + 9, 4)];
            for (name, first, digits) in heads {
                let head = format!("{first:x}{BLOCKS:0digits$x}");
                let input = Input::new(setting, &head, altered);
                print!("| {} | {damage} | {name} |", setting.number);
                input.figures(&programs).iter().for_each(|figure| print!(" {figure} |"));
                println!();
            }
        }
    }
}

/// Lines, and the answers to them.
struct Input {
    lines: Vec<u8>,
    answers: Vec<u8>,
}

impl Input {
    /// Random orders behind a head, with so many altered symbols in every window.
    fn new(setting: &Setting, head: &str, altered: usize) -> Input {
        let random = &mut Random::new(8);
        let mut input = Input { lines: Vec::new(), answers: Vec::new() };
        for _ in 0..DIFFERENT {
            let message = random.symbols(setting, setting.message_length(BLOCKS));
            let mut symbols = transmission(setting, &message);
            damage_evenly(random, setting, &mut symbols, altered, 0);
            let digits = symbols.iter().map(|symbol| format!("{symbol:x}"));
            let line = format!("{head}{}", String::from_iter(digits));
            input.answers.extend(format!("{}\n", oracle::line(line.as_bytes())).bytes());
            input.lines.extend(format!("{line}\n").bytes());
        }
        input.lines = input.lines.repeat(LINES / DIFFERENT);
        input.answers = input.answers.repeat(LINES / DIFFERENT);
        input
    }

    /// How many lines a second each program answers; a dash where it answers otherwise.
    fn figures(&self, programs: &[String]) -> Vec<String> {
        let mut best = vec![Some(f64::INFINITY); programs.len()];
        for _ in 0..RUNS {
            for (best, program) in best.iter_mut().zip(programs) {
                let (seconds, answers) = run(program, &self.lines);
                *best = best.filter(|_| answers == self.answers).map(|best| best.min(seconds));
            }
        }
        let figure = |seconds: f64| format!("{:.0}", LINES as f64 / seconds);
        best.into_iter().map(|best| best.map_or("–".to_string(), figure)).collect()
    }
}

/// Runs a program; returns the seconds that it takes from the first line to the last answer, and
/// its answers.
fn run(program: &str, input: &[u8]) -> (f64, Vec<u8>) {
    let mut program = Command::new(program)
        .stdin(Stdio::piped())
        .stdout(Stdio::piped())
        .spawn()
        .expect("the program starts");
    let mut stdin = program.stdin.take().expect("its input");
    let mut stdout = program.stdout.take().expect("its output");
    let mut answers = Vec::new();
    let start = Instant::now();
    thread::scope(|scope| {
        scope.spawn(move || stdin.write_all(input).expect("the program reads on"));
        stdout.read_to_end(&mut answers).expect("its answers");
    });
    let seconds = start.elapsed().as_secs_f64();
    program.wait().expect("the program ends");
    (seconds, answers)
}
