//! Times encoding, clean decoding, decoding at the limit with altered, with unknown and with both
//! symbols, weaving and the decoding of woven frames, and prints the figures as tables. Arguments
//! are other lengths of orders, in information blocks, than those below.

#[cfg(archive)]
use orderlink_bench::archive;
use orderlink_bench::baseline;
use orderlink_bench::calls::{Answer, Calls};
use orderlink_bench::oracle::{transmission, Setting, SETTINGS};
use orderlink_bench::sample::{damage_evenly, damage_run, woven, Random};
use std::env;
use std::hint::black_box;
use std::time::Instant;

/// The plain Rust first, then the verified library where it is linked.
const IMPLEMENTATIONS: &[Calls] = &[
    baseline::CALLS,
    #[cfg(archive)]
    archive::CALLS,
];

/// T of the orders that are timed.
const LENGTHS: [usize; 4] = [8, 64, 512, 4096];

/// D of the frames that are woven.
const FRAMES: usize = 4;

/// Information blocks in one batch, whatever the length of its orders; more if one call has more.
const BATCH_BLOCKS: usize = 4096;

/// Timed batches of each kind; a round has one batch of every kind and implementation.
const ROUNDS: usize = 100;

#[derive(Clone, Copy, PartialEq)]
enum Work {
    Encode,
    DecodeClean,
    DecodeAtLimit,
    DecodeUnknown,
    DecodeMixed,
    Weave,
    DecodeWoven,
}

const WORKS: [(Work, &str); 5] = [
    (Work::Encode, "encode"),
    (Work::DecodeClean, "decode, clean"),
    (Work::DecodeAtLimit, "decode, at the limit"),
    (Work::DecodeUnknown, "decode, at the limit, all unknown"),
    (Work::DecodeMixed, "decode, at the limit, half unknown"),
];

/// The same of D woven frames; a run of D × t symbols is altered.
const WOVEN_WORKS: [(Work, &str); 2] =
    [(Work::Weave, "weave, D = 4"), (Work::DecodeWoven, "decode, D = 4 woven, a run altered")];

impl Work {
    /// How many frames one call takes.
    fn frames(self) -> usize {
        if matches!(self, Work::Weave | Work::DecodeWoven) {
            FRAMES
        } else {
            1
        }
    }
}

/// A message, what is sent of it and what is received; or D of them, the received ones woven.
struct Order {
    message: Vec<u8>,
    transmission: Vec<u8>,
    reception: Vec<u8>,
}

/// One kind of batch: its orders, the areas that a call may write, and what was measured.
struct Row {
    setting: &'static Setting,
    work: Work,
    call: &'static str,
    blocks: usize,
    orders: Vec<Order>,
    message: Vec<u8>,
    transmission: Vec<u8>,
    /// Nanoseconds per transmission symbol, by implementation and then by batch.
    times: Vec<Vec<f64>>,
}

fn main() {
    let lengths = lengths();
    let mut rows = rows(&lengths);
    for row in &mut rows {
        IMPLEMENTATIONS.iter().for_each(|calls| row.check(calls));
    }
    for round in 0..ROUNDS {
        rows.iter_mut().for_each(|row| row.time(round));
    }
    print_times(&rows);
    print_growth(&rows, &lengths);
}

/// The lengths that the arguments give, or all.
fn lengths() -> Vec<usize> {
    let given: Vec<usize> =
        env::args().skip(1).map(|length| length.parse().expect("a number of blocks")).collect();
    if given.is_empty() {
        LENGTHS.to_vec()
    } else {
        given
    }
}

/// Every setting, call and length in the order of the tables.
fn rows(lengths: &[usize]) -> Vec<Row> {
    let mut rows = Vec::new();
    for works in [&WORKS[..], &WOVEN_WORKS] {
        for setting in &SETTINGS {
            for &(work, call) in works {
                rows.extend(lengths.iter().map(|&blocks| Row::new(setting, work, call, blocks)));
            }
        }
    }
    rows
}

impl Row {
    fn new(setting: &'static Setting, work: Work, call: &'static str, blocks: usize) -> Row {
        let random = &mut Random::new(blocks as u64);
        let frames = work.frames();
        Row {
            setting,
            work,
            call,
            blocks,
            orders: (0..(BATCH_BLOCKS / blocks / frames).max(1))
                .map(|_| Order::new(random, setting, work, blocks))
                .collect(),
            message: vec![0; frames * setting.message_length(blocks)],
            transmission: vec![0; frames * setting.transmission_length(blocks)],
            times: vec![Vec::new(); IMPLEMENTATIONS.len()],
        }
    }

    /// Every order must come out right before it is timed.
    fn check(&mut self, calls: &Calls) {
        for i in 0..self.orders.len() {
            self.message.fill(0xff);
            self.transmission.fill(0xff);
            let answer = self.call(calls, i);
            let order = &self.orders[i];
            let written = (&self.message, &self.transmission);
            let right = answer.number == 0
                && match self.work {
                    Work::Encode => *written.1 == order.transmission,
                    Work::Weave => *written.1 == order.reception,
                    _ => written == (&order.message, &order.transmission),
                };
            assert!(right, "{}: setting {}, {}", calls.name, self.setting.number, self.call);
        }
    }

    /// Times one batch of each implementation; another one goes first in the next round.
    fn time(&mut self, round: usize) {
        let symbols = self.orders.len() * self.transmission.len();
        for turn in 0..IMPLEMENTATIONS.len() {
            let chosen = (round + turn) % IMPLEMENTATIONS.len();
            let start = Instant::now();
            for i in 0..self.orders.len() {
                let answer = self.call(&IMPLEMENTATIONS[chosen], i);
                black_box((answer, &mut self.message, &mut self.transmission));
            }
            self.times[chosen].push(start.elapsed().as_nanos() as f64 / symbols as f64);
        }
    }

    /// Makes the timed call on order i.
    fn call(&mut self, calls: &Calls, i: usize) -> Answer {
        let Row { setting, orders, message, transmission, .. } = self;
        match self.work {
            Work::Encode => {
                (calls.encode)(setting.number, black_box(&orders[i].message), transmission)
            }
            Work::DecodeClean | Work::DecodeAtLimit | Work::DecodeUnknown | Work::DecodeMixed => {
                let reception = black_box(&orders[i].reception);
                (calls.decode)(setting.number, reception, message, transmission)
            }
            Work::Weave => {
                let frames = black_box(&orders[i].transmission);
                (calls.weave)(setting.number, FRAMES as u64, frames, transmission)
            }
            Work::DecodeWoven => {
                let reception = black_box(&orders[i].reception);
                let frames = FRAMES as u64;
                (calls.decode_woven)(setting.number, frames, reception, message, transmission)
                    .answer
            }
        }
    }

    /// Best and median of each implementation, then their ratios to those of the first one.
    fn figures(&self) -> Vec<f64> {
        let both = |times: &Vec<f64>| [best(times), median(times)];
        let mut figures: Vec<f64> = self.times.iter().flat_map(both).collect();
        for times in &self.times[1..] {
            figures.extend([best(times) / figures[0], median(times) / figures[1]]);
        }
        figures
    }
}

impl Order {
    /// Random messages, received clean, with as many altered, unknown or both symbols in every
    /// window as may be, or with a run of altered symbols.
    fn new(random: &mut Random, setting: &Setting, work: Work, blocks: usize) -> Order {
        let frames = work.frames();
        let message = |_| random.symbols(setting, setting.message_length(blocks));
        let messages: Vec<Vec<u8>> = (0..frames).map(message).collect();
        let sent: Vec<Vec<u8>> = messages.iter().map(|m| transmission(setting, m)).collect();
        let mut reception = woven(&sent);
        let mut damage = |altered: usize, unknown: usize| {
            damage_evenly(random, setting, &mut reception, altered, unknown);
        };
        match work {
            Work::DecodeAtLimit => damage(setting.t, 0),
            Work::DecodeUnknown => damage(0, setting.d),
            // Of d, the altered symbols take about half.
            Work::DecodeMixed => damage(setting.d / 4, setting.d - 2 * (setting.d / 4)),
            Work::DecodeWoven => {
                let start = random.below(reception.len() - frames * setting.t + 1);
                let run = start..start + frames * setting.t;
                damage_run(random, setting, &mut reception, run);
            }
            _ => {}
        }
        Order { message: messages.concat(), transmission: sent.concat(), reception }
    }
}

fn print_times(rows: &[Row]) {
    println!("Nanoseconds per transmission symbol, best and median of {ROUNDS} batches\n");
    let names = IMPLEMENTATIONS.iter().map(|calls| calls.name);
    let names = names.chain(IMPLEMENTATIONS[1..].iter().map(|_| "ratio"));
    let columns = names.flat_map(|name| [format!("{name}, best"), format!("{name}, median")]);
    print_head(&["setting", "call", "T"], columns);
    for row in rows {
        print!("| {} | {} | {} |", row.setting.number, row.call, row.blocks);
        row.figures().iter().for_each(|figure| print!(" {figure:.2} |"));
        println!();
    }
}

/// How the time per symbol changes from each length to the next.
fn print_growth(rows: &[Row], lengths: &[usize]) {
    println!("\nGrowth of the best time per symbol with T; 1.00 is linear in T\n");
    let columns = IMPLEMENTATIONS.iter().flat_map(|calls| {
        lengths.windows(2).map(|step| format!("{}, {} to {}", calls.name, step[0], step[1]))
    });
    print_head(&["setting", "call"], columns);
    for rows in rows.chunks(lengths.len()) {
        print!("| {} | {} |", rows[0].setting.number, rows[0].call);
        for i in 0..IMPLEMENTATIONS.len() {
            let growth = |step: &[Row]| best(&step[1].times[i]) / best(&step[0].times[i]);
            rows.windows(2).for_each(|step| print!(" {:.2} |", growth(step)));
        }
        println!();
    }
}

fn print_head(columns: &[&str], figures: impl Iterator<Item = String>) {
    let columns: Vec<String> = columns.iter().map(|name| name.to_string()).chain(figures).collect();
    println!("| {} |", columns.join(" | "));
    println!("|{}", "---|".repeat(columns.len()));
}

fn best(times: &[f64]) -> f64 {
    times.iter().copied().fold(f64::INFINITY, f64::min)
}

fn median(times: &[f64]) -> f64 {
    let mut times = times.to_vec();
    times.sort_by(f64::total_cmp);
    times[times.len() / 2]
}
