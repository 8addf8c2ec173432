//! The stored calls, each with its right outcome (tests/vectors).

use crate::call::{Call, Outcome, Way};
use crate::json::{self, Value};
use orderlink_bench::calls::{Answer, Marks, Woven};

pub const LINES: &str = include_str!("../../../tests/vectors/calls.jsonl");

/// A call for window j, and what it must return.
#[derive(Debug)]
pub struct Window {
    pub setting: u64,
    pub reception: Vec<u8>,
    pub j: u64,
    pub answer: Answer,
    pub start: usize,
    pub part: Vec<u8>,
}

/// The calls of the C interface.
pub fn calls() -> Vec<(Call, Outcome)> {
    LINES.lines().filter_map(|line| call(&json::parse(line))).collect()
}

/// The calls for a window, which C does not have.
pub fn windows() -> Vec<Window> {
    LINES.lines().filter_map(|line| window(&json::parse(line))).collect()
}

/// How many block steps there are.
pub fn block_steps() -> usize {
    LINES.lines().filter(|line| json::parse(line).text("call") == "block_step").count()
}

fn call(line: &Value) -> Option<(Call, Outcome)> {
    let (args, result) = (line.get("args"), line.get("result"));
    let setting = args.number("number");
    match line.text("call") {
        "encode" => {
            let (message, transmission) = (args.bytes("message"), args.bytes("tarea"));
            let call = Call::Encode { setting, message, transmission };
            let (answer, transmission) = (answer(result), result.bytes("transmission"));
            Some((call, Outcome::Encoded { answer, transmission }))
        }
        "decode" => {
            let reception = args.bytes("reception");
            let (message, transmission) = (args.bytes("marea"), args.bytes("tarea"));
            let call = Call::Decode { setting, reception, message, transmission };
            let (message, transmission) = (result.bytes("message"), result.bytes("transmission"));
            Some((call, Outcome::Decoded { answer: answer(result), message, transmission }))
        }
        "marks" => {
            let (reception, transmission) = (args.bytes("reception"), args.bytes("transmission"));
            let call = Call::Marks { setting, reception, transmission, j: args.number("j") };
            let (marks, set) = (result.number("marks"), result.number("ones") as u32);
            Some((call, Outcome::Marked(Marks { answer: answer(result), marks, set })))
        }
        "weave" => Some(weaving(Way::Weave, args.bytes("frames"), args, result)),
        "unweave" => Some(weaving(Way::Unweave, args.bytes("woven"), args, result)),
        "decode_woven" => {
            let (frames, reception) = (args.number("D"), args.bytes("woven"));
            let (message, transmission) = (args.bytes("marea"), args.bytes("tarea"));
            let call = Call::DecodeWoven { setting, frames, reception, message, transmission };
            let mut woven = Woven { answer: answer(result), ..Woven::default() };
            for (frame, stored) in woven.frame.iter_mut().zip(result.list("frames")) {
                *frame = answer_of(stored);
            }
            let (message, transmission) = (result.bytes("message"), result.bytes("transmission"));
            Some((call, Outcome::DecodedWoven { woven, message, transmission }))
        }
        _ => None,
    }
}

/// A call that weaves or unweaves the incoming area.
fn weaving(way: Way, incoming: Vec<u8>, args: &Value, result: &Value) -> (Call, Outcome) {
    let (setting, frames) = (args.number("number"), args.number("D"));
    let call = Call::Weave { way, setting, frames, incoming, out: args.bytes("area") };
    (call, Outcome::Woven { answer: answer(result), out: result.bytes("area") })
}

fn window(line: &Value) -> Option<Window> {
    let (args, result) = (line.get("args"), line.get("result"));
    (line.text("call") == "window").then(|| Window {
        setting: args.number("number"),
        reception: args.bytes("reception"),
        j: args.number("j"),
        answer: answer(result),
        start: result.number("start") as usize,
        part: result.bytes("part"),
    })
}

fn answer(result: &Value) -> Answer {
    answer_of(result.get("answer"))
}

fn answer_of(answer: &Value) -> Answer {
    Answer {
        number: answer.number("number") as u32,
        altered: answer.number("count") as u32,
        place: answer.number("place"),
        unknown: answer.number("unknown") as u32,
    }
}
