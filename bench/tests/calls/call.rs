//! One call of the C interface, made on lent areas with guard bytes round them.

use orderlink_bench::calls::{Answer, Calls, Marks, Woven};
use orderlink_bench::sample::Random;
use std::ops::Range;

/// A call's input: numbers, and what the lent areas hold before it.
#[derive(Debug)]
pub enum Call {
    Encode {
        setting: u64,
        message: Vec<u8>,
        transmission: Vec<u8>,
    },
    Decode {
        setting: u64,
        reception: Vec<u8>,
        message: Vec<u8>,
        transmission: Vec<u8>,
    },
    Marks {
        setting: u64,
        reception: Vec<u8>,
        transmission: Vec<u8>,
        j: u64,
    },
    Weave {
        way: Way,
        setting: u64,
        frames: u64,
        incoming: Vec<u8>,
        out: Vec<u8>,
    },
    DecodeWoven {
        setting: u64,
        frames: u64,
        reception: Vec<u8>,
        message: Vec<u8>,
        transmission: Vec<u8>,
    },
}

/// Weaving, or its undoing.
#[derive(Clone, Copy, Debug)]
pub enum Way {
    Weave,
    Unweave,
}

/// A call's answer, and what the areas that it may write hold after it.
#[derive(Debug, PartialEq)]
pub enum Outcome {
    Encoded { answer: Answer, transmission: Vec<u8> },
    Decoded { answer: Answer, message: Vec<u8>, transmission: Vec<u8> },
    Marked(Marks),
    Woven { answer: Answer, out: Vec<u8> },
    DecodedWoven { woven: Woven, message: Vec<u8>, transmission: Vec<u8> },
}

impl Call {
    /// Makes the call on guarded copies of its areas; what it may only read must stay as it was.
    pub fn make(&self, random: &mut Random, calls: &Calls) -> Outcome {
        let mut lend = |bytes: &[u8]| Area::new(random, bytes);
        match self {
            Call::Encode { setting, message, transmission } => {
                let (message, mut transmission) = (lend(message), lend(transmission));
                let answer = (calls.encode)(*setting, message.bytes(), transmission.bytes_mut());
                message.assert_unchanged();
                Outcome::Encoded { answer, transmission: transmission.taken_back() }
            }
            Call::Decode { setting, reception, message, transmission } => {
                let reception = lend(reception);
                let (mut message, mut transmission) = (lend(message), lend(transmission));
                let areas = (message.bytes_mut(), transmission.bytes_mut());
                let answer = (calls.decode)(*setting, reception.bytes(), areas.0, areas.1);
                reception.assert_unchanged();
                let (message, transmission) = (message.taken_back(), transmission.taken_back());
                Outcome::Decoded { answer, message, transmission }
            }
            Call::Marks { setting, reception, transmission, j } => {
                let (reception, transmission) = (lend(reception), lend(transmission));
                let marks = (calls.marks)(*setting, reception.bytes(), transmission.bytes(), *j);
                reception.assert_unchanged();
                transmission.assert_unchanged();
                Outcome::Marked(marks)
            }
            Call::Weave { way, setting, frames, incoming, out } => {
                let (incoming, mut out) = (lend(incoming), lend(out));
                let call = match way {
                    Way::Weave => calls.weave,
                    Way::Unweave => calls.unweave,
                };
                let answer = call(*setting, *frames, incoming.bytes(), out.bytes_mut());
                incoming.assert_unchanged();
                Outcome::Woven { answer, out: out.taken_back() }
            }
            Call::DecodeWoven { setting, frames, reception, message, transmission } => {
                let reception = lend(reception);
                let (mut message, mut transmission) = (lend(message), lend(transmission));
                let areas = (message.bytes_mut(), transmission.bytes_mut());
                let received = reception.bytes();
                let woven = (calls.decode_woven)(*setting, *frames, received, areas.0, areas.1);
                reception.assert_unchanged();
                let (message, transmission) = (message.taken_back(), transmission.taken_back());
                Outcome::DecodedWoven { woven, message, transmission }
            }
        }
    }
}

impl Outcome {
    /// The call's answer, then those of its frames.
    pub fn answers(&self) -> Vec<Answer> {
        match self {
            Outcome::Encoded { answer, .. }
            | Outcome::Decoded { answer, .. }
            | Outcome::Woven { answer, .. } => vec![*answer],
            Outcome::Marked(marks) => vec![marks.answer],
            Outcome::DecodedWoven { woven, .. } => [&[woven.answer], &woven.frame[..]].concat(),
        }
    }
}

/// A copy of some bytes with random guard bytes before and after it.
struct Area {
    lent: Range<usize>,
    before: Vec<u8>,
    now: Vec<u8>,
}

impl Area {
    fn new(random: &mut Random, bytes: &[u8]) -> Area {
        let [low, high] = [(); 2].map(|()| random.between(16, 31));
        let before = [&random.bytes(low), bytes, &random.bytes(high)].concat();
        Area { lent: low..low + bytes.len(), now: before.clone(), before }
    }

    fn bytes(&self) -> &[u8] {
        &self.now[self.lent.clone()]
    }

    fn bytes_mut(&mut self) -> &mut [u8] {
        &mut self.now[self.lent.clone()]
    }

    fn assert_unchanged(&self) {
        assert_eq!(self.now, self.before, "an area that is only read, with its guards");
    }

    /// The bytes after a call that may write them; the guards must be as they were.
    fn taken_back(self) -> Vec<u8> {
        let Range { start, end } = self.lent;
        assert_eq!(self.now[..start], self.before[..start], "the guard before an area");
        assert_eq!(self.now[end..], self.before[end..], "the guard after an area");
        self.now[start..end].to_vec()
    }
}
