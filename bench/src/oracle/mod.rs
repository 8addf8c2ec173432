//! The right answers, straight from the words of documents 01 and 02: slow, and with arithmetic of
//! its own.

mod definition;
mod lines;
mod questions;
mod search;
mod sending;
mod weaving;

pub use definition::{Setting, SETTINGS};
pub use lines::line;
pub use sending::transmission;

use crate::calls::Calls;
use questions::{decode, encode, marks};
use weaving::{decode_woven, unweave, weave};

/// The calls of the C interface, answered by definition and search.
pub const CALLS: Calls =
    Calls { name: "search", encode, decode, marks, weave, unweave, decode_woven };
