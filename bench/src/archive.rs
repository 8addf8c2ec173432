//! The verified library behind its C interface (include/orderlink.h), as safe calls.

use crate::calls::{Answer, Calls, Marks, Woven};

/// The calls of the C interface, answered by the linked archive.
pub const CALLS: Calls =
    Calls { name: "Rattle", encode, decode, marks, weave, unweave, decode_woven };

extern "C" {
    fn orderlink_encode(
        setting: u64,
        message: *const u8,
        message_len: usize,
        transmission: *mut u8,
        transmission_len: usize,
    ) -> Answer;

    fn orderlink_decode(
        setting: u64,
        reception: *const u8,
        reception_len: usize,
        message: *mut u8,
        message_len: usize,
        transmission: *mut u8,
        transmission_len: usize,
    ) -> Answer;

    fn orderlink_marks(
        setting: u64,
        reception: *const u8,
        reception_len: usize,
        transmission: *const u8,
        transmission_len: usize,
        j: u64,
    ) -> Marks;

    fn orderlink_weave(
        setting: u64,
        frames: u64,
        incoming: *const u8,
        incoming_len: usize,
        out: *mut u8,
        out_len: usize,
    ) -> Answer;

    fn orderlink_unweave(
        setting: u64,
        frames: u64,
        incoming: *const u8,
        incoming_len: usize,
        out: *mut u8,
        out_len: usize,
    ) -> Answer;

    fn orderlink_decode_woven(
        setting: u64,
        frames: u64,
        reception: *const u8,
        reception_len: usize,
        message: *mut u8,
        message_len: usize,
        transmission: *mut u8,
        transmission_len: usize,
    ) -> Woven;
}

fn encode(setting: u64, message: &[u8], transmission: &mut [u8]) -> Answer {
    // SAFETY: each pointer and length are those of a live slice, and the slices do not overlap.
    unsafe {
        orderlink_encode(
            setting,
            message.as_ptr(),
            message.len(),
            transmission.as_mut_ptr(),
            transmission.len(),
        )
    }
}

fn decode(setting: u64, reception: &[u8], message: &mut [u8], transmission: &mut [u8]) -> Answer {
    // SAFETY: each pointer and length are those of a live slice, and the slices do not overlap.
    unsafe {
        orderlink_decode(
            setting,
            reception.as_ptr(),
            reception.len(),
            message.as_mut_ptr(),
            message.len(),
            transmission.as_mut_ptr(),
            transmission.len(),
        )
    }
}

fn marks(setting: u64, reception: &[u8], transmission: &[u8], j: u64) -> Marks {
    // SAFETY: each pointer and length are those of a live slice, which the call only reads.
    unsafe {
        orderlink_marks(
            setting,
            reception.as_ptr(),
            reception.len(),
            transmission.as_ptr(),
            transmission.len(),
            j,
        )
    }
}

fn weave(setting: u64, frames: u64, incoming: &[u8], out: &mut [u8]) -> Answer {
    let (from, to) = ((incoming.as_ptr(), incoming.len()), (out.as_mut_ptr(), out.len()));
    // SAFETY: each pointer and length are those of a live slice, and the slices do not overlap.
    unsafe { orderlink_weave(setting, frames, from.0, from.1, to.0, to.1) }
}

fn unweave(setting: u64, frames: u64, incoming: &[u8], out: &mut [u8]) -> Answer {
    let (from, to) = ((incoming.as_ptr(), incoming.len()), (out.as_mut_ptr(), out.len()));
    // SAFETY: each pointer and length are those of a live slice, and the slices do not overlap.
    unsafe { orderlink_unweave(setting, frames, from.0, from.1, to.0, to.1) }
}

fn decode_woven(
    setting: u64,
    frames: u64,
    reception: &[u8],
    message: &mut [u8],
    transmission: &mut [u8],
) -> Woven {
    // SAFETY: each pointer and length are those of a live slice, and the slices do not overlap.
    unsafe {
        orderlink_decode_woven(
            setting,
            frames,
            reception.as_ptr(),
            reception.len(),
            message.as_mut_ptr(),
            message.len(),
            transmission.as_mut_ptr(),
            transmission.len(),
        )
    }
}
