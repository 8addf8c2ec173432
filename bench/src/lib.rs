//! The order link beside the verified one: plain Rust, a search and the C interface.

#[cfg(archive)]
pub mod archive;
pub mod baseline;
pub mod calls;
pub mod oracle;
pub mod sample;
