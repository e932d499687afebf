//! The rules of docs/RULES.md once more, in plain Rust.
//!
//! This is a second implementation, written from that page alone and sharing no code with the
//! proved crates. It is meant to be compared with them on the same inputs; nothing does so yet.

pub mod area;
pub mod ccw;
pub mod channel;
pub mod console;
pub mod device;
pub mod disk;
pub mod map;
pub mod place;
pub mod storage;
pub mod tape;
pub mod translate;
pub mod unit;
pub mod walk;

#[cfg(test)]
mod examples;
