//! Tests of the crate by its public calls, in one program, which links once.

mod ciphers;
mod columns;
mod common;
mod key_blocks;
mod key_wraps;
mod keys;
mod known_calls;
mod lists;
mod macs;
mod passwords;
mod payment;
mod streams;
mod types;
