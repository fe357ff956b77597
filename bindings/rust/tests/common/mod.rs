//! What the tests against the model share.

#![allow(dead_code)] // no test uses all of it

pub mod layout;
pub mod library;

/// A number from the environment, for longer runs and other seeds.
pub fn setting(name: &str, default: u64) -> u64 {
    match std::env::var(name) {
        Ok(text) => text.parse().expect("a number in the environment"),
        Err(_) => default,
    }
}
