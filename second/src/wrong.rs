//! Seventy-three wrong edits kept as switches; WRONG.md has a line on each. 0 is the right program.

use std::cell::Cell;

pub const COUNT: u8 = 73;

/// Edits that no transcript can show; only `calls` reaches them.
pub const CALLS_ONLY: [u8; 5] = [4, 37, 39, 40, 69];

thread_local! {
    static CHOSEN: Cell<u8> = const { Cell::new(0) };
}

pub fn choose(number: u8) {
    CHOSEN.with(|chosen| chosen.set(number));
}

pub fn is(number: u8) -> bool {
    CHOSEN.with(|chosen| chosen.get() == number)
}
