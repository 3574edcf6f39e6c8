//! Whether the generators find every wrong edit.

use crate::compare::generated;
use crate::frames::Mode;
use crate::wrong;
use std::collections::hash_map::DefaultHasher;
use std::hash::{Hash, Hasher};

struct Case {
    input: Vec<u8>,
    right: u64,
}

fn digest(mode: Mode, input: &[u8]) -> u64 {
    let mut hasher = DefaultHasher::new();
    mode.run(input).hash(&mut hasher);
    hasher.finish()
}

/// Inputs with the right output's digest, made as they are first asked for.
struct Cases {
    mode: Mode,
    from: u64,
    frames: usize,
    made: Vec<Case>,
}

impl Cases {
    fn new(mode: Mode, from: u64, frames: usize) -> Cases {
        Cases { mode, from, frames, made: Vec::new() }
    }

    fn shows(&mut self, edit: u8, index: usize) -> bool {
        if self.made.len() == index {
            let input = generated(self.mode, self.from + index as u64, self.frames);
            let right = digest(self.mode, &input);
            self.made.push(Case { input, right });
        }
        let case = &self.made[index];
        wrong::choose(edit);
        let digest = digest(self.mode, &case.input);
        wrong::choose(0);
        digest != case.right
    }
}

/// True if every wrong edit is found.
pub fn teeth(from: u64, count: u64, frames: usize) -> bool {
    let mut transcripts = [Mode::Transcript, Mode::Dump].map(|mode| Cases::new(mode, from, frames));
    let mut calls = [Cases::new(Mode::Calls, from, frames)];
    let mut all_found = true;
    for edit in 1..=wrong::COUNT {
        let only_calls = wrong::CALLS_ONLY.contains(&edit);
        let cases = if only_calls { &mut calls[..] } else { &mut transcripts[..] };
        let found = (0..count as usize).find_map(|index| {
            let shown = cases.iter_mut().find_map(|c| c.shows(edit, index).then_some(c.mode))?;
            Some((from + index as u64, shown.name()))
        });
        match found {
            Some((seed, mode)) => println!("{edit} found at seed {seed} ({mode})"),
            None => println!("{edit} NOT found"),
        }
        all_found &= found.is_some();
    }
    all_found
}
