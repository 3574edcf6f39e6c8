//! Over generated transcripts: how often key 266 is given 9, and that no block by key leaves while a required field is
//! blank. Both are said of the page and the printed lines; the terminal's own test for 9 has no part in it.

use crate::frames::{lines, Program, Session};
use crate::generate::transcript;

const KEY: &[u8] = b"02";
const SEND_KEY: &[u8] = b"02010A";
/// A call's line up to the bytes it sent: number, row, column and stored count, in digits.
const HEAD: usize = 14;
/// Fewer than so many calls given 9, or blocks from pages with required cells, would show too little.
const LEAST: usize = 100;

/// What key 266 was given; each pair is for its mode set and reset.
#[derive(Debug, Default, PartialEq, Eq)]
pub struct Count {
    pub held_back: [usize; 2],
    pub blocks: [usize; 2],
    /// Blocks from pages with a required cell.
    pub with_required: [usize; 2],
}

fn is_protected(marks: u16) -> bool {
    marks & 1 << 0 != 0
}

fn is_required(marks: u16) -> bool {
    marks & 1 << 9 != 0
}

/// Fields are what protected cells have between them; a blank one has as many 20s as cells.
pub fn has_blank_required_field(characters: &[u8], marks: &[u16]) -> bool {
    let cells: Vec<_> = characters.iter().copied().zip(marks.iter().copied()).collect();
    let mut fields = cells.split(|cell| is_protected(cell.1));
    fields.any(|field| {
        let required = field.iter().filter(|cell| is_required(cell.1)).count();
        let blank = field.iter().filter(|cell| cell.0 == 0x20).count();
        required > 0 && blank == field.len()
    })
}

impl Count {
    /// One more line of a transcript, with what is wrong about its answer.
    fn line(&mut self, session: &mut Session, line: &[u8]) -> Result<(), &'static str> {
        let mut out = Vec::new();
        if !session.going || !line.starts_with(KEY) {
            session.line(line, &mut out);
            return Ok(());
        }
        let (characters, marks) = (session.characters.clone(), session.marks.clone());
        let state = session.state.clone();
        session.line(line, &mut out);
        let blank = has_blank_required_field(&characters, &marks);
        let mode = usize::from(state.full);
        let sent = out.len() > HEAD + 1;
        if sent {
            self.blocks[mode] += 1;
            self.with_required[mode] += usize::from(marks.iter().any(|&marks| is_required(marks)));
        }
        if !out.starts_with(b"09") {
            return if sent && blank {
                Err("a block left while a required field was blank")
            } else {
                Ok(())
            };
        }
        self.held_back[mode] += 1;
        let same =
            session.state == state && session.characters == characters && session.marks == marks;
        match (line == SEND_KEY && blank, same && !sent) {
            (false, _) => Err("9 without a blank required field"),
            (_, false) => Err("a call given 9 changed something"),
            _ => Ok(()),
        }
    }

    /// All lines of the transcript of a seed.
    pub fn transcript(&mut self, seed: u64, frames: usize) -> Result<(), String> {
        let mut session = Session::new();
        for (place, line) in lines(&transcript(seed, frames)).enumerate() {
            let told = self.line(&mut session, line);
            told.map_err(|error| format!("seed {seed}, line {}: {error}", place + 1))?;
        }
        Ok(())
    }
}

/// True if key 266 is held back and not held back often enough, and never wrongly.
pub fn required(from: u64, count: u64, frames: usize) -> bool {
    let mut all = Count::default();
    for seed in from..from + count {
        if let Err(error) = all.transcript(seed, frames) {
            println!("{error}");
            return false;
        }
    }
    let Count { held_back, blocks, with_required } = all;
    let sum = |pair: [usize; 2]| pair.iter().sum::<usize>();
    let told = |pair: [usize; 2]| format!("{} ({} + {})", sum(pair), pair[0], pair[1]);
    println!("key 266 over {count} transcripts, its mode set + reset:");
    println!("{} times given 9", told(held_back));
    println!(
        "{} blocks, {} with required cells on the page, no required field blank",
        told(blocks),
        told(with_required)
    );
    let enough = [held_back, with_required].iter().all(|&pair| sum(pair) >= LEAST);
    if !enough {
        println!(
            "too seldom: at least {LEAST} times given 9, and as many blocks with required cells"
        );
    }
    enough
}
