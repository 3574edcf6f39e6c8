//! A second terminal after document 01, M-101, M-102, M-103, M-106 and M-107, to be compared byte for byte with
//! another.

mod bytes;
mod compare;
mod feed;
mod frames;
mod generate;
mod generate_calls;
mod random;
mod required;
mod rooms;
mod streams;
mod teeth;
mod terminal;
#[cfg(test)]
mod tests;
mod wrong;

use frames::Mode;
use std::io::{Read, Write};
use std::process::ExitCode;

const USAGE: &str = "usage: second [--wrong N] COMMAND
  transcript | dump | calls                         standard input to standard output
  generate SEED FRAMES | generate-calls SEED FRAMES
  compare MODE PROGRAM.. -- SEED_FROM SEED_COUNT FRAMES
  sweep PROGRAM..                                   its `calls`, with damage everywhere and every byte in turn
  rooms PROGRAM..                                   its `calls`, at every room up to a message's length
  bytes PROGRAM..                                   its `dump`, every byte after beginnings of ESC [ > 6, whole and cut
  required SEED_FROM SEED_COUNT FRAMES              how often 266 is given 9, and that it sends no blank required field
  stream FILE ROWS COLUMNS CALL BYTES               that many of the file's bytes, in calls of one length, timed
  teeth SEED_FROM SEED_COUNT FRAMES";

fn number(text: &str) -> Result<u64, String> {
    text.parse().map_err(|_| format!("not a number: {text}\n{USAGE}"))
}

fn print(bytes: &[u8]) -> Result<bool, String> {
    std::io::stdout().write_all(bytes).map_err(|error| error.to_string())?;
    Ok(true)
}

fn filter(mode: Mode) -> Result<bool, String> {
    let mut input = Vec::new();
    std::io::stdin().read_to_end(&mut input).map_err(|error| error.to_string())?;
    print(&mode.run(&input))
}

fn run(arguments: &[String]) -> Result<bool, String> {
    let words: Vec<&str> = arguments.iter().map(String::as_str).collect();
    match words[..] {
        ["--wrong", edit, ..] => {
            let edit = u8::try_from(number(edit)?).unwrap_or(u8::MAX);
            if edit > wrong::COUNT {
                return Err(USAGE.into());
            }
            wrong::choose(edit);
            run(&arguments[2..])
        }
        [name @ ("transcript" | "dump" | "calls")] => filter(Mode::named(name).ok_or(USAGE)?),
        ["generate", seed, frames] => {
            print(&generate::transcript(number(seed)?, number(frames)? as usize))
        }
        ["generate-calls", seed, frames] => {
            print(&generate_calls::calls(number(seed)?, number(frames)? as usize))
        }
        ["compare", mode, .., "--", from, count, frames] if words.len() > 6 => {
            let mode = Mode::named(mode).ok_or(USAGE)?;
            let program = &arguments[2..arguments.len() - 4];
            compare::compare(mode, program, number(from)?, number(count)?, number(frames)? as usize)
        }
        ["sweep", _, ..] => compare::sweep(&arguments[1..]),
        ["rooms", _, ..] => rooms::rooms(&arguments[1..]),
        ["bytes", _, ..] => bytes::bytes(&arguments[1..]),
        ["stream", file, rows, columns, call, bytes] => {
            let [rows, columns] =
                [number(rows)?, number(columns)?].map(|n| u16::try_from(n).unwrap_or(0));
            let told =
                feed::stream(file, rows, columns, number(call)? as usize, number(bytes)? as usize)?;
            print(told.as_bytes())
        }
        ["required", from, count, frames] => {
            Ok(required::required(number(from)?, number(count)?, number(frames)? as usize))
        }
        ["teeth", from, count, frames] => {
            Ok(teeth::teeth(number(from)?, number(count)?, number(frames)? as usize))
        }
        _ => Err(USAGE.into()),
    }
}

fn main() -> ExitCode {
    let arguments: Vec<String> = std::env::args().skip(1).collect();
    match run(&arguments) {
        Ok(true) => ExitCode::SUCCESS,
        Ok(false) => ExitCode::FAILURE,
        Err(text) => {
            eprintln!("{text}");
            ExitCode::from(2)
        }
    }
}
