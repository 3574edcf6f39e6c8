//! A host stream from a file in calls of one length, timed. What it leaves is told by a digest, which others print too.

use crate::terminal::{host, start, Answer, State};
use std::time::Instant;

const ROOM: usize = 65_536;

/// The state in 195 bytes, as docs/PANEL.md lays out a record.
pub fn record(state: &State) -> Vec<u8> {
    let flags = [state.erasure, state.full, state.manual, state.soft].map(u8::from);
    let half = &state.half;
    let mut bytes = Vec::new();
    for number in [state.rows, state.columns, state.row, state.column, state.pen] {
        bytes.extend(number.to_le_bytes());
    }
    bytes.extend(flags);
    bytes.extend([state.message, state.refused_at, half.kind, u8::from(half.spoilt), half.count]);
    for argument in half.arguments {
        bytes.extend(argument.to_le_bytes());
    }
    bytes.extend(state.stops.map(u8::from));
    bytes
}

/// FNV-1a.
fn digest(bytes: impl Iterator<Item = u8>) -> u64 {
    bytes.fold(0xCBF2_9CE4_8422_2325, |digest, byte| {
        (digest ^ u64::from(byte)).wrapping_mul(0x100_0000_01B3)
    })
}

/// All of the stream; on 3 it goes on with the bytes not taken. Gives bytes sent and cells stored.
fn feed(
    state: &mut State,
    characters: &mut [u8],
    marks: &mut [u16],
    stream: &[u8],
    call: usize,
) -> Result<(u64, u64), String> {
    let mut output = vec![0; ROOM];
    let (mut at, mut all_sent, mut all_stored) = (0, 0, 0);
    while at < stream.len() {
        let bytes = &stream[at..stream.len().min(at + call)];
        let Answer { number, taken, sent, stored } =
            host(state, characters, marks, bytes, &mut output);
        if number != 0 && number != 3 {
            return Err(format!("a call was given {number}"));
        }
        at += taken;
        all_sent += sent as u64;
        all_stored += u64::from(stored);
    }
    Ok((all_sent, all_stored))
}

/// The text to print: the digest with some of what went into it, and the speed.
pub fn stream(
    name: &str,
    rows: u16,
    columns: u16,
    call: usize,
    length: usize,
) -> Result<String, String> {
    let stream = std::fs::read(name).map_err(|error| format!("{name}: {error}"))?;
    let stream = stream.get(..length).ok_or("the stream is shorter")?;
    let cells = usize::from(rows) * usize::from(columns);
    let (mut characters, mut marks) = (vec![0; cells], vec![0; cells]);
    let (mut state, answer) = start(rows, columns, &mut characters, &mut marks);
    if answer.number != 0 || call == 0 {
        return Err("no such size or call".into());
    }
    let before = Instant::now();
    let (sent, stored) = feed(&mut state, &mut characters, &mut marks, stream, call)?;
    let seconds = before.elapsed().as_secs_f64();
    let marks = marks.into_iter().flat_map(u16::to_le_bytes);
    let left = record(&state).into_iter().chain(characters).chain(marks);
    Ok(format!(
        "digest {:016x} cursor {};{} message {} byte {:02X} sent {sent} stored {stored}\nMB/s {:.3}\n",
        digest(left),
        state.row,
        state.column,
        state.message,
        state.refused_at,
        length as f64 / 1e6 / seconds
    ))
}
