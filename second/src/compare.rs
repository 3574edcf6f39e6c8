//! Runs another program beside this one on random inputs, and shortens an input that differs.

use crate::frames::{lines, Mode};
use crate::{generate, generate_calls};
use std::io::Write;
use std::process::{Command, Stdio};

pub fn generated(mode: Mode, seed: u64, frames: usize) -> Vec<u8> {
    match mode {
        Mode::Calls => generate_calls::calls(seed, frames),
        _ => generate::transcript(seed, frames),
    }
}

/// The other program's whole output; a bad end is told in a last line.
pub fn run(program: &[String], input: &[u8]) -> Result<Vec<u8>, String> {
    let failed = |error| format!("{}: {error}", program[0]);
    let mut command = Command::new(&program[0]);
    command.args(&program[1..]).stdin(Stdio::piped()).stdout(Stdio::piped());
    let mut child = command.spawn().map_err(failed)?;
    let mut pipe = child.stdin.take().ok_or("no standard input")?;
    let output = std::thread::scope(|scope| {
        // A program that ends early closes the pipe: its output then tells.
        scope.spawn(move || pipe.write_all(input).ok());
        child.wait_with_output()
    });
    let output = output.map_err(failed)?;
    let mut bytes = output.stdout;
    if !output.status.success() {
        bytes.extend_from_slice(format!("({})\n", output.status).as_bytes());
    }
    Ok(bytes)
}

pub struct Comparison<'a> {
    pub mode: Mode,
    pub program: &'a [String],
}

impl Comparison<'_> {
    fn differs(&self, input: &[u8]) -> Result<bool, String> {
        Ok(run(self.program, input)? != self.mode.run(input))
    }

    /// Takes parts away, large ones first, while the outputs still differ.
    fn shrink<T: Clone>(
        &self,
        mut parts: Vec<T>,
        input: impl Fn(&[T]) -> Vec<u8>,
    ) -> Result<Vec<T>, String> {
        let mut size = (parts.len() + 1) / 2;
        while size > 0 {
            let mut place = 0;
            let mut smaller = false;
            while place < parts.len() {
                let mut fewer = parts.clone();
                fewer.drain(place..parts.len().min(place + size));
                if self.differs(&input(&fewer))? {
                    parts = fewer;
                    smaller = true;
                } else {
                    place += size;
                }
            }
            if !smaller || size > 1 {
                size /= 2;
            }
        }
        Ok(parts)
    }

    /// The shortest beginning that differs, then fewer lines, then fewer bytes in host frames.
    fn shortest(&self, input: &[u8]) -> Result<Vec<u8>, String> {
        let all: Vec<&[u8]> = input.split_inclusive(|&byte| byte == b'\n').collect();
        let (mut same, mut different) = (0, all.len());
        while same + 1 < different {
            let middle = (same + different) / 2;
            if self.differs(&all[..middle].concat())? {
                different = middle;
            } else {
                same = middle;
            }
        }
        let kept = self.shrink(all[..different].to_vec(), |lines| lines.concat())?;
        let mut kept: Vec<Vec<u8>> = kept.into_iter().map(<[u8]>::to_vec).collect();
        for index in 0..kept.len() {
            let line = kept[index].clone();
            let rest = line.strip_prefix(self.mode.host_frame());
            let digits = match rest.and_then(|rest| rest.strip_suffix(b"\n")) {
                Some(digits) if digits.len() % 2 == 0 => digits,
                _ => continue,
            };
            let whole = |bytes: &[&[u8]]| [self.mode.host_frame(), &bytes.concat(), b"\n"].concat();
            let bytes = self.shrink(digits.chunks(2).collect(), |bytes| {
                [&kept[..index].concat(), &whole(bytes), &kept[index + 1..].concat()[..]].concat()
            })?;
            kept[index] = whole(&bytes);
        }
        let kept = self.shrink(kept, |lines| lines.concat())?;
        Ok(kept.concat())
    }

    /// What differs, on a short input.
    pub fn show(&self, input: &[u8]) -> Result<(), String> {
        let short = self.shortest(input)?;
        println!("short input:\n{}", String::from_utf8_lossy(&short));
        report(["second", "other "], &self.mode.run(&short), &run(self.program, &short)?);
        Ok(())
    }
}

fn show(name: &str, line: Option<&[u8]>, around: usize) {
    let text = line.map_or("(no line)".into(), |line| {
        let from = around.saturating_sub(200).min(line.len());
        let to = line.len().min(around + 200);
        let dots = |cut: bool| if cut { "..." } else { "" };
        let part = String::from_utf8_lossy(&line[from..to]);
        format!("{}{part}{}", dots(from > 0), dots(to < line.len()))
    });
    println!("{name}: {text}");
}

/// The first line in which two outputs that differ do so.
pub fn report(names: [&str; 2], one: &[u8], other: &[u8]) {
    let (mut one, mut other) = (lines(one), lines(other));
    for number in 1.. {
        let (a, b) = (one.next(), other.next());
        if a == b && a.is_some() {
            continue;
        }
        let (x, y) = (a.unwrap_or_default(), b.unwrap_or_default());
        let column = x.iter().zip(y).take_while(|(x, y)| x == y).count();
        println!("outputs differ at line {number}, character {}", column + 1);
        show(names[0], a, column);
        show(names[1], b, column);
        return;
    }
}

/// True if all seeds agree.
pub fn compare(
    mode: Mode,
    program: &[String],
    from: u64,
    count: u64,
    frames: usize,
) -> Result<bool, String> {
    let comparison = Comparison { mode, program };
    for seed in from..from + count {
        let input = generated(mode, seed, frames);
        if !comparison.differs(&input)? {
            continue;
        }
        println!("seed {seed} ({}) differs; {} seeds before it agreed", mode.name(), seed - from);
        comparison.show(&input)?;
        return Ok(false);
    }
    println!("{count} seeds agreed ({}, {frames} frames each)", mode.name());
    Ok(true)
}

/// True if damage everywhere is answered the same.
pub fn sweep(program: &[String]) -> Result<bool, String> {
    let input = generate_calls::sweep();
    let comparison = Comparison { mode: Mode::Calls, program };
    if comparison.differs(&input)? {
        println!("the sweep differs");
        comparison.show(&input)?;
        return Ok(false);
    }
    println!("the sweep agreed ({} frames)", lines(&input).count());
    Ok(true)
}
