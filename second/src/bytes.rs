//! Every byte after each beginning of the send mode's command, whole and cut, by another program's `dump`.

use crate::compare::{report, run, Comparison};
use crate::frames::{host_frame, key_frame, lines, put_hex, Mode};

/// Each is followed by all 256 bytes.
const BEGINNINGS: [&[u8]; 7] =
    [b"\x1B[", b"\x1B[>", b"\x1B[>6", b"\x1B[>0", b"\x1B[0", b"\x1B[6", b"\x1B[>6;"];
const START: &[u8] = b"001850\n";
/// Two fields, so that a full block is longer than one with the field that a key changed.
const FORM: &[u8] = b"\x1Bc\x1B[12;40H\x1BV.\x1BW\x1B[5;7H";
/// Both modes of that number away from their fresh setting.
const SWITCHED: &[u8] = b"\x1B[6h\x1B[>6l";
/// The refusal is lifted, a character is typed, and a block is sent.
const KEYS: [u32; 3] = [268, b'Y' as u32, 266];
/// For an input line: its call, six lines of state, the rows of characters and those of marks.
const LINES_A_FRAME: usize = 1 + 6 + 24 + 24;

/// All bytes after one beginning, in one session.
pub struct Run {
    beginning: &'static [u8],
    switched: bool,
    /// In a frame of its own behind the byte.
    last: u8,
}

/// Each beginning with `h` and with `l` behind it; what has the private mark also with the modes switched before.
pub fn runs() -> Vec<Run> {
    let run = |beginning, switched, last| Run { beginning, switched, last };
    let mut all = Vec::new();
    for beginning in BEGINNINGS {
        all.extend([run(beginning, false, b'h'), run(beginning, false, b'l')]);
        // Only `h` switches back; `l` comes among the bytes.
        if beginning.contains(&b'>') {
            all.push(run(beginning, true, b'h'));
        }
    }
    all
}

impl Run {
    fn sequence(&self, byte: u8) -> Vec<u8> {
        [self.beginning, &[byte]].concat()
    }

    /// The form, the sequence in parts of this length, and what follows it.
    fn frames(&self, byte: u8, part: usize) -> Vec<Vec<u8>> {
        let modes = if self.switched { SWITCHED } else { b"" };
        let mut frames = vec![host_frame(&[FORM, modes].concat())];
        frames.extend(self.sequence(byte).chunks(part).map(host_frame));
        frames.push(host_frame(&[self.last]));
        frames.extend(KEYS.map(key_frame));
        frames
    }

    fn whole(&self, byte: u8) -> Vec<Vec<u8>> {
        self.frames(byte, usize::MAX)
    }

    fn cut(&self, byte: u8) -> Vec<Vec<u8>> {
        self.frames(byte, 1)
    }

    /// One start, then for each byte the whole sequence and the cut one.
    pub fn input(&self) -> Vec<u8> {
        let mut text = START.to_vec();
        for byte in 0..=255 {
            for frame in self.whole(byte).into_iter().chain(self.cut(byte)) {
                put_hex(&mut text, &frame);
                text.push(b'\n');
            }
        }
        text
    }

    /// The first byte after which the cut sequence doesn't end as the whole one, with what each left.
    pub fn cut_unlike_whole(&self, output: &[u8]) -> Option<(u8, Vec<u8>, Vec<u8>)> {
        let printed: Vec<&[u8]> = lines(output).collect();
        let mut frames = printed.chunks(LINES_A_FRAME).skip(1);
        let mut left = |count: usize, parts: usize| {
            let frames: Vec<_> = frames.by_ref().take(count).collect();
            left_by(&frames, parts)
        };
        (0..=255).find_map(|byte| {
            let whole = left(self.whole(byte).len(), 1);
            let cut = left(self.cut(byte).len(), self.sequence(byte).len());
            (whole != cut).then_some((byte, whole, cut))
        })
    }

    /// The beginning or a whole sequence, and what is around it.
    fn name(&self, sequence: &[u8]) -> String {
        let mut digits = Vec::new();
        put_hex(&mut digits, sequence);
        let before = if self.switched { "modes switched, " } else { "" };
        format!("{before}{}, then {}", String::from_utf8_lossy(&digits), char::from(self.last))
    }
}

/// Of a case's frames: what those of the sequence stored and sent together, the terminal then, and all that follows.
fn left_by(frames: &[&[&[u8]]], parts: usize) -> Vec<u8> {
    let (sequence, rest) = frames[1..].split_at(parts);
    let (mut numbers, mut stored, mut sent) = (Vec::new(), 0, Vec::new());
    for frame in sequence {
        let digits = String::from_utf8_lossy(&frame[0][6..14]);
        stored += u32::from_str_radix(&digits, 16).unwrap_or(0);
        sent.extend_from_slice(&frame[0][14..]);
        numbers.push(&frame[0][..2]);
    }
    numbers.dedup();
    let sum = format!("{} {stored:08X} ", String::from_utf8_lossy(&numbers.concat())).into_bytes();
    let terminal = sequence[parts - 1][1..].join(&b'\n');
    [[sum, sent].concat(), terminal, rest.concat().join(&b'\n')].join(&b'\n')
}

/// True if both programs print the same for every sequence, and its cut ends as the whole.
pub fn bytes(program: &[String]) -> Result<bool, String> {
    let comparison = Comparison { mode: Mode::Dump, program };
    let runs = runs();
    for one in &runs {
        let input = one.input();
        let mine = Mode::Dump.run(&input);
        if run(program, &input)? != mine {
            println!("some byte after {} differs", one.name(one.beginning));
            comparison.show(&input)?;
            return Ok(false);
        }
        if let Some((byte, whole, cut)) = one.cut_unlike_whole(&mine) {
            println!("{}: whole and cut differ", one.name(&one.sequence(byte)));
            report(["whole", "cut  "], &whole, &cut);
            return Ok(false);
        }
    }
    println!("{} sequences agreed, each whole and cut", runs.len() * 256);
    Ok(true)
}
