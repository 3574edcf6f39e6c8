//! Hexadecimal lines, and the three programs over them: transcript, dump and calls.

use crate::terminal::{self, Answer, State};
use crate::wrong;

pub const ROOM: usize = 65_536;
/// Characters, and marks, that `calls` keeps.
pub const KEPT: usize = 8_192;
/// Frame 28's number for the byte at which a command was refused; 20 up to it are the tab stops.
pub const REFUSED_AT: usize = 180;
/// Frame 28's number for the flag that makes key 266 send full blocks.
pub const FULL: usize = 181;
pub const FIELDS: usize = FULL + 1;
const FILL: u8 = 0xA5;

/// A program over lines: it prints what one input line gives.
pub trait Program {
    fn line(&mut self, line: &[u8], out: &mut Vec<u8>);
}

#[derive(Clone, Copy, Debug, PartialEq, Eq)]
pub enum Mode {
    Transcript,
    Dump,
    Calls,
}

impl Mode {
    pub fn named(name: &str) -> Option<Mode> {
        match name {
            "transcript" => Some(Mode::Transcript),
            "dump" => Some(Mode::Dump),
            "calls" => Some(Mode::Calls),
            _ => None,
        }
    }

    pub fn name(self) -> &'static str {
        match self {
            Mode::Transcript => "transcript",
            Mode::Dump => "dump",
            Mode::Calls => "calls",
        }
    }

    /// The first byte of a host frame whose bytes a shrinker may take away.
    pub fn host_frame(self) -> &'static [u8] {
        match self {
            Mode::Calls => b"21",
            _ => b"01",
        }
    }

    /// The whole output for a whole input.
    pub fn run(self, input: &[u8]) -> Vec<u8> {
        let mut program: Box<dyn Program> = match self {
            Mode::Transcript => Box::new(Session::new()),
            Mode::Dump => Box::new(Dump(Session::new())),
            Mode::Calls => Box::new(Calls::new()),
        };
        let mut out = Vec::new();
        for line in lines(input) {
            program.line(line, &mut out);
        }
        out
    }
}

/// What stands before each newline, and a last part without one.
pub fn lines(input: &[u8]) -> impl Iterator<Item = &[u8]> {
    let parts = input.split_inclusive(|&byte| byte == b'\n');
    parts.map(|line| line.strip_suffix(b"\n").unwrap_or(line))
}

/// Pairs of upper-case digits only, at least one pair.
pub fn unhex(line: &[u8]) -> Option<Vec<u8>> {
    let digit = |byte: u8| match byte {
        b'0'..=b'9' => Some(byte - b'0'),
        b'A'..=b'F' => Some(byte - b'A' + 10),
        b'a'..=b'f' if wrong::is(29) => Some(byte - b'a' + 10),
        _ => None,
    };
    if line.is_empty() || line.len() % 2 != 0 {
        return None;
    }
    line.chunks(2).map(|pair| Some(digit(pair[0])? << 4 | digit(pair[1])?)).collect()
}

pub fn put_hex(out: &mut Vec<u8>, bytes: &[u8]) {
    const DIGITS: &[u8; 16] = b"0123456789ABCDEF";
    for &byte in bytes {
        out.push(DIGITS[usize::from(byte >> 4)]);
        out.push(DIGITS[usize::from(byte & 15)]);
    }
}

fn put_line(out: &mut Vec<u8>, bytes: &[u8]) {
    put_hex(out, bytes);
    out.push(b'\n');
}

/// The marks of cells, four digits each.
fn put_marks_line(out: &mut Vec<u8>, marks: &[u16]) {
    for value in marks {
        put_hex(out, &value.to_be_bytes());
    }
    out.push(b'\n');
}

fn two(bytes: &[u8]) -> u16 {
    u16::from_be_bytes([bytes[0], bytes[1]])
}

fn four(bytes: &[u8]) -> u32 {
    u32::from_be_bytes([bytes[0], bytes[1], bytes[2], bytes[3]])
}

/// A transcript's frame of host bytes.
pub fn host_frame(bytes: &[u8]) -> Vec<u8> {
    [&[0x01], bytes].concat()
}

/// A transcript's frame of a key; its number has two bytes there.
pub fn key_frame(key: u32) -> Vec<u8> {
    let [.., high, low] = key.to_be_bytes();
    vec![0x02, high, low]
}

/// The transcript program: one terminal between good starts, none before or after a refused one.
pub struct Session {
    pub going: bool,
    pub state: State,
    pub characters: Vec<u8>,
    pub marks: Vec<u16>,
    output: Vec<u8>,
}

impl Session {
    pub fn new() -> Session {
        let (characters, marks) = (Vec::new(), Vec::new());
        Session { going: false, state: State::ZERO, characters, marks, output: vec![0; ROOM] }
    }

    /// A refused start ends the session before it.
    fn start(&mut self, rows: u8, columns: u8, out: &mut Vec<u8>) {
        let cells = usize::from(rows) * usize::from(columns);
        let (mut characters, mut marks) = (vec![0; cells], vec![0; cells]);
        let (rows, columns) = (u16::from(rows), u16::from(columns));
        let (state, answer) = terminal::start(rows, columns, &mut characters, &mut marks);
        if wrong::is(24) && answer.number != 0 {
            put_line(out, &[1, 0, 0, 0, 0, 0, 0]);
            return;
        }
        self.going = answer.number == 0;
        (self.state, self.characters, self.marks) = (state, characters, marks);
        self.print(answer, out);
    }

    /// On 3 the rest of the frame is another call, with a line of its own.
    fn host(&mut self, mut bytes: &[u8], out: &mut Vec<u8>) {
        loop {
            let (state, characters, marks) =
                (&mut self.state, &mut self.characters, &mut self.marks);
            let answer = terminal::host(state, characters, marks, bytes, &mut self.output);
            self.print(answer, out);
            bytes = &bytes[answer.taken..];
            if answer.number != 3 {
                return;
            }
        }
    }

    fn key(&mut self, key: u16, out: &mut Vec<u8>) {
        let (state, characters, marks) = (&mut self.state, &mut self.characters, &mut self.marks);
        let answer = terminal::key(state, characters, marks, u32::from(key), &mut self.output);
        self.print(answer, out);
    }

    /// Number, cursor, stored count, bytes sent.
    fn print(&self, answer: Answer, out: &mut Vec<u8>) {
        put_hex(out, &[answer.number, self.state.row as u8, self.state.column as u8]);
        put_hex(out, &answer.stored.to_be_bytes());
        put_line(out, &self.output[..answer.sent]);
    }
}

impl Program for Session {
    fn line(&mut self, line: &[u8], out: &mut Vec<u8>) {
        match unhex(line).as_deref() {
            Some(&[0x00, rows, columns]) => self.start(rows, columns, out),
            Some([0x01, bytes @ ..]) if self.going && bytes.len() <= 255 => self.host(bytes, out),
            Some(&[0x02, high, low]) if self.going => self.key(two(&[high, low]), out),
            _ => put_line(out, &[0xFF]),
        }
    }
}

/// The transcript's lines, each input line followed by the terminal if a session is going on.
struct Dump(Session);

impl Program for Dump {
    fn line(&mut self, line: &[u8], out: &mut Vec<u8>) {
        self.0.line(line, out);
        if self.0.going {
            self.terminal(out);
        }
    }
}

impl Dump {
    fn terminal(&self, out: &mut Vec<u8>) {
        let state = &self.0.state;
        let half = &state.half;
        let flag = u8::from;
        let mut say = |text: String| out.extend_from_slice(text.as_bytes());
        say(format!("size {:05} {:05}\n", state.rows, state.columns));
        say(format!("cursor {:05} {:05}\n", state.row, state.column));
        let (erasure, full) = (flag(state.erasure), flag(state.full));
        say(format!("pen {:04X} erasure {erasure} full {full}\n", state.pen));
        let (manual, soft) = (flag(state.manual), flag(state.soft));
        say(format!("manual {manual} soft {soft} message {:05} ", state.message));
        say(format!("byte {:02X}\n", state.refused_at));
        let stops = state.stops.iter().map(|&stop| if stop { 'T' } else { '.' });
        say(format!("stops {}\n", stops.collect::<String>()));
        say(format!("half {:05} spoilt {} ", half.kind, flag(half.spoilt)));
        let arguments = half.arguments.iter().map(|n| format!(" {n:05}"));
        say(format!("count {:05} arguments{}\n", half.count, arguments.collect::<String>()));
        for row in self.0.characters.chunks(usize::from(state.columns)) {
            out.push(b'|');
            out.extend_from_slice(row);
            out.extend_from_slice(b"|\n");
        }
        for row in self.0.marks.chunks(usize::from(state.columns)) {
            out.push(b':');
            put_marks_line(out, row);
        }
    }
}

/// The calls program: single calls on lent parts of any length and a state that may be damaged.
pub struct Calls {
    pub state: State,
    pub characters: Vec<u8>,
    pub marks: Vec<u16>,
    pub lent: (usize, usize),
    pub room: usize,
    output: Vec<u8>,
}

impl Calls {
    pub fn new() -> Calls {
        Calls {
            state: State::ZERO,
            characters: vec![0; KEPT],
            marks: vec![0; KEPT],
            lent: (1_920, 1_920),
            room: ROOM,
            output: vec![0; ROOM],
        }
    }

    /// None for a line that isn't a good frame.
    fn frame(&mut self, frame: &[u8], out: &mut Vec<u8>) -> Option<()> {
        let (&first, rest) = frame.split_first()?;
        match (first, rest.len()) {
            (0x20, 4) => {
                self.output.fill(FILL);
                let characters = &mut self.characters[..self.lent.0];
                let marks = &mut self.marks[..self.lent.1];
                let (state, answer) =
                    terminal::start(two(rest), two(&rest[2..]), characters, marks);
                self.state = state;
                self.print(answer, out);
                return Some(());
            }
            (0x21, 0..=255) => {
                self.host(rest, out);
                return Some(());
            }
            (0x22, 5..=254) => {
                let length = four(rest) as usize;
                if length > terminal::MOST_HOST_BYTES + 1 {
                    return None;
                }
                let bytes: Vec<u8> = rest[4..].iter().copied().cycle().take(length).collect();
                self.host(&bytes, out);
                return Some(());
            }
            (0x23, 4) => {
                self.output.fill(FILL);
                let characters = &mut self.characters[..self.lent.0];
                let marks = &mut self.marks[..self.lent.1];
                let output = &mut self.output[..self.room];
                let answer = terminal::key(&mut self.state, characters, marks, four(rest), output);
                self.print(answer, out);
                return Some(());
            }
            (0x24, 4) => {
                let lent = (usize::from(two(rest)), usize::from(two(&rest[2..])));
                if lent.0 > KEPT || lent.1 > KEPT {
                    return None;
                }
                self.lent = lent;
            }
            (0x25, 4) => {
                let room = four(rest) as usize;
                if room > ROOM {
                    return None;
                }
                self.room = room;
            }
            (0x26, 3) => *self.characters.get_mut(usize::from(two(rest)))? = rest[2],
            (0x27, 4) => *self.marks.get_mut(usize::from(two(rest)))? = two(&rest[2..]),
            (0x28, 4) => set_field(&mut self.state, two(rest), two(&rest[2..]))?,
            _ => return None,
        }
        put_line(out, &[0]);
        Some(())
    }

    fn host(&mut self, bytes: &[u8], out: &mut Vec<u8>) {
        self.output.fill(FILL);
        let characters = &mut self.characters[..self.lent.0];
        let marks = &mut self.marks[..self.lent.1];
        let output = &mut self.output[..self.room];
        let answer = terminal::host(&mut self.state, characters, marks, bytes, output);
        self.print(answer, out);
    }

    fn print(&self, answer: Answer, out: &mut Vec<u8>) {
        put_hex(out, &[answer.number]);
        for count in [answer.taken as u32, answer.sent as u32, answer.stored] {
            put_hex(out, &count.to_be_bytes());
        }
        put_line(out, &self.output[..answer.sent]);
        let past = &self.output[answer.sent..self.room.max(answer.sent)];
        let spoilt = past.iter().filter(|&&byte| byte != FILL).count();
        out.extend_from_slice(format!("{spoilt:05} ").as_bytes());
        for value in fields(&self.state) {
            put_hex(out, &value.to_be_bytes());
        }
        out.push(b'\n');
        put_line(out, &self.characters[..self.lent.0]);
        put_marks_line(out, &self.marks[..self.lent.1]);
    }
}

impl Program for Calls {
    fn line(&mut self, line: &[u8], out: &mut Vec<u8>) {
        let done = unhex(line).and_then(|frame| self.frame(&frame, out));
        if done.is_none() {
            put_line(out, &[0xFF]);
        }
    }
}

/// All fields of the state, in the order of frame 28.
pub fn fields(state: &State) -> Vec<u16> {
    let half = &state.half;
    let mut list = vec![state.rows, state.columns, state.row, state.column, state.pen];
    list.extend([state.erasure, state.manual, state.soft].map(u16::from));
    list.extend([state.message, half.kind, half.spoilt.into(), half.count].map(u16::from));
    list.extend(half.arguments);
    list.extend(state.stops.map(u16::from));
    list.extend([u16::from(state.refused_at), state.full.into()]);
    list
}

/// Sets one field; None for an unknown field or a byte above 255.
fn set_field(state: &mut State, field: u16, value: u16) -> Option<()> {
    let byte = u8::try_from(value).ok();
    let flag = value != 0;
    let half = &mut state.half;
    match field {
        0 => state.rows = value,
        1 => state.columns = value,
        2 => state.row = value,
        3 => state.column = value,
        4 => state.pen = value,
        5 => state.erasure = flag,
        6 => state.manual = flag,
        7 => state.soft = flag,
        8 => state.message = byte?,
        9 => half.kind = byte?,
        10 => half.spoilt = flag,
        11 => half.count = byte?,
        12..=19 => half.arguments[usize::from(field) - 12] = value,
        20..=179 => state.stops[usize::from(field) - 20] = flag,
        180 => state.refused_at = byte?,
        181 => state.full = flag,
        _ => return None,
    }
    Some(())
}
