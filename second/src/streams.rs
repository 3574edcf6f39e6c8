//! Plausible and implausible host streams and key bursts, aimed at the page they will meet.

use crate::random::Random;
use crate::terminal::{State, COLUMNS, KINDS, PROTECTED, REQUIRED, ROWS};
use std::ops::Range;

const FINALS: &[u8] = b"ABCDEFGdHfIZWJKmhlnoHfmJKGo";
/// Final bytes after ESC [, and second bytes after ESC, that no command has.
const UNLISTED: &[u8] = b"@LMNOPQRSTUVXY[\\]^_`abcegijkpqrstuvwxyz{|}~";
const UNLISTED_AFTER_ESCAPE: &[u8] =
    b"0123456789:;<=>?@ABCFGIJKLNOPQRTUXYZ\\]^_adefghijklmnopqrstuvwxyz{|}~";
/// 267 above all, the send key that M-106 took away.
const UNKNOWN_KEYS: &[u32] =
    &[267, 267, 267, 267, 0, 1, 13, 27, 31, 127, 128, 200, 255, 269, 270, 288, 512, 65_535];
const NOISE: &[u8] = &[
    0x00, 0x07, 0x08, 0x09, 0x0A, 0x0B, 0x0D, 0x0E, 0x17, 0x18, 0x19, 0x1A, 0x1B, 0x1C, 0x1F, 0x7F,
    0x80, 0x84, 0x85, 0x8D, 0x9A, 0x9B, 0xA0, 0xFF,
];

/// What a cell of every kind takes, with 20 the likeliest.
const TAKEN_EVERYWHERE: &[u8] = b"    -.";
const DIGITS: &[u8] = b"0123456789";
const LETTERS: &[u8] = b"AZazMmOolISBQDef";
/// What looks like a digit or a letter, and what stands beside them or their marks in the code table.
const NEARLY_TAKEN: &[u8] = b",,+'/:;@[`{Ol0A9z-. _*";
/// The pen for each kind of unprotected cell, with characters that such a cell takes.
const UNPROTECTED_KINDS: &[(&str, &[u8])] = &[
    ("\x1BW", NEARLY_TAKEN),
    ("\x1B[0o", NEARLY_TAKEN),
    ("\x1B[o", LETTERS),
    ("\x1B[3o", DIGITS),
    ("\x1B[3o", DIGITS),
    ("\x1B[03o", DIGITS),
    ("\x1B[4o", LETTERS),
    ("\x1B[4o", LETTERS),
    ("\x1B[3o\x1B[20o", DIGITS),
];
/// Pens with required: after each kind, by value, twice, taken off and added again, and with `m` behind.
const REQUIRED_PENS: &[&str] = &[
    "\x1BW\x1B[20o",
    "\x1B[0o\x1B[20o",
    "\x1B[o\x1B[020o",
    "\x1B[3o\x1B[20o",
    "\x1B[3o\x1B[20o\x1B[20o",
    "\x1B[3o\x1B[20o\x1B[0m",
    "\x1B[4o\x1B[20o",
    "\x1B[4o\x1B[00020o\x1B[20o",
    "\x1B[3o\x1B[20o\x1B[4o\x1B[20o",
];
/// Pens without: it was never there, or one of the commands that can has taken it off.
const NOT_REQUIRED_PENS: &[&str] = &[
    "\x1BW",
    "\x1B[3o",
    "\x1B[4o",
    "\x1BW\x1B[20o\x1BW",
    "\x1B[3o\x1B[20o\x1B[0o",
    "\x1BW\x1B[20o\x1B[o",
    "\x1B[3o\x1B[20o\x1B[3o",
    "\x1B[0o\x1B[20o\x1B[20o\x1B[4o",
    "\x1B[4o\x1B[20o\x1BV\x1B[3o",
    "\x1BW\x1B[20o\x1B[1o\x1BW",
];
/// One of these among 20s fills a field; some of them not every kind of cell takes, and some look nearly blank.
const FILLING: &[u8] = b"...-_0179AzO,!";

/// The send mode's commands as they are taken: the number is read by its value.
const SEND_MODES: &[&str] =
    &[">6h", ">6l", ">6h", ">6l", ">6h", ">6l", ">06h", ">06l", ">0006h", ">0000000006l"];
/// One thing is wrong with it: the number, the mark or its place, the final byte, an argument more.
pub const NEARLY_SEND_MODES: &[&str] = &[
    ">5h", ">5l", ">h", ">l", ">6;h", ">6;l", "0>6h", "0>6l", "6>h", "6>l", ">>6h", ">6m",
    ">10006h", ">10006l", ";>6h", ">6 l", "?6h",
];
/// Further off, or wrong at another place.
pub const HARDLY_SEND_MODES: &[&str] = &[
    ">7l", ">66h", ">60l", ">0h", ">9999h", ">65542l", ">6;6h", ">;6l", ">;h", "00>6h", "6>6h",
    "6;>6l", "6;>h", ">6>l", "?>6h", ">?6l", "<6l", "=6h", ">6n", ">6H", ">6o", ">6L", ">6i",
    ">4m", ">19h", "> 6h", ">6 h", ">6:l", ">6?h", ">6=l", ">6!h",
];

/// Beginnings of a sequence of each kind, spoilt or not, with enough arguments and with too many.
pub const BEGUN: &[&str] = &[
    "\x1B",
    "\x1B(",
    "\x1B #",
    "\x1B[",
    "\x1B[1",
    "\x1B[20",
    "\x1B[6;6",
    "\x1B[;;;;;;;",
    "\x1B[?",
    "\x1B[5 ",
    "\x1B[10000",
    "\x1B[;;;;;;;;1",
    "\x1B[>",
    "\x1B[>6",
    "\x1B[>06",
    "\x1B[>6;",
    "\x1B[>10006",
    "\x1B[0>6",
];

/// Sorts of beginnings that `probe_byte` puts a byte behind.
const SORTS_OF_BEGINNINGS: usize = 8;
/// Its steps through every byte behind every sort.
pub const PROBES: usize = 256 * SORTS_OF_BEGINNINGS;

/// Host bytes or a key, in a scene where their order matters.
pub enum Part {
    Host(Vec<u8>),
    Key(u32),
}

/// A key to type: any, or one that some kind of cell takes or nearly does.
fn typed(random: &mut Random) -> u32 {
    let character = match random.below(10) {
        0..=2 => random.between(0x20, 0x7E) as u8,
        3..=5 => random.pick(NEARLY_TAKEN),
        6 => random.pick(TAKEN_EVERYWHERE),
        7 => random.pick(DIGITS),
        _ => random.pick(LETTERS),
    };
    character.into()
}

pub fn any_size(random: &mut Random) -> (u16, u16) {
    (random.pick(&ROWS), random.pick(&COLUMNS))
}

/// Writes host bytes for a page of known size and marks.
pub struct Stream<'a> {
    pub random: &'a mut Random,
    rows: u16,
    columns: u16,
    marks: &'a [u16],
    bytes: Vec<u8>,
}

impl<'a> Stream<'a> {
    /// A state or page that isn't usable is taken for a plain one of 24 by 80.
    pub fn new(random: &'a mut Random, state: &State, marks: &'a [u16]) -> Stream<'a> {
        let cells = usize::from(state.rows) * usize::from(state.columns);
        let usable = cells == marks.len() && cells > 0;
        let (rows, columns) = if usable { (state.rows, state.columns) } else { (24, 80) };
        let marks = if usable { marks } else { &[] };
        Stream { random, rows, columns, marks, bytes: Vec::new() }
    }

    fn put(&mut self, bytes: &[u8]) {
        self.bytes.extend_from_slice(bytes);
    }

    fn escape(&mut self, byte: u8) {
        self.put(&[0x1B, byte]);
    }

    fn protected(&self, place: usize) -> bool {
        self.marks.get(place).map_or(false, |marks| marks & PROTECTED != 0)
    }

    /// Both protected, or both numeric, and so on, and both required or neither.
    fn same_kind(&self, one: usize, other: usize) -> bool {
        let kind =
            |place: usize| self.marks.get(place).map_or(0, |marks| marks & (KINDS | REQUIRED));
        kind(one) == kind(other)
    }

    fn cell(&self, place: usize) -> (u16, u16) {
        let width = usize::from(self.columns);
        ((place / width) as u16 + 1, (place % width) as u16 + 1)
    }

    /// Just before or behind the end of a row, from this one on, that a field runs over.
    fn row_end(&mut self, row: u16) -> (u16, u16) {
        let width = usize::from(self.columns);
        let run_over = |row: &u16| {
            let end = usize::from(*row) * width;
            !self.protected(end - 1) && !self.protected(end)
        };
        let row = (row..self.rows).find(run_over).unwrap_or(self.rows - 1);
        let off = self.random.below(3) as u16;
        match self.random.below(2) {
            0 => (row, self.columns - off),
            _ => (row + 1, 1 + off),
        }
    }

    /// A cell worth visiting: most often at a border of protection or kind, else a corner or an edge.
    pub fn target(&mut self) -> (u16, u16) {
        let row = self.random.between(1, self.rows.into()) as u16;
        let column = self.random.between(1, self.columns.into()) as u16;
        match self.random.below(16) {
            0 => (1, 1),
            1 => (self.rows, self.columns),
            2 => (self.rows, column),
            3 => (row, self.columns),
            4 => (row, 1),
            5 => (1, column),
            6 => (row, column),
            7 | 8 => self.row_end(row),
            _ => {
                let width = usize::from(self.columns);
                let from = usize::from(row - 1) * width + usize::from(column - 1);
                let border =
                    (from..self.marks.len().saturating_sub(1)).find(|&p| !self.same_kind(p, p + 1));
                let place = border.map_or(from, |p| p + self.random.below(2));
                self.cell(place)
            }
        }
    }

    fn goto(&mut self, (row, column): (u16, u16)) {
        let text = match self.random.below(8) {
            0..=3 => format!("\x1B[{row};{column}H"),
            4 | 5 => format!("\x1B[{row};{column}f"),
            6 => format!("\x1B[{row}d\x1B[{column}G"),
            _ => format!("\x1B[0{row};00{column}H"),
        };
        self.put(text.as_bytes());
    }

    fn aim(&mut self) {
        let cell = self.target();
        self.goto(cell);
    }

    /// The bytes that bring the cursor to a cell worth visiting.
    pub fn aimed(mut self) -> Vec<u8> {
        self.aim();
        self.bytes
    }

    fn text(&mut self, most: usize) {
        let count = self.random.between(1, most);
        self.letters(count);
    }

    fn letters(&mut self, count: usize) {
        for _ in 0..count {
            let letter = self.random.between(0x20, 0x7E) as u8;
            self.bytes.push(letter);
        }
    }

    fn pen(&mut self) {
        let list = self.random.pick(&["0", "1", "4", "5;7", "8", "1;4;5;7;8", "0;1", ""]);
        self.put(format!("\x1B[{list}m").as_bytes());
    }

    /// The pen protected, by either command.
    fn protect(&mut self) {
        let command = self.random.pick(&["\x1BV", "\x1BV", "\x1BV", "\x1BV", "\x1B[1o"]);
        self.put(command.as_bytes());
    }

    /// The pen unprotected: plain in most cases, else of any kind that is.
    fn unprotect(&mut self) {
        let (command, _) = self.random.pick(UNPROTECTED_KINDS);
        let plain = self.random.chance(60);
        self.put(if plain { b"\x1BW" } else { command.as_bytes() });
    }

    /// Labels in protected cells with fields between and behind them.
    fn form(&mut self) {
        if self.random.chance(20) {
            self.put(b"\x1B[6h\x1B[2J\x1B[6l");
        }
        for _ in 0..self.random.between(2, 9) {
            self.aim();
            if self.random.chance(25) {
                self.pen();
            }
            self.protect();
            if self.random.chance(8) {
                self.pen();
            }
            self.text(10);
            self.unprotect();
            match self.random.below(3) {
                0 => self.text(12),
                1 => {
                    let n = self.random.between(1, 14);
                    self.put(format!("\x1B[{n}C").as_bytes());
                }
                _ => {}
            }
            if self.random.chance(70) {
                self.put(b"\x1BV|\x1BW");
            }
        }
    }

    /// A field laid as text over this place, a row's end or the page's, between protected cells.
    /// At the page's end the text goes on at 1;1, and makes two fields. The cursor ends near it.
    fn lay_over(&mut self, end: usize) {
        let width = usize::from(self.columns);
        let cells = usize::from(self.rows) * width;
        let long = self.random.chance(20);
        let before = self.random.between(1, if long { width - 1 } else { 6 });
        let rows_more = self.random.pick(&[0, 0, 0, 0, 1, 2]);
        let after = self.random.between(1, 6) + rows_more * width;
        self.goto(self.cell(end - before - 1));
        self.put(b"\x1BV|");
        self.unprotect();
        self.letters(before + after);
        self.put(b"\x1BV|\x1BW");
        let place = match self.random.below(2) {
            0 => end - self.random.between(1, before.min(3)),
            _ => end + self.random.below(after.min(3)),
        };
        self.goto(self.cell(place % cells));
    }

    /// Host text for cells of one kind: most is taken there, some anywhere, some not by key.
    fn letters_for(&mut self, taken: &[u8], count: usize) {
        for _ in 0..count {
            let letter = match self.random.below(20) {
                0..=7 => self.random.pick(TAKEN_EVERYWHERE),
                8..=15 => self.random.pick(taken),
                16..=18 => self.random.pick(NEARLY_TAKEN),
                _ => self.random.between(0x20, 0x7E) as u8,
            };
            self.bytes.push(letter);
        }
    }

    /// Where a field of this length begins: often so that it runs over a row's end, or the page's.
    fn start_of_field(&mut self, length: usize) -> usize {
        let width = usize::from(self.columns);
        let rows = usize::from(self.rows);
        let before = self.random.between(1, (length - 1).clamp(1, width - 1));
        match self.random.below(10) {
            0..=4 => self.random.between(1, rows - 1) * width - before,
            5 => rows * width - before,
            _ => self.random.between(1, rows * width - length - 1),
        }
    }

    /// One field with cells of several kinds, between protected ones. The cursor ends in it, most
    /// often near its end, or on the protected cell before it. Locks are lifted for the keys.
    pub fn mixed_field(mut self) -> Vec<u8> {
        self.escape(b'b');
        let cells = usize::from(self.rows) * usize::from(self.columns);
        let length = self.random.between(2, 12);
        let start = self.start_of_field(length);
        self.goto(self.cell(start - 1));
        self.protect();
        self.put(b"|");
        let mut left = length;
        while left > 0 {
            let count = self.random.between(1, left.min(5));
            let (command, taken) = self.random.pick(UNPROTECTED_KINDS);
            self.put(command.as_bytes());
            if self.random.chance(20) {
                self.pen();
            }
            self.letters_for(taken, count);
            left -= count;
        }
        self.protect();
        self.put(b"|");
        self.unprotect();
        let place = match self.random.below(20) {
            0..=2 => start - 1,
            3..=9 => start + length - self.random.between(1, length.min(3)),
            _ => start + self.random.below(length),
        };
        self.goto(self.cell(place % cells));
        self.bytes
    }

    /// A page with no protected cell or just one; the cursor ends at a row's end.
    fn bare_page(&mut self) {
        let bare = self.random.pick(&["\x1Bc", "\x1BW\x1B[6h\x1B[2J\x1B[6l"]);
        self.put(bare.as_bytes());
        for _ in 0..self.random.between(1, 3) {
            self.aim();
            self.text(4);
        }
        if self.random.chance(65) {
            self.aim();
            self.put(b"\x1BV|\x1BW");
        }
        let row = self.random.between(1, self.rows.into()) as u16;
        let cell = self.row_end(row);
        self.goto(cell);
    }

    /// Fields that a row's end could cut, or the page's end join; locks are lifted for the keys.
    pub fn long_fields(mut self) -> Vec<u8> {
        self.escape(b'b');
        let width = usize::from(self.columns);
        match self.random.below(10) {
            0..=4 => {
                let row = self.random.between(1, usize::from(self.rows) - 1);
                self.lay_over(row * width);
            }
            5 | 6 => self.lay_over(usize::from(self.rows) * width),
            _ => self.bare_page(),
        }
        if self.random.chance(25) {
            self.escape(b'S');
        }
        self.bytes
    }

    /// Some rows of alternating cells, or in a short period that runs on over a row's end.
    fn dense_rows(&mut self) {
        let row = self.random.between(1, self.rows.into()) as u16;
        self.goto((row, 1));
        let period = self.random.between(2, 5);
        self.escape(b'V');
        for _ in 0..usize::from(self.columns) / 2 {
            self.put(b"#");
            self.put(if period == 2 { b"\x1B[C" } else { b"\x1B[2C" });
            if self.random.chance(4) {
                self.put(b"\x1BW?\x1BV");
            }
        }
        self.escape(b'W');
    }

    /// A whole page of alternating cells, painted through tab stops on every second column.
    pub fn dense_page(mut self) -> Vec<u8> {
        self.put(b"\x1Bc");
        let shift = self.random.below(2) as u16;
        self.put(format!("\x1B[{}G", 1 + shift).as_bytes());
        for _ in 0..self.columns / 2 {
            self.put(b"\x1BH\x1B[2C");
        }
        self.put(b"\x1B[H\x1BV");
        for row in 1..=self.rows {
            if shift == 1 {
                self.put(b"\x09");
            }
            for column in 0..self.columns / 2 {
                self.put(&[b'!' + (column % 90) as u8, 0x09]);
            }
            if shift == 0 && row < self.rows {
                self.put(b"\r\n");
            }
        }
        self.put(b"\x1BW\x1B[H");
        // With 1;1 in a field too, an even page's block is the longest there is.
        if self.random.chance(50) {
            self.put(b".");
        }
        self.bytes
    }

    /// A whole page of protected cells, with none or a few unprotected ones left in it.
    fn wall(&mut self) {
        let cells = usize::from(self.rows) * usize::from(self.columns);
        self.put(b"\x1BV\x1B[H");
        self.bytes.extend((0..cells).map(|place| b'#' + (place % 7) as u8));
        self.escape(b'W');
        for _ in 0..self.random.below(5).saturating_sub(1) {
            self.aim();
            self.text(2);
        }
    }

    /// A page in a few bytes that repeat: the period need not divide a row.
    pub fn pattern(mut self) -> Vec<u8> {
        match self.random.below(12) {
            0..=2 => return b"\x1BV#\x1BW.".to_vec(),
            3 => return b"\x1BV###########".to_vec(),
            4 => return b"\x1B[3o1\x1B[4oA\x1B[0o+\x1B[3o .-".to_vec(),
            _ => {}
        }
        self.protect();
        self.text(5);
        if self.random.chance(20) {
            self.pen();
        }
        self.unprotect();
        self.text(9);
        self.bytes
    }

    fn odd_number(&mut self) -> String {
        let edges = [
            self.rows - 1,
            self.rows,
            self.rows + 1,
            self.columns - 1,
            self.columns,
            self.columns + 1,
        ];
        match self.random.below(5) {
            0 | 1 => self.random.pick(&edges).to_string(),
            2 => self.random.below(200).to_string(),
            3 => self.random.below(12).to_string(),
            _ => {
                let list = [
                    "9999",
                    "09999",
                    "10000",
                    "99999",
                    "65536",
                    "65537",
                    "65541",
                    "4294967297",
                    "0",
                    "00",
                    "0001",
                    "00006",
                    "3",
                    "99",
                    "1000",
                    "9998",
                    "256",
                    "257",
                    "261",
                ];
                self.random.pick(&list).to_string()
            }
        }
    }

    /// An argument that the final byte lists, or one it may not.
    fn argument(&mut self, last: u8, index: usize, odd: usize) -> String {
        if self.random.chance(10) {
            return String::new();
        }
        if self.random.chance(odd) {
            return self.odd_number();
        }
        let listed: &[u16] = match last {
            b'A'..=b'F' | b'I' | b'Z' => &[0, 1, 2, 3, 5, 9, 40],
            b'W' => &[0, 0, 2, 5, 0, 2, 5, 1, 3, 4, 6],
            b'J' | b'K' => &[0, 1, 2],
            b'm' => &[0, 1, 4, 5, 7, 8],
            b'h' | b'l' => &[6],
            b'n' => &[5, 6],
            b'o' => &[0, 1, 3, 4, 0, 1, 3, 4, 3, 4, 2, 5, 20, 20],
            _ => &[0, 1, 2, 5, 6],
        };
        let number = match last {
            b'G' => self.random.between(1, self.columns.into()) as u16,
            b'H' | b'f' if index == 1 => self.random.between(0, self.columns.into()) as u16,
            b'd' | b'H' | b'f' => self.random.between(0, self.rows.into()) as u16,
            _ => self.random.pick(listed),
        };
        number.to_string()
    }

    /// A finished ESC [ sequence; `odd` is how many in a hundred go beyond what is listed.
    fn sequence(&mut self, odd: usize) {
        let last = if self.random.chance(96) {
            self.random.pick(FINALS)
        } else {
            self.random.between(0x40, 0x7E) as u8
        };
        let listed = match last {
            b'H' | b'f' => 2,
            b'm' | b'h' | b'l' => 8,
            _ => 1,
        };
        let count = match self.random.below(20) {
            _ if self.random.chance(odd / 3) => self.random.between(listed + 1, 10),
            0 => 0,
            1..=5 if listed == 8 => self.random.between(2, 8),
            _ => listed.min(2 - usize::from(self.random.chance(45))),
        };
        self.arguments(last, count, odd);
    }

    /// An ESC [ sequence of so many arguments.
    fn arguments(&mut self, last: u8, count: usize, odd: usize) {
        self.put(b"\x1B[");
        for index in 0..count {
            let argument = self.argument(last, index, odd);
            self.put(if index == 0 { b"" } else { b";" });
            self.put(argument.as_bytes());
        }
        self.put(&[last]);
    }

    fn command(&mut self) {
        match self.random.below(100) {
            0..=65 => self.sequence(15),
            66..=69 => self.private_form(),
            70..=78 => self.escape(b'V'),
            79..=84 => self.escape(b'W'),
            85 | 86 => self.escape(b'c'),
            87 => self.escape(b'`'),
            88 | 89 => self.escape(b'b'),
            _ => {
                let byte = self.random.pick(b"DEMHSHH");
                self.escape(byte);
            }
        }
        if self.random.chance(30) {
            self.text(3);
        }
    }

    /// A sequence with something in it that spoils, drops or restarts it.
    fn broken(&mut self) {
        let before = self.bytes.len();
        match self.random.below(10) {
            8 | 9 => self.private_form(),
            0 => {
                let byte = self.random.between(0x30, 0x7E) as u8;
                self.escape(byte);
            }
            1 => {
                let list = self.random.pick(&["6", "1", "0", "", "4", "5"]);
                let list = vec![list; self.random.between(7, 10)].join(";");
                let last = self.random.pick(b"mhlmhlHn");
                self.put(format!("\x1B[{list}").as_bytes());
                self.put(&[last]);
            }
            2 => {
                self.put(b"\x1B");
                for _ in 0..self.random.between(1, 3) {
                    let byte = self.random.between(0x20, 0x2F) as u8;
                    self.put(&[byte]);
                }
                let byte = self.random.between(0x30, 0x7E) as u8;
                self.put(&[byte]);
            }
            3 => {
                let number = self.random.pick(&["10000", "99999", "65537", "1;2;3;4;5;6;7;8;9"]);
                let rest = self.random.pick(&["", "1", ";1", "5;6", ";;", ";;;;;;;;;", "00000"]);
                let last = self.random.pick(FINALS);
                self.put(format!("\x1B[{number}{rest}").as_bytes());
                self.put(&[last]);
            }
            _ => self.command(),
        }
        if self.random.chance(65) {
            self.put_in_a_byte(before);
        }
    }

    /// Behind the ESC of the sequence that begins there.
    fn put_in_a_byte(&mut self, begins: usize) {
        if self.bytes.len() < begins + 2 {
            return;
        }
        let place = self.random.between(begins + 1, self.bytes.len() - 1);
        let byte = match self.random.below(4) {
            0 => self.random.between(0x20, 0x2F) as u8,
            1 => self.random.pick(b":<=>?:?"),
            2 => self.random.pick(NOISE),
            _ => self.random.byte(),
        };
        self.bytes.insert(place, byte);
    }

    fn send_mode(&mut self) {
        let form = self.random.pick(SEND_MODES);
        self.put(format!("\x1B[{form}").as_bytes());
    }

    /// A command for the send mode or nearly one, some with a byte in it that breaks it.
    fn private_form(&mut self) {
        let begins = self.bytes.len();
        let forms = self.random.pick(&[
            SEND_MODES,
            NEARLY_SEND_MODES,
            NEARLY_SEND_MODES,
            HARDLY_SEND_MODES,
        ]);
        let form = self.random.pick(forms);
        self.put(format!("\x1B[{form}").as_bytes());
        if self.random.chance(20) {
            self.put_in_a_byte(begins);
        }
    }

    /// Erasure mode has the send mode's number: commands for both, and an erasure that tells them apart.
    fn both_modes(&mut self) {
        for _ in 0..self.random.between(2, 4) {
            let form = self.random.pick(&["6h", "6l", ">6h", ">6l", "6;6h", ">06l"]);
            self.put(format!("\x1B[{form}").as_bytes());
        }
        if self.random.chance(60) {
            self.aim();
            let part = self.random.pick(&["K", "1K", "2K"]);
            self.put(format!("\x1B[{part}").as_bytes());
        }
    }

    /// What may switch the send mode, or must not.
    fn switch(&mut self) {
        match self.random.below(20) {
            0..=7 => self.send_mode(),
            8..=12 => self.private_form(),
            13..=15 => self.both_modes(),
            16 => self.put(b"\x1B[>6l\x1Bc"),
            17 => self.put(b"\x1B[>6l\x1Bc\x1B[2;2H\x1BV|\x1BW\x1B[H"),
            18 => self.put(b"\x1B`\x1B[>6l\x1Bb"),
            _ => self.put(b"\x1B[>6h\x1B[>6l\x1B[99d"),
        }
    }

    /// The host bytes so far become a part of their own.
    fn end_part(&mut self, parts: &mut Vec<Part>) {
        parts.push(Part::Host(std::mem::take(&mut self.bytes)));
    }

    /// Changes, switches of the send mode, and blocks by key and by command, on two fields or more.
    pub fn sending(mut self) -> Vec<Part> {
        let mut parts = Vec::new();
        self.escape(b'b');
        for _ in 0..self.random.between(1, 2) {
            self.aim();
            self.put(b"\x1BV|\x1BW");
        }
        self.end_part(&mut parts);
        for _ in 0..self.random.between(2, 3) {
            self.change_and_send(&mut parts);
        }
        parts
    }

    fn change_and_send(&mut self, parts: &mut Vec<Part>) {
        if self.random.chance(30) {
            self.switch();
            self.end_part(parts);
        }
        if self.random.chance(40) {
            self.aim();
            self.end_part(parts);
        }
        for _ in 0..self.random.below(3) {
            parts.push(Part::Key(typed(self.random)));
        }
        if self.random.chance(70) {
            self.switch();
            self.end_part(parts);
        }
        // What was refused locks the keys.
        if self.random.chance(60) {
            parts.push(Part::Key(268));
        }
        match self.random.below(10) {
            0..=5 => parts.push(Part::Key(266)),
            6 => parts.extend([Part::Key(266), Part::Key(266)]),
            7 => parts.push(Part::Key(267)),
            _ => parts.push(Part::Host(b"\x1BS".to_vec())),
        }
    }

    /// Of a field's cells, those that are required: all, some at either end, one, those that the row's end
    /// cuts off, or none.
    fn required_cells(&mut self, start: usize, length: usize) -> Range<usize> {
        let width = usize::from(self.columns);
        let in_first_row = length.min(width - start % width);
        let some = self.random.between(1, length);
        match self.random.below(10) {
            0..=2 => 0..length,
            3 => 0..self.random.pick(&[1, 1, some]),
            4 | 5 => length - some..length,
            6 => some - 1..some,
            7 | 8 => in_first_row..length,
            _ => 0..0,
        }
    }

    /// All 20s, half the time; else one character among them, or several.
    fn nearly_blank(&mut self, length: usize) -> Vec<u8> {
        let mut text = vec![b' '; length];
        let characters = self.random.pick(&[0, 0, 0, 0, 0, 1, 1, 1, 1, length]);
        for _ in 0..characters {
            let place = self.random.below(length);
            text[place] = self.random.pick(FILLING);
        }
        text
    }

    /// A field with required cells, or none, between protected ones; where it starts, and its length.
    fn required_field(&mut self) -> (usize, usize) {
        let width = usize::from(self.columns);
        let length = match self.random.below(10) {
            0 | 1 => 1,
            2 => self.random.between(width + 1, width + 6),
            _ => self.random.between(2, 8),
        };
        let start = self.start_of_field(length);
        let required = self.required_cells(start, length);
        let text = self.nearly_blank(length);
        self.goto(self.cell(start - 1));
        self.protect();
        self.put(b"|");
        for (cells, pens) in [
            (0..required.start, NOT_REQUIRED_PENS),
            (required.clone(), REQUIRED_PENS),
            (required.end..length, NOT_REQUIRED_PENS),
        ] {
            if !cells.is_empty() {
                let pen = self.random.pick(pens);
                self.put(pen.as_bytes());
                self.put(&text[cells]);
            }
        }
        self.protect();
        self.put(b"|");
        self.unprotect();
        (start, length)
    }

    /// A form of required fields, blank or not, and blocks by key in both settings and by command, with
    /// fields filled, blanked, erased or moved in between. Most often none stays blank, as that would hold
    /// back all later blocks of the page.
    pub fn required_form(mut self) -> Vec<Part> {
        let mut parts = Vec::new();
        self.escape(b'b');
        if self.random.chance(80) {
            self.erase_all();
        }
        let count = self.random.pick(&[1, 1, 1, 2, 2, 3, 4]);
        let fields: Vec<_> = (0..count).map(|_| self.required_field()).collect();
        self.end_part(&mut parts);
        for _ in 0..self.random.between(2, 4) {
            let field = self.random.pick(&fields);
            self.change_required(field, &mut parts);
            self.send_required(&mut parts);
        }
        match self.random.below(10) {
            0..=4 => fields.iter().for_each(|&field| self.fill(field)),
            5..=7 => self.erase_all(),
            _ => return parts,
        }
        self.end_part(&mut parts);
        self.send_required(&mut parts);
        parts
    }

    fn erase_all(&mut self) {
        let erased = self.random.pick(&["\x1Bc", "\x1BW\x1B[6h\x1B[2J\x1B[6l"]);
        self.put(erased.as_bytes());
    }

    /// A character of the host in the first cell and in the last, as the page's end may lie between them.
    fn fill(&mut self, (start, length): (usize, usize)) {
        for place in [start, start + length - 1] {
            self.goto_round(place);
            let pen = self.random.pick(REQUIRED_PENS);
            self.put(pen.as_bytes());
            self.put(b"7");
        }
    }

    fn goto_round(&mut self, place: usize) {
        let cells = usize::from(self.rows) * usize::from(self.columns);
        self.goto(self.cell(place % cells));
    }

    /// Something that fills a field or makes it blank, or makes it no required field, or nothing.
    fn change_required(&mut self, (start, length): (usize, usize), parts: &mut Vec<Part>) {
        let cell = self.random.below(length);
        self.goto_round(start + cell);
        match self.random.below(24) {
            0..=3 => self.bytes.clear(),
            4 => self.text(1),
            5 => {
                let part = self.random.pick(&["K", "1K", "2K"]);
                self.put(format!("\x1B[{part}").as_bytes());
            }
            6 => self.scroll(),
            // The pen is protected, so this is refused, and locks the keys.
            7 | 8 => {
                self.protect();
                self.put(b"\x1B[20o");
            }
            _ => {}
        }
        self.end_part(parts);
        let keys = match self.random.below(12) {
            0..=2 => vec![263],
            3 => vec![u32::from(b' ')],
            4..=6 => vec![self.random.pick(FILLING).into()],
            7 => vec![typed(self.random), 258, self.random.pick(&[264, 265])],
            8 => vec![typed(self.random), 263],
            9 => vec![260, typed(self.random)],
            _ => vec![],
        };
        parts.extend(keys.into_iter().map(Part::Key));
    }

    /// Key 266 with the mode as it is or switched, ESC S, or both.
    fn send_required(&mut self, parts: &mut Vec<Part>) {
        if self.random.chance(40) {
            self.send_mode();
            self.end_part(parts);
        }
        // What was refused locks the keys.
        if self.random.chance(80) {
            parts.push(Part::Key(268));
        }
        let by_command = || Part::Host(b"\x1BS".to_vec());
        match self.random.below(10) {
            0..=6 => parts.push(Part::Key(266)),
            7 => parts.extend([Part::Key(266), by_command()]),
            8 => parts.extend([by_command(), Part::Key(266)]),
            _ => parts.push(by_command()),
        }
    }

    /// One sequence, after locks are lifted, so that its refusal shows alone.
    pub fn probe(mut self) -> Vec<u8> {
        self.escape(b'b');
        self.aim();
        match self.random.below(20) {
            // Without a row the column isn't kept.
            0 => self.put(b"\x1B[f"),
            1 => self.put(b"\x1B[;f"),
            2..=5 => self.private_form(),
            _ => self.sequence(45),
        }
        self.bytes
    }

    /// One byte outside or inside a sequence of each kind; `step` goes through all of them.
    pub fn probe_byte(mut self, step: usize) -> Vec<u8> {
        self.escape(b'b');
        if self.random.chance(60) {
            self.aim();
        }
        let before = match step % SORTS_OF_BEGINNINGS {
            0 => "",
            1 => "\x1B",
            2 => self.random.pick(&["\x1B#", "\x1B (", "\x1B/"]),
            3 => "\x1B[",
            4 => self.random.pick(&["\x1B[3", "\x1B[2;", "\x1B[;;;;;;;", "\x1B[9999", "\x1B[6;6"]),
            5 => "\x1B[>",
            6 => self.random.pick(&["\x1B[>6", "\x1B[>6", "\x1B[>0", "\x1B[>06", "\x1B[>9999"]),
            _ => self.random.pick(&["\x1B[?", "\x1B[1 ", "\x1B[10000", "\x1B[;;;;;;;;", "\x1B[4:"]),
        };
        self.put(before.as_bytes());
        self.put(&[(step / SORTS_OF_BEGINNINGS % 256) as u8]);
        if self.random.chance(40) {
            let after =
                self.random.pick(&["m", "5", "0n", "4;H", "H", ";1m", "C", "\x18", "h", "l", "6h"]);
            self.put(after.as_bytes());
        }
        self.bytes
    }

    /// No command is so called, whatever its arguments.
    fn unknown(&mut self) {
        match self.random.below(4) {
            0 => {
                let byte = self.random.pick(UNLISTED_AFTER_ESCAPE);
                self.escape(byte);
            }
            1 => {
                let first = self.random.pick(&["(", "#", " ", "$)", "/ !"]);
                let byte = self.random.between(0x30, 0x7E) as u8;
                self.put(format!("\x1B{first}").as_bytes());
                self.put(&[byte]);
            }
            _ => {
                let last = self.random.pick(UNLISTED);
                let count = self.random.pick(&[0, 1, 1, 2, 3, 8]);
                self.arguments(last, count, 10);
            }
        }
    }

    /// Up to eight arguments, which is too many for most commands and spoils none.
    fn too_many(&mut self) {
        let last = self.random.pick(b"ABCDEFGdHfIZWJKno");
        let listed = if matches!(last, b'H' | b'f') { 2 } else { 1 };
        let most = self.random.pick(&[3, 3, 8]);
        let count = self.random.between(listed + 1, most);
        self.arguments(last, count, 10);
    }

    /// A listed command with one value that it doesn't take.
    fn value_not_allowed(&mut self) {
        let last = self.random.pick(b"dHfWJKmhlno");
        let beyond = self.random.pick(&[1, 2, 100, 9_000]);
        let (row, column) = (self.rows + beyond, self.columns + beyond);
        let list = match last {
            b'd' => row.to_string(),
            b'H' | b'f' => match self.random.below(4) {
                0 => format!("{row}"),
                1 => format!("{row};1"),
                2 => format!(";{column}"),
                _ => format!("{};{column}", self.rows),
            },
            b'm' => self.list_with_one(&["0", "1", "4", "7", ""], &["2", "3", "6", "9", "99"]),
            b'h' | b'l' => self.list_with_one(&["6"], &["0", "", "5", "7", "66", "9999"]),
            b'n' => self.random.pick(&["", "0", "1", "4", "7", "56", "9999"]).into(),
            b'W' => self.random.pick(&["1", "3", "4", "6", "25", "9999"]).into(),
            b'o' if self.random.chance(35) => {
                self.protect();
                self.random.pick(&["20", "20", "020"]).into()
            }
            b'o' => self.random.pick(&["2", "5", "6", "19", "21", "02", "34", "9999"]).into(),
            _ => self.random.pick(&["3", "4", "12", "9999"]).into(),
        };
        self.put(format!("\x1B[{list}").as_bytes());
        self.put(&[last]);
    }

    /// Up to eight arguments, one of them, at any place, from the second list.
    fn list_with_one(&mut self, good: &[&str], bad: &[&str]) -> String {
        let mut list = vec![self.random.pick(bad)];
        for _ in 0..self.random.pick(&[0, 0, 1, 1, 2, 7]) {
            let place = self.random.between(0, list.len());
            list.insert(place, self.random.pick(good));
        }
        list.join(";")
    }

    /// Spoilt in each of the ways, and often more than once, before a final byte of either sort.
    fn spoilt(&mut self) {
        let before = self.random.pick(&["", "", "1", "5;", "2;3"]);
        let spoils =
            self.random.pick(&["?", "?", " ", "/", ":", "<", "=", ">", "10000", ";;;;;;;;"]);
        let after = self.random.pick(&["", "", "5", "1;1", "?", "!", "99999"]);
        let finals = if self.random.chance(50) { FINALS } else { UNLISTED };
        let last = self.random.pick(finals);
        self.put(format!("\x1B[{before}{spoils}{after}").as_bytes());
        self.put(&[last]);
    }

    fn begun(&mut self) {
        let begun = self.random.pick(BEGUN);
        self.put(begun.as_bytes());
    }

    /// Any control byte, above all NUL, 7F and those that act outside a sequence; 18, 1A and 1B give
    /// no message here.
    fn broken_off(&mut self) {
        self.begun();
        let byte = match self.random.below(6) {
            0 => 0x00,
            1 => 0x7F,
            2 => self.random.pick(&[0x08, 0x09, 0x0A, 0x0D]),
            _ => self.random.between(0x01, 0x1F) as u8,
        };
        self.put(&[byte]);
    }

    /// 80 to FF, outside a sequence too.
    fn high(&mut self) {
        if self.random.chance(70) {
            self.begun();
        }
        let byte = self.random.between(0x80, 0xFF) as u8;
        self.put(&[byte]);
    }

    /// What neither sets a message nor clears it.
    fn no_refusal(&mut self) {
        let part = self.random.pick(&[
            "\x00",
            "\x7F",
            "\x07",
            "x",
            "\x18",
            "\x1A",
            "\x1B[?\x18",
            "\x1B[10000\x1A",
            "\x1B\x1B[H",
            "\x1B(\x1B[m",
            "\x1B[9999G",
            "\x1B`",
            "\x1B[5n",
        ]);
        self.put(part.as_bytes());
    }

    fn refusal(&mut self) {
        match self.random.below(16) {
            0..=3 => self.unknown(),
            4 | 5 => self.too_many(),
            6 | 7 => self.value_not_allowed(),
            8 | 9 => self.spoilt(),
            10 | 11 => self.private_form(),
            12 | 13 => self.broken_off(),
            _ => self.high(),
        }
    }

    /// Refusals for every reason, one over another or with something between; then, often, what
    /// clears the last one.
    pub fn refusals(mut self) -> Vec<u8> {
        for _ in 0..self.random.between(1, 4) {
            self.refusal();
            match self.random.below(10) {
                0 | 1 => self.no_refusal(),
                2 => self.escape(b'b'),
                _ => {}
            }
        }
        match self.random.below(20) {
            0..=5 => self.escape(b'b'),
            6 => self.escape(b'c'),
            _ => {}
        }
        self.bytes
    }

    fn controls(&mut self) {
        for _ in 0..self.random.between(1, 8) {
            let byte = match self.random.below(6) {
                0 => self.random.pick(&NOISE[..16]),
                1 => self.random.between(0x20, 0x7E) as u8,
                2 if self.random.chance(10) => self.random.between(0x80, 0xFF) as u8,
                _ => self.random.pick(&[0x08, 0x09, 0x0A, 0x0D, 0x09, 0x18, 0x1A, 0x7F]),
            };
            self.put(&[byte]);
        }
    }

    fn erase(&mut self) {
        self.aim();
        if self.random.chance(40) {
            self.put(b"\x1B[6h");
        }
        let part = self.random.pick(&["K", "0K", "1K", "2K", "K", "1K", "J", "0J", "1J", "2J"]);
        self.put(format!("\x1B[{part}").as_bytes());
        if self.random.chance(70) {
            self.put(b"\x1B[6l");
        }
    }

    fn scroll(&mut self) {
        let column = self.random.between(1, self.columns.into()) as u16;
        if self.random.chance(50) {
            self.goto((self.rows, column));
            let part = self.random.pick(&["\x1BD", "\x1BE", "\n", "\x1BD\x1BD", "\r\n"]);
            self.put(part.as_bytes());
        } else {
            self.goto((1, column));
            self.put(b"\x1BM");
        }
        if self.random.chance(30) {
            self.put(b"~\x1BM\x1BD");
        }
    }

    fn tabs(&mut self) {
        for _ in 0..self.random.between(2, 8) {
            self.aim();
            let part = self.random.pick(&[
                "\x1BH",
                "\x1BH",
                "\x1B[W",
                "\x1B[0W",
                "\x09",
                "\x1B[I",
                "\x1B[2I",
                "\x1B[Z",
                "\x1B[2Z",
                "\x1B[3Z",
                "\x1B[2W",
                "\x09\x09",
                "\x1BH\x1B[I",
                "\x1BH\x1B[Z",
            ]);
            self.put(part.as_bytes());
        }
        if self.random.chance(20) {
            let part = self.random.pick(&["\x1B[5W", "\x1Bc"]);
            self.put(part.as_bytes());
            self.put(b"\x09");
        }
    }

    fn send(&mut self) {
        let part =
            self.random.pick(&["\x1BS", "\x1BS", "\x1BS\x1BS", "\x1B[5n", "\x1B[6n", "\x1B[n"]);
        self.put(part.as_bytes());
    }

    fn locks(&mut self) {
        let part = self.random.pick(&[
            "\x1B`",
            "\x1B`",
            "\x1Bb",
            "\x1B[99d",
            "\x1B`\x1B[7n",
            "\x1Bx\x1Bb",
            "\x1B`\x1Bb",
            "\x1B[3J",
        ]);
        self.put(part.as_bytes());
    }

    /// Text across the last cell, which goes to 1;1 and never scrolls.
    fn last_cells(&mut self) {
        let back = self.random.below(3) as u16;
        self.goto((self.rows, self.columns - back));
        self.text(6);
    }

    /// One scene of a host's work.
    pub fn scene(mut self) -> Vec<u8> {
        match self.random.below(105) {
            100..=102 => self.private_form(),
            103.. => self.both_modes(),
            0..=20 => self.form(),
            21..=24 => self.dense_rows(),
            25..=45 => {
                for _ in 0..self.random.between(1, 4) {
                    self.command();
                }
            }
            46..=62 => self.broken(),
            63..=68 => self.controls(),
            69..=73 => self.erase(),
            74..=77 => self.scroll(),
            78..=84 => self.tabs(),
            85..=89 => self.send(),
            90..=92 => self.locks(),
            93 => self.last_cells(),
            94..=95 if self.rows < 48 || self.random.chance(30) => self.wall(),
            _ => {
                self.aim();
                self.pen();
                self.text(20);
            }
        }
        self.bytes
    }

    /// Keys that tell where a field begins and ends, and then a block.
    pub fn field_keys(self) -> Vec<u32> {
        let random = self.random;
        let mut keys = Vec::new();
        for _ in 0..random.between(1, 3) {
            if random.chance(30) {
                keys.push(typed(random));
            }
            if random.chance(20) {
                keys.push(random.pick(&[258, 259]));
            }
            keys.push(random.between(260, 265) as u32);
        }
        keys.push(266);
        keys
    }

    /// Keys that cells of several kinds take or refuse, typed or moving what stands in the field.
    pub fn kind_keys(self) -> Vec<u32> {
        let random = self.random;
        let mut keys = Vec::new();
        for _ in 0..random.between(2, 6) {
            match random.below(20) {
                0..=6 => keys.push(typed(random)),
                7..=13 => keys.push(random.pick(&[264, 265])),
                14..=16 => keys.extend([typed(random), 258, random.pick(&[264, 265])]),
                _ => keys.push(random.pick(&[258, 259, 258, 259, 260, 261])),
            }
        }
        if random.chance(15) {
            keys.extend([263, typed(random)]);
        }
        if random.chance(40) {
            keys.push(266);
        }
        keys
    }

    /// Keys pressed one after another; `under` is the character at the cursor.
    pub fn keys(self, under: u8) -> Vec<u32> {
        let random = self.random;
        let mut keys = Vec::new();
        if random.chance(15) {
            keys.push(u32::from(under));
            keys.push(266);
        }
        for _ in 0..random.between(1, 3) {
            match random.below(20) {
                0..=4 => (0..random.between(1, 6)).for_each(|_| keys.push(typed(random))),
                5..=9 => {
                    for _ in 0..random.between(1, 4) {
                        keys.push(random.between(256, 262) as u32);
                    }
                }
                10..=14 => {
                    keys.extend([typed(random), typed(random), random.pick(&[258, 261, 256])]);
                    keys.push(random.between(263, 265) as u32);
                }
                15..=17 => keys.push(266),
                18 => keys.push(268),
                _ => keys.push(random.pick(UNKNOWN_KEYS)),
            }
        }
        keys
    }
}
