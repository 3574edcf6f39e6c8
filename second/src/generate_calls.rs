//! Random inputs for `calls`: damaged states and pages, lent lengths, rooms, long calls.

use crate::frames::{fields, put_hex, Calls, Program, FIELDS, FULL, KEPT, REFUSED_AT, ROOM};
use crate::random::Random;
use crate::streams::{any_size, Part, Stream, BEGUN, PROBES};
use crate::terminal::{self, ALPHABETIC, COLUMNS, MODIFIED, NUMERIC, PROTECTED, REQUIRED, ROWS};
use std::collections::VecDeque;
use std::ops::Range;

struct Generator {
    random: Random,
    calls: Calls,
    text: Vec<u8>,
    /// Frames planned ahead.
    plan: VecDeque<Vec<u8>>,
    size: (u16, u16),
    /// Long calls with costly commands still allowed.
    costly: usize,
}

pub fn calls(seed: u64, frames: usize) -> Vec<u8> {
    let place = (seed % 9) as usize;
    let mut generator = Generator {
        random: Random::new(seed ^ 0xCA11_5000),
        calls: Calls::new(),
        text: Vec::new(),
        plan: VecDeque::new(),
        size: (ROWS[place / 3], COLUMNS[place % 3]),
        costly: usize::from(seed % 10 == 0),
    };
    for _ in 0..frames {
        if generator.plan.is_empty() {
            generator.make_plan();
        }
        if let Some(frame) = generator.plan.pop_front() {
            generator.emit(&frame);
        }
    }
    if generator.random.chance(15) {
        generator.text.pop();
    }
    generator.text
}

/// Damage everywhere, in order: every cell's character and mark, every part of the state, every kind of half-read
/// record, every byte beside every message; then every byte outside a sequence and after each beginning of one, read
/// or set; on two other sizes the cells and parts that depend on the size; then every character at every kind of cell,
/// and required cells and characters of a field in every way; last, on all sizes, every two kinds at once, required
/// beside every kind, and every bit without a name.
pub fn sweep() -> Vec<u8> {
    let mut sweep = Sweep { text: Vec::new(), cells: 0 };
    sweep.cells(24, 80, 1);
    sweep.parts(24, 80, 0..FIELDS);
    sweep.half_read();
    sweep.messages();
    sweep.bytes();
    sweep.bytes_after_records();
    for (rows, columns) in [(27, 132), (48, 160)] {
        sweep.cells(rows, columns, 97);
        sweep.parts(rows, columns, 0..4);
        sweep.parts(rows, columns, 19 + usize::from(columns)..REFUSED_AT);
    }
    sweep.characters_at_kinds();
    sweep.required_fields();
    for rows in ROWS {
        for columns in COLUMNS {
            sweep.start(rows, columns);
            sweep.marks_and_pen(&kinds_and_nameless());
        }
    }
    sweep.start(24, 80);
    sweep.marks_and_pen(&nameless_pairs());
    sweep.text
}

const KIND_BITS: [u16; 3] = [PROTECTED, NUMERIC, ALPHABETIC];
const TWO_KINDS: [u16; 3] = [PROTECTED | NUMERIC, PROTECTED | ALPHABETIC, NUMERIC | ALPHABETIC];

/// Required in a plain cell, and beside each kind that goes with it.
const REQUIRED_KINDS: [u16; 3] = [REQUIRED, REQUIRED | NUMERIC, REQUIRED | ALPHABETIC];
/// Required beside protected, and beside two kinds at once.
const WRONGLY_REQUIRED: [u16; 4] = [
    REQUIRED | PROTECTED,
    REQUIRED | PROTECTED | NUMERIC,
    REQUIRED | PROTECTED | ALPHABETIC,
    REQUIRED | NUMERIC | ALPHABETIC,
];

/// Bits 10 to 15.
const NAMELESS: [u16; 6] = [0x0400, 0x0800, 0x1000, 0x2000, 0x4000, 0x8000];

/// Each kind, required or not, which is in range; two kinds at once, required ones that can't be, and each bit
/// without a name, which aren't.
fn kinds_and_nameless() -> Vec<u16> {
    [&KIND_BITS[..], &REQUIRED_KINDS, &TWO_KINDS, &WRONGLY_REQUIRED, &NAMELESS].concat()
}

/// A bit without a name beside each kind, beside required, and beside each other one.
fn nameless_pairs() -> Vec<u16> {
    let named = KIND_BITS.into_iter().chain([REQUIRED]);
    let others = |bit| named.clone().chain(NAMELESS).filter(move |&other| other < bit);
    NAMELESS.into_iter().flat_map(|bit| others(bit).map(move |other| bit | other)).collect()
}

/// Marks out of range, whatever bits 1 to 6 are beside.
fn wrong_marks() -> Vec<u16> {
    let many = [PROTECTED | NUMERIC | ALPHABETIC, 0xFF80, 0xFE00, 0xFC00];
    [&TWO_KINDS[..], &WRONGLY_REQUIRED, &NAMELESS, &many].concat()
}

struct Sweep {
    text: Vec<u8>,
    /// Of the page now lent.
    cells: usize,
}

impl Sweep {
    fn emit(&mut self, frame: &[u8]) {
        put_hex(&mut self.text, frame);
        self.text.push(b'\n');
    }

    /// No bytes, or an unknown key: calls that change nothing, and refuse whatever is out of range.
    fn probe(&mut self, by_key: bool) {
        let frame = if by_key { long(0x23, 300) } else { vec![0x21] };
        self.emit(&frame);
    }

    /// A fresh page of that size, lent whole.
    fn start(&mut self, rows: u16, columns: u16) {
        let (rows, columns) = (usize::from(rows), usize::from(columns));
        self.cells = rows * columns;
        self.emit(&pair(0x24, self.cells, self.cells));
        self.emit(&pair(0x20, rows, columns));
    }

    /// Of so many cells, one: its character and then its marks out of range, and put back. The last cell is tried too.
    fn cells(&mut self, rows: u16, columns: u16, every: usize) {
        self.start(rows, columns);
        let cells = self.cells;
        let wrong: Vec<u8> = (0..=255).filter(|&byte| !terminal::good_character(byte)).collect();
        let wrong_marks = wrong_marks();
        for (count, place) in (0..cells).step_by(every).chain([cells - 1]).enumerate() {
            self.emit(&character(place, wrong[count % wrong.len()]));
            self.probe(place % 2 == 0);
            self.emit(&character(place, 0x20));
            let others = count as u16 % 0x80;
            self.emit(&marks(place, wrong_marks[count % wrong_marks.len()] | others));
            self.probe(place % 2 != 0);
            self.emit(&marks(place, 0));
        }
    }

    /// Values for the first cell's marks, the last's, one's between them, and for the pen, each put back after two
    /// calls.
    fn marks_and_pen(&mut self, values: &[u16]) {
        let cells = self.cells;
        for &value in values {
            for place in [0, cells / 2, cells - 1] {
                self.emit(&marks(place, value));
                self.probe(false);
                self.probe(true);
                self.emit(&marks(place, 0));
            }
            self.emit(&field(4, value));
            self.probe(false);
            self.probe(true);
            self.emit(&field(4, 0));
        }
    }

    /// Every character typed into a cell of each kind that isn't protected, and moved into one by 264 and by 265.
    fn characters_at_kinds(&mut self) {
        self.start(24, 80);
        self.emit(&marks(2, PROTECTED));
        for kind in [0, NUMERIC, ALPHABETIC].into_iter().chain(REQUIRED_KINDS) {
            self.emit(&marks(0, kind));
            self.emit(&marks(1, 0));
            for code in 0x20..=0x7E {
                self.emit(&long(0x23, usize::from(code)));
                self.emit(&field(3, 1));
                self.emit(&character(1, code));
                self.emit(&long(0x23, 264));
            }
            self.emit(&marks(0, 0));
            self.emit(&marks(1, kind));
            for code in 0x20..=0x7E {
                self.emit(&character(0, code));
                self.emit(&long(0x23, 265));
            }
        }
    }

    /// A field of three cells over a row's end and one modified cell elsewhere, all else protected: any of the three
    /// required, any with a character, modified or not; key 266 in both settings, with no room and with enough.
    fn required_fields(&mut self) {
        const FIELD: Range<usize> = 78..81;
        const MODIFIED_CELL: usize = 1_000;
        self.start(24, 80);
        self.emit(b"\x21\x1BV");
        self.emit(&[&long(0x22, self.cells)[..], b" "].concat());
        let bit = |bits: usize, cell: usize| bits >> cell & 1 == 1;
        for required in 0..8 {
            for filled in 0..8 {
                for (cell, place) in FIELD.enumerate() {
                    let code = if bit(filled, cell) { b"x.!"[cell] } else { b' ' };
                    self.emit(&character(place, code));
                }
                for way in 0..8 {
                    let (full, modified) = (bit(way, 0), bit(way, 1));
                    self.emit(&field(FULL, full.into()));
                    self.emit(&long(0x25, if bit(way, 2) { 0 } else { ROOM }));
                    self.emit(&marks(MODIFIED_CELL, MODIFIED));
                    for (cell, place) in FIELD.enumerate() {
                        let modified = if modified && cell == 1 { MODIFIED } else { 0 };
                        let required = if bit(required, cell) { REQUIRED } else { 0 };
                        self.emit(&marks(place, required | modified));
                    }
                    self.emit(&long(0x23, 266));
                }
            }
        }
        self.emit(&long(0x25, ROOM));
    }

    /// Each part of a fresh terminal's state at values around its limits, and put back.
    fn parts(&mut self, rows: u16, columns: u16, numbers: Range<usize>) {
        let fresh = [rows, columns, 1, 1];
        for number in numbers {
            let values = match number {
                0..=3 => vec![0, 1, rows, rows + 1, columns, columns + 1, 48, 160, 65_535],
                4 => vec![
                    1, 2, 3, 4, 32, 124, 127, 128, 130, 252, 255, 256, 380, 511, 512, 513, 514,
                    636, 640, 764, 768, 892, 896, 1_023, 1_024, 65_535,
                ],
                8 | 9 | 11 => vec![1, 2, 3, 4, 5, 6, 32, 127, 128, 255],
                REFUSED_AT => vec![1, 127, 128, 255, 256],
                12..=19 => vec![1, 9_999, 10_000, 65_535],
                _ => vec![1, 65_535],
            };
            for value in values {
                self.emit(&field(number, value));
                self.probe(false);
                self.probe(true);
            }
            self.emit(&field(number, fresh.get(number).copied().unwrap_or(0)));
        }
    }

    /// Half-read records of every kind, with an argument at a place that the count reaches or not.
    fn half_read(&mut self) {
        for kind in [0, 1, 2, 3, 4, 5, 6, 255] {
            for spoilt in [0, 1] {
                for count in [0, 1, 2, 8, 9] {
                    self.emit(&field(9, kind));
                    self.emit(&field(10, spoilt));
                    self.emit(&field(11, count));
                    self.arguments();
                }
            }
        }
        (9..12).for_each(|number| self.emit(&field(number, 0)));
    }

    /// A byte of 0 is right beside any message there is, the others beside all but message 0.
    fn messages(&mut self) {
        for message in 0..=6 {
            self.emit(&field(8, message));
            for byte in 0..=255 {
                self.emit(&field(REFUSED_AT, byte));
                self.probe((message + byte) % 2 == 0);
            }
        }
        self.emit(&field(8, 0));
        self.emit(&field(REFUSED_AT, 0));
    }

    /// Each refusal leaves its message and byte, over those of the one before.
    fn bytes(&mut self) {
        let mut begun = vec![&b"\x18"[..]];
        begun.extend(BEGUN.iter().map(|begun| begun.as_bytes()));
        for begun in begun {
            for byte in 0..=255 {
                self.emit(&[&[0x21], begun, &[byte]].concat());
            }
        }
    }

    /// Nothing or the private mark behind ESC [, set by hand: every byte, with a send mode that `h` and `l` switch.
    fn bytes_after_records(&mut self) {
        for (kind, argument) in [(4, 0), (5, 0), (5, 6), (5, 9_999)] {
            for byte in 0..=255 {
                for (number, value) in [(9, kind), (10, 0), (11, 1), (12, argument)] {
                    self.emit(&field(number, value));
                }
                self.emit(&field(FULL, u16::from(byte < b'l')));
                self.emit(&[0x21, byte]);
                self.emit(&[0x21, 0x18]);
            }
        }
        self.emit(b"\x21\x1B[>6l\x1Bc");
    }

    /// No argument, then one at a time.
    fn arguments(&mut self) {
        self.probe(false);
        for number in [12, 13, 14, 19] {
            for value in [1, 9_999, 10_000] {
                self.emit(&field(number, value));
                self.probe(true);
            }
            self.emit(&field(number, 0));
        }
    }
}

fn pair(first: u8, one: usize, two: usize) -> Vec<u8> {
    let [one, two] = [one, two].map(|number| (number as u16).to_be_bytes());
    [&[first][..], &one, &two].concat()
}

fn long(first: u8, number: usize) -> Vec<u8> {
    [&[first][..], &(number as u32).to_be_bytes()].concat()
}

fn character(place: usize, value: u8) -> Vec<u8> {
    [&[0x26][..], &(place as u16).to_be_bytes(), &[value]].concat()
}

fn marks(place: usize, value: u16) -> Vec<u8> {
    pair(0x27, place, usize::from(value))
}

fn field(number: usize, value: u16) -> Vec<u8> {
    pair(0x28, number, usize::from(value))
}

impl Generator {
    fn line(&mut self, line: &[u8]) {
        self.text.extend_from_slice(line);
        self.text.push(b'\n');
        self.calls.line(line, &mut Vec::new());
    }

    fn emit(&mut self, frame: &[u8]) {
        let mut line = Vec::new();
        put_hex(&mut line, frame);
        self.line(&line);
    }

    fn push(&mut self, frame: Vec<u8>) {
        self.plan.push_back(frame);
    }

    fn cells(&self) -> usize {
        usize::from(self.size.0) * usize::from(self.size.1)
    }

    fn stream(&mut self) -> Stream<'_> {
        Stream::new(&mut self.random, &self.calls.state, &self.calls.marks[..self.calls.lent.1])
    }

    fn make_plan(&mut self) {
        self.heal();
        if !self.plan.is_empty() {
            return;
        }
        match self.random.below(196) {
            189.. => self.plan_required_form(),
            183.. => self.plan_required_cells(),
            166.. => self.plan_private(),
            150.. => self.plan_sending(),
            146.. => self.plan_long(),
            138.. => self.plan_damage(),
            131.. => self.plan_mixed_field(),
            126.. => self.plan_kinds(),
            0..=1 => self.plan_start(),
            2..=3 => self.plan_refused_start(),
            4..=5 => self.plan_lengths(),
            6..=25 => self.plan_damage(),
            26..=37 => self.plan_good_edits(),
            38..=49 => self.plan_room(),
            50..=52 => self.plan_bad_line(),
            53..=56 => self.plan_long(),
            57..=62 => self.plan_pattern(),
            63..=80 => self.plan_keys(),
            110.. => self.plan_refusals(),
            100.. => self.plan_long_fields(),
            _ => self.push_host_scene(),
        }
    }

    /// Brings lent lengths, size, state and page back in range.
    fn heal(&mut self) {
        let (state, cells) = (self.calls.state.clone(), self.cells());
        if (state.rows, state.columns) != self.size {
            self.plan_start();
            return;
        }
        if self.calls.lent != (cells, cells) {
            self.push(pair(0x24, cells, cells));
        }
        let limits = [(2, state.row, state.rows), (3, state.column, state.columns)];
        for (number, value, limit) in limits {
            if value < 1 || value > limit {
                self.push(field(number, limit));
            }
        }
        let sound_pen = state.pen & MODIFIED == 0 && terminal::good_marks(state.pen);
        self.push_if(!sound_pen, field(4, state.pen & 0x7D));
        self.push_if(state.message > 4, field(8, 4));
        self.push_if(state.message == 0 && state.refused_at != 0, field(REFUSED_AT, 0));
        let mut mended = state.clone();
        (mended.row, mended.column, mended.pen) = (1, 1, 0);
        (mended.message, mended.refused_at) = (0, 0);
        mended.stops = [false; 160];
        if !mended.sound() {
            for number in (9..20).filter(|&n| fields(&state)[n] != 0) {
                self.push(field(number, 0));
            }
        }
        for number in usize::from(state.columns)..160 {
            self.push_if(state.stops[number], field(20 + number, 0));
        }
        for place in 0..cells {
            let (code, value) = (self.calls.characters[place], self.calls.marks[place]);
            self.push_if(!terminal::good_character(code), character(place, 0x41));
            self.push_if(!terminal::good_marks(value), marks(place, value & 0x7F));
        }
        if self.plan.len() > 30 {
            self.plan.clear();
            self.plan_start();
        }
    }

    fn push_if(&mut self, needed: bool, frame: Vec<u8>) {
        if needed {
            self.push(frame);
        }
    }

    fn plan_start(&mut self) {
        if self.random.chance(40) {
            self.size = any_size(&mut self.random);
        }
        let cells = self.cells();
        self.push(pair(0x24, cells, cells));
        self.push(pair(0x20, self.size.0.into(), self.size.1.into()));
    }

    fn plan_refused_start(&mut self) {
        let (rows, columns) = (usize::from(self.size.0), usize::from(self.size.1));
        match self.random.below(4) {
            0 => {
                let rows = self.random.pick(&[0, 1, 25, 49, 256 + 24, 65_535]);
                self.push(pair(0x20, rows, columns));
            }
            1 => {
                let columns = self.random.pick(&[0, 1, 81, 161, 256 + 80, 65_535]);
                self.push(pair(0x20, rows, columns));
            }
            2 => self.push(pair(0x20, columns, rows)),
            _ => {
                self.push_wrong_lengths();
                self.push(pair(0x20, rows, columns));
            }
        }
        self.push_call();
    }

    fn push_wrong_lengths(&mut self) {
        let cells = self.cells();
        let wrong = self.random.pick(&[0, 1, cells - 1, cells + 1, 1_919, KEPT, cells]);
        let other = self.random.pick(&[cells, wrong, 0, 2_160]);
        let (one, two) = if self.random.chance(50) { (wrong, other) } else { (other, wrong) };
        self.push(pair(0x24, one, two));
    }

    fn plan_lengths(&mut self) {
        self.push_wrong_lengths();
        for _ in 0..self.random.between(1, 2) {
            self.push_call();
        }
    }

    /// A call of any kind on whatever the page and state are then.
    fn push_call(&mut self) {
        match self.random.below(8) {
            0 => self.push(vec![0x21]),
            1 => self.push([&[0x21][..], b"\x1BS"].concat()),
            2 => self.push(long(0x23, self.calls.room % 300)),
            3 => self.push([&long(0x22, 65_537)[..], b"x"].concat()),
            4 => self.push_host_scene(),
            _ => {
                let key =
                    self.random.pick(&[65, 256, 259, 260, 261, 262, 263, 264, 265, 266, 267, 268]);
                self.push(long(0x23, key));
            }
        }
    }

    /// One place of the state or page set to a value that may be out of range, then calls.
    fn plan_damage(&mut self) {
        let cells = self.cells();
        for _ in 0..1 + usize::from(self.random.chance(15)) {
            let frame = match self.random.below(18) {
                0 => {
                    let value = self.random.pick(&[0x00, 0x1F, 0x20, 0x7E, 0x7F, 0x80, 0xA0, 0xFF]);
                    character(self.any_place(), value)
                }
                1 | 12 | 13 => {
                    let value = self.odd_marks();
                    marks(self.any_place(), value)
                }
                2 => {
                    let past = self.random.between(cells, KEPT - 1);
                    match self.random.below(2) {
                        0 => character(past, 0xFF),
                        _ => marks(past, 0xFFFF),
                    }
                }
                14..=17 => field(4, self.odd_marks()),
                3 => {
                    let number = self.random.between(20, REFUSED_AT - 1);
                    field(number, 1)
                }
                4..=6 => {
                    self.push_half();
                    continue;
                }
                _ => {
                    let number = self.random.pick(&[0, 1, 2, 3, 4, 5, 6, 7, 8, REFUSED_AT, FULL]);
                    field(number, self.odd_value(number))
                }
            };
            self.push(frame);
        }
        for _ in 0..self.random.between(1, 2) {
            self.push_call();
        }
    }

    fn any_place(&mut self) -> usize {
        let cells = self.cells();
        match self.random.below(5) {
            0 => 0,
            1 => cells - 1,
            2 => cells / 2,
            _ => self.random.below(cells),
        }
    }

    /// Marks or a pen, most often out of range by two kinds at once, by required beside protected, or by a bit
    /// without a name.
    fn odd_marks(&mut self) -> u16 {
        let others = self.random.below(0x80) as u16 & !PROTECTED;
        match self.random.below(16) {
            0..=2 => self.random.pick(&TWO_KINDS) | others,
            3 => self.random.pick(&TWO_KINDS),
            4..=7 => self.random.pick(&NAMELESS) | others,
            8 => self.random.pick(&KIND_BITS) | others,
            9 => {
                self.random.pick(&[0x0003, 0x007F, 0x0082, 0x0102, 0x01FF, 0x0202, 0x03FF, 0xFFFF])
            }
            10 => self.random.below(0x400) as u16,
            11 => self.random.pick(&WRONGLY_REQUIRED),
            12 => REQUIRED | PROTECTED | others,
            13 | 14 => self.random.pick(&REQUIRED_KINDS) | others,
            _ => self.random.below(0x1_0000) as u16,
        }
    }

    /// Marks in range, half of them protected, and some required.
    fn good_marks(&mut self) -> u16 {
        let unprotected = self.random.pick(&[0, NUMERIC, ALPHABETIC]);
        let required = if self.random.chance(30) { REQUIRED } else { 0 };
        let kind = if self.random.chance(50) { PROTECTED } else { unprotected | required };
        self.random.below(0x80) as u16 & !PROTECTED | kind
    }

    fn odd_value(&mut self, number: usize) -> u16 {
        let (rows, columns) = self.size;
        match number {
            0 => self.random.pick(&[0, 24, 27, 48, 25, 65_535]),
            1 => self.random.pick(&[0, 80, 132, 160, 81, 65_535]),
            2 => self.random.pick(&[0, 1, rows, rows + 1, 65_535]),
            3 => self.random.pick(&[0, 1, columns, columns + 1, 65_535]),
            4 => self.odd_marks(),
            REFUSED_AT => self.random.below(256) as u16,
            8 => self.random.pick(&[0, 1, 2, 3, 4, 5, 6, 128, 255]),
            _ => self.random.pick(&[0, 1, 2, 256, 65_535]),
        }
    }

    fn push_half(&mut self) {
        let kind = self.random.pick(&[0, 1, 2, 3, 3, 3, 3, 4, 5, 5, 6, 255]);
        self.push_half_of(kind, 60);
    }

    /// A half-read record that could have been read, but for one part in so many of a hundred.
    fn push_half_of(&mut self, kind: u16, odd: usize) {
        let mut values = [0u16; 11];
        values[0] = kind;
        values[2] = u16::from(kind == 4 || kind == 5);
        if kind == 5 {
            values[3] = self.random.pick(&[0, 6, 6, 6, 1, 66, 999, 9_999]);
        }
        if kind == 3 {
            values[1] = u16::from(self.random.chance(30));
            let most = if values[1] == 1 { 1 } else { 8 };
            values[2] = self.random.between(1, most) as u16;
            let reached = if values[1] == 1 { 0 } else { usize::from(values[2]) };
            for value in &mut values[3..3 + reached] {
                *value = self.random.pick(&[0, 1, 2, 5, 6, 9_999, 24, 80]);
            }
        }
        if self.random.chance(odd) {
            let place = self.random.between(1, 10);
            values[place] = match place {
                1 => 1,
                2 => self.random.pick(&[0, 1, 2, 8, 9, 255]),
                _ => self.random.pick(&[1, 9_999, 10_000, 65_535]),
            };
        }
        let now = fields(&self.calls.state);
        for (place, &value) in values.iter().enumerate() {
            self.push_if(now[9 + place] != value, field(9 + place, value));
        }
    }

    /// A record of nothing or the private mark behind ESC [, right or damaged; bytes that end it, and a block.
    fn plan_private(&mut self) {
        let kind = self.random.pick(&[4, 5, 5]);
        self.push_half_of(kind, 35);
        let full = self.random.pick(&[0, 1, 1, 256, 65_535]);
        self.push(field(FULL, full));
        let rest = self.random.pick(&[
            "h", "l", "h", "l", "6h", "6l", ">6h", ">6l", "06h", "0>6l", ">", ";h", "m", "n", " l",
            ">h", "9999h", "10006l", "\x18l", "\x00h", "\x1B[>6l", "\x7F", "",
        ]);
        let most = self.random.pick(&[255, 1]);
        for part in rest.as_bytes().chunks(most) {
            self.push([&[0x21][..], part].concat());
        }
        let key = self.random.pick(&[268, 65, 266, 267]);
        self.push(long(0x23, key));
        self.push(long(0x23, 266));
    }

    fn plan_sending(&mut self) {
        for part in self.stream().sending() {
            self.push_part(part);
        }
    }

    fn push_part(&mut self, part: Part) {
        match part {
            Part::Key(key) => self.push(long(0x23, key as usize)),
            Part::Host(bytes) => {
                let most = self.random.pick(&[255, 255, 7, 2]);
                bytes.chunks(most).for_each(|part| self.push([&[0x21][..], part].concat()));
            }
        }
    }

    /// The same forms as in transcripts, with little room for some of their blocks.
    fn plan_required_form(&mut self) {
        for part in self.stream().required_form() {
            let sends = matches!(part, Part::Key(266));
            if sends && self.random.chance(50) {
                self.push_send_with_little_room();
            } else {
                self.push_part(part);
            }
        }
    }

    /// Key 266 with less room than most blocks need, and the large room again.
    fn push_send_with_little_room(&mut self) {
        let room = match self.random.below(8) {
            0..=2 => 0,
            3 => 1,
            4..=6 => self.random.between(2, 40),
            _ => self.random.between(41, 8_000),
        };
        self.push(long(0x25, room));
        self.push(long(0x23, 266));
        self.push(long(0x25, ROOM));
    }

    /// One field put by hand between two protected cells, some of its cells required and most of them 20; then key
    /// 266 in both settings, and again with a character there, as a blank field would hold back the blocks to come.
    fn plan_required_cells(&mut self) {
        let length = self.random.between(1, 4);
        let width = usize::from(self.size.1);
        let row_end = self.random.between(1, usize::from(self.size.0) - 1) * width;
        let start = match self.random.below(3) {
            0 => self.random.between(1, self.cells() - length - 1),
            _ => row_end - self.random.between(1, length),
        };
        self.push(marks(start - 1, PROTECTED));
        self.push(marks(start + length, PROTECTED));
        for place in start..start + length {
            let others = self.random.pick(&[0, 0, 0, MODIFIED, 0x7E]);
            let kind = self.random.pick(&[0, NUMERIC, ALPHABETIC]);
            let required = self.random.pick(&[0, REQUIRED]);
            let code = self.random.pick(b"          .-0A");
            self.push(marks(place, required | kind | others));
            self.push(character(place, code));
        }
        for lock in [6, 7] {
            self.push(field(lock, 0));
        }
        let full = self.random.below(2) as u16;
        for full in [full, 1 - full] {
            self.push(field(FULL, full));
            self.push_send_with_little_room();
        }
        let place = start + self.random.below(length);
        let code = self.random.pick(b".x0#");
        self.push(character(place, code));
        self.push(long(0x23, 266));
    }

    /// Any message up to two past the last, any byte, or both; the two need not go together.
    fn push_message(&mut self) {
        let message = self.random.below(7) as u16;
        let byte = if self.random.chance(20) { 0 } else { u16::from(self.random.byte()) };
        let which = self.random.below(4);
        self.push_if(which != 0, field(8, message));
        self.push_if(which != 1, field(REFUSED_AT, byte));
    }

    /// Refusals in calls of any length, message and byte set by hand, and what clears them or
    /// comes over them.
    fn plan_refusals(&mut self) {
        if self.random.chance(60) {
            self.push_refusals();
        }
        if self.random.chance(60) {
            self.push_message();
        }
        match self.random.below(8) {
            0 => self.push(b"\x21\x1Bb".to_vec()),
            1 => self.push(b"\x21\x1Bc".to_vec()),
            2..=4 => self.push(long(0x23, 268)),
            5 => self.push_refusals(),
            _ => self.push_call(),
        }
    }

    fn push_refusals(&mut self) {
        let most = self.random.pick(&[255, 255, 20, 3]);
        for part in self.stream().refusals().chunks(most) {
            self.push([&[0x21][..], part].concat());
        }
    }

    /// Edits that keep the state sound: cursor, pen, modes, locks off, a cell, a stop, a message.
    fn plan_good_edits(&mut self) {
        for _ in 0..self.random.between(1, 3) {
            match self.random.below(10) {
                // Any byte is sound beside any message, and with the lock off too.
                9 => {
                    let message = self.random.between(1, 4) as u16;
                    let byte = u16::from(self.random.byte());
                    self.push(field(8, message));
                    self.push(field(REFUSED_AT, byte));
                }
                // 24 by 160 and 48 by 80 lend the same number of cells.
                8 if self.cells() == 3_840 => {
                    self.size = if self.size.0 == 24 { (48, 80) } else { (24, 160) };
                    self.push(field(0, self.size.0));
                    self.push(field(1, self.size.1));
                }
                0 | 1 => {
                    let (row, column) = self.stream().target();
                    self.push(field(2, row));
                    self.push(field(3, column));
                }
                2 => {
                    let pen = self.good_marks() & !MODIFIED;
                    self.push(field(4, pen));
                }
                3 => {
                    let number = self.random.pick(&[5, 6, 7, FULL]);
                    self.push(field(number, 0));
                }
                4 => {
                    let place = self.any_place();
                    let value = self.good_marks();
                    self.push(marks(place, value));
                }
                5 => {
                    let place = self.any_place();
                    let value = self.random.between(0x20, 0x7E) as u8;
                    self.push(character(place, value));
                }
                6 => {
                    let number = self.random.between(20, 19 + usize::from(self.size.1));
                    let value = self.random.pick(&[0, 1, 1, 2, 65_535]);
                    self.push(field(number, value));
                }
                _ => {
                    let number = self.random.pick(&[5, FULL]);
                    self.push(field(number, 1));
                }
            }
        }
        self.push_call();
    }

    /// The length of the block, full or changed, that key 266 would send now.
    fn block_length(&self, full: bool) -> usize {
        let (mut state, lent) = (self.calls.state.clone(), self.calls.lent);
        let mut characters = self.calls.characters[..lent.0].to_vec();
        let mut marks = self.calls.marks[..lent.1].to_vec();
        (state.full, state.manual, state.soft) = (full, false, false);
        // A blank field that is required holds the block back, but has its length all the same.
        marks.iter_mut().for_each(|marks| *marks &= !REQUIRED);
        let mut output = vec![0; ROOM];
        terminal::key(&mut state, &mut characters, &mut marks, 266, &mut output).sent
    }

    /// A room around a block's length, calls that send, and the large room again.
    fn plan_room(&mut self) {
        let by_key_full = self.random.chance(40);
        let length = self.block_length(by_key_full);
        let full = self.block_length(true);
        let room = match self.random.below(12) {
            0 => 0,
            1 => 1,
            2 => self.random.between(2, 9),
            3 | 4 => length,
            5 | 6 => length.saturating_sub(1),
            7 => full,
            8 => full - 1,
            9 => full * 2,
            10 => full + 4,
            _ => self.random.between(10, ROOM),
        };
        self.push(long(0x25, room.min(ROOM)));
        match self.random.below(3) {
            0 => self.push(field(FULL, by_key_full.into())),
            _ if by_key_full => self.push(b"\x21\x18\x1B[>6l".to_vec()),
            _ => self.push(b"\x21\x18\x1B[>6h".to_vec()),
        }
        if self.random.chance(50) {
            self.push(field(6, 0));
            self.push(field(7, 0));
        }
        for _ in 0..self.random.between(1, 3) {
            match self.random.below(6) {
                0 => self.push([&[0x21][..], b"\x1BS"].concat()),
                1 => self.push([&[0x21][..], b"A\x1B[5n\x1BSB\x1B[6n"].concat()),
                2 => self.push([&[0x21][..], b"\x1BS\x1B[6n\x1BSC"].concat()),
                3 => self.push([&[0x21][..], b"\x1BS\x1BS\x1B[99dD"].concat()),
                _ => self.push(long(0x23, 266)),
            }
        }
        if self.random.chance(70) {
            self.push(long(0x25, ROOM));
        }
    }

    /// A call near the limit of 65,536 bytes, or a frame that asks for too many.
    fn plan_long(&mut self) {
        if self.random.chance(60) {
            let length = self.random.between(0, 300);
            let mut bytes = self.stream().scene();
            bytes.truncate(250);
            self.push([&long(0x22, length)[..], &bytes].concat());
            return;
        }
        let length = self.random.pick(&[65_535, 65_536, 65_536, 65_537, 65_538, 0x1_0001_0000]);
        let mut bytes: &[u8] = self.random.pick(&[
            &b"Text and more of it"[..],
            b"\x1B[",
            b"\x1B[1;2",
            b"a\x1B[H\x1BVb\x1BW",
            b"\x00",
            b"\x1B[999I",
        ]);
        if self.costly > 0 && self.random.chance(30) {
            self.costly -= 1;
            bytes = self.random.pick(&[&b"a\n\r"[..], b"\x1BM", b"x\x1BS"]);
        }
        self.push([&long(0x22, length)[..], bytes].concat());
    }

    /// A page full of short fields, from a few bytes repeated.
    fn plan_pattern(&mut self) {
        let bytes = self.stream().pattern();
        let length = self.random.between(1, self.cells() * 3);
        self.push(b"\x21\x18\x1B[H".to_vec());
        self.push([&long(0x22, length)[..], &bytes].concat());
    }

    fn plan_long_fields(&mut self) {
        for part in self.stream().long_fields().chunks(255) {
            self.push([&[0x21][..], part].concat());
        }
        for key in self.stream().field_keys() {
            self.push(long(0x23, key as usize));
        }
    }

    fn plan_mixed_field(&mut self) {
        for part in self.stream().mixed_field().chunks(255) {
            self.push([&[0x21][..], part].concat());
        }
        for key in self.stream().kind_keys() {
            self.push(long(0x23, key as usize));
        }
    }

    /// Kinds and characters put by hand into a few cells, a bad one among them now and then; the
    /// cursor goes to one of them, and keys follow.
    fn plan_kinds(&mut self) {
        let length = self.random.between(2, 6);
        let start = self.random.between(0, self.cells() - length);
        for place in start..start + length {
            let others = self.random.pick(&[0, 0, MODIFIED, 0x7E]);
            let kind = self.random.pick(&[
                NUMERIC,
                ALPHABETIC,
                NUMERIC | REQUIRED,
                ALPHABETIC,
                0,
                PROTECTED,
            ]);
            let value = if self.random.chance(3) { self.odd_marks() } else { kind | others };
            let code = self.random.pick(b"   -.-.0909OlAz,+/:");
            self.push(marks(place, value));
            self.push(character(place, code));
        }
        let place = start + self.random.below(length);
        let width = usize::from(self.size.1);
        self.push(field(2, (place / width) as u16 + 1));
        self.push(field(3, (place % width) as u16 + 1));
        let locked = self.random.chance(10);
        self.push(field(7, u16::from(locked)));
        for key in self.stream().kind_keys() {
            self.push(long(0x23, key as usize));
        }
    }

    fn plan_keys(&mut self) {
        let state = &self.calls.state;
        let locked = state.manual || state.soft;
        if locked && self.random.chance(60) {
            self.push(b"\x21\x1Bb".to_vec());
        }
        let place = usize::from(self.calls.state.row - 1) * usize::from(self.size.1)
            + usize::from(self.calls.state.column - 1);
        let under = self.calls.characters[place];
        for key in self.stream().keys(under) {
            let odd = self.random.below(40);
            let key = match odd {
                0 => key | 0x1_0000,
                1 => key | 0x8000_0000,
                2 => u32::MAX,
                _ => key,
            };
            self.push(long(0x23, key as usize));
        }
    }

    fn push_host_scene(&mut self) {
        let bytes = match self.random.below(10) {
            0 | 1 => self.stream().probe(),
            2 | 3 => {
                let step = self.random.below(PROBES);
                self.stream().probe_byte(step)
            }
            _ => self.stream().scene(),
        };
        let most = self.random.pick(&[255, 255, 20]);
        for part in bytes.chunks(most).take(4) {
            self.push([&[0x21][..], part].concat());
        }
    }

    fn plan_bad_line(&mut self) {
        let line: Vec<u8> = match self.random.below(18) {
            17 => self.random.pick(&["27000041", "2700004100FF", "270000", "28000401"]).into(),
            16 => self.random.pick(&["2800B40100", "2800B4FFFF", "2800B400", "2800B501"]).into(),
            0 => b"".to_vec(),
            1 => b"2141\r".to_vec(),
            2 => b"21 41".to_vec(),
            3 => b"211b63".to_vec(),
            4 => b"21414".to_vec(),
            5 => b"001850".to_vec(),
            6 => b"0141".to_vec(),
            7 => self.random.pick(&["20", "2018", "20001800", "200018005000", "2200000001"]).into(),
            8 => self.random.pick(&["23", "230041", "2300000000041", "24", "2400000000FF"]).into(),
            9 => self.random.pick(&["2420010000", "2400002001", "2500010001", "25FFFFFFFF"]).into(),
            10 => self.random.pick(&["26200041", "2720000041", "26FFFF20", "27FFFF0000"]).into(),
            11 => {
                self.random.pick(&["2800B60001", "28FFFF0001", "2801000000", "28000B0100"]).into()
            }
            12 => self.random.pick(&["2800080100", "2800080101", "280009FFFF", "28000B01"]).into(),
            13 => self.random.pick(&["220001000241", "22FFFFFFFF41", "2200"]).into(),
            14 => b"21".iter().chain(b"41".repeat(256).iter()).copied().collect(),
            _ => b"2200000003".iter().chain(b"41".repeat(251).iter()).copied().collect(),
        };
        self.line(&line);
    }
}
