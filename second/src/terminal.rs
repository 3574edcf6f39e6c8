//! The terminal of document 01 with request M-101's fields, M-102's messages, M-103's numeric and
//! alphabetic cells, M-106's send mode and M-107's required fields: page, state, host bytes, commands,
//! keys, blocks, numbers.

use crate::wrong;
use std::ops::Range;

pub const PROTECTED: u16 = 0x0001;
pub const MODIFIED: u16 = 0x0002;
pub const VISUAL: u16 = 0x007C;
pub const NUMERIC: u16 = 0x0080;
pub const ALPHABETIC: u16 = 0x0100;
/// What DAQ sets: a cell or pen has one of these at most, and is plain and unprotected without.
pub const KINDS: u16 = PROTECTED | NUMERIC | ALPHABETIC;
/// Beside any kind but protected: the cell's field must not be blank when key 266 sends.
pub const REQUIRED: u16 = 0x0200;

pub const ROWS: [u16; 3] = [24, 27, 48];
pub const COLUMNS: [u16; 3] = [80, 132, 160];
pub const MOST_HOST_BYTES: usize = 65_536;
const LARGEST_ARGUMENT: u16 = 9_999;
const ERASURE_MODE: u16 = 6;
/// The same number, but only behind the private mark.
const SEND_MODE: u16 = 6;

// Kinds of the half-read sequence.
const NONE: u8 = 0;
const ESCAPE: u8 = 1;
const INTERMEDIATE: u8 = 2;
/// After ESC [ and something that can't begin the private form any more.
const ARGUMENTS: u8 = 3;
/// After ESC [ alone, with an omitted argument: only here the private mark has its meaning.
const BRACKET: u8 = 4;
/// After ESC [ and the private mark, with one argument.
const PRIVATE: u8 = 5;

// Messages: why the last refused command was refused.
const NO_MESSAGE: u8 = 0;
const UNKNOWN: u8 = 1;
const ARGUMENT: u8 = 2;
const BROKEN: u8 = 3;
const HIGH: u8 = 4;

/// The half-read sequence; parts that its kind doesn't use are zero.
#[derive(Clone, Copy, Debug, PartialEq, Eq)]
pub struct Half {
    pub kind: u8,
    pub spoilt: bool,
    pub count: u8,
    pub arguments: [u16; 8],
}

#[derive(Clone, Debug, PartialEq, Eq)]
pub struct State {
    pub rows: u16,
    pub columns: u16,
    pub row: u16,
    pub column: u16,
    pub pen: u16,
    pub erasure: bool,
    /// The Unprotected/Modified mode is reset: key 266 sends a full block, not a changed one.
    pub full: bool,
    pub manual: bool,
    pub soft: bool,
    pub message: u8,
    /// The byte at which the message's command was refused; 0 without a message.
    pub refused_at: u8,
    pub half: Half,
    pub stops: [bool; 160],
    /// Wrong edit 43's own memory, shown nowhere; 0 in the right program.
    pub wrongly_spoilt_by: u8,
}

#[derive(Clone, Copy, Debug, PartialEq, Eq)]
pub struct Answer {
    pub number: u8,
    pub taken: usize,
    pub sent: usize,
    pub stored: u32,
}

impl Answer {
    /// A call that changed nothing: counts 0.
    fn nothing(number: u8) -> Answer {
        Answer { number, taken: 0, sent: 0, stored: 0 }
    }
}

/// Number 3: a command's bytes exceed the room left.
struct NoRoom;

impl Half {
    const OUTSIDE: Half = Half::of(NONE, false, 0);

    const fn of(kind: u8, spoilt: bool, count: u8) -> Half {
        Half { kind, spoilt, count, arguments: [0; 8] }
    }

    /// What the reader can leave: arguments not reached and unused parts 0, a spoilt one bare.
    fn sound(&self) -> bool {
        match self.kind {
            NONE | ESCAPE | INTERMEDIATE => *self == Half::of(self.kind, false, 0),
            BRACKET => *self == Half::of(BRACKET, false, 1),
            ARGUMENTS if self.spoilt => *self == Half::of(ARGUMENTS, true, 1),
            ARGUMENTS => self.sound_arguments(8),
            PRIVATE => !self.spoilt && self.sound_arguments(1),
            _ => false,
        }
    }

    /// At least one argument and no more than this, those past the count 0.
    fn sound_arguments(&self, most: usize) -> bool {
        let count = usize::from(self.count);
        (1..=most).contains(&count)
            && self.arguments.iter().all(|&n| n <= LARGEST_ARGUMENT)
            && (wrong::is(40) || self.arguments[count..].iter().all(|&n| n == 0))
    }

    /// A byte 20 to 3F after ESC [: it builds arguments, begins the private form, or spoils.
    fn read_on(&mut self, byte: u8) {
        let mark_counts = self.kind == BRACKET || wrong::is(59) && self.wrongly_like_bracket();
        if self.kind == BRACKET {
            self.kind = ARGUMENTS;
        }
        match byte {
            b'>' if mark_counts => self.kind = PRIVATE,
            b'0'..=b'9' => self.digit(byte - b'0'),
            b';' if self.kind == ARGUMENTS => self.next_argument(),
            b';' if wrong::is(60) => {}
            _ => self.spoil(),
        }
    }

    /// Wrong edit 59's case: all but the kind is as after ESC [ alone.
    fn wrongly_like_bracket(&self) -> bool {
        *self == Half::of(ARGUMENTS, false, 1)
    }

    /// Whether a private form is the one that is taken; any other is as good as spoilt.
    fn switches_send_mode(&self, last: u8) -> bool {
        self.kind == PRIVATE && self.arguments[0] == SEND_MODE && matches!(last, b'h' | b'l')
    }

    /// Spoiling leaves one argument of 0.
    fn spoil(&mut self) {
        *self = Half::of(ARGUMENTS, true, 1);
    }

    /// A digit builds the last argument; a number above 9,999 spoils.
    fn digit(&mut self, digit: u8) {
        if self.spoilt && !wrong::is(31) {
            return;
        }
        let last = &mut self.arguments[usize::from(self.count) - 1];
        let number = u32::from(*last) * 10 + u32::from(digit);
        if number <= u32::from(LARGEST_ARGUMENT) {
            *last = number as u16;
        } else if wrong::is(20) {
            *last = LARGEST_ARGUMENT;
        } else {
            self.spoil();
        }
    }

    /// A semicolon begins the next argument; a ninth spoils.
    fn next_argument(&mut self) {
        if self.spoilt {
            return;
        }
        if self.count < 8 {
            self.count += 1;
        } else if wrong::is(9) {
            self.arguments[7] = 0;
        } else {
            self.spoil();
        }
    }
}

impl State {
    pub const ZERO: State = State {
        rows: 0,
        columns: 0,
        row: 0,
        column: 0,
        pen: 0,
        erasure: false,
        full: false,
        manual: false,
        soft: false,
        message: NO_MESSAGE,
        refused_at: 0,
        half: Half::OUTSIDE,
        stops: [false; 160],
        wrongly_spoilt_by: 0,
    };

    /// Cursor 1;1, plain pen, no stops, erasure mode reset, 266 for changed blocks, no lock or message,
    /// nothing half read.
    fn fresh(rows: u16, columns: u16) -> State {
        State { rows, columns, row: 1, column: 1, full: wrong::is(61), ..State::ZERO }
    }

    /// Number 2's part on the state; the size is a listed one.
    pub fn sound(&self) -> bool {
        (1..=self.rows).contains(&self.row)
            && (1..=self.columns).contains(&self.column)
            && self.pen & MODIFIED == 0
            && good_marks(self.pen)
            && self.message <= HIGH
            && (self.message != NO_MESSAGE || self.refused_at == 0)
            && self.half.sound()
            && !self.stops[usize::from(self.columns)..].contains(&true)
    }

    fn locked(&self) -> bool {
        self.manual || self.soft
    }

    /// A message never stays without its byte, nor the byte without it.
    fn lift_soft_lock(&mut self) {
        self.soft = false;
        self.message = NO_MESSAGE;
        self.refused_at = 0;
    }

    /// The next stop to the right, else the last column.
    fn tab_on(&mut self) {
        let next = (self.column + 1..=self.columns).find(|&c| self.stop(c));
        self.column = next.unwrap_or(if wrong::is(35) { self.column } else { self.columns });
    }

    /// The next stop to the left, else column 1.
    fn tab_back(&mut self) {
        self.column = (1..self.column).rev().find(|&c| self.stop(c)).unwrap_or(1);
    }

    fn stop(&self, column: u16) -> bool {
        self.stops[usize::from(column) - 1]
    }

    fn set_stop(&mut self, on: bool) {
        self.stops[usize::from(self.column) - 1] = on;
    }
}

/// Number 1: the size is listed and both lent parts have its length.
pub fn fits(rows: u16, columns: u16, characters: &[u8], marks: &[u16]) -> bool {
    let cells = usize::from(rows) * usize::from(columns);
    ROWS.contains(&rows)
        && COLUMNS.contains(&columns)
        && characters.len() == cells
        && marks.len() == cells
}

pub fn good_character(byte: u8) -> bool {
    (0x20..=0x7E).contains(&byte)
}

/// No bit but those named, not two kinds at once, and required only beside one that isn't protected.
pub fn good_marks(marks: u16) -> bool {
    match marks & !(MODIFIED | VISUAL) {
        PROTECTED => true,
        kind => matches!(kind & !REQUIRED, 0 | NUMERIC | ALPHABETIC),
    }
}

/// Whether a key may put a character into a cell with these marks: where it is numeric or
/// alphabetic, what document 003 lists for such fields, and 20 everywhere.
fn takes(marks: u16, character: u8) -> bool {
    let (numeric, alphabetic) = (marks & NUMERIC != 0, marks & ALPHABETIC != 0);
    match character {
        b' ' => !(numeric && wrong::is(50)),
        b'-' | b'.' => true,
        b'0'..=b'9' => !alphabetic || wrong::is(49),
        b'A'..=b'Z' | b'a'..=b'z' => !numeric,
        b',' if wrong::is(48) => !alphabetic,
        _ => !numeric && !alphabetic,
    }
}

/// Numbers 1 and 2, which every host and key call begins with.
fn check(state: &State, characters: &[u8], marks: &[u16]) -> u8 {
    if !fits(state.rows, state.columns, characters, marks) {
        return 1;
    }
    let page = characters.iter().all(|&byte| good_character(byte))
        && marks.iter().all(|&marks| good_marks(marks));
    if state.sound() && page {
        0
    } else {
        2
    }
}

/// A fresh page; a refused start hands back a state of zeros and leaves the lent parts.
pub fn start(rows: u16, columns: u16, characters: &mut [u8], marks: &mut [u16]) -> (State, Answer) {
    if !fits(rows, columns, characters, marks) {
        return (State::ZERO, Answer::nothing(1));
    }
    characters.fill(0x20);
    marks.fill(0);
    let stored = u32::from(rows) * u32::from(columns);
    (State::fresh(rows, columns), Answer { number: 0, taken: 0, sent: 0, stored })
}

/// Host bytes, one after another, until all are taken or one command's bytes find no room.
pub fn host(
    state: &mut State,
    characters: &mut [u8],
    marks: &mut [u16],
    bytes: &[u8],
    output: &mut [u8],
) -> Answer {
    let number = check(state, characters, marks);
    if number != 0 {
        return Answer::nothing(number);
    }
    if bytes.len() > MOST_HOST_BYTES - usize::from(wrong::is(39)) {
        return Answer::nothing(6);
    }
    let mut screen = Screen { state, characters, marks, output, sent: 0, stored: 0 };
    let stop = bytes.iter().position(|&byte| screen.byte(byte).is_err());
    if wrong::is(2) {
        screen.state.half = Half::OUTSIDE;
    }
    let mut taken = stop.unwrap_or(bytes.len());
    if wrong::is(33) && stop.is_some() {
        screen.state.half = Half::OUTSIDE;
        taken += 1;
    }
    let number = if stop.is_some() { 3 } else { 0 };
    Answer { number, taken, sent: screen.sent, stored: screen.stored }
}

/// One key; every number but 0 leaves all as it was.
pub fn key(
    state: &mut State,
    characters: &mut [u8],
    marks: &mut [u16],
    key: u32,
    output: &mut [u8],
) -> Answer {
    let number = check(state, characters, marks);
    if number != 0 {
        return Answer::nothing(number);
    }
    let known = matches!(key, 32..=126 | 256..=266 | 268) || key == 267 && wrong::is(57);
    let refused = state.locked() && key != 268;
    let mut screen = Screen { state, characters, marks, output, sent: 0, stored: 0 };
    let needs = screen.key_lacks_its_cell(key);
    let number = match (known, refused, needs) {
        (false, true, _) if wrong::is(16) => 5,
        (false, _, _) => 4,
        (_, true, true) if wrong::is(18) => 7,
        (_, true, _) => 5,
        (_, _, true) if wrong::is(54) && screen.key_meets_untaking_cell(key) => 8,
        (_, _, true) => 7,
        _ if screen.key_meets_untaking_cell(key) => 8,
        _ if wrong::is(69) && screen.key_is_held_back(key) && screen.wrongly_lacks_room() => 3,
        _ if screen.key_is_held_back(key) => 9,
        _ => 0,
    };
    if number == 9 && wrong::is(70) {
        screen.clear_modified();
    }
    if number != 0 {
        return Answer::nothing(number);
    }
    match screen.key(key) {
        Ok(()) => Answer { number: 0, taken: 0, sent: screen.sent, stored: screen.stored },
        Err(NoRoom) => Answer::nothing(3),
    }
}

/// What one call works on: the state, the lent parts, and what it has sent and stored so far.
struct Screen<'a> {
    state: &'a mut State,
    characters: &'a mut [u8],
    marks: &'a mut [u16],
    output: &'a mut [u8],
    sent: usize,
    stored: u32,
}

// The page.
impl Screen<'_> {
    fn cells(&self) -> usize {
        self.characters.len()
    }

    fn width(&self) -> usize {
        usize::from(self.state.columns)
    }

    /// The cursor's place in page order, from 0.
    fn here(&self) -> usize {
        usize::from(self.state.row - 1) * self.width() + usize::from(self.state.column - 1)
    }

    fn go(&mut self, place: usize) {
        self.state.row = (place / self.width()) as u16 + 1;
        self.state.column = (place % self.width()) as u16 + 1;
    }

    fn protected(&self, place: usize) -> bool {
        self.marks[place] & PROTECTED != 0
    }

    /// Behind a protected cell or at the page's first, whatever its last is.
    fn starts_field(&self, place: usize) -> bool {
        let behind = match place {
            0 => !(wrong::is(41) && self.ends_meet()),
            _ => self.protected(place - 1) || self.wrongly_ends(place),
        };
        !self.protected(place) && behind
    }

    fn field_start(&self, place: usize) -> usize {
        (0..=place).rev().find(|&p| self.starts_field(p)).unwrap_or(place)
    }

    /// The place after the last cell of the field that has this cell.
    fn field_end(&self, place: usize) -> usize {
        let mut beyond = place + 1..self.cells();
        beyond.find(|&p| self.protected(p) || self.wrongly_ends(p)).unwrap_or(self.cells())
    }

    /// All fields of the page, in page order.
    fn fields(&self) -> impl Iterator<Item = Range<usize>> + '_ {
        let mut place = 0;
        std::iter::from_fn(move || {
            let start = (place..self.cells()).find(|&p| self.starts_field(p))?;
            place = self.field_end(start);
            Some(start..place)
        })
    }

    /// Whether some cell of these has one of these marks.
    fn marked(&self, mut cells: Range<usize>, marks: u16) -> bool {
        cells.any(|place| self.marks[place] & marks != 0)
    }

    /// Wrong edit 11's limit.
    fn wrongly_ends(&self, place: usize) -> bool {
        wrong::is(11) && place % self.width() == 0
    }

    /// Wrong edit 41's case: the last cell is unprotected, and some other isn't.
    fn ends_meet(&self) -> bool {
        !self.protected(self.cells() - 1) && (0..self.cells()).any(|place| self.protected(place))
    }

    /// Erasing puts 20 with marks 0; with erasure mode reset it passes protected cells by.
    fn erase(&mut self, from: usize, to: usize) {
        for place in from..to {
            if self.state.erasure || !self.protected(place) || wrong::is(13) {
                self.characters[place] = 0x20;
                self.marks[place] = 0;
                self.stored += 1;
            }
        }
    }

    /// Rows move up by one and a row of 20 with marks 0 comes in; every cell counts as stored.
    fn scroll_up(&mut self) {
        let (width, cells) = (self.width(), self.cells());
        self.characters.copy_within(width.., 0);
        self.characters[cells - width..].fill(0x20);
        if !wrong::is(14) {
            self.marks.copy_within(width.., 0);
        }
        self.marks[cells - width..].fill(0);
        self.stored += cells as u32;
    }

    fn scroll_down(&mut self) {
        let (width, cells) = (self.width(), self.cells());
        self.characters.copy_within(..cells - width, width);
        self.characters[..width].fill(0x20);
        self.marks.copy_within(..cells - width, width);
        self.marks[..width].fill(0);
        self.stored += cells as u32;
    }
}

// What is sent.
impl Screen<'_> {
    /// The bytes go out whole or not at all.
    fn send(&mut self, bytes: &[u8]) -> Result<(), NoRoom> {
        let room = self.output.len() - self.sent;
        if bytes.len() + usize::from(wrong::is(37)) > room {
            return Err(NoRoom);
        }
        self.output[self.sent..][..bytes.len()].copy_from_slice(bytes);
        self.sent += bytes.len();
        Ok(())
    }

    /// Each field sent, in page order: its place and all its characters; then 03.
    fn block(&self, changed: bool) -> Vec<u8> {
        let mut bytes = Vec::new();
        for field in self.fields() {
            let Range { start, end } = field;
            let looked_at = if wrong::is(34) { start + 1 } else { end };
            if !changed || self.marked(start..looked_at, MODIFIED) {
                let (row, column) = (start / self.width() + 1, start % self.width() + 1);
                bytes.extend_from_slice(format!("\x1B[{row};{column}f").as_bytes());
                bytes.extend_from_slice(&self.characters[field]);
            }
        }
        bytes.push(0x03);
        bytes
    }

    /// A block that is sent clears modified on all unprotected cells; a refused one doesn't.
    fn send_block(&mut self, changed: bool) -> Result<(), NoRoom> {
        let bytes = self.block(changed);
        if wrong::is(4) {
            self.clear_modified();
        }
        self.send(&bytes)?;
        self.clear_modified();
        Ok(())
    }

    fn clear_modified(&mut self) {
        for marks in self.marks.iter_mut().filter(|marks| **marks & PROTECTED == 0) {
            *marks &= !MODIFIED;
        }
    }
}

// Host bytes and commands.
impl Screen<'_> {
    /// One host byte; on `NoRoom` nothing has changed and the byte isn't taken.
    fn byte(&mut self, byte: u8) -> Result<(), NoRoom> {
        let inside = self.state.half.kind != NONE;
        match byte {
            0x1A if inside && wrong::is(8) => self.refuse(BROKEN, byte),
            0x18 | 0x1A => self.state.half = Half::OUTSIDE,
            0x1B => self.state.half = Half::of(ESCAPE, false, 0),
            0x80.. if wrong::is(32) && !inside => {}
            0x80.. => self.refuse(HIGH, byte),
            0x7F if inside && wrong::is(7) => {}
            0x7F if inside && wrong::is(46) => self.refuse(HIGH, byte),
            0x0D if inside && wrong::is(21) => self.control(byte),
            0x00..=0x1F | 0x7F if inside => self.refuse(BROKEN, byte),
            0x00..=0x1F | 0x7F => self.control(byte),
            _ => match self.state.half.kind {
                ESCAPE => return self.after_escape(byte),
                INTERMEDIATE if byte < 0x30 => {}
                INTERMEDIATE => self.refuse(UNKNOWN, byte),
                ARGUMENTS | BRACKET | PRIVATE => return self.after_bracket(byte),
                _ => self.text(byte),
            },
        }
        Ok(())
    }

    /// Soft lock, message and byte, over those of an earlier refusal; a half-read sequence is over;
    /// nothing else changes.
    fn refuse(&mut self, message: u8, byte: u8) {
        self.state.half = Half::OUTSIDE;
        self.state.soft = true;
        if wrong::is(44) && self.state.message != NO_MESSAGE {
            return;
        }
        self.state.message = message;
        self.state.refused_at = byte;
    }

    /// Text takes the pen, is not modified, and never scrolls.
    fn text(&mut self, byte: u8) {
        let here = self.here();
        let kept = if wrong::is(27) { self.marks[here] & MODIFIED } else { 0 };
        self.characters[here] = byte;
        self.marks[here] = self.state.pen | kept;
        self.stored += 1;
        if here + 1 < self.cells() {
            self.go(here + 1);
        } else if wrong::is(3) {
            self.scroll_up();
            self.state.column = 1;
        } else {
            self.go(0);
        }
    }

    /// Control bytes outside a sequence; those not listed are ignored.
    fn control(&mut self, byte: u8) {
        match byte {
            0x08 => self.left(1),
            0x09 => self.state.tab_on(),
            0x0A => self.line_down(),
            0x0D => self.state.column = 1,
            _ => {}
        }
    }

    fn up(&mut self, n: u16) {
        self.state.row = self.state.row.saturating_sub(n).max(1);
    }

    fn down(&mut self, n: u16) {
        self.state.row = (self.state.row + n).min(self.state.rows);
    }

    fn left(&mut self, n: u16) {
        self.state.column = self.state.column.saturating_sub(n).max(1);
    }

    fn right(&mut self, n: u16) {
        self.state.column = (self.state.column + n).min(self.state.columns);
    }

    /// Down one; at the last row the page scrolls up.
    fn line_down(&mut self) {
        if self.state.row == self.state.rows {
            self.scroll_up();
        } else {
            self.down(1);
        }
    }

    /// Up one; at row 1 the page scrolls down.
    fn line_up(&mut self) {
        if self.state.row == 1 {
            self.scroll_down();
        } else {
            self.up(1);
        }
    }

    /// The byte after ESC, 20 to 7E.
    fn after_escape(&mut self, byte: u8) -> Result<(), NoRoom> {
        match byte {
            0x20..=0x2F => {
                self.state.half.kind = INTERMEDIATE;
                return Ok(());
            }
            b'[' => {
                self.state.half = Half::of(BRACKET, false, 1);
                return Ok(());
            }
            b'D' => self.line_down(),
            b'E' => {
                self.line_down();
                self.state.column = 1;
            }
            b'M' => self.line_up(),
            b'H' => self.state.set_stop(true),
            b'V' if wrong::is(73) => self.state.pen = self.state.pen & !KINDS | PROTECTED,
            b'V' => self.set_pen_kind(PROTECTED),
            b'W' if wrong::is(53) => self.set_pen_kind(self.state.pen & NUMERIC),
            b'W' => self.set_pen_kind(0),
            b'S' if wrong::is(66) && self.has_blank_required_field() => {}
            b'S' => self.send_block(wrong::is(58) && !self.state.full)?,
            b'c' => self.as_fresh(),
            b'`' => self.state.manual = true,
            b'b' => {
                self.state.manual = false;
                self.state.lift_soft_lock();
            }
            _ => {
                self.refuse(UNKNOWN, byte);
                return Ok(());
            }
        }
        self.state.half = Half::OUTSIDE;
        Ok(())
    }

    /// ESC c: page and state as a start makes them, every cell stored.
    fn as_fresh(&mut self) {
        let (stops, full) = (self.state.stops, self.state.full);
        self.characters.fill(0x20);
        self.marks.fill(0);
        *self.state = State::fresh(self.state.rows, self.state.columns);
        if wrong::is(15) {
            self.state.stops = stops;
        }
        if wrong::is(62) {
            self.state.full = full;
        }
        if !wrong::is(19) {
            self.stored += self.cells() as u32;
        }
    }

    /// A byte after ESC [, 20 to 7E.
    fn after_bracket(&mut self, byte: u8) -> Result<(), NoRoom> {
        if byte >= 0x40 {
            return self.finish(byte);
        }
        let spoilt_before = self.state.half.spoilt;
        self.state.half.read_on(byte);
        if wrong::is(43) && self.state.half.spoilt && !spoilt_before {
            self.state.wrongly_spoilt_by = byte;
        }
        Ok(())
    }

    /// The final byte of an ESC [ sequence: done, or refused there.
    fn finish(&mut self, last: u8) -> Result<(), NoRoom> {
        let half = self.state.half;
        let message = Screen::refusal(&half, last);
        if message != NO_MESSAGE {
            let spoiler = wrong::is(43) && half.spoilt;
            self.refuse(message, if spoiler { self.state.wrongly_spoilt_by } else { last });
        } else if half.kind == PRIVATE {
            self.state.half = Half::OUTSIDE;
            self.state.full = (last == b'l') != wrong::is(56);
        } else if self.sequence(last)? {
            self.state.half = Half::OUTSIDE;
        } else {
            self.refuse(ARGUMENT, last);
        }
        Ok(())
    }

    /// Why a sequence is refused whatever its values are: spoilt before unknown, and both before
    /// too many arguments.
    fn refusal(half: &Half, last: u8) -> u8 {
        match Screen::allowed(last) {
            0 if wrong::is(42) => UNKNOWN,
            _ if half.spoilt => BROKEN,
            _ if half.kind == PRIVATE && !half.switches_send_mode(last) => BROKEN,
            0 => UNKNOWN,
            most if half.count <= most => NO_MESSAGE,
            _ if wrong::is(47) => UNKNOWN,
            _ => ARGUMENT,
        }
    }

    /// How many arguments a final byte allows; unlisted ones allow none.
    fn allowed(last: u8) -> u8 {
        match last {
            b'A'..=b'G' | b'I' | b'J' | b'K' | b'W' | b'Z' | b'd' | b'n' | b'o' => 1,
            b'H' | b'f' => 2,
            b'h' | b'l' | b'm' => 8,
            _ => 0,
        }
    }

    /// A listed command with no more arguments than it takes; false if a value isn't allowed, and
    /// then nothing has changed.
    fn sequence(&mut self, last: u8) -> Result<bool, NoRoom> {
        let half = self.state.half;
        let arguments = &half.arguments[..usize::from(half.count)];
        let number = arguments[0];
        let many = number.max(1);
        match last {
            b'A' => self.up(many),
            b'B' => self.down(many),
            b'C' => self.right(many),
            b'D' => self.left(many),
            b'E' => {
                self.down(many);
                self.state.column = 1;
            }
            b'F' => {
                self.up(many);
                self.state.column = 1;
            }
            b'G' if many <= self.state.columns => self.state.column = many,
            b'G' => return Ok(!wrong::is(23)),
            b'd' if many <= self.state.rows => self.state.row = many,
            b'd' => return Ok(false),
            b'H' => return Ok(self.address(many, half.arguments[1].max(1))),
            b'f' => return Ok(self.address_keeping(number, half.arguments[1])),
            // No row has more than 160 stops: further steps stay at the edge.
            b'I' => (0..many.min(160)).for_each(|_| self.state.tab_on()),
            b'Z' => (0..many.min(160)).for_each(|_| self.state.tab_back()),
            b'W' => match number {
                0 => self.state.set_stop(true),
                2 => self.state.set_stop(false),
                5 => self.state.stops = [false; 160],
                _ => return Ok(false),
            },
            b'J' => return Ok(self.erase_part(number, 0, self.cells())),
            b'K' => {
                let first = usize::from(self.state.row - 1) * self.width();
                return Ok(self.erase_part(number, first, first + self.width()));
            }
            b'm' => return Ok(self.visual_marks(arguments)),
            b'h' | b'l' => {
                let good = |&n: &u16| n == ERASURE_MODE || (n == 0 && wrong::is(25));
                if !arguments.iter().all(good) {
                    return Ok(false);
                }
                self.state.erasure = last == b'h';
            }
            b'n' => match number {
                5 => self.send(b"\x1B[0n")?,
                6 => {
                    let (row, column) = (self.state.row, self.state.column);
                    let report = if wrong::is(10) {
                        format!("\x1B[{row:02};{column:02}R")
                    } else {
                        format!("\x1B[{row};{column}R")
                    };
                    self.send(report.as_bytes())?;
                }
                _ => return Ok(false),
            },
            b'o' => match number {
                0 if wrong::is(68) => self.state.pen &= !KINDS,
                0 => self.set_pen_kind(0),
                1 => self.set_pen_kind(PROTECTED),
                3 => self.set_pen_kind(NUMERIC),
                4 => self.set_pen_kind(ALPHABETIC),
                20 => return Ok(self.require_of_pen()),
                _ => return Ok(false),
            },
            _ => return Ok(false),
        }
        Ok(true)
    }

    /// One kind takes the place of another, 0 being plain and unprotected; required goes, visual
    /// marks stay.
    fn set_pen_kind(&mut self, kind: u16) {
        self.state.pen = self.state.pen & !(KINDS | REQUIRED) | kind;
    }

    /// Required comes beside the pen's kind; false if that is protected.
    fn require_of_pen(&mut self) -> bool {
        let good = self.state.pen & PROTECTED == 0;
        if good {
            self.state.pen |= REQUIRED;
        }
        if good && wrong::is(67) {
            self.state.pen &= !NUMERIC;
        }
        good
    }

    /// Row and column, each within the page or refused.
    fn address(&mut self, row: u16, column: u16) -> bool {
        let good = row <= self.state.rows && column <= self.state.columns;
        if good {
            self.state.row = row;
            self.state.column = column;
        }
        good
    }

    /// As H, but a 0 column with a row above 0 keeps the column.
    fn address_keeping(&mut self, row: u16, column: u16) -> bool {
        let keep = column == 0 && (row > 0 || wrong::is(22)) && !wrong::is(1);
        let column = if keep { self.state.column } else { column.max(1) };
        self.address(row.max(1), column)
    }

    /// Within a page or row: 0 from the cursor, 1 up to it, both with its cell, 2 all.
    fn erase_part(&mut self, which: u16, first: usize, end: usize) -> bool {
        let here = self.here();
        match which {
            0 => self.erase(here, end),
            1 => self.erase(first, here + usize::from(!wrong::is(30))),
            2 => self.erase(first, end),
            _ => return false,
        }
        true
    }

    /// The whole list is looked at before the pen changes; its kind stays, and required does.
    fn visual_marks(&mut self, arguments: &[u16]) -> bool {
        let mut pen = self.state.pen;
        for argument in arguments {
            match argument {
                0 if wrong::is(26) => pen &= !(VISUAL | PROTECTED),
                0 if wrong::is(55) => pen &= !(VISUAL | NUMERIC | ALPHABETIC),
                0 => pen &= !VISUAL,
                1 => pen |= 0x04,
                4 => pen |= 0x08,
                5 => pen |= 0x10,
                7 => pen |= 0x20,
                8 => pen |= 0x40,
                _ => return false,
            }
            if wrong::is(6) {
                self.state.pen = pen;
            }
        }
        self.state.pen = pen;
        true
    }
}

// Keys.
impl Screen<'_> {
    /// Number 7: typing and field editing need an unprotected cell, field search needs a field.
    fn key_lacks_its_cell(&self, key: u32) -> bool {
        match key {
            32..=126 | 263..=265 => self.protected(self.here()),
            260 | 261 => (0..self.cells()).all(|place| self.protected(place)),
            _ => false,
        }
    }

    /// Number 8: the character typed, or one that a field key moves, isn't taken by its new cell.
    fn key_meets_untaking_cell(&self, key: u32) -> bool {
        let here = self.here();
        let lands_badly = |from: usize, to: usize| !takes(self.marks[to], self.characters[from]);
        match key {
            32..=126 => !takes(self.marks[here], key as u8),
            264 if wrong::is(51) => {
                (here + 1..self.field_end(here)).any(|place| lands_badly(place, place))
            }
            264 => (here + 1..self.field_end(here)).any(|place| lands_badly(place, place - 1)),
            265 => {
                let last = self.field_end(here) - 1;
                (here..last).any(|place| lands_badly(place, place + 1))
                    || wrong::is(52) && lands_badly(last, last)
            }
            _ => false,
        }
    }

    /// Number 9: a required field of the page is blank, be it in the block or not.
    fn key_is_held_back(&self, key: u32) -> bool {
        key == 266 && self.has_blank_required_field()
    }

    fn has_blank_required_field(&self) -> bool {
        let mut fields = self.fields();
        fields.any(|field| {
            let Range { start, end } = field;
            let end = if wrong::is(64) { start + 1 } else { end };
            let passed_by = wrong::is(63) && !self.marked(field, MODIFIED);
            !passed_by && self.blank_and_required(start..end)
        })
    }

    /// One required cell is enough, and one character other than 20, in whichever cells.
    fn blank_and_required(&self, mut field: Range<usize>) -> bool {
        let row_end = (field.start / self.width() + 1) * self.width();
        let end = if wrong::is(72) { field.end.min(row_end) } else { field.end };
        let filled = |place: usize| match self.characters[place] {
            _ if wrong::is(65) && self.marks[place] & REQUIRED == 0 => false,
            b'.' => !wrong::is(71),
            character => character != b' ',
        };
        self.marked(field.start..end, REQUIRED) && !field.any(filled)
    }

    /// Wrong edit 69's case: the block wouldn't have found room either.
    fn wrongly_lacks_room(&self) -> bool {
        self.block(!self.state.full).len() > self.output.len()
    }

    fn key(&mut self, key: u32) -> Result<(), NoRoom> {
        let (here, cells) = (self.here(), self.cells());
        match key {
            32..=126 => self.typed(key as u8),
            256 => self.up(1),
            257 => self.down(1),
            258 => self.left(1),
            259 => self.right(1),
            // The first field that starts after the cursor, else the first.
            260 => {
                let mut order = (here + 1..cells).chain(0..cells);
                self.go(order.find(|&p| self.starts_field(p)).unwrap_or(here));
            }
            // The last field that starts before the cursor, else the last.
            261 => {
                let around = if wrong::is(12) { here } else { cells };
                let mut order = (0..here).rev().chain((0..around).rev());
                self.go(order.find(|&p| self.starts_field(p)).unwrap_or(here));
            }
            262 => self.go((0..cells).find(|&p| !self.protected(p)).unwrap_or(0)),
            263 => {
                let start = self.field_start(here);
                let end = self.field_end(here);
                self.characters[start..end].fill(0x20);
                self.store(start, end);
                self.go(start);
            }
            // The rest of the field closes up, a 20 at its end.
            264 => {
                let end = self.field_end(here);
                self.characters.copy_within(here + 1..end, here);
                self.characters[end - 1] = 0x20;
                if wrong::is(38) {
                    self.marks.copy_within(here + 1..end, here);
                }
                self.store(here, end);
                if wrong::is(36) {
                    self.stored -= 1;
                }
            }
            // A 20 comes in, the rest moves right, the last character is lost.
            265 => {
                let end = self.field_end(here);
                self.characters.copy_within(here..end - 1, here + 1);
                self.characters[here] = 0x20;
                self.store(here, end);
            }
            266 => self.send_block(!self.state.full)?,
            267 if wrong::is(57) => self.send_block(false)?,
            _ => {
                let refused_at = self.state.refused_at;
                self.state.lift_soft_lock();
                if wrong::is(17) {
                    self.state.manual = false;
                }
                if wrong::is(45) {
                    self.state.refused_at = refused_at;
                }
            }
        }
        Ok(())
    }

    /// Keeps visual marks, kind and required, sets modified, and goes on to the next unprotected
    /// cell, round the page.
    fn typed(&mut self, character: u8) {
        let (here, cells) = (self.here(), self.cells());
        let same = self.characters[here] == character;
        self.characters[here] = character;
        if !(same && wrong::is(5)) {
            self.marks[here] |= MODIFIED;
        }
        if wrong::is(28) {
            self.marks[here] = self.marks[here] & !VISUAL | MODIFIED | self.state.pen & VISUAL;
        }
        self.stored += 1;
        let mut onward = (here + 1..cells).chain(0..here);
        self.go(onward.find(|&p| !self.protected(p)).unwrap_or(here));
    }

    /// The cells that a field key stored: modified, and counted.
    fn store(&mut self, from: usize, to: usize) {
        for marks in &mut self.marks[from..to] {
            *marks |= MODIFIED;
        }
        self.stored += (to - from) as u32;
    }
}
