//! Document 01's examples, request M-101's fields, M-102's messages, M-103's kinds of cell, M-106's send mode and
//! M-107's required fields.

use crate::bytes;
use crate::feed::record;
use crate::frames::{lines, unhex, Calls, Mode, Program, Session};
use crate::generate::transcript;
use crate::generate_calls::{calls, sweep};
use crate::random::Random;
use crate::required::{has_blank_required_field, Count};
use crate::streams::{HARDLY_SEND_MODES, NEARLY_SEND_MODES};
use crate::terminal::{good_marks, host, key, start, Answer, Half, State};
use crate::terminal::{ALPHABETIC, COLUMNS, MODIFIED, NUMERIC, PROTECTED, REQUIRED, ROWS, VISUAL};
use crate::wrong;
use std::collections::{BTreeMap, BTreeSet};

/// A page of the size asked for, fresh, with its output.
struct Page {
    state: State,
    characters: Vec<u8>,
    marks: Vec<u16>,
    output: Vec<u8>,
}

impl Page {
    fn sized(rows: u16, columns: u16) -> Page {
        let cells = usize::from(rows) * usize::from(columns);
        let (mut characters, mut marks) = (vec![0; cells], vec![0; cells]);
        let (state, answer) = start(rows, columns, &mut characters, &mut marks);
        assert_eq!(answer, Answer { number: 0, taken: 0, sent: 0, stored: cells as u32 });
        assert!(characters.iter().all(|&c| c == 0x20) && marks.iter().all(|&m| m == 0));
        Page { state, characters, marks, output: vec![0xA5; 65_536] }
    }

    fn fresh() -> Page {
        Page::sized(24, 80)
    }

    fn from_4_20() -> Page {
        let mut page = Page::fresh();
        assert_eq!(page.host(b"\x1B[4;20H").number, 0);
        page
    }

    fn host(&mut self, bytes: &[u8]) -> Answer {
        let Page { state, characters, marks, output } = self;
        host(state, characters, marks, bytes, output)
    }

    fn key(&mut self, number: u32) -> Answer {
        let Page { state, characters, marks, output } = self;
        key(state, characters, marks, number, output)
    }

    fn cursor(&self) -> (u16, u16) {
        (self.state.row, self.state.column)
    }

    fn refused(&self) -> bool {
        self.state.soft && self.state.message != 0
    }

    /// All that a call given 8 or 9 leaves as it was.
    fn all(&self) -> (State, Vec<u8>, Vec<u16>, Vec<u8>) {
        let Page { state, characters, marks, output } = self;
        (state.clone(), characters.clone(), marks.clone(), output.clone())
    }

    /// The bytes that a key sends.
    fn sent_by_key(&mut self, number: u32) -> Vec<u8> {
        let sent = self.key(number).sent;
        self.output[..sent].to_vec()
    }

    /// The bytes that host bytes make it send.
    fn sent_by_host(&mut self, bytes: &[u8]) -> Vec<u8> {
        let sent = self.host(bytes).sent;
        self.output[..sent].to_vec()
    }

    /// The message and the byte beside it.
    fn told(&self) -> (u8, u8) {
        (self.state.message, self.state.refused_at)
    }

    fn room(mut self, room: usize) -> Page {
        self.output.truncate(room);
        self
    }
}

fn sizes() -> impl Iterator<Item = (u16, u16)> {
    ROWS.into_iter().flat_map(|rows| COLUMNS.map(|columns| (rows, columns)))
}

/// Enough that the generators' rarer choices come up.
const SEEDS: std::ops::RangeInclusive<u64> = 1..=90;

/// Host bytes on a fresh page: the cursor after them, and whether something was refused.
fn after(bytes: &[u8]) -> ((u16, u16), bool) {
    let mut page = Page::fresh();
    assert_eq!(page.host(bytes).number, 0);
    (page.cursor(), page.refused())
}

#[test]
fn whole_example() {
    let input = b"001850
011B564B4E1B5720201B562E1B57
011B5B313B3366
020034
02010A
02010A
";
    let output = b"00010100000780
00010600000005
00010300000000
00010400000001
000104000000001B5B313B3366342003
0001040000000003
";
    assert_eq!(Mode::Transcript.run(input), output);
    assert_eq!(Mode::Transcript.run(&input[..input.len() - 1]), output);
}

#[test]
fn addresses() {
    assert_eq!(after(b"\x1B[24;80H"), ((24, 80), false));
    assert_eq!(after(b"\x1B[25;1H"), ((1, 1), true));
    assert_eq!(after(b"\x1B[81G"), ((1, 1), false));
    assert_eq!(after(b"\x1B[25d"), ((1, 1), true));
    for (bytes, cursor) in [(b"\x1B[3G", (4, 3)), (b"\x1B[5f", (5, 20)), (b"\x1B[5H", (5, 1))] {
        let mut page = Page::from_4_20();
        assert_eq!(page.host(bytes).number, 0);
        assert_eq!((page.cursor(), page.refused()), (cursor, false));
    }
}

#[test]
fn text_in_the_last_cell() {
    let mut page = Page::fresh();
    page.host(b"top\x1B[24;80H");
    assert_eq!(page.host(b"A"), Answer { number: 0, taken: 1, sent: 0, stored: 1 });
    assert_eq!(page.cursor(), (1, 1));
    assert_eq!((&page.characters[..3], page.characters[1_919]), (&b"top"[..], b'A'));
}

#[test]
fn arguments() {
    assert_eq!(after(b"\x1B[1;1;1;1;1;1;1;1m"), ((1, 1), false));
    assert_eq!(after(b"\x1B[1;1;1;1;1;1;1;1;1m"), ((1, 1), true));
    assert_eq!(after(b"\x1B[9999C"), ((1, 80), false));
    assert_eq!(after(b"\x1B[10000C"), ((1, 1), true));
}

#[test]
fn lengths_of_a_host_call() {
    let mut page = Page::fresh();
    assert_eq!(page.host(b""), Answer { number: 0, taken: 0, sent: 0, stored: 0 });
    let all = Answer { number: 0, taken: 65_536, sent: 0, stored: 65_536 };
    assert_eq!(page.host(&[b'x'; 65_536]), all);
    let before = page.state.clone();
    assert_eq!(page.host(&[b'y'; 65_537]), Answer { number: 6, taken: 0, sent: 0, stored: 0 });
    assert_eq!(page.state, before);
    assert!(!page.characters.contains(&b'y'));
}

#[test]
fn room_for_a_changed_block() {
    let mut page = Page::fresh().room(0);
    assert_eq!(page.key(266), Answer { number: 3, taken: 0, sent: 0, stored: 0 });
    let mut page = Page::fresh().room(1);
    assert_eq!(page.key(266), Answer { number: 0, taken: 0, sent: 1, stored: 0 });
    assert_eq!(page.output, [0x03]);
}

#[test]
fn sequence_across_calls() {
    let mut page = Page::fresh();
    for byte in b"\x1B[12;34H" {
        assert_eq!(page.host(&[*byte]).taken, 1);
    }
    assert_eq!(page.cursor(), (12, 34));
}

#[test]
fn no_room_leaves_the_tag() {
    let mut page = Page::fresh().room(5);
    assert_eq!(page.key(65).stored, 1);
    let before = (page.state.clone(), page.marks.clone());
    assert_eq!(page.key(266).number, 3);
    assert_eq!((page.state.clone(), page.marks.clone()), before);
    let answer = page.host(b"B\x1BSC");
    assert_eq!(answer, Answer { number: 3, taken: 2, sent: 0, stored: 1 });
    assert_eq!((page.marks[0], page.characters[1], page.characters[2]), (MODIFIED, b'B', 0x20));
    assert_eq!(page.state.half.kind, 1);
    assert_eq!(page.output, [0xA5; 5]);
}

#[test]
fn same_character_sets_the_tag() {
    let mut page = Page::fresh();
    page.host(b"A\x1B[H");
    assert_eq!(page.key(65).stored, 1);
    assert_eq!(page.marks[0], MODIFIED);
}

#[test]
fn refused_list_leaves_the_pen() {
    let mut page = Page::fresh();
    page.host(b"\x1B[1;99m");
    assert_eq!((page.state.pen, page.refused()), (0, true));
}

#[test]
fn refused_start() {
    let (mut characters, mut marks) = (vec![7; 2_000], vec![9; 2_000]);
    let (state, answer) = start(25, 80, &mut characters, &mut marks);
    assert_eq!((state, answer), (State::ZERO, Answer { number: 1, taken: 0, sent: 0, stored: 0 }));
    assert!(characters == [7; 2_000] && marks == [9; 2_000]);
    let output = Mode::Transcript.run(b"0141\n001850\n001950\n0141\n\n");
    assert_eq!(output, b"FF\n00010100000780\n01000000000000\nFF\nFF\n");
}

/// Before 2;3 there are 82 cells, behind it 1,837.
#[test]
fn whole_example_over_a_row_end() {
    let input = b"001850
011B561B5B323B33482E1B571B5B48
020104
020105
020107
011B53
";
    let output = format!(
        "00010100000780
00010100000001
00020400000000
00010100000000
00010100000052
000101000000001B5B313B3166{}1B5B323B3466{}03
",
        "20".repeat(82),
        "20".repeat(1_837)
    );
    assert_eq!(String::from_utf8_lossy(&Mode::Transcript.run(input)), output);
}

#[test]
fn fresh_page_is_one_field() {
    for (rows, columns) in sizes() {
        let mut page = Page::sized(rows, columns);
        let cells = page.characters.len();
        for field_key in [260, 261] {
            page.host(b"\x1B[13;14H");
            assert_eq!((page.key(field_key).number, page.cursor()), (0, (1, 1)));
        }
        page.host(b"\x1B[13;14H");
        assert_eq!(page.key(263).stored, cells as u32);
        assert_eq!(page.cursor(), (1, 1));
        assert_eq!(page.host(b"\x1BS").sent, cells + 7);
        assert!(page.output.starts_with(b"\x1B[1;1f "));
    }
}

/// A field of four cells, 3;79 to 4;2, with a protected cell on either side.
fn over_a_row_end() -> Page {
    let mut page = Page::fresh();
    page.host(b"\x1B[3;78H\x1BV|\x1BW\x1B[4mabcd\x1BV|\x1BW");
    assert_eq!((page.marks[237], page.marks[242]), (0x0001, 0x0009));
    page
}

#[test]
fn delete_and_insert_over_a_row_end() {
    let stored = |stored| Answer { number: 0, taken: 0, sent: 0, stored };
    let mut page = over_a_row_end();
    page.host(b"\x1B[3;80H");
    assert_eq!(page.key(264), stored(3));
    assert_eq!((&page.characters[237..243], page.cursor()), (&b"|acd |"[..], (3, 80)));
    assert_eq!(page.marks[237..243], [0x0001, 0x0008, 0x000A, 0x000A, 0x000A, 0x0009]);
    assert_eq!(page.key(265), stored(3));
    assert_eq!((&page.characters[237..243], page.cursor()), (&b"|a cd|"[..], (3, 80)));
    page.host(b"\x1B[4;2H");
    assert_eq!(page.key(265), stored(1));
    assert_eq!(&page.characters[237..243], b"|a c |");
}

#[test]
fn field_keys_over_a_row_end() {
    let mut page = over_a_row_end();
    for (from, field_key, to) in [
        (b"\x1B[3;80H", 260, (4, 4)),
        (b"\x1B[4;01H", 260, (4, 4)),
        (b"\x1B[4;01H", 261, (3, 79)),
        (b"\x1B[3;79H", 261, (1, 1)),
        (b"\x1B[1;01H", 261, (4, 4)),
        (b"\x1B[9;09H", 260, (1, 1)),
    ] {
        page.host(from);
        assert_eq!((page.key(field_key).number, page.cursor()), (0, to));
    }
    page.host(b"\x1B[4;2H");
    assert_eq!((page.key(263).stored, page.cursor()), (4, (3, 79)));
    assert_eq!(&page.characters[237..243], b"|    |");
}

/// One modified cell sends its whole field, told to begin in the row above.
#[test]
fn changed_block_over_a_row_end() {
    let mut page = over_a_row_end();
    page.host(b"\x1B[4;1H");
    page.key(u32::from(b'X'));
    let sent = page.key(266).sent;
    assert_eq!(&page.output[..sent], b"\x1B[3;79fabXd\x03");
    let sent = page.key(266).sent;
    assert_eq!(&page.output[..sent], b"\x03");
}

/// Text laid over the page's end leaves two cells there and three at 1;1, all else protected.
#[test]
fn last_cell_is_not_joined_to_the_first() {
    let mut page = Page::fresh();
    page.host(b"\x1BV");
    page.host(&[b'#'; 1_920]);
    page.host(b"\x1BW\x1B[24;79Hyzabc");
    assert_eq!(page.sent_by_host(b"\x1BS"), b"\x1B[1;1fabc\x1B[24;79fyz\x03");
    page.host(b"\x1B[24;80H");
    assert_eq!((page.key(260).number, page.cursor()), (0, (1, 1)));
    assert_eq!((page.key(261).number, page.cursor()), (0, (24, 79)));
    assert_eq!((page.key(264).stored, &page.characters[1_918..]), (2, &b"z "[..]));
    assert_eq!((page.key(263).stored, page.cursor()), (2, (24, 79)));
    page.host(b"\x1B[1;2H");
    assert_eq!((page.key(263).stored, page.cursor()), (3, (1, 1)));
    assert_eq!(&page.characters[..4], b"   #");
    page.host(b"\x1B[24;80H");
    assert_eq!((page.key(65).number, page.cursor()), (0, (1, 1)));
}

/// The longest block over all pages of a size: for each cell the better of protected and not.
fn most_bytes(rows: u16, columns: u16) -> usize {
    let (mut last_protected, mut last_in_field) = (0, 0);
    for row in 1..=rows {
        for column in 1..=columns {
            let head = format!("\x1B[{row};{column}f").len();
            let in_field = (last_protected + head).max(last_in_field) + 1;
            last_protected = last_protected.max(last_in_field);
            last_in_field = in_field;
        }
    }
    last_protected.max(last_in_field) + 1
}

/// Unprotected are 1;1 and the even columns.
fn longest_page(rows: u16, columns: u16) -> Page {
    let mut page = Page::sized(rows, columns);
    for marks in page.marks.iter_mut().skip(2).step_by(2) {
        *marks = PROTECTED;
    }
    page
}

#[test]
fn longest_blocks() {
    let told = [8_186, 13_976, 17_210, 9_254, 15_797, 19_451, 16_730, 28_544, 35_138];
    for ((rows, columns), length) in sizes().zip(told) {
        assert_eq!(most_bytes(rows, columns), length);
        let mut page = longest_page(rows, columns).room(length);
        page.host(b"\x1B[>6l");
        assert_eq!(page.key(266), Answer { number: 0, taken: 0, sent: length, stored: 0 });
        assert_eq!(page.room(length - 1).key(266).number, 3);
    }
    let answer = longest_page(48, 160).host(b"\x1BS\x1BS");
    assert_eq!(answer, Answer { number: 3, taken: 3, sent: 35_138, stored: 0 });
}

#[test]
fn calls_frames() {
    let output = Mode::Calls.run(b"2400030002\n2100\n21");
    let zeros = "0".repeat(182 * 4);
    let call = format!("01{}\n00000 {zeros}\n000000\n00000000\n", "0".repeat(24));
    assert_eq!(String::from_utf8_lossy(&output), format!("00\n{call}{call}"));
}

/// A frame that sets a character or marks, and the number of the call right behind it.
type SetAndTold = (String, u8);

/// Each such pair in an input for `calls`, in order.
fn set_and_told(input: &[u8]) -> Vec<SetAndTold> {
    let output = Mode::Calls.run(input);
    let mut told = lines(&output);
    let (mut before, mut all) = (String::new(), Vec::new());
    for line in lines(input) {
        let frame = String::from_utf8_lossy(line).into_owned();
        let first = String::from_utf8_lossy(told.next().expect("a line a frame")).into_owned();
        let call =
            ["20", "21", "22", "23"].contains(&frame.get(..2).unwrap_or("")) && first != "FF";
        if call {
            assert!(told.nth(2).is_some());
            if matches!(before.get(..2), Some("26" | "27")) || before.starts_with("280004") {
                all.push((before, u8::from_str_radix(&first[..2], 16).expect("a number")));
            }
        }
        before = frame;
    }
    assert_eq!(told.next(), None);
    all
}

/// The value that a frame sets, of so many digits.
fn value(frame: &str, digits: usize) -> u16 {
    u16::from_str_radix(&frame[frame.len() - digits..], 16).expect("digits")
}

/// 1,920 cells in turn, then 62 past them: each one's character and marks; and the marks of nine more
/// cells, which are last or between first and last on other sizes.
#[test]
fn sweep_refuses_damaged_cells() {
    let mut cells = BTreeSet::new();
    for (frame, number) in set_and_told(&sweep()) {
        let damaged = match &frame[..2] {
            "26" => !(0x20..=0x7E).contains(&value(&frame, 2)),
            _ => !marks_in_range(value(&frame, 4)),
        };
        assert!((number == 2) == (damaged || frame.starts_with("28") && value(&frame, 4) & 2 != 0));
        if damaged && !frame.starts_with("28") {
            cells.insert(frame[..6].to_string());
        }
    }
    assert_eq!(cells.len(), 2 * 1_982 + 9);
}

/// On each size, at three cells and in the pen: set, a host call and a key call, and put back.
#[test]
fn sweep_sets_kinds_on_every_size() {
    let input = sweep();
    let frames: Vec<_> = lines(&input).map(String::from_utf8_lossy).collect();
    let (mut size, mut met) = ("".into(), BTreeSet::new());
    for part in frames.windows(4) {
        if part[0].starts_with("20") {
            size = part[0].clone();
        }
        let sets = part[0].starts_with("27") || part[0].starts_with("280004");
        let calls = part[1] == "21" && part[2].starts_with("23");
        if sets && calls && part[3] == format!("{}0000", &part[0][..6]) {
            met.insert((size.clone(), &part[0][..6], value(&part[0], 4)));
        }
    }
    let named = [PROTECTED, NUMERIC, ALPHABETIC, REQUIRED];
    let bits: Vec<u16> = named.into_iter().chain((10..16).map(|bit| 1 << bit)).collect();
    let times = |value: u16| met.iter().filter(|met| met.2 == value).count();
    for (place, &bit) in bits.iter().enumerate() {
        assert_eq!(times(bit), 9 * 4, "{bit:04X}");
        for &other in &bits[..place] {
            let everywhere = place < named.len();
            assert_eq!(times(bit | other), if everywhere { 9 * 4 } else { 4 });
        }
    }
}

/// Each way to require and fill the three cells, in both settings, modified or not, with room and without.
#[test]
fn sweep_sends_required_fields() {
    let input = sweep();
    let output = Mode::Calls.run(&input);
    let mut told = lines(&output);
    let mut numbers = BTreeMap::new();
    for line in lines(&input) {
        let first = told.next().expect("a line a frame");
        if line == b"230000010A" {
            *numbers.entry(&first[..2]).or_insert(0) += 1;
        }
        if matches!(&line[..2], b"20" | b"21" | b"22" | b"23") {
            assert!(told.nth(2).is_some());
        }
    }
    // Blank with one of seven sets of required cells; else half have room.
    let want: [(&[u8], usize); 3] = [(b"00", 57 * 4), (b"03", 57 * 4), (b"09", 7 * 8)];
    assert_eq!(numbers, BTreeMap::from(want));
}

/// Message and byte that host bytes leave on a fresh page, read as one call and byte by byte.
fn told(bytes: &[u8]) -> (u8, u8) {
    let (mut whole, mut cut) = (Page::fresh(), Page::fresh());
    assert_eq!(whole.host(bytes).number, 0);
    for byte in bytes {
        assert_eq!(cut.host(&[*byte]).number, 0);
    }
    assert_eq!(whole.state, cut.state);
    assert_eq!(whole.state.soft, whole.state.message != 0);
    whole.told()
}

#[test]
fn reasons() {
    for (bytes, message, byte) in [
        (&b"\x1B(B"[..], 1, 0x42),
        (b"\x1B[?5Q", 3, 0x51),
        (b"\x1B[5Q", 1, 0x51),
        (b"\x1B[1;1;1H", 2, 0x48),
        (b"\x1B[1;99m", 2, 0x6D),
        (b"\x1B[1\x00", 3, 0x00),
        (b"\x1B[?\x9B", 4, 0x9B),
        (b"\x1By", 1, 0x79),
    ] {
        assert_eq!(told(bytes), (message, byte));
    }
}

/// Where more than one reason holds, the first of 4, 3, 1, 2 is told.
#[test]
fn order_of_reasons() {
    for (bytes, message, byte) in [
        (&b"\x1B[?\xFF"[..], 4, 0xFF),
        (b"\x1B[?\x7F", 3, 0x7F),
        (b"\x1B[?5m", 3, b'm'),
        (b"\x1B[1;1;1;1;1;1;1;1;1m", 3, b'm'),
        (b"\x1B[;;;;;;;;H", 3, b'H'),
        (b"\x1B[10000C", 3, b'C'),
        (b"\x1B[99;10000H", 3, b'H'),
        (b"\x1B[1;2;3~", 1, b'~'),
        (b"\x1B[;;;;;;;@", 1, b'@'),
        (b"\x1B[99;;d", 2, b'd'),
        (b"\x1B[1;A", 2, b'A'),
        (b"\x1B[99;1G", 2, b'G'),
    ] {
        assert_eq!(told(bytes), (message, byte));
    }
}

const LISTED: &[u8] = b"ABCDEFGHIJKWZdfhlmno";

/// The message that document 01 and M-102 give a byte after this beginning; 0 if it isn't refused.
fn message_of(begun: &[u8], byte: u8) -> u8 {
    let last = (0x40..=0x7E).contains(&byte);
    let listed = LISTED.contains(&byte);
    match (begun, byte) {
        (_, 0x80..) => 4,
        (_, 0x18 | 0x1A | 0x1B) | (b"", _) => 0,
        (_, 0x00..=0x1F | 0x7F) => 3,
        (b"\x1B", _) => u8::from(byte > 0x2F && !b"DEMHVWSc`b[".contains(&byte)),
        (b"\x1B(", _) => u8::from(byte > 0x2F),
        (b"\x1B[?" | b"\x1B[10000" | b"\x1B[;;;;;;;;", _) if last => 3,
        (b"\x1B[>6" | b"\x1B[>06", b'h' | b'l') => 0,
        (b"\x1B[>" | b"\x1B[>6" | b"\x1B[>06" | b"\x1B[>6;" | b"\x1B[0>", _) if last => 3,
        (b"\x1B[", b'h' | b'l' | b'n') => 2,
        (b"\x1B[0;4", b'H' | b'f' | b'm') => 0,
        (b"\x1B[0;4", _) if listed => 2,
        _ => u8::from(last && !listed),
    }
}

#[test]
fn every_byte_after_every_beginning() {
    for begun in [
        &b""[..],
        b"\x1B",
        b"\x1B(",
        b"\x1B[",
        b"\x1B[0;4",
        b"\x1B[?",
        b"\x1B[10000",
        b"\x1B[;;;;;;;;",
        b"\x1B[>",
        b"\x1B[>6",
        b"\x1B[>06",
        b"\x1B[>6;",
        b"\x1B[0>",
    ] {
        for byte in 0..=255 {
            let message = message_of(begun, byte);
            let byte_told = if message == 0 { 0 } else { byte };
            assert_eq!(told(&[begun, &[byte]].concat()), (message, byte_told), "{begun:?}");
        }
    }
}

/// A listed value is taken; another is told as an argument, at the final byte.
#[test]
fn values_not_allowed() {
    for (last, allowed) in [
        (b'W', &[0, 2, 5][..]),
        (b'J', &[0, 1, 2]),
        (b'K', &[0, 1, 2]),
        (b'm', &[0, 1, 4, 5, 7, 8]),
        (b'h', &[6]),
        (b'l', &[6]),
        (b'n', &[5, 6]),
        (b'o', &[0, 1, 3, 4, 20]),
    ] {
        for value in (0..200).chain([9_998, 9_999]) {
            let good = allowed.contains(&value);
            let bytes = [format!("\x1B[{value}").as_bytes(), &[last]].concat();
            assert_eq!(told(&bytes), if good { (0, 0) } else { (2, last) });
        }
    }
    for bytes in [&b"\x1B[25d"[..], b"\x1B[25H", b"\x1B[1;81H", b"\x1B[25f", b"\x1B[0;81f"] {
        assert_eq!(told(bytes), (2, bytes[bytes.len() - 1]));
    }
    assert_eq!(told(b"\x1B[81G"), (0, 0));
}

#[test]
fn later_refusal_overwrites() {
    let mut page = Page::fresh();
    for (bytes, message, byte) in [
        (&b"\x1By"[..], 1, 0x79),
        (b"\x1B[99d", 2, 0x64),
        (b"\x80", 4, 0x80),
        (b"\x1B[1\x00", 3, 0x00),
        (b"\x1By\x1Bz", 1, 0x7A),
        (b"\x1B[?\x1B[H", 1, 0x7A),
        (b"\x1B\x18\x1B[?\x1A\x00\x7F\x07text", 1, 0x7A),
    ] {
        assert_eq!(page.host(bytes).number, 0);
        assert_eq!((page.told(), page.state.soft), ((message, byte), true));
    }
}

#[test]
fn clearing_message_and_byte() {
    for bytes in [&b"\x1Bb"[..], b"\x1Bc"] {
        let mut page = Page::fresh();
        page.host(b"\x1B`\x1By");
        assert_eq!(page.host(bytes).number, 0);
        assert_eq!((page.told(), page.state.soft, page.state.manual), ((0, 0), false, false));
        assert_eq!(page.key(65).number, 0);
    }
    for bytes in [&b"\x1By"[..], b"\x1B`\x1B[?m", b"\x1B(\x00", b"\xFF"] {
        let mut page = Page::fresh();
        page.host(bytes);
        let manual = page.state.manual;
        assert!(page.refused());
        assert_eq!((page.key(65).number, page.key(268).number), (5, 0));
        assert_eq!((page.told(), page.state.soft, page.state.manual), ((0, 0), false, manual));
        assert_eq!(page.key(65).number, if manual { 5 } else { 0 });
    }
}

/// A command that lacks room leaves the message of the one before it.
#[test]
fn no_room_leaves_the_message() {
    let mut page = Page::fresh().room(3);
    assert_eq!(page.host(b"\x1By\x1B[5n").number, 3);
    assert_eq!(page.told(), (1, 0x79));
}

#[test]
fn message_and_byte_in_range() {
    let mut state = Page::fresh().state;
    for message in 0..=255 {
        for byte in 0..=255 {
            for soft in [false, true] {
                (state.message, state.refused_at, state.soft) = (message, byte, soft);
                let sound = if message == 0 { byte == 0 } else { message <= 4 };
                assert_eq!(state.sound(), sound);
            }
        }
    }
}

#[test]
fn message_and_byte_out_of_range() {
    let calls: [fn(&mut Page) -> Answer; 2] = [|page| page.host(b"\x1Bb"), |page| page.key(268)];
    for (message, byte, number) in [(0, 1, 2), (0, 0x80, 2), (5, 0, 2), (5, 0x41, 2), (3, 0, 0)] {
        for call in calls {
            let mut page = Page::fresh();
            (page.state.message, page.state.refused_at) = (message, byte);
            assert_eq!(call(&mut page).number, number);
            assert_eq!(page.told(), if number == 0 { (0, 0) } else { (message, byte) });
        }
    }
}

#[test]
fn dump_shows_the_byte() {
    let output = Mode::Dump.run(b"001850\n011B5B3F3551\n02010C\n");
    let shown: Vec<_> = lines(&output).filter(|line| line.starts_with(b"manual")).collect();
    let line = |soft, message, byte| {
        format!("manual 0 soft {soft} message {message:05} byte {byte:02X}").into_bytes()
    };
    assert_eq!(shown, [line(0, 0, 0), line(1, 3, 0x51), line(0, 0, 0)]);
}

/// Field 180 is a byte.
#[test]
fn calls_show_the_byte() {
    let input = b"2000180050\n2800080004\n2800B400FF\n21\n2800B40100\n2800B60000\n2800080000\n21";
    let output = Mode::Calls.run(input);
    let short: Vec<_> = lines(&output).filter(|line| line.len() < 1_000).collect();
    let numbers: Vec<_> = short.iter().map(|line| &line[..2]).collect();
    let want = ["00", "00", "00", "00", "00", "00", "FF", "FF", "00", "02", "00"];
    assert_eq!(numbers, want.map(str::as_bytes));
    for (line, message, byte) in [(1, 0, 0), (5, 4, 0xFF), (10, 0, 0xFF)] {
        let state = &short[line][6..];
        assert_eq!(state.len(), 182 * 4);
        assert_eq!(state[8 * 4..9 * 4], *format!("{message:04X}").as_bytes());
        assert_eq!(state[180 * 4..181 * 4], *format!("{byte:04X}").as_bytes());
    }
}

/// Message and byte as the dump of a generated transcript shows them, each time they change.
fn shown(seed: u64) -> Vec<(u8, u8)> {
    let output = Mode::Dump.run(&transcript(seed, 300));
    let of_line = |line: &[u8]| {
        let text = std::str::from_utf8(line).ok()?.strip_prefix("manual ")?;
        let words: Vec<_> = text.split(' ').collect();
        Some((words[4].parse().ok()?, u8::from_str_radix(words[6], 16).ok()?))
    };
    let mut all: Vec<_> = lines(&output).filter_map(of_line).collect();
    all.dedup();
    all
}

/// Every reason comes up often, at most of its bytes, and over another one.
#[test]
fn generated_refusals() {
    let all: Vec<_> = SEEDS.map(shown).collect();
    let told = |message| {
        let of_message = all.iter().flatten().filter(move |told| told.0 == message);
        let bytes: Vec<u8> = of_message.map(|told| told.1).collect();
        (bytes.len(), bytes.into_iter().collect::<BTreeSet<u8>>())
    };
    for (message, often, different) in [(1, 400, 70), (2, 400, 20), (3, 600, 80), (4, 150, 64)] {
        let (times, bytes) = told(message);
        assert!(times > often && bytes.len() >= different, "{message}: {times}, {bytes:?}");
    }
    assert!(told(2).1.into_iter().eq(LISTED.iter().copied()));
    assert!(told(3).1.contains(&0x00) && told(3).1.contains(&0x7F));
    let over = |pair: &&[(u8, u8)]| pair[0].0 != 0 && pair[1].0 != 0;
    assert!(all.iter().flat_map(|told| told.windows(2)).filter(over).count() > 300);
}

#[test]
fn example_of_kinds() {
    let input = b"001850
011B5B336F31321B5B306F41421B562E1B571B5B48
02004F
020020
020108
020109
020033
";
    let output = b"00010100000780
00010100000005
08010100000000
00010200000001
08010200000000
00010200000003
00010300000001
";
    assert_eq!(Mode::Transcript.run(input), output);
}

/// The kinds, with what document 003 lists for numeric and alphabetic fields, and 20.
const TABLE: [(u16, &str); 3] = [
    (NUMERIC, " -.0123456789"),
    (ALPHABETIC, " -.ABCDEFGHIJKLMNOPQRSTUVWXYZabcdefghijklmnopqrstuvwxyz"),
    (
        0,
        concat!(
            " !\"#$%&'()*+,-./0123456789:;<=>?@ABCDEFGHIJKLMNOPQRSTUVWXYZ",
            "[\\]^_`abcdefghijklmnopqrstuvwxyz{|}~"
        ),
    ),
];

/// Two cells with these marks and characters at 1;1, a protected one behind them.
fn pair(marks: [u16; 2], characters: [u8; 2]) -> Page {
    let mut page = Page::fresh();
    page.marks[..3].copy_from_slice(&[marks[0], marks[1], PROTECTED]);
    page.characters[..2].copy_from_slice(&characters);
    page
}

/// A key is given 0 or, with nothing changed at all, 8.
fn taken(page: &mut Page, number: u32) -> bool {
    let before = page.all();
    let answer = page.key(number);
    if answer.number == 8 {
        assert_eq!(answer, Answer { number: 8, taken: 0, sent: 0, stored: 0 });
        assert!(page.all() == before);
    } else {
        assert_eq!(answer.number, 0);
    }
    answer.number == 0
}

#[test]
fn every_character_in_every_kind() {
    assert_eq!(TABLE.map(|(_, list)| list.len()), [13, 55, 95]);
    for (kind, list) in TABLE {
        for others in [0, MODIFIED, VISUAL] {
            for character in 0x20..=0x7E {
                let listed = list.as_bytes().contains(&character);
                let mut page = pair([kind | others, 0], *b"xy");
                assert_eq!(taken(&mut page, character.into()), listed, "{kind} {character}");
                let after = if listed { (character, MODIFIED) } else { (b'x', 0) };
                assert_eq!((page.characters[0], page.marks[0]), (after.0, kind | others | after.1));
                assert_eq!(page.cursor(), (1, if listed { 2 } else { 1 }));
                let mut page = pair([kind, others], [b'%', character]);
                assert_eq!(taken(&mut page, 264), listed);
                let mut page = pair([others, kind], [character, b'%']);
                assert_eq!(taken(&mut page, 265), listed);
            }
        }
    }
}

/// Marks are in range with at most one of bits 0, 7 and 8, none of 10 to 15, and 9 only without 0.
fn marks_in_range(marks: u16) -> bool {
    let bit = |bit: &u16| marks >> bit & 1 == 1;
    let kinds = [0, 7, 8].into_iter().filter(bit).count();
    kinds < 2 && marks >> 10 == 0 && !(bit(&9) && bit(&0))
}

#[test]
fn all_marks_in_cell_and_pen() {
    let mut state = Page::fresh().state;
    let mut right = 0;
    for marks in 0..=u16::MAX {
        assert_eq!(good_marks(marks), marks_in_range(marks));
        state.pen = marks;
        assert_eq!(state.sound(), marks_in_range(marks) && marks & MODIFIED == 0);
        right += usize::from(state.sound());
    }
    assert_eq!(right, 7 * 32);
}

#[test]
fn wrong_marks_give_2() {
    let calls: [fn(&mut Page) -> Answer; 3] =
        [|page| page.host(b"\x1Bc"), |page| page.key(999), |page| page.key(268)];
    let two_kinds = [0x0081, 0x0101, 0x0180, 0x0181, 0x0380];
    let required_protected = [0x0201, 0x0203, 0x027D, 0x0281, 0x0301];
    let nameless = [0x0400, 0x0800, 0x1000, 0x2000, 0x4000, 0x8000, 0x0600, 0x8080, 0xFFFF];
    for value in two_kinds.into_iter().chain(required_protected).chain(nameless) {
        for place in [0, 1_000, 1_919, usize::MAX] {
            for call in calls {
                let mut page = Page::fresh();
                page.state.soft = true;
                match page.marks.get_mut(place) {
                    Some(marks) => *marks = value,
                    None => page.state.pen = value,
                }
                let before = page.all();
                assert_eq!(call(&mut page), Answer { number: 2, taken: 0, sent: 0, stored: 0 });
                assert!(page.all() == before);
            }
        }
    }
}

/// Each of 0, 1, 3 and 4 puts its kind over any other and leaves the visual marks.
#[test]
fn pen_kinds() {
    let kinds = [
        (&b"\x1B[0o"[..], 0),
        (b"\x1B[o", 0),
        (b"\x1B[00o", 0),
        (b"\x1BW", 0),
        (b"\x1B[1o", PROTECTED),
        (b"\x1BV", PROTECTED),
        (b"\x1B[3o", NUMERIC),
        (b"\x1B[0004o", ALPHABETIC),
    ];
    for (first, _) in kinds {
        for (then, kind) in kinds {
            let mut page = Page::fresh();
            page.host(&[b"\x1B[1;7m", first, then, b"#"].concat());
            assert_eq!((page.state.pen, page.marks[0]), (kind | 0x24, kind | 0x24));
            assert!(!page.refused());
        }
    }
}

#[test]
fn refused_kinds_leave_the_pen() {
    for bytes in [&b"\x1B[2o"[..], b"\x1B[5o", b"\x1B[19o", b"\x1B[9999o", b"\x1B[3;o", b"\x1B[;4o"]
    {
        assert_eq!(told(bytes), (2, b'o'));
        let mut page = Page::fresh();
        page.host(b"\x1B[4m\x1B[4o");
        page.host(bytes);
        assert_eq!((page.state.pen, page.refused()), (ALPHABETIC | 0x08, true));
    }
    assert_eq!(told(b"\x1B[10000o"), (3, b'o'));
    assert_eq!(told(b"\x1B[?3o"), (3, b'o'));
    assert_eq!(told(b"\x1Bo"), (1, b'o'));
}

#[test]
fn plain_marks_keep_the_kind() {
    for (command, kind) in
        [(b"\x1B[1o", PROTECTED), (b"\x1B[3o", NUMERIC), (b"\x1B[4o", ALPHABETIC)]
    {
        for (list, visual) in [("0", 0), ("", 0), ("1;0", 0), ("0;1", 0x04), ("8;0;5", 0x10)] {
            let mut page = Page::fresh();
            page.host(command);
            page.host(format!("\x1B[4m\x1B[{list}m").as_bytes());
            assert_eq!(page.state.pen, kind | visual);
        }
    }
}

/// A character that isn't taken is stored by the host all the same, and stays there.
#[test]
fn host_text_is_not_checked() {
    let mut page = Page::fresh();
    assert_eq!(
        page.host(b"\x1B[3oO,\x1B[4o09"),
        Answer { number: 0, taken: 12, sent: 0, stored: 4 }
    );
    assert_eq!((&page.characters[..4], page.refused()), (&b"O,09"[..], false));
    assert_eq!(page.marks[..5], [NUMERIC, NUMERIC, ALPHABETIC, ALPHABETIC, 0]);
}

/// Erasing and the row that a scroll brings in are plain; a scroll moves kinds with the characters.
#[test]
fn erased_and_scrolled_kinds() {
    let mut page = Page::fresh();
    page.host(b"\x1B[3o12\x1B[4oab\x1BM");
    assert_eq!(page.marks[80..85], [NUMERIC, NUMERIC, ALPHABETIC, ALPHABETIC, 0]);
    assert!(page.marks[..80].iter().all(|&marks| marks == 0));
    assert_eq!(page.host(b"\x1B[2;2H\x1B[K").stored, 79);
    assert_eq!((page.marks[80..83].to_vec(), page.state.pen), (vec![NUMERIC, 0, 0], ALPHABETIC));
    page.host(b"\x1Bc");
    assert_eq!((page.marks[80], page.state.pen), (0, 0));
}

/// 3;79 to 4;2: two numeric cells, then two alphabetic ones in the next row.
fn two_kinds_over_a_row_end() -> Page {
    let mut page = Page::fresh();
    page.host(b"\x1B[3;78H\x1BV|\x1B[3o12\x1B[4oab\x1B[1o|\x1BW\x1B[3;79H");
    page
}

#[test]
fn kinds_do_not_split_a_field() {
    let mut page = two_kinds_over_a_row_end();
    let block = page.sent_by_host(b"\x1BS");
    assert!(block.windows(12).any(|part| part == b"\x1B[3;79f12ab\x1B"));
    page.host(b"\x1B[4;1H");
    assert_eq!((page.key(261).number, page.cursor()), (0, (3, 79)));
    assert_eq!((page.key(260).number, page.cursor()), (0, (4, 4)));
    page.host(b"\x1B[4;2H");
    assert_eq!((page.key(263).stored, page.cursor()), (4, (3, 79)));
    let kinds = [NUMERIC, NUMERIC, ALPHABETIC, ALPHABETIC].map(|kind| kind | MODIFIED);
    assert_eq!((&page.characters[238..242], &page.marks[238..242]), (&b"    "[..], &kinds[..]));
}

/// From the letters' cells on both keys go; from the digits' a character would cross over.
#[test]
fn moved_characters() {
    for (cursor, text, field_key, left) in [
        (b"3;79", b"12ab", 264, None),
        (b"3;80", b"12ab", 264, None),
        (b"4;01", b"12ab", 264, Some(b"12b ")),
        (b"3;79", b"12ab", 265, None),
        (b"3;80", b"12ab", 265, None),
        (b"4;01", b"12ab", 265, Some(b"12 a")),
        // 20, hyphen and period are taken on both sides.
        (b"3;79", b"12 b", 264, Some(b"2 b ")),
        (b"3;79", b"12-b", 264, Some(b"2-b ")),
        (b"3;79", b"1 ab", 265, Some(b" 1 a")),
        (b"3;79", b"1.ab", 265, Some(b" 1.a")),
        // The character deleted and the one lost are in nobody's way.
        (b"3;79", b"O1.b", 264, Some(b"1.b ")),
        (b"3;79", b"1.b7", 265, Some(b" 1.b")),
        (b"4;02", b"1.b7", 265, Some(b"1.b ")),
        (b"4;02", b"1.b7", 264, Some(b"1.b ")),
        // What the host put there must be taken too, in a cell of its own kind and over its like.
        (b"3;79", b"1O b", 264, None),
        (b"3;79", b"OO b", 264, None),
        (b"3;79", b"O  b", 265, None),
        (b"4;01", b"1277", 264, None),
        (b"4;01", b"1277", 265, None),
    ] {
        let mut page = two_kinds_over_a_row_end();
        page.host(&[b"\x1B[3o", &text[..2], b"\x1B[4o", &text[2..], b"\x1B["].concat());
        page.host(&[&cursor[..], b"H"].concat());
        assert_eq!(taken(&mut page, field_key), left.is_some(), "{cursor:?} {text:?} {field_key}");
        assert_eq!(&page.characters[238..242], left.unwrap_or(text));
        assert_eq!([237, 242].map(|place| page.characters[place]), *b"||");
    }
}

/// Marks stay where they are, but for modified on what was stored.
#[test]
fn moving_leaves_the_kinds() {
    let mut page = two_kinds_over_a_row_end();
    page.host(b"\x1B[3o1\x1B[3o \x1B[4o \x1B[4ob\x1B[3;80H");
    assert_eq!(page.key(265), Answer { number: 0, taken: 0, sent: 0, stored: 3 });
    let [numeric, alphabetic] = [NUMERIC, ALPHABETIC].map(|kind| kind | MODIFIED);
    assert_eq!(page.marks[238..242], [NUMERIC, numeric, alphabetic, alphabetic]);
}

/// 8 comes after 4, 5 and 7; a protected cell before cells that would refuse gives 7.
#[test]
fn order_of_8() {
    let mut page = two_kinds_over_a_row_end();
    assert_eq!(page.key(u32::from(b'O')).number, 8);
    assert_eq!((page.key(31).number, page.key(127).number), (4, 4));
    page.host(b"\x1B`");
    assert_eq!([79, 264, 265].map(|number| page.key(number).number), [5, 5, 5]);
    page.host(b"\x1Bb\x1B[3;78H");
    assert_eq!([79, 264, 265].map(|number| page.key(number).number), [7, 7, 7]);
    page.host(b"\x1B[3;79H");
    let mut page = page.room(0);
    assert_eq!([79, 264, 265].map(|number| page.key(number).number), [8, 8, 8]);
    assert_eq!(page.key(266).number, 3);
}

/// A dump has four digits for the pen and for each cell.
#[test]
fn dump_shows_kinds() {
    let output = Mode::Dump.run(b"001850\n011B5B346F411B5B336F1B5B316D31\n");
    let shown: Vec<_> = lines(&output).filter(|line| line.starts_with(b"pen")).collect();
    assert_eq!(shown, [b"pen 0000 erasure 0 full 0", b"pen 0084 erasure 0 full 0"]);
    let marks: Vec<_> = lines(&output).filter(|line| line.starts_with(b":")).collect();
    assert_eq!((marks.len(), marks[24].len()), (48, 1 + 4 * 80));
    assert!(marks[24].starts_with(b":010000840000"));
}

/// Frame 27 has a value of two bytes, the pen takes any, and marks are printed in four digits.
#[test]
fn calls_show_kinds() {
    let frames = "2000180050\n270000FFFF\n27000001\n27077F0102\n2800048001\n21\n";
    let more = "2700000080\n2800040100\n230000004F";
    let output = Mode::Calls.run(format!("{frames}{more}").as_bytes());
    let all: Vec<_> = lines(&output).collect();
    let answers: Vec<_> = [0, 4, 5, 6, 7, 8, 12, 13, 14].map(|line| &all[line][..2]).to_vec();
    let want = ["00", "00", "FF", "00", "00", "02", "00", "00", "08"];
    assert_eq!(answers, want.map(str::as_bytes));
    for (line, pen, first) in [(8, "8001", "FFFF"), (14, "0100", "0080")] {
        assert_eq!(&all[line + 1][6 + 4 * 4..6 + 5 * 4], pen.as_bytes());
        assert_eq!(all[line + 3].len(), 4 * 1_920);
        assert!(all[line + 3].starts_with(first.as_bytes()) && all[line + 3].ends_with(b"0102"));
    }
}

/// The record that the stream's digest is over.
#[test]
fn record_of_the_state() {
    let mut page = Page::sized(48, 160);
    page.host(b"\x1B[4o\x1B[1m\x1B[2;3H\x1BH\x1B[6h\x1By\x1B[258;7");
    let bytes = record(&page.state);
    assert_eq!(bytes.len(), 195);
    assert_eq!(bytes[..19], [48, 0, 160, 0, 2, 0, 3, 0, 4, 1, 1, 0, 0, 1, 1, 0x79, 3, 0, 2]);
    assert_eq!(bytes[19..25], [2, 1, 7, 0, 0, 0]);
    assert_eq!(bytes[35..39], [0, 0, 1, 0]);
    page.host(b"\x1B[6l\x1B[>6l\x1B`\x1B[>300");
    let bytes = record(&page.state);
    assert_eq!(bytes[10..21], [0, 1, 1, 1, 1, 0x79, 5, 0, 1, 0x2C, 0x01]);
}

/// Each key frame of a generated transcript with the number it was given.
fn keys_told(seed: u64) -> Vec<(u16, u8)> {
    let mut session = Session::new();
    let mut all = Vec::new();
    for line in lines(&transcript(seed, 300)) {
        let mut out = Vec::new();
        session.line(line, &mut out);
        if line.len() == 6 && line.starts_with(b"02") && !out.starts_with(b"FF") {
            let number = |digits: &[u8]| {
                u16::from_str_radix(&String::from_utf8_lossy(digits), 16).unwrap_or(u16::MAX)
            };
            all.push((number(&line[2..]), number(&out[..2]) as u8));
        }
    }
    all
}

/// Typing, 264 and 265 are done often and given 8 often; 263 never is.
#[test]
fn generated_kinds() {
    let all: Vec<_> = SEEDS.flat_map(keys_told).collect();
    let times = |keys: std::ops::RangeInclusive<u16>, number| {
        all.iter().filter(|told| keys.contains(&told.0) && told.1 == number).count()
    };
    for keys in [32..=126, 264..=264, 265..=265] {
        for (number, often) in [(0, 300), (8, 60), (7, 30), (5, 2)] {
            let met = times(keys.clone(), number);
            assert!(met > often, "{keys:?} given {number}: {met}");
        }
    }
    assert!(times(263..=263, 0) > 50);
    let given_8: BTreeSet<_> = all.iter().filter(|told| told.1 == 8).map(|told| told.0).collect();
    assert!(b",+'Ol/:;@[`{09".iter().all(|&character| given_8.contains(&character.into())));
    assert!(given_8.iter().all(|key| matches!(key, 33..=44 | 47..=126 | 264 | 265)));
}

/// In `calls` every two kinds, required and protected, and every nameless bit are met in cells and in the
/// pen, and right ones.
#[test]
fn generated_marks() {
    let (mut damaged, mut right) = (BTreeSet::new(), BTreeSet::new());
    for (frame, number) in SEEDS.flat_map(|seed| set_and_told(&calls(seed, 300))) {
        let place = &frame[..2];
        if place == "26" || frame.len() < 10 {
            continue;
        }
        let marks = value(&frame, 4);
        let alone = |bit: u16| marks & 0xFF81 == bit;
        if number == 2 {
            let pairs = [0x0081, 0x0101, 0x0180, 0x0201];
            let bits = pairs.into_iter().chain((10..16).map(|bit| 1 << bit));
            damaged.extend(bits.filter(|&bits| alone(bits)).map(|bits| (place.to_string(), bits)));
        } else if number != 1 {
            let kinds = [0x0000, 0x0001, 0x0080, 0x0100, 0x0200, 0x0280, 0x0300];
            right.extend(
                kinds.into_iter().filter(|&kind| alone(kind)).map(|k| (place.to_string(), k)),
            );
        }
    }
    assert_eq!((damaged.len(), right.len()), (2 * 10, 2 * 7), "{damaged:?} {right:?}");
}

/// 1;2 to 1;4 and all behind 1;5; the cursor in the first field.
fn two_fields() -> Page {
    let mut page = Page::fresh();
    page.host(b"\x1BV.\x1BWXXX\x1BV.\x1BW\x1B[1;2f");
    page
}

/// The same with the send mode reset, so that key 266 sends full blocks.
fn two_fields_at_full() -> Page {
    let mut page = two_fields();
    assert_eq!(page.host(b"\x1B[>6l"), Answer { number: 0, taken: 5, sent: 0, stored: 0 });
    page
}

/// Both fields, with this in the first.
fn full_block(first: &str) -> Vec<u8> {
    format!("\x1B[1;2f{first}\x1B[1;6f{}\x03", " ".repeat(1_915)).into_bytes()
}

#[test]
fn example_of_the_send_key() {
    let input = b"001850
011B562E1B575858581B562E1B571B5B313B3266
020059
02010A
011B5B3E366C
02010A
011B5B3E3668
02010A
02010B
011B5B303E3668
02010A
";
    let output = format!(
        "00010100000780
00010200000005
00010300000001
000103000000001B5B313B326659585803
00010300000000
000103000000001B5B313B32665958581B5B313B3666{}03
00010300000000
0001030000000003
04010300000000
00010300000000
05010300000000
",
        "20".repeat(1_915)
    );
    assert_eq!(String::from_utf8_lossy(&Mode::Transcript.run(input)), output);
}

/// Host bytes over a page in these parts: what they sent and stored together, and the page.
fn in_parts(page: fn() -> Page, parts: &[&[u8]]) -> (Vec<u8>, u32, Page) {
    let (mut page, mut sent, mut stored) = (page(), Vec::new(), 0);
    for part in parts {
        let answer = page.host(part);
        assert_eq!((answer.number, answer.taken), (0, part.len()));
        sent.extend_from_slice(&page.output[..answer.sent]);
        stored += answer.stored;
    }
    (sent, stored, page)
}

/// Host bytes over a page, whole, cut in two anywhere, and cut after each byte: the same is left.
fn whole_and_cut(page: fn() -> Page, bytes: &[u8]) -> Page {
    let (sent, stored, whole) = in_parts(page, &[bytes]);
    let in_two = (0..=bytes.len()).map(|place| vec![&bytes[..place], &bytes[place..]]);
    for parts in in_two.chain([bytes.chunks(1).collect()]) {
        let (cut_sent, cut_stored, cut) = in_parts(page, &parts);
        assert_eq!((cut_sent, cut_stored, &cut.state), (sent.clone(), stored, &whole.state));
        assert!(cut.characters == whole.characters && cut.marks == whole.marks, "{parts:?}");
    }
    whole
}

#[test]
fn spoilt_private_forms() {
    for form in [">5h", ">h", ">6;h", "0>6h", "6>h", ">>6h", ">6m", ">10006h"] {
        assert!(NEARLY_SEND_MODES.contains(&form));
    }
    for form in NEARLY_SEND_MODES.iter().chain(HARDLY_SEND_MODES) {
        for form in [form.to_string(), form.replace('h', "l")] {
            let bytes = format!("\x1B[{form}").into_bytes();
            let last = bytes[bytes.len() - 1];
            assert_eq!(told(&bytes), (3, last), "{form}");
            for (page, full) in [(two_fields as fn() -> Page, false), (two_fields_at_full, true)] {
                let before = page();
                let after = whole_and_cut(page, &bytes);
                let soft = State { soft: true, message: 3, refused_at: last, ..before.state };
                assert_eq!((after.state.full, &after.state), (full, &soft));
                assert!(after.characters == before.characters && after.marks == before.marks);
            }
        }
    }
}

/// A refusal comes at the final byte, not at the one that spoils.
#[test]
fn private_forms_are_refused_at_the_end() {
    for form in NEARLY_SEND_MODES.iter().chain(HARDLY_SEND_MODES) {
        let bytes = format!("\x1B[{form}").into_bytes();
        let mut page = Page::fresh();
        page.host(&bytes[..bytes.len() - 1]);
        assert_eq!((page.told(), page.refused()), ((0, 0), false));
        page.host(&bytes[bytes.len() - 1..]);
        assert_eq!((page.told(), page.refused()), ((3, bytes[bytes.len() - 1]), true));
    }
}

#[test]
fn send_mode_by_value() {
    for form in [">6", ">06", ">0006", ">00006", ">0000000006"] {
        for page in [two_fields as fn() -> Page, two_fields_at_full] {
            for (last, full) in [("h", false), ("l", true)] {
                let after = whole_and_cut(page, format!("\x1B[{form}{last}").as_bytes());
                assert_eq!(after.state, State { full, ..page().state });
                assert_eq!(after.all().2, page().marks);
            }
        }
    }
}

/// Every number and final byte behind the mark, with the mode so that the command would switch it.
#[test]
fn no_other_private_form_is_taken() {
    for number in (0..=200).chain([600, 666, 9_998, 9_999]) {
        for last in 0x40..=0x7E {
            let bytes = [format!("\x1B[>{number}").as_bytes(), &[last]].concat();
            let mut page = Page::fresh();
            page.state.full = last == b'h';
            page.host(&bytes);
            let taken = number == 6 && (last == b'h' || last == b'l');
            assert_eq!(page.state.full, (last == b'h') != taken);
            assert_eq!(page.told(), if taken { (0, 0) } else { (3, last) });
        }
    }
}

/// 18 and 1A drop a private form, ESC begins another, other control bytes break it off.
#[test]
fn broken_private_forms() {
    for (bytes, message) in [
        (&b"\x1B[>\x18"[..], (0, 0)),
        (b"\x1B[>6\x1A", (0, 0)),
        (b"\x1B[>6\x1B[>5\x18", (0, 0)),
        (b"\x1B[\x0D", (3, 0x0D)),
        (b"\x1B[>\x00", (3, 0x00)),
        (b"\x1B[>6\x7F", (3, 0x7F)),
        (b"\x1B[>6\x9B", (4, 0x9B)),
        (b"\x1B[\x80", (4, 0x80)),
    ] {
        let bytes = [bytes, b"h"].concat();
        assert_eq!(told(&bytes), message);
        let page = whole_and_cut(two_fields_at_full, &bytes);
        assert_eq!((page.characters[1], page.state.full), (b'h', true));
    }
}

/// Kind, spoilt flag, count and first argument after host bytes.
fn half_after(bytes: &[u8]) -> (u8, bool, u8, u16) {
    let Half { kind, spoilt, count, arguments } = whole_and_cut(Page::fresh, bytes).state.half;
    assert!(arguments[1..].iter().all(|&argument| argument == 0));
    (kind, spoilt, count, arguments[0])
}

#[test]
fn half_read_private_forms() {
    for (bytes, half) in [
        ("\x1B[", (4, false, 1, 0)),
        ("\x1B[0", (3, false, 1, 0)),
        ("\x1B[;", (3, false, 2, 0)),
        ("\x1B[?", (3, true, 1, 0)),
        ("\x1B[>", (5, false, 1, 0)),
        ("\x1B[>0", (5, false, 1, 0)),
        ("\x1B[>6", (5, false, 1, 6)),
        ("\x1B[>09999", (5, false, 1, 9_999)),
        ("\x1B[>10000", (3, true, 1, 0)),
        ("\x1B[>100006", (3, true, 1, 0)),
        ("\x1B[>6;", (3, true, 1, 0)),
        ("\x1B[>;6", (3, true, 1, 0)),
        ("\x1B[>>", (3, true, 1, 0)),
        ("\x1B[> 6", (3, true, 1, 0)),
        ("\x1B[0>", (3, true, 1, 0)),
        ("\x1B[;>6", (3, true, 1, 0)),
        ("\x1B[>6h", (0, false, 0, 0)),
        ("\x1B[>5h", (0, false, 0, 0)),
    ] {
        assert_eq!(half_after(bytes.as_bytes()), half, "{bytes:?}");
    }
}

/// Each byte that spoils does so right behind ESC [, behind the mark and behind a digit.
#[test]
fn spoiling_bytes() {
    for byte in (0x20..=0x2F).chain([0x3A, 0x3C, 0x3D, 0x3E, 0x3F]) {
        for begun in ["\x1B[", "\x1B[>", "\x1B[>6"] {
            let marks_private = begun == "\x1B[" && byte == b'>';
            let half = if marks_private { (5, false, 1, 0) } else { (3, true, 1, 0) };
            assert_eq!(half_after(&[begun.as_bytes(), &[byte]].concat()), half);
        }
    }
}

/// What a half-read record may be, said of its parts.
fn half_in_range(half: &Half) -> bool {
    let reached =
        half.arguments.iter().rposition(|&argument| argument != 0).map_or(0, |last| last + 1);
    let small = half.arguments.iter().all(|&argument| argument <= 9_999);
    match (half.kind, half.spoilt, half.count) {
        (0..=2, false, 0) | (4, false, 1) | (3, true, 1) => reached == 0,
        (3, false, 1..=8) | (5, false, 1) => small && reached <= usize::from(half.count),
        _ => false,
    }
}

#[test]
fn half_read_records_in_range() {
    let mut state = Page::fresh().state;
    let mut right = BTreeMap::new();
    for kind in (0..=8).chain([255]) {
        for (spoilt, count) in (0..=10).flat_map(|count| [(false, count), (true, count)]) {
            for place in 0..8 {
                for value in [0, 1, 6, 9_999, 10_000, 65_535] {
                    state.half = Half { kind, spoilt, count, arguments: [0; 8] };
                    state.half.arguments[place] = value;
                    assert_eq!(state.sound(), half_in_range(&state.half), "{:?}", state.half);
                    *right.entry(kind).or_insert(0) += u32::from(state.sound());
                }
            }
        }
    }
    assert_eq!([0, 1, 2, 4].map(|kind| right[&kind]), [8; 4]);
    // Eight times all zeros, and three values at the one place.
    assert_eq!((right[&5], right[&6], right[&255]), (8 + 3, 0, 0));
}

/// A record set by hand is read on as one that was read.
#[test]
fn records_are_read_on() {
    for (kind, argument, begun) in
        [(4, 0, "\x1B["), (5, 0, "\x1B[>"), (5, 6, "\x1B[>6"), (5, 9_999, "\x1B[>9999")]
    {
        for byte in 0..=255 {
            let (mut set, mut read) = (two_fields_at_full(), two_fields_at_full());
            set.state.half = Half { kind, spoilt: false, count: 1, arguments: [0; 8] };
            set.state.half.arguments[0] = argument;
            read.host(begun.as_bytes());
            assert_eq!(set.host(&[byte]), read.host(&[byte]));
            assert!(set.all() == read.all());
        }
    }
}

#[test]
fn blocks_by_the_send_mode() {
    let mut page = two_fields();
    page.key(u32::from(b'Y'));
    assert_eq!(page.sent_by_key(266), b"\x1B[1;2fYXX\x03");
    page.host(b"\x1B[>6l");
    assert_eq!(page.sent_by_key(266), full_block("YXX"));
    assert_eq!(page.sent_by_key(266), full_block("YXX"));
    page.key(u32::from(b'Z'));
    assert_eq!(page.sent_by_key(266), full_block("YZX"));
    assert!(page.marks.iter().all(|marks| marks & MODIFIED == 0));
    page.host(b"\x1B[>6h");
    assert_eq!(page.sent_by_key(266), b"\x03");
    page.key(u32::from(b'Z'));
    assert_eq!(page.sent_by_key(266), b"\x1B[1;2fYZZ\x03");
}

/// ESC S sends the same in both settings, and clears modified in both.
#[test]
fn full_block_by_command() {
    for mut page in [two_fields(), two_fields_at_full()] {
        assert_eq!(page.sent_by_host(b"\x1BS"), full_block("XXX"));
        page.key(u32::from(b'Y'));
        let before = page.state.clone();
        assert_eq!(page.sent_by_host(b"\x1BS"), full_block("YXX"));
        assert_eq!(page.state, before);
        assert!(page.marks.iter().all(|marks| marks & MODIFIED == 0));
    }
}

/// One byte too few leaves all as it was; a changed block may still fit.
#[test]
fn room_for_a_full_block() {
    let length = full_block("YXX").len();
    for room in [0, 1, 9, 10, length - 1] {
        let mut page = two_fields_at_full().room(room);
        page.key(u32::from(b'Y'));
        let before = page.all();
        assert_eq!(page.key(266), Answer { number: 3, taken: 0, sent: 0, stored: 0 });
        assert!(page.all() == before);
        page.host(b"\x1B[>6h");
        assert_eq!(page.key(266).number, if room < 10 { 3 } else { 0 });
    }
    let mut page = two_fields_at_full().room(length);
    page.key(u32::from(b'Y'));
    assert_eq!(page.sent_by_key(266), full_block("YXX"));
}

/// 4 comes before all that a send key could be given, and nothing changes.
#[test]
fn key_267_is_none() {
    let locks: [&[u8]; 4] = [b"", b"\x1B`", b"\x1By", b"\x1B`\x1By"];
    for page in [two_fields as fn() -> Page, two_fields_at_full] {
        for lock in locks {
            for room in [0, 65_536] {
                let mut page = page().room(room);
                page.key(u32::from(b'Y'));
                page.host(lock);
                let before = page.all();
                assert_eq!(page.key(267), Answer { number: 4, taken: 0, sent: 0, stored: 0 });
                assert!(page.all() == before);
                assert_eq!(page.key(268).number, 0);
            }
        }
    }
}

#[test]
fn only_the_send_modes_commands_switch_it() {
    let host: [&[u8]; 14] = [
        b"\x1B[6h",
        b"\x1B[6l",
        b"\x1B[6;6;6h",
        b"\x1BS",
        b"\x1B`",
        b"\x1Bb",
        b"\x1By",
        b"\xFF",
        b"\x1B[m",
        b"\x1B[2J",
        b"\x1BD\x1BM\n",
        b"text",
        b"\x1B[5n\x1B[6n",
        b"\x1B[>6\x18",
    ];
    for (page, full) in [(two_fields as fn() -> Page, false), (two_fields_at_full, true)] {
        for bytes in host {
            assert_eq!(whole_and_cut(page, bytes).state.full, full);
        }
        for number in (32..=126).chain(256..=269) {
            let mut page = page();
            page.key(number);
            assert_eq!(page.state.full, full);
        }
        assert!(!whole_and_cut(page, b"\x1Bc").state.full);
    }
    let output = Mode::Dump.run(b"001850\n011B5B3E366C\n001850\n011B5B3E366C\n011B63\n");
    let shown: Vec<_> = lines(&output).filter_map(|line| line.strip_prefix(b"pen ")).collect();
    let full: Vec<_> = shown.iter().map(|line| line[line.len() - 1]).collect();
    assert_eq!((shown[1], &full[..]), (&b"0000 erasure 0 full 1"[..], &b"01010"[..]));
}

/// Neither lock holds the command up, and it lifts none.
#[test]
fn send_mode_under_locks() {
    for lock in [&b"\x1B`"[..], b"\x1By", b"\x1B`\x1By"] {
        let mut page = two_fields();
        page.host(lock);
        let before = page.state.clone();
        for (bytes, full) in [(b"\x1B[>6l", true), (b"\x1B[>6h", false), (b"\x1B[>6l", true)] {
            assert_eq!(page.host(bytes), Answer { number: 0, taken: 5, sent: 0, stored: 0 });
            assert_eq!(page.state, State { full, ..before.clone() });
        }
        assert_eq!(page.key(266).number, 5);
        page.host(b"\x1Bb");
        assert_eq!(page.sent_by_key(266), full_block("XXX"));
    }
}

/// The number is erasure mode's without the mark: neither command touches the other's mode.
#[test]
fn send_mode_beside_erasure_mode() {
    let commands: [(&[u8], bool, bool); 4] = [
        (b"\x1B[6h", true, true),
        (b"\x1B[6l", true, false),
        (b"\x1B[>6h", false, false),
        (b"\x1B[>6l", false, true),
    ];
    for (erasure, full) in [(false, false), (false, true), (true, false), (true, true)] {
        for (bytes, is_erasure, to) in commands {
            let mut page = Page::fresh();
            (page.state.erasure, page.state.full) = (erasure, full);
            page.host(bytes);
            let modes = if is_erasure { (to, full) } else { (erasure, to) };
            assert_eq!(
                (page.state.erasure, page.state.full, page.told()),
                (modes.0, modes.1, (0, 0))
            );
        }
    }
}

/// The fields of a block by row and column.
fn fields_of(block: &[u8]) -> BTreeMap<String, String> {
    let text =
        String::from_utf8_lossy(block.strip_suffix(b"\x03").expect("03 at the end")).into_owned();
    let fields =
        text.split("\x1B[").skip(1).map(|field| field.split_once('f').expect("an address"));
    fields.map(|(place, text)| (place.to_string(), text.to_string())).collect()
}

/// A copy made of a full block and what is sent after it is what a full block would then send.
#[test]
fn blocks_keep_a_copy_across_the_send_mode() {
    let mut random = Random::new(106);
    let mut page = two_fields();
    page.host(b"\x1B[7;70H\x1BV|\x1BW\x1B[3oabc\x1B[9;9H\x1BV|\x1BW");
    let mut copy = fields_of(&page.sent_by_host(b"\x1BS"));
    let mut blocks = BTreeMap::new();
    for _ in 0..600 {
        match random.below(8) {
            0..=2 => drop(page.key(random.between(32, 126) as u32)),
            3 => drop(page.key(random.between(256, 265) as u32)),
            4 => drop(page.host(random.pick(&[b"\x1B[>6h", b"\x1B[>6l"]))),
            5 => drop(page.host(b"\x1B[>5h\x1Bb")),
            _ => {
                let sent = fields_of(&page.sent_by_key(266));
                *blocks.entry((page.state.full, sent.len())).or_insert(0) += 1;
                copy.extend(sent);
                assert!(page.marks.iter().all(|marks| marks & MODIFIED == 0));
                assert_eq!(copy, fields_of(&page.sent_by_host(b"\x1BS")));
            }
        }
    }
    let times = |full, fields| blocks.get(&(full, fields)).copied().unwrap_or(0);
    assert!(times(false, 0) > 5 && times(false, 1) > 5 && times(true, 4) > 20, "{blocks:?}");
}

/// Field 181 is the last of the state, and a flag; 182 is none.
#[test]
fn calls_show_the_send_mode() {
    let input =
        b"2000180050\n2800B50001\n21\n2800B50000\n21\n2800B5FF00\n230000010A\n2800B60000\n211B63";
    let output = Mode::Calls.run(input);
    let short: Vec<_> = lines(&output).filter(|line| (700..800).contains(&line.len())).collect();
    let flags: Vec<_> = short.iter().map(|line| &line[6 + 181 * 4..]).collect();
    assert_eq!(flags, [b"0000", b"0001", b"0000", b"0001", b"0000"]);
    let last = lines(&output).filter(|line| line.len() == 2).last();
    assert_eq!(last, Some(&b"FF"[..]));
    let block = lines(&output).find(|line| line.starts_with(b"00000000000000078700000000"));
    assert_eq!(block.map(<[u8]>::len), Some(26 + 2 * (1_920 + 7)));
}

/// What generated transcripts have of the send mode; pairs are for the mode set and reset, or without and under a lock.
#[derive(Default)]
struct Sends {
    /// 266 where the other setting would have sent something else.
    telling: [usize; 2],
    commands: [usize; 2],
    unknown: [usize; 2],
    /// Calls that ended behind ESC [, and behind the mark.
    half_read: [usize; 2],
    host_bytes: Vec<u8>,
}

/// Whether key 266 sends something else with the mode switched.
fn mode_tells(session: &Session) -> bool {
    let [set, reset] = [false, true].map(|full| {
        let state = State { full, ..session.state.clone() };
        let (characters, marks) = (session.characters.clone(), session.marks.clone());
        Page { state, characters, marks, output: vec![0; 65_536] }.sent_by_key(266)
    });
    set != reset
}

impl Sends {
    fn line(&mut self, session: &mut Session, line: &[u8]) {
        let (full, locked) = (session.state.full, session.state.manual || session.state.soft);
        let tells = line == b"02010A" && session.going && mode_tells(session);
        let mut out = Vec::new();
        session.line(line, &mut out);
        let given = |number: &[u8; 2]| usize::from(out.starts_with(number));
        match line {
            b"02010A" if tells => self.telling[usize::from(full)] += given(b"00"),
            b"02010B" => self.unknown[usize::from(locked)] += given(b"04"),
            b"011B53" => self.commands[usize::from(full)] += given(b"00"),
            _ => {}
        }
        if line.starts_with(b"01") && !out.starts_with(b"FF") {
            self.host_bytes.extend(unhex(&line[2..]).unwrap_or_default());
            let kind = session.state.half.kind;
            (4..=5)
                .filter(|&met| met == kind)
                .for_each(|met| self.half_read[usize::from(met) - 4] += 1);
        }
    }

    /// How often the host sent these bytes, however they were cut.
    fn times(&self, bytes: &str) -> usize {
        self.host_bytes.windows(bytes.len()).filter(|part| *part == bytes.as_bytes()).count()
    }
}

#[test]
fn generated_send_modes() {
    let mut sends = Sends::default();
    for seed in SEEDS {
        let mut session = Session::new();
        lines(&transcript(seed, 300)).for_each(|line| sends.line(&mut session, line));
    }
    let Sends { telling, commands, unknown, half_read, .. } = sends;
    for (name, pair, often) in [
        ("telling", telling, 150),
        ("commands", commands, 20),
        ("unknown", unknown, 20),
        ("half read", half_read, 60),
    ] {
        assert!(pair.iter().all(|&times| times > often), "{name}: {pair:?}");
    }
    for (form, often) in [
        ("\x1B[>6h", 120),
        ("\x1B[>6l", 120),
        ("\x1B[>06h", 15),
        ("\x1B[6h", 100),
        ("\x1B[6l", 100),
        ("\x1B[>6l\x1Bc", 15),
    ] {
        assert!(sends.times(form) > often, "{form:?}: {}", sends.times(form));
    }
    let times = |form: &&str| sends.times(&format!("\x1B[{form}"));
    for form in NEARLY_SEND_MODES {
        assert!(times(form) > 5, "{form}: {}", times(form));
    }
    let met = HARDLY_SEND_MODES.iter().filter(|form| times(form) > 0).count();
    assert!(met + 3 >= HARDLY_SEND_MODES.len(), "{met}");
}

/// In `calls`, records of kinds 4 and 5 are met right and damaged, in both settings.
#[test]
fn generated_private_records() {
    let mut met = BTreeMap::new();
    for seed in SEEDS {
        let mut program = Calls::new();
        for line in lines(&calls(seed, 300)) {
            let (half, full) = (program.state.half, program.state.full);
            let mut out = Vec::new();
            program.line(line, &mut out);
            let called = matches!(line.get(..2), Some(b"21" | b"22" | b"23")) && out.len() > 100;
            if called && !out.starts_with(b"01") {
                assert!(half_in_range(&half) || out.starts_with(b"02"));
                *met.entry((half.kind, half_in_range(&half), full)).or_insert(0) += 1;
            }
        }
    }
    for kind in [4, 5] {
        for (right, full) in [(false, false), (false, true), (true, false), (true, true)] {
            let times = met.get(&(kind, right, full)).copied().unwrap_or(0);
            assert!(times > 20, "kind {kind}, right {right}, full {full}: {times}");
        }
    }
}

/// `bytes` sees a program that forgets a half-read sequence, even if both do.
#[test]
fn bytes_sees_a_cut() {
    let runs = bytes::runs();
    assert_eq!(runs.len() * 256, 4_608);
    for run in runs.iter().step_by(6) {
        assert!(run.cut_unlike_whole(&Mode::Dump.run(&run.input())).is_none());
        wrong::choose(2);
        let output = Mode::Dump.run(&run.input());
        wrong::choose(0);
        assert!(run.cut_unlike_whole(&output).is_some());
    }
}

/// Two numeric cells that are required, then KN protected; the full block has all behind them too.
#[test]
fn example_of_required_fields() {
    let input = b"001850
011B5B336F1B5B32306F20201B5B316F4B4E1B5B306F1B5B313B3166
02010A
011B53
020034
02010A
";
    let output = format!(
        "00010100000780
00010100000004
09010100000000
000101000000001B5B313B316620201B5B313B3566{}03
00010200000001
000102000000001B5B313B3166342003
",
        "20".repeat(1_916)
    );
    assert_eq!(String::from_utf8_lossy(&Mode::Transcript.run(input)), output);
}

/// The commands for the kinds of pen that required goes with.
const OPEN_PENS: [(&str, u16); 7] = [
    ("", 0),
    ("\x1BW", 0),
    ("\x1B[0o", 0),
    ("\x1B[o", 0),
    ("\x1B[3o", NUMERIC),
    ("\x1B[04o", ALPHABETIC),
    ("\x1BV\x1B[4o", ALPHABETIC),
];

/// The pen that host bytes leave on a fresh page, read whole and cut; text stored then has its marks.
fn pen_after(bytes: &str) -> u16 {
    let page = whole_and_cut(Page::fresh, format!("{bytes}#").as_bytes());
    assert_eq!((page.marks[0], page.told()), (page.state.pen, (0, 0)), "{bytes:?}");
    page.state.pen
}

#[test]
fn required_comes_beside_the_kind() {
    for (pen, kind) in OPEN_PENS {
        for required in ["\x1B[20o", "\x1B[020o", "\x1B[0000000020o", "\x1B[20o\x1B[20o"] {
            assert_eq!(pen_after(&format!("{pen}{required}")), kind | REQUIRED);
            let visual = pen_after(&format!("\x1B[1;7m{pen}{required}\x1B[4m"));
            assert_eq!(visual, kind | REQUIRED | 0x2C);
        }
    }
}

/// Also where the kind stays what it was.
#[test]
fn other_values_take_required_off() {
    let closing = [("\x1B[1o", PROTECTED), ("\x1BV", PROTECTED)];
    for (first, _) in OPEN_PENS {
        for (then, kind) in OPEN_PENS.into_iter().skip(1).chain(closing) {
            assert_eq!(pen_after(&format!("\x1B[5m{first}\x1B[20o{then}")), kind | 0x10);
        }
    }
    assert_eq!(pen_after("\x1B[20o\x1Bc"), 0);
}

#[test]
fn visual_marks_leave_required() {
    for list in ["", "0", "1;0", "8;0;0"] {
        for (pen, kind) in OPEN_PENS {
            assert_eq!(pen_after(&format!("{pen}\x1B[20o\x1B[4m\x1B[{list}m")), kind | REQUIRED);
        }
    }
}

/// Nothing changes but lock and message; text behind is stored with the pen as it was.
#[test]
fn protected_pen_refuses_required() {
    for pen in ["\x1BV", "\x1B[1o", "\x1B[20o\x1BV", "\x1B[3o\x1B[20o\x1B[20o\x1B[01o"] {
        for required in ["\x1B[20o", "\x1B[020o", "\x1B[20o\x1B[20o"] {
            let bytes = format!("\x1B[7m{pen}{required}");
            assert_eq!(told(bytes.as_bytes()), (2, b'o'));
            let page = whole_and_cut(Page::fresh, format!("{bytes}#").as_bytes());
            let marks = PROTECTED | 0x20;
            assert_eq!((page.state.pen, page.marks[0], page.characters[0]), (marks, marks, b'#'));
            assert!(page.refused());
        }
    }
}

#[test]
fn required_has_one_argument() {
    for bytes in ["\x1B[20;o", "\x1B[;20o", "\x1B[20;20o", "\x1B[3;20o", "\x1B[20;3o"] {
        assert_eq!(told(bytes.as_bytes()), (2, b'o'));
        for (pen, kind) in OPEN_PENS {
            for (first, required) in [("", 0), ("\x1B[20o", REQUIRED)] {
                let mut page = Page::fresh();
                page.host(format!("{pen}{first}{bytes}").as_bytes());
                assert_eq!(page.state.pen, kind | required);
            }
        }
    }
    assert_eq!(told(b"\x1B[>20o"), (3, b'o'));
    assert_eq!(told(b"\x1B[?20o"), (3, b'o'));
}

/// Key 266 is given 0 or, with nothing changed at all, 9.
fn held_back(page: &mut Page) -> bool {
    let before = page.all();
    let answer = page.key(266);
    if answer.number == 9 {
        assert_eq!(answer, Answer { number: 9, taken: 0, sent: 0, stored: 0 });
        assert!(page.all() == before);
    } else {
        assert_eq!(answer.number, 0);
    }
    answer.number == 9
}

/// 3;79 to 4;1 with these marks and characters, all else protected.
fn three_cells(marks: [u16; 3], characters: [u8; 3]) -> Page {
    let mut page = Page::fresh().room(100);
    page.marks.fill(PROTECTED);
    page.marks[238..241].copy_from_slice(&marks);
    page.characters[238..241].copy_from_slice(&characters);
    page
}

/// Any of three cells required, modified and of any content, in both settings.
#[test]
fn every_field_of_three_cells() {
    let mut times = 0;
    for way in 0..8 * 8 * 27 * 2 {
        let (required, modified, content, full) =
            (way % 8, way / 8 % 8, way / 64 % 27, way / 64 / 27 == 1);
        let bit = |bits: usize, cell: usize, mark| if bits >> cell & 1 == 1 { mark } else { 0 };
        let marks =
            [0, 1, 2].map(|cell| bit(required, cell, REQUIRED) | bit(modified, cell, MODIFIED));
        let characters = [content % 3, content / 3 % 3, content / 9].map(|code| b" .x"[code]);
        let mut page = three_cells(marks, characters);
        page.state.full = full;
        let held = required != 0 && content == 0;
        assert_eq!(held_back(&mut page), held, "{marks:?} {characters:?}");
        times += usize::from(held);
        if !held {
            let field = [&b"\x1B[3;79f"[..], &characters].concat();
            let has = if full || modified != 0 { &field[..] } else { b"" };
            assert!(page.output.starts_with(&[has, b"\x03"].concat()));
            assert_eq!(page.marks[238..241], marks.map(|marks| marks & REQUIRED));
        }
    }
    assert_eq!(times, 7 * 8 * 2);
}

/// Whatever the cell takes from a key, and whether it is the required one or the one beside it.
#[test]
fn only_20_is_blank() {
    for character in 0x20..=0x7E {
        for kind in [0, NUMERIC, ALPHABETIC] {
            for characters in [[character, b' ', b' '], [b' ', character, b' ']] {
                let mut page = three_cells([kind | REQUIRED, kind, 0], characters);
                assert_eq!(held_back(&mut page), character == b' ');
            }
        }
    }
}

/// 2;2 to 2;4 plain with text, 3;80 to 4;1 required and blank, 5;5 numeric and required with a digit.
fn form_with_a_blank() -> Page {
    let mut page = Page::fresh();
    page.host(b"\x1BV");
    page.host(&[b'#'; 1_920]);
    page.host(b"\x1BW\x1B[2;2fabc\x1B[3;80f\x1B[20o  \x1B[5;5f\x1B[3o\x1B[20o7\x1BW\x1B[2;2f");
    page
}

/// All of its fields.
const FORM_BLOCK: &[u8] = b"\x1B[2;2fabc\x1B[3;80f  \x1B[5;5f7\x03";

/// A changed block would leave the blank field out, or have nothing at all, and is held back all the same.
#[test]
fn unmodified_blank_field_holds_back() {
    for mode in [&b"\x1B[>6h"[..], b"\x1B[>6l"] {
        let mut page = form_with_a_blank();
        page.host(mode);
        assert!(held_back(&mut page) && held_back(&mut page));
        page.key(u32::from(b'X'));
        assert!(held_back(&mut page));
        assert_eq!(page.marks[81], MODIFIED);
    }
}

/// What was changed before a call given 9 is in the block that leaves later.
#[test]
fn held_back_changes_are_sent_later() {
    let mut page = form_with_a_blank();
    page.key(u32::from(b'X'));
    assert!(held_back(&mut page));
    page.host(b"\x1B[4;1f");
    assert_eq!(page.key(u32::from(b' ')).number, 0);
    assert!(held_back(&mut page));
    page.host(b"\x1B[4;1f");
    assert_eq!(page.key(u32::from(b'.')).number, 0);
    assert_eq!(page.sent_by_key(266), b"\x1B[2;2fXbc\x1B[3;80f .\x03");
    assert_eq!(page.sent_by_key(266), b"\x03");
    page.host(b"\x1B[5;5f");
    assert_eq!(page.key(263).number, 0);
    assert!(held_back(&mut page));
    assert_eq!(page.marks[324], NUMERIC | REQUIRED | MODIFIED);
}

/// It sends, and clears modified, in both settings; key 266 stays held back behind it.
#[test]
fn command_is_not_held_back() {
    for mode in [&b"\x1B[>6h"[..], b"\x1B[>6l"] {
        let mut page = form_with_a_blank();
        page.host(mode);
        assert_eq!(page.sent_by_host(b"\x1BS"), FORM_BLOCK);
        page.key(u32::from(b'a'));
        assert!(held_back(&mut page));
        let state = page.state.clone();
        assert_eq!(page.sent_by_host(b"\x1BS"), FORM_BLOCK);
        assert_eq!(page.state, state);
        assert!(page.marks.iter().all(|marks| marks & MODIFIED == 0));
        assert!(held_back(&mut page));
        let room = page.room(FORM_BLOCK.len() - 1).host(b"\x1BS").number;
        assert_eq!(room, 3);
    }
}

/// 9 comes after 2, 4 and 5, and before 3 with every room.
#[test]
fn order_of_9() {
    for full in [false, true] {
        for room in 0..=FORM_BLOCK.len() + 1 {
            let mut page = form_with_a_blank().room(room);
            page.state.full = full;
            page.key(u32::from(b'X'));
            assert!(held_back(&mut page));
            page.characters[239] = b'.';
            let length = if full { FORM_BLOCK.len() } else { 10 };
            assert_eq!(page.key(266).number, if room < length { 3 } else { 0 });
        }
    }
    let mut page = form_with_a_blank();
    assert_eq!((page.key(267).number, page.key(269).number), (4, 4));
    for lock in [b"\x1B`", b"\x1By"] {
        page.host(lock);
        assert_eq!(page.key(266).number, 5);
        page.host(b"\x1Bb");
        assert_eq!(page.key(266).number, 9);
    }
    page.marks[0] |= REQUIRED;
    assert_eq!((page.key(266).number, page.key(267).number), (2, 2));
    assert_eq!(page.host(b"\x1BS").number, 2);
}

/// No other key is held back.
#[test]
fn only_key_266_is_given_9() {
    for number in (0..300).chain([65_535, 0x1_010A, u32::MAX]) {
        for cursor in ["2;2", "3;80", "5;5", "9;9"] {
            let mut page = form_with_a_blank();
            page.host(format!("\x1B[{cursor}f").as_bytes());
            assert_eq!(page.key(number).number == 9, number == 266);
        }
    }
}

/// One blank field is enough among required ones that aren't, wherever it stands.
#[test]
fn one_blank_field_of_several() {
    for blank in 0..5 {
        let mut page = Page::fresh();
        page.host(b"\x1BV");
        page.host(&[b'#'; 1_920]);
        for field in 0..5 {
            let text = if field == blank { "   " } else { " . " };
            let row = 5 * field + 1;
            page.host(format!("\x1B[{row};79f\x1B[4o\x1B[20o{text}").as_bytes());
        }
        assert!(held_back(&mut page));
        page.host(format!("\x1B[{};1f", 5 * blank + 2).as_bytes());
        assert_eq!(page.key(u32::from(b'-')).number, 0);
        assert!(!held_back(&mut page));
    }
}

/// The page's last cell and its first are in two fields, and each must have a character of its own.
#[test]
fn required_at_both_ends_of_the_page() {
    let mut page = Page::fresh();
    page.host(b"\x1BV");
    page.host(&[b'#'; 1_920]);
    page.host(b"\x1B[24;79f\x1B[0o\x1B[20o    ");
    assert_eq!(page.cursor(), (1, 3));
    for (cell, still_held) in
        [(b"\x1B[24;80f.", true), (b"\x1B[01;01f.", false), (b"\x1B[24;80f ", true)]
    {
        page.host(cell);
        assert_eq!(held_back(&mut page), still_held);
    }
}

/// One required cell makes a whole fresh page required, and one character anywhere fills it.
#[test]
fn required_cell_of_a_page_without_protection() {
    for (rows, columns) in sizes() {
        let mut page = Page::sized(rows, columns);
        assert!(!held_back(&mut page));
        page.host(b"\x1B[12;70f\x1B[20o \x1BW");
        assert!(held_back(&mut page));
        page.host(format!("\x1B[{rows};{columns}f.").as_bytes());
        assert!(!held_back(&mut page));
    }
    let mut page = Page::fresh();
    page.marks.fill(PROTECTED);
    assert_eq!(page.sent_by_key(266), b"\x03");
}

/// Typing and moving keep each cell's bit, and so does blanking; a moved character doesn't take it along.
#[test]
fn keys_keep_required() {
    for number in [u32::from(b'-'), 263, 264, 265] {
        let mut page = three_cells([REQUIRED, NUMERIC, ALPHABETIC | REQUIRED], *b" . ");
        page.host(b"\x1B[3;79f");
        assert_eq!(page.key(number).number, 0);
        let marks = [238, 239, 240].map(|place: usize| page.marks[place] & !MODIFIED);
        assert_eq!(marks, [REQUIRED, NUMERIC, ALPHABETIC | REQUIRED]);
        assert_eq!(held_back(&mut page), number == 263);
    }
}

/// Erased cells and rows that come in aren't required; a scroll moves the bit; text puts the pen's in its place.
#[test]
fn erased_scrolled_and_stored_required() {
    let mut page = Page::fresh();
    page.host(b"\x1B[3o\x1B[20o12\x1BM");
    assert_eq!(page.marks[80..83], [NUMERIC | REQUIRED, NUMERIC | REQUIRED, 0]);
    assert!(page.marks[..80].iter().all(|&marks| marks == 0));
    page.host(b"\x1B[24;1f\x1BD");
    assert_eq!(page.marks[..3], [NUMERIC | REQUIRED, NUMERIC | REQUIRED, 0]);
    assert!(page.marks[1_840..].iter().all(|&marks| marks == 0));
    page.host(b"\x1B[1;2f\x1B[K");
    assert_eq!(
        (page.marks[..2].to_vec(), page.state.pen),
        (vec![NUMERIC | REQUIRED, 0], NUMERIC | REQUIRED)
    );
    page.host(b"\x1B[1;1f\x1B[0oA\x1B[20oB\x1B[4oC");
    assert_eq!(page.marks[..3], [0, REQUIRED, ALPHABETIC]);
    page.host(b"\x1B[2J");
    assert!(page.marks.iter().all(|&marks| marks == 0));
    assert!(!held_back(&mut page));
}

/// A form of which the host erases the blank field sends again.
#[test]
fn erased_field_holds_nothing_back() {
    let mut page = form_with_a_blank();
    assert!(held_back(&mut page));
    page.host(b"\x1B[3;1f\x1B[K\x1B[4;1f\x1B[K");
    assert!(!held_back(&mut page));
}

/// A call given 9 is no block: the copy that the sent ones keep is what a full block would send.
#[test]
fn held_back_blocks_keep_a_copy() {
    let mut random = Random::new(107);
    let mut page = form_with_a_blank();
    let mut copy = fields_of(&page.sent_by_host(b"\x1BS"));
    let mut met = BTreeMap::new();
    for _ in 0..1_500 {
        match random.below(9) {
            0..=2 => drop(page.key(random.pick(b"0a -.").into())),
            3 => drop(page.key(random.between(256, 265) as u32)),
            4 => drop(page.key(random.pick(&[260, 263]))),
            5 => drop(page.host(random.pick(&[b"\x1B[>6h", b"\x1B[>6l"]))),
            _ => {
                let full = page.state.full;
                let held = held_back(&mut page);
                *met.entry((full, held)).or_insert(0) += 1;
                if !held {
                    let end =
                        page.output.iter().position(|&byte| byte == 0x03).expect("03 at the end");
                    copy.extend(fields_of(&page.output[..=end]));
                    assert_eq!(copy, fields_of(&page.sent_by_host(b"\x1BS")));
                }
            }
        }
    }
    assert!(met.len() == 4 && met.values().all(|&times| times > 40), "{met:?}");
}

#[test]
fn dump_shows_required() {
    let output = Mode::Dump.run(b"001850\n011B5B336F1B5B32306F311B5B306F411B5B32306F20\n");
    let pens: Vec<_> = lines(&output).filter(|line| line.starts_with(b"pen")).collect();
    assert_eq!(pens[1], b"pen 0200 erasure 0 full 0");
    let marks: Vec<_> = lines(&output).filter(|line| line.starts_with(b":")).collect();
    assert!(marks[24].starts_with(b":0280000002000000"));
}

/// Set by hand, bit 9 goes with every kind but protected, in a cell and in the pen.
#[test]
fn calls_take_required() {
    for (value, number) in
        [("0200", "09"), ("0280", "09"), ("037E", "09"), ("0201", "02"), ("0400", "02")]
    {
        let input = format!("2000180050\n270000{value}\n230000010A");
        let output = Mode::Calls.run(input.as_bytes());
        assert_eq!(lines(&output).nth(5).map(|line| &line[..2]), Some(number.as_bytes()));
        let pen = u16::from_str_radix(value, 16).expect("digits") & !MODIFIED;
        let output = Mode::Calls.run(format!("2000180050\n280004{pen:04X}\n21").as_bytes());
        let number = if number == "09" { "00" } else { number };
        assert_eq!(lines(&output).nth(5).map(|line| &line[..2]), Some(number.as_bytes()));
    }
}

#[test]
fn blank_fields_are_seen() {
    let open = 0x0082;
    for (characters, marks, blank) in [
        (&b"    "[..], &[0, 0, 0, 0][..], false),
        (b"    ", &[open, open, 0x0200, open], true),
        (b"   .", &[0x0300, 0, 0, 0], false),
        (b"x | ", &[0x0200, 0, 1, 0], false),
        (b"x | ", &[0, 0, 1, 0x0202], true),
        (b"|| |", &[1, 1, 0x0280, 1], true),
        (b"    ", &[1, 1, 1, 1], false),
    ] {
        assert_eq!(has_blank_required_field(characters, marks), blank, "{characters:?} {marks:?}");
    }
}

/// Edits that let a blank field leave, hold back one that isn't blank, or change something with 9 are seen by
/// what `required` looks at; the right program passes.
#[test]
fn required_sees_wrong_edits() {
    let told = |edit| {
        wrong::choose(edit);
        let mut seeds = SEEDS;
        let told = seeds.find_map(|seed| Count::default().transcript(seed, 300).err());
        wrong::choose(0);
        told.unwrap_or_default()
    };
    for edit in [63, 72] {
        assert!(told(edit).ends_with("a block left while a required field was blank"), "{edit}");
    }
    for edit in [65, 71] {
        assert!(told(edit).ends_with("9 without a blank required field"), "{edit}");
    }
    assert!(told(70).ends_with("a call given 9 changed something"));
    assert!(!told(64).is_empty() && told(0).is_empty());
}

/// A cell of a field, with its place in page order.
struct Cell {
    place: usize,
    character: u8,
    marks: u16,
}

fn is_blank(field: &[Cell]) -> bool {
    field.iter().all(|cell| cell.character == b' ')
}

fn has(field: &[Cell], marks: u16) -> bool {
    field.iter().any(|cell| cell.marks & marks != 0)
}

/// What generated transcripts have of required fields, each by a name, with how often it came.
#[derive(Default)]
struct Required(BTreeMap<String, usize>);

impl Required {
    fn count(&mut self, name: &str, holds: bool) {
        *self.0.entry(name.to_string()).or_insert(0) += usize::from(holds);
    }

    /// A line of a transcript, on the page as it is before.
    fn line(&mut self, session: &Session, line: &[u8]) {
        let State { manual, soft, .. } = session.state;
        match line {
            b"02010A" if !manual && !soft => self.send_key(session),
            b"011B53" => {
                let blank = has_blank_required_field(&session.characters, &session.marks);
                self.count("by command", blank);
            }
            _ if line.ends_with(b"1B5B32306F") => {
                let before = &line[..line.len() - 10];
                let protected = before.ends_with(b"1B56") || before.ends_with(b"1B5B316F");
                self.count("refused of a protected pen", protected);
            }
            _ => {}
        }
    }

    /// What the page's required fields are like.
    fn send_key(&mut self, session: &Session) {
        let cells: Vec<Cell> = session
            .characters
            .iter()
            .zip(&session.marks)
            .enumerate()
            .map(|(place, (&character, &marks))| Cell { place, character, marks })
            .collect();
        let fields = cells.split(|cell| cell.marks & PROTECTED != 0);
        let required: Vec<_> = fields.filter(|field| has(field, REQUIRED)).collect();
        let blank: Vec<_> = required.iter().copied().filter(|field| is_blank(field)).collect();
        let mode = if session.state.full { "full" } else { "changed" };
        self.count(&format!("held back, {mode}"), !blank.is_empty());
        self.count(&format!("not held back, {mode}"), !required.is_empty() && blank.is_empty());
        if let [field] = blank[..] {
            self.blank_field(field, usize::from(session.state.columns));
            self.count("one of several", required.len() > 1);
        }
        let some = |all: fn(&Cell) -> bool| {
            blank.is_empty() && required.iter().any(|field| field.iter().all(all))
        };
        let required_blank = |cell: &Cell| cell.character == b' ' || cell.marks & REQUIRED == 0;
        self.count("filled beside its required cells", some(required_blank));
        self.count("filled by periods", some(|cell| matches!(cell.character, b' ' | b'.')));
    }

    /// The only one that is blank.
    fn blank_field(&mut self, field: &[Cell], width: usize) {
        let row_end = (field[0].place / width + 1) * width;
        let (first_row, further) = field.split_at(field.len().min(row_end - field[0].place));
        self.count("of one cell", field.len() == 1);
        self.count("over a row's end", !further.is_empty());
        self.count("required behind a row's end alone", !has(first_row, REQUIRED));
        self.count("modified", has(field, MODIFIED));
        self.count("not modified", !has(field, MODIFIED));
        self.count("numeric", has(field, NUMERIC));
        self.count("alphabetic", has(field, ALPHABETIC));
        self.count("first cell not required", !has(&field[..1], REQUIRED));
        self.count("first cell alone required", field.len() > 1 && !has(&field[1..], REQUIRED));
    }
}

#[test]
fn generated_required_fields() {
    let mut required = Required::default();
    for seed in SEEDS {
        let mut session = Session::new();
        for line in lines(&transcript(seed, 300)) {
            if session.going {
                required.line(&session, line);
            }
            session.line(line, &mut Vec::new());
        }
    }
    for (name, often) in [
        ("held back, changed", 100),
        ("held back, full", 100),
        ("not held back, changed", 100),
        ("not held back, full", 100),
        ("by command", 50),
        ("refused of a protected pen", 20),
        ("one of several", 50),
        ("of one cell", 20),
        ("over a row's end", 50),
        ("required behind a row's end alone", 10),
        ("modified", 50),
        ("not modified", 50),
        ("numeric", 50),
        ("alphabetic", 50),
        ("first cell not required", 20),
        ("first cell alone required", 10),
        ("filled beside its required cells", 20),
        ("filled by periods", 20),
    ] {
        let times = required.0.get(name).copied().unwrap_or(0);
        assert!(times >= often, "{name}: {times} {:?}", required.0);
    }
}

/// In `calls` key 266 is given 9 with no room, with little and with more, in both settings.
#[test]
fn generated_rooms_for_required_fields() {
    let mut met = BTreeMap::new();
    for seed in SEEDS.step_by(2) {
        let mut program = Calls::new();
        for line in lines(&calls(seed, 300)) {
            let (room, full) = (program.room, program.state.full);
            let mut out = Vec::new();
            program.line(line, &mut out);
            if line == b"230000010A" && out.starts_with(b"09") {
                let room = match room {
                    0 => "none",
                    1..=100 => "little",
                    _ => "more",
                };
                *met.entry((room, full)).or_insert(0) += 1;
            }
        }
    }
    assert!(met.len() == 6 && met.values().all(|&times| times > 10), "{met:?}");
}
