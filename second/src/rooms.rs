//! Room, one byte at a time: every output room from 0 up to a message's length, on several pages, by another program's
//! `calls`. What is looked for is said of the answers themselves, and not by this program's terminal.

use crate::compare::run;

/// What a call printed: number and counts, bytes sent, whether the rest of the output stayed, state, characters, marks.
#[derive(Clone, PartialEq)]
struct Told {
    number: String,
    taken: usize,
    sent: usize,
    stored: usize,
    bytes: String,
    past: String,
    state: String,
    characters: String,
    marks: String,
}

fn hex(bytes: &[u8]) -> String {
    bytes.iter().map(|byte| format!("{byte:02X}")).collect()
}

/// A page: its size, and the frames that paint it.
struct Page {
    name: &'static str,
    rows: usize,
    columns: usize,
    frames: Vec<String>,
    /// A cell of each required field that is blank; key 266 is held back until a character is typed in all of them.
    blank: Vec<(usize, usize)>,
}

impl Page {
    /// All cells protected blanks, then fields, then a key typed at the first one.
    fn new(
        name: &'static str,
        rows: usize,
        columns: usize,
        fields: &[(usize, usize, usize)],
    ) -> Page {
        let cells = rows * columns;
        let mut frames = vec![
            format!("24{cells:04X}{cells:04X}"),
            "2500010000".into(),
            format!("20{rows:04X}{columns:04X}"),
            "211B56".into(),
            format!("22{cells:08X}20"),
            "211B57".into(),
        ];
        for &(row, column, length) in fields {
            frames.push(go_and_put(row, column, &"x".repeat(length)));
        }
        frames.push("2300000106".into());
        frames.push("2300000041".into());
        Page { name, rows, columns, frames, blank: Vec::new() }
    }

    /// One more field, which pens and text make.
    fn field(mut self, row: usize, column: usize, made: &str) -> Page {
        self.frames.push(go_and_put(row, column, &format!("{made}\x1BW")));
        self
    }

    /// The same, required and blank.
    fn blank_field(mut self, row: usize, column: usize, made: &str) -> Page {
        self.blank.push((row, column));
        self.field(row, column, made)
    }

    /// The same, made blank by a key, and so modified.
    fn blanked_field(self, row: usize, column: usize, made: &str) -> Page {
        let mut page = self.blank_field(row, column, made);
        page.frames.extend([go_and_put(row, column, ""), "2300000107".into()]);
        page
    }
}

fn go_and_put(row: usize, column: usize, bytes: &str) -> String {
    host(format!("\x1B[{row};{column}f{bytes}").as_bytes())
}

fn pages() -> Vec<Page> {
    let every_row: Vec<_> = (1..=24).map(|row| (row, 2 * row, 3)).collect();
    let dense: Vec<_> = (1..=60).map(|place| (27, 2 * place, 1)).collect();
    let ends = [(1, 1, 2), (3, 79, 5), (24, 79, 2)];
    let form = |name| Page::new(name, 24, 80, &[(3, 15, 3), (24, 80, 1)]);
    let wide_form = |name| Page::new(name, 48, 160, &[(3, 15, 3), (48, 160, 1)]);
    vec![
        Page::new("three fields", 24, 80, &[(3, 15, 3), (4, 15, 2), (24, 80, 1)]),
        Page::new("fields over a row's end and at both ends", 24, 80, &ends),
        Page::new("a field in every row", 24, 80, &every_row),
        Page::new("sixty fields in the last row", 27, 132, &dense),
        Page::new("no field", 48, 160, &[]),
        form("required fields, none blank")
            .field(4, 15, "\x1B[3o\x1B[20o  1")
            .field(5, 79, ".\x1B[20o   ")
            .field(7, 1, "\x1B[4o\x1B[20o-"),
        form("one of three required fields blank")
            .field(4, 15, "\x1B[20oxx")
            .field(6, 3, "\x1B[3o\x1B[20o 0 ")
            .blank_field(9, 9, "\x1B[20o  "),
        form("blank over a row's end, required behind it").blank_field(5, 79, "  \x1B[3o\x1B[20o "),
        form("required blanked by key").blanked_field(2, 2, "\x1B[4o\x1B[20oabc"),
        wide_form("three required fields blank")
            .blank_field(1, 1, "\x1B[20o \x1B[0o ")
            .blank_field(6, 60, "\x1B[3o\x1B[20o ")
            .blank_field(48, 100, " \x1B[4o\x1B[20o "),
    ]
}

/// Frames 20 to 23 print four lines, the others one.
fn read(output: &str, frames: &[String]) -> Result<Vec<Option<Told>>, String> {
    let mut lines = output.lines();
    let mut next = || lines.next().ok_or("too few lines");
    let mut all = Vec::new();
    for frame in frames {
        let head = next()?;
        if !("20".."24").contains(&&frame[..2]) {
            all.push(None);
            continue;
        }
        let count =
            |from: usize| usize::from_str_radix(&head[from..from + 8], 16).map_err(|_| "no count");
        let (past, state) = next()?.split_once(' ').ok_or("no state")?;
        all.push(Some(Told {
            number: head[..2].into(),
            taken: count(2)?,
            sent: count(10)?,
            stored: count(18)?,
            bytes: head[26..].into(),
            past: past.into(),
            state: state.into(),
            characters: next()?.into(),
            marks: next()?.into(),
        }));
    }
    Ok(all)
}

/// What each group of frames was told, all in one run of the program.
fn tell(program: &[String], groups: &[Vec<String>]) -> Result<Vec<Vec<Told>>, String> {
    let frames = groups.concat();
    let output = run(program, (frames.join("\n") + "\n").as_bytes())?;
    let mut told = read(&String::from_utf8_lossy(&output), &frames)?.into_iter();
    Ok(groups.iter().map(|group| told.by_ref().take(group.len()).flatten().collect()).collect())
}

fn ensure(holds: bool, what: &str) -> Result<(), String> {
    if holds {
        Ok(())
    } else {
        Err(what.into())
    }
}

/// The state but its parts 9 to 19, the half-read record.
fn other_state(told: &Told) -> (&str, &str) {
    (&told.state[..9 * 4], &told.state[20 * 4..])
}

/// No cell, mark, output byte or state but the half-read record changed, nothing sent, nothing stored.
fn nothing(before: &Told, after: &Told) -> bool {
    after.sent == 0
        && after.stored == 0
        && after.bytes.is_empty()
        && after.past == "00000"
        && after.characters == before.characters
        && after.marks == before.marks
        && other_state(after) == other_state(before)
}

/// Key 266 sends changed blocks with the send mode set and full ones with it reset.
const SET: &[u8] = b"\x1B[>6h";
const RESET: &[u8] = b"\x1B[>6l";

/// A call that sends a message: a key, or a command of the host.
struct Message {
    name: &'static str,
    /// The frame before it, which sets or resets the send mode.
    mode: String,
    /// It is a full block, and so the same as every other one of the page.
    full: bool,
    whole: String,
    /// Of a command: its bytes but the last, and the last.
    parts: Option<(String, String)>,
    /// How many bytes are taken where the room lacks.
    before_last: usize,
}

fn host(bytes: &[u8]) -> String {
    format!("21{}", hex(bytes))
}

fn key(name: &'static str, mode: &[u8], number: usize) -> Message {
    let whole = format!("23{number:08X}");
    Message { name, mode: host(mode), full: mode == RESET, whole, parts: None, before_last: 0 }
}

fn command(name: &'static str, mode: &[u8], bytes: &[u8]) -> Message {
    let before_last = bytes.len() - 1;
    let parts = Some((host(&bytes[..before_last]), host(&bytes[before_last..])));
    let full = bytes == b"\x1BS";
    Message { name, mode: host(mode), full, whole: host(bytes), parts, before_last }
}

fn messages() -> Vec<Message> {
    vec![
        key("key 266, changed", SET, 266),
        key("key 266, full", RESET, 266),
        command("ESC S, 266 changed", SET, b"\x1BS"),
        command("ESC S, 266 full", RESET, b"\x1BS"),
        command("ESC [ 5 n", SET, b"\x1B[5n"),
        command("ESC [ 6 n", RESET, b"\x1B[6n"),
    ]
}

/// The page with the send mode as the message needs it.
fn painting(page: &Page, message: &Message) -> Vec<String> {
    page.frames.iter().chain([&message.mode]).cloned().collect()
}

fn room(bytes: usize) -> String {
    format!("25{bytes:08X}")
}

const ENOUGH: usize = 65_536;

/// The frames that set what a call changed back to what it was.
fn back(before: &Told, after: &Told) -> Vec<String> {
    let parts = [
        ("26", &before.characters, &after.characters, 2),
        ("27", &before.marks, &after.marks, 4),
        ("28", &before.state, &after.state, 4),
    ];
    let mut frames = Vec::new();
    for (frame, before, after, digits) in parts {
        let values = before.as_bytes().chunks(digits).zip(after.as_bytes().chunks(digits));
        for (place, (old, _)) in values.enumerate().filter(|(_, (old, new))| old != new) {
            frames.push(format!("{frame}{place:04X}{}", String::from_utf8_lossy(old)));
        }
    }
    frames
}

/// What a message is with room enough, and what the bytes before its last leave.
struct Known {
    painted: Told,
    whole: Told,
    state_without_last: String,
}

fn learn(program: &[String], page: &Page, message: &Message) -> Result<Known, String> {
    let first = message.parts.iter().map(|(first, _)| first.clone()).collect();
    let groups = [
        painting(page, message),
        vec![room(ENOUGH), message.whole.clone()],
        painting(page, message),
        first,
    ];
    let told = tell(program, &groups)?;
    let painted = told[0].last().ok_or("no page")?.clone();
    let without_last = told[2].iter().chain(&told[3]).last().ok_or("no page")?;
    Ok(Known { painted, whole: told[1][0].clone(), state_without_last: without_last.state.clone() })
}

/// Where the room lacks: 3, the bytes before the last are taken, and nothing else changes; what is not taken, with room
/// enough, then ends as one call does.
fn lacking(message: &Message, known: &Known, told: &[Told]) -> Result<(), String> {
    ensure(
        told[0].number == "03" && told[0].taken == message.before_last,
        "not 3, or taken wrong",
    )?;
    ensure(nothing(&known.painted, &told[0]), "something changed")?;
    ensure(
        told[0].state == known.state_without_last,
        "the state is not what the bytes before left",
    )?;
    let mut rest = match told.get(1) {
        Some(rest) => rest.clone(),
        None => return Ok(()),
    };
    rest.taken += message.before_last;
    ensure(rest == known.whole, "the rest does not end as one call")
}

/// Every room up to the message's length, one after the other on one page, which is put back after each.
fn every_room(program: &[String], page: &Page, message: &Message) -> Result<Told, String> {
    let known = learn(program, page, message)?;
    let length = known.whole.sent;
    ensure(known.whole.number == "00" && length > 0, "no message")?;
    let back = back(&known.painted, &known.whole);
    let mut groups = vec![painting(page, message)];
    for bytes in 0..=length {
        let mut frames = vec![room(bytes), message.whole.clone()];
        if let Some((_, rest)) = message.parts.as_ref().filter(|_| bytes < length) {
            frames.extend([room(ENOUGH), rest.clone()]);
        }
        if bytes == length || message.parts.is_some() {
            frames.extend(back.clone());
        }
        groups.push(frames);
    }
    let told = tell(program, &groups)?;
    for (bytes, told) in told[1..=length].iter().enumerate() {
        lacking(message, &known, told).map_err(|error| format!("room {bytes}: {error}"))?;
    }
    let as_with_more = told[length + 1][..] == [known.whole.clone()];
    ensure(as_with_more, &format!("room {length}: not as with more room"))?;
    Ok(known.whole)
}

/// Key 266 where a required field is blank: at every room up to a full block's length, and with enough, 9, and nothing
/// changes. Then the fields are filled, and the last one lets it send. Gives that length.
fn held_back(program: &[String], page: &Page, message: &Message) -> Result<usize, String> {
    let full = tell(program, &[painting(page, message), vec![room(ENOUGH), host(b"\x1BS")]])?;
    let painted = full[0].last().ok_or("no page")?;
    let length = full[1][0].sent;
    ensure(full[1][0].number == "00" && length > 0, "no full block by command")?;
    let mut groups = vec![painting(page, message)];
    let all = (0..=length).chain([ENOUGH]);
    groups.extend(all.clone().map(|bytes| vec![room(bytes), message.whole.clone()]));
    let fill = |&(row, column): &(usize, usize)| {
        vec![go_and_put(row, column, ""), "230000002E".into(), message.whole.clone()]
    };
    groups.extend(page.blank.iter().map(fill));
    let told = tell(program, &groups)?;
    for (bytes, told) in all.zip(&told[1..]) {
        let held = told[0].number == "09" && told[0].taken == 0 && told[0].state == painted.state;
        let what = format!("room {bytes}: not 9, or something changed");
        ensure(held && nothing(painted, &told[0]), &what)?;
    }
    for (still_blank, told) in told.iter().rev().take(page.blank.len()).enumerate() {
        let number = if still_blank == 0 { "00" } else { "09" };
        ensure(told[2].number == number, &format!("{still_blank} still blank: not {number}"))?;
    }
    Ok(length)
}

/// True if every room is answered as document 01 says.
pub fn rooms(program: &[String]) -> Result<bool, String> {
    for page in pages() {
        let mut full_block = None;
        for message in messages() {
            let place =
                format!("{} ({} by {}), {}", page.name, page.rows, page.columns, message.name);
            let at_place = |error| format!("{place}: {error}");
            if message.parts.is_none() && !page.blank.is_empty() {
                let length = held_back(program, &page, &message).map_err(at_place)?;
                println!("{place}: 9 at rooms 0 to {length}");
                continue;
            }
            let whole = every_room(program, &page, &message).map_err(at_place)?;
            println!("{place}: rooms 0 to {}", whole.sent);
            if message.full {
                let first = full_block.get_or_insert_with(|| whole.bytes.clone());
                ensure(*first == whole.bytes, &format!("{place}: not the full block"))?;
            }
        }
    }
    Ok(true)
}
