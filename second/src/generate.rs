//! Random transcripts. The generator runs its own terminal beside, to aim at forms and lift locks.

use crate::frames::{host_frame, key_frame, put_hex, Program, Session};
use crate::random::Random;
use crate::streams::{any_size, Part, Stream, PROBES};
use crate::terminal::{COLUMNS, ROWS};
use std::collections::VecDeque;

struct Generator {
    random: Random,
    session: Session,
    text: Vec<u8>,
    /// Host bytes still to be put in frames, and keys still to be pressed.
    host: VecDeque<u8>,
    keys: VecDeque<u32>,
    /// Whole frames still to come, where host bytes and keys keep their order.
    frames: VecDeque<Vec<u8>>,
    /// The keys are for the page as the host bytes leave it, and wait for them.
    keys_wait: bool,
    /// The host bytes go out a few at a time, so that a dump shows each of their refusals.
    few_at_once: bool,
    first_size: (u16, u16),
    /// How far single bytes have been gone through; the seeds share this work.
    step: usize,
    /// The form is painted as one dense page first, in long frames.
    dense: bool,
}

pub fn transcript(seed: u64, frames: usize) -> Vec<u8> {
    let place = (seed % 9) as usize;
    let first_size = (ROWS[place / 3], COLUMNS[place % 3]);
    let mut generator = Generator {
        random: Random::new(seed),
        session: Session::new(),
        text: Vec::new(),
        host: VecDeque::new(),
        keys: VecDeque::new(),
        frames: VecDeque::new(),
        keys_wait: false,
        few_at_once: false,
        first_size,
        step: seed as usize % 128 * (PROBES / 128),
        dense: first_size == (48, 160) && seed / 9 % 2 == 0,
    };
    for _ in 0..frames {
        generator.frame();
    }
    if generator.random.chance(15) {
        generator.text.pop();
    }
    generator.text
}

impl Generator {
    fn line(&mut self, line: &[u8]) {
        self.text.extend_from_slice(line);
        self.text.push(b'\n');
        self.session.line(line, &mut Vec::new());
    }

    fn emit(&mut self, frame: &[u8]) {
        let mut line = Vec::new();
        put_hex(&mut line, frame);
        self.line(&line);
    }

    fn host_frame(&mut self, bytes: &[u8]) {
        self.emit(&host_frame(bytes));
    }

    fn key_frame(&mut self, key: u32) {
        self.emit(&key_frame(key));
    }

    fn stream(&mut self) -> Stream<'_> {
        Stream::new(&mut self.random, &self.session.state, &self.session.marks)
    }

    fn frame(&mut self) {
        if !self.session.going {
            return self.frame_without_session();
        }
        if self.dense {
            return self.frame_of_dense_page();
        }
        match self.random.below(1_000) {
            0..=34 => self.bad_line(),
            35..=38 => self.start(),
            39..=41 => self.refused_start(),
            42..=50 => self.host_frame(&[]),
            _ => self.frame_of_work(),
        }
    }

    fn frame_without_session(&mut self) {
        match self.random.below(20) {
            0..=13 => self.start(),
            14 => self.refused_start(),
            15 => self.host_frame(b"early\x1B[6n"),
            16 => self.key_frame(65),
            _ => self.bad_line(),
        }
    }

    fn start(&mut self) {
        let first = self.dense || (!self.session.going && self.random.chance(80));
        let (rows, columns) = if first { self.first_size } else { any_size(&mut self.random) };
        self.emit(&[0x00, rows as u8, columns as u8]);
        if self.dense {
            self.host = self.stream().dense_page().into();
        }
    }

    fn refused_start(&mut self) {
        // one of the two is not listed, or neither is
        let (any_rows, any_columns) = any_size(&mut self.random);
        let wrong_rows = self.random.pick(&[0, 1, 23, 25, 26, 28, 47, 49, 80, 255]);
        let wrong_columns = self.random.pick(&[0, 1, 79, 81, 131, 133, 159, 161, 24, 255]);
        let (rows, columns) = match self.random.between(0, 2) {
            0 => (wrong_rows, any_columns as u8),
            1 => (any_rows as u8, wrong_columns),
            _ => (wrong_rows, wrong_columns),
        };
        self.emit(&[0x00, rows, columns]);
    }

    /// The page is painted, then whole blocks follow, so that two don't fit in one call; a key sends one too.
    fn frame_of_dense_page(&mut self) {
        if self.host.is_empty() {
            self.dense = false;
            self.host = [&b"\x1B[>6l"[..], &b"\x1BS".repeat(5)].concat().into();
            self.keys.push_back(266);
            self.chunk(255);
        } else if self.random.chance(4) {
            self.keys.push_back(266);
            self.press();
        } else {
            self.chunk(255);
        }
    }

    fn frame_of_work(&mut self) {
        let locked = self.session.state.manual || self.session.state.soft;
        if locked && self.random.chance(18) {
            return self.unlock();
        }
        if let Some(frame) = self.frames.pop_front() {
            return self.emit(&frame);
        }
        let painting = self.host.len() > 600 || self.keys_wait;
        if !painting && !self.keys.is_empty() && self.random.chance(45) {
            return self.press();
        }
        if !self.host.is_empty() {
            let most = match self.random.below(10) {
                _ if painting => 255,
                _ if self.few_at_once => self.random.between(1, 6),
                0..=2 => self.random.between(1, 4),
                3..=5 => self.random.between(5, 40),
                _ => 255,
            };
            return self.chunk(most);
        }
        if !self.keys.is_empty() {
            return self.press();
        }
        (self.keys_wait, self.few_at_once) = (false, false);
        match self.random.below(180) {
            172.. => {
                let parts = self.stream().required_form();
                self.plan_parts(parts, &[255, 255, 255, 4]);
            }
            159.. => {
                let parts = self.stream().sending();
                self.plan_parts(parts, &[255, 255, 255, 4, 1]);
            }
            138.. => {
                self.host = self.stream().mixed_field().into();
                self.keys = self.stream().kind_keys().into();
                self.keys_wait = true;
            }
            108.. => {
                self.host = self.stream().refusals().into();
                self.keys =
                    self.random.pick(&[&[268][..], &[65, 268], &[267, 268], &[]]).to_vec().into();
                self.few_at_once = self.random.chance(50);
            }
            100.. => {
                self.host = self.stream().long_fields().into();
                self.keys = self.stream().field_keys().into();
                self.keys_wait = true;
            }
            0..=38 => {
                self.host = self.stream().scene().into();
                if self.host.len() > 1_500 {
                    self.keys = [260, 261, 262, 65, 264].into();
                }
            }
            39..=41 => self.host = self.blocks().into(),
            42..=54 => self.host = self.stream().probe().into(),
            55..=79 => {
                let step = self.step;
                self.step += 1;
                self.host = self.stream().probe_byte(step).into();
            }
            _ => {
                let state = &self.session.state;
                let place = usize::from(state.row - 1) * usize::from(state.columns)
                    + usize::from(state.column - 1);
                let under = self.session.characters[place];
                if self.random.chance(50) {
                    self.host = self.stream().aimed().into();
                }
                self.keys = self.stream().keys(under).into();
            }
        }
        self.frame_of_work();
    }

    /// Short parts are cut into one of these lengths, which may be after each byte.
    fn plan_parts(&mut self, parts: Vec<Part>, lengths: &[usize]) {
        for part in parts {
            match part {
                Part::Key(key) => self.frames.push_back(key_frame(key)),
                Part::Host(bytes) => {
                    let short = bytes.len() < 20;
                    let most = if short { self.random.pick(lengths) } else { 255 };
                    self.frames.extend(bytes.chunks(most).map(host_frame));
                }
            }
        }
    }

    /// Several whole blocks in a frame; on a dense page of 48 by 160 two exceed the room.
    fn blocks(&mut self) -> Vec<u8> {
        let mut bytes = Vec::new();
        let many = if self.random.chance(5) { 40 } else { self.random.between(2, 6) };
        for _ in 0..many {
            bytes.extend_from_slice(b"\x1BS");
            if self.random.chance(30) {
                bytes.extend_from_slice(
                    self.random.pick(&["\x1B[6n", "Q", "\x1B[5n", "\x0D"]).as_bytes(),
                );
            }
        }
        bytes
    }

    fn unlock(&mut self) {
        let manual = self.session.state.manual;
        match self.random.below(10) {
            0..=3 if manual => self.host_frame(b"\x1Bb"),
            4 if manual => self.host_frame(b"\x18\x1Bb"),
            5 => self.host_frame(b"\x1A\x1Bb"),
            _ => self.key_frame(268),
        }
    }

    fn press(&mut self) {
        if let Some(key) = self.keys.pop_front() {
            self.key_frame(key);
        }
    }

    /// The next host bytes, cut anywhere.
    fn chunk(&mut self, most: usize) {
        let length = self.host.len().min(most);
        let bytes: Vec<u8> = self.host.drain(..length).collect();
        self.host_frame(&bytes);
    }

    fn bad_line(&mut self) {
        let line: Vec<u8> = match self.random.below(22) {
            0 | 1 => b"".to_vec(),
            2 => b"\r".to_vec(),
            3 => b"0141\r".to_vec(),
            4 => b"001850\r".to_vec(),
            5 => b" 0141".to_vec(),
            6 => b"0141 ".to_vec(),
            7 => b"01 41".to_vec(),
            8 => b"011b63".to_vec(),
            9 => b"001b50".to_vec(),
            10 => b"0141424344a".to_vec(),
            11 => b"0".to_vec(),
            12 => b"01414".to_vec(),
            13 => self.random.pick(&["00", "0018", "00185000", "02", "0200", "02004100"]).into(),
            14 => format!("{:02X}1850", self.random.between(3, 255)).into_bytes(),
            15 => format!("{:02X}", self.random.between(3, 255)).into_bytes(),
            16 => b"01".iter().chain(b"41".repeat(256).iter()).copied().collect(),
            17 => b"01"
                .iter()
                .chain(b"1B63".repeat(self.random.between(128, 400)).iter())
                .copied()
                .collect(),
            18 => b"02\0\x300".to_vec(),
            19 => b"01\xFF\xFF".to_vec(),
            20 => b"0x0141".to_vec(),
            _ => b"02010G".to_vec(),
        };
        self.line(&line);
    }
}
