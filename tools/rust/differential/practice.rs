//! Practice sheets: the library beside a generator of its own, which is written from document 02's
//! words, and every sheet read by the library and by the unchanged Rust.

use crate::c;
use crate::library::Mode;
use crate::{Beside, Count};

/// The most lines of a sheet.
const LINES: u32 = 16;

/// 'To draw, the seed is multiplied by 1,664,525, then 1,013,904,223 is added, and the remainder by
/// 4,294,967,296 is kept as the new seed'.
struct Draws {
    seed: u64,
}

impl Draws {
    /// 'the new seed divided by 65,536, without its fraction, and of that the remainder by the
    /// count'
    fn among(&mut self, count: u64) -> u64 {
        self.seed = (self.seed * 1_664_525 + 1_013_904_223) % 4_294_967_296;
        self.seed / 65_536 % count
    }

    /// 'An expression draws among 4, or among 2 at level 0'
    fn expression(&mut self, level: u32) -> String {
        match self.among(if level == 0 { 2 } else { 4 }) {
            0 => self.among(100).to_string(),
            1 => format!("v{}", self.among(10)),
            2 => {
                let left = self.expression(level - 1);
                let right = self.expression(level - 1);
                format!("({left} + {right})")
            }
            _ => format!("-{}", self.expression(level - 1)),
        }
    }
}

fn sheet(seed: u32, lines: u32) -> String {
    let mut draws = Draws { seed: u64::from(seed) };
    (0..lines).map(|i| format!("let v{i} = {}\n", draws.expression(4))).collect()
}

/// Tried in every run.
const SEEDS: [u32; 4] = [0, 1, 1 << 31, u32::MAX];

/// Room for every sheet.
const ROOM: usize = 2048;

/// Bytes around the buffer, and a length, that nobody may touch.
const GUARD: usize = 8;
const UNTOUCHED: u8 = 0xa5;
const NO_LENGTH: u64 = 0xdead_beef_dead_beef;

/// The library on a buffer of so many bytes: its number, the length, the buffer with its guards.
fn written(seed: u32, lines: u32, bytes: usize) -> (u32, u64, Vec<u8>) {
    let mut cells = vec![UNTOUCHED; bytes + 2 * GUARD];
    let mut length = [NO_LENGTH];
    let number = c::practice(seed, lines, &mut cells[GUARD..GUARD + bytes], &mut length);
    (number, length[0], cells)
}

/// What a call leaves: the sheet in front, and everything else as it was.
fn wanted(sheet: &str, bytes: usize) -> (u32, u64, Vec<u8>) {
    let mut cells = vec![UNTOUCHED; bytes + 2 * GUARD];
    cells[GUARD..GUARD + sheet.len()].copy_from_slice(sheet.as_bytes());
    (0, sheet.len() as u64, cells)
}

/// A refusal leaves everything as it was.
fn refused(number: u32, bytes: usize) -> (u32, u64, Vec<u8>) {
    (number, NO_LENGTH, vec![UNTOUCHED; bytes + 2 * GUARD])
}

impl Beside {
    /// Any 32 bits.
    fn word(&mut self) -> u32 {
        (self.random.below(1 << 16) << 16 | self.random.below(1 << 16)) as u32
    }

    /// `seeds` seeds with each number of lines.
    pub fn practice(&mut self, seeds: usize) -> u64 {
        let mut count = Count::new("practice");
        let (mut sheets, mut calls, mut longest) = (0u64, 0u64, (0, 0));
        for i in 0..seeds {
            let seed = if i < SEEDS.len() { SEEDS[i] } else { self.word() };
            for lines in 0..=LINES {
                let text = sheet(seed, lines);
                sheets += 1;
                longest = longest.max((text.len(), seed));
                // exactly long enough, longer, and longer by any number of bytes
                let more = self.random.below(200);
                for bytes in [text.len(), text.len() + 1, text.len() + more] {
                    calls += 1;
                    if written(seed, lines, bytes) != wanted(&text, bytes) {
                        count.differs(text.as_bytes(), &format!("the sheet of {seed}, {lines} lines, a buffer of {bytes}"));
                    }
                }
                // too short: by one byte, by some, by all
                if !text.is_empty() {
                    for bytes in [text.len() - 1, self.random.below(text.len()), 0] {
                        calls += 1;
                        if written(seed, lines, bytes) != refused(48, bytes) {
                            count.differs(text.as_bytes(), &format!("48 of {seed}, {lines} lines, a buffer of {bytes}"));
                        }
                    }
                }
                self.accepted(&mut count, text.as_bytes(), lines);
            }
            // too many lines, on buffers that are too short for any sheet and long enough for all
            for lines in [LINES + 1, self.word() | 32, u32::MAX] {
                for bytes in [0, 1, ROOM] {
                    calls += 1;
                    if written(seed, lines, bytes) != refused(47, bytes) {
                        count.differs(b"", &format!("47 of {seed}, {lines} lines, a buffer of {bytes}"));
                    }
                }
            }
        }
        let (bytes, seed) = longest;
        println!("practice: {seeds} seeds, {sheets} sheets, {calls} calls; the longest sheet has {bytes} bytes, seed {seed}");
        count.done()
    }

    /// Strict mode accepts the sheet with one root per line, collecting mode gathers nothing, and
    /// both trees are the Rust's.
    fn accepted(&mut self, count: &mut Count, script: &[u8], lines: u32) {
        count.scripts += 1;
        for mode in [Mode::Strict, Mode::Collecting] {
            let lens = self.lengths(script.len());
            if let Err(what) = self.compare_in(count, mode, script, lens) {
                count.differs(script, &what);
            }
            let numbers = self.lent.numbers;
            if (numbers[0], numbers[9], numbers[11]) != (0, lines, 0) {
                count.differs(script, &format!("{lines} lines are read as {numbers:?}"));
            }
        }
    }
}
