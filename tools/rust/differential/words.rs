//! Errors in words: the library beside a reader of the tables in docs/WORDS.md. Every error of
//! every script that is read has words, and they are the page's.

use std::collections::HashSet;

use crate::{Beside, Count, c};

const PAGE: &str = include_str!("../../../docs/WORDS.md");

/// The most bytes of a line.
const LONGEST: usize = 160;

/// A part of an error's words.
enum Part {
    Text(&'static str),
    Wanted,
    Seen,
    Byte,
}

pub struct Words {
    /// By the error's number.
    errors: Vec<Option<Vec<Part>>>,
    /// By the kind.
    names: Vec<Option<&'static str>>,
    /// Number, wanted and seen of the errors that were found right.
    right: HashSet<[u32; 3]>,
}

/// The parts of a cell: texts between backquotes, and WANTED, SEEN, BYTE.
fn parts(mut cell: &'static str) -> Vec<Part> {
    let mut parts = Vec::new();
    while !cell.is_empty() {
        if let Some(rest) = cell.strip_prefix('`') {
            let (text, rest) = rest.split_once('`').expect("a closing backquote");
            parts.push(Part::Text(text));
            cell = rest;
            continue;
        }
        let (mark, rest) = cell.split_at(cell.find('`').unwrap_or(cell.len()));
        parts.push(match mark {
            "WANTED" => Part::Wanted,
            "SEEN" => Part::Seen,
            "BYTE" => Part::Byte,
            other => panic!("docs/WORDS.md has {other}"),
        });
        cell = rest;
    }
    parts
}

impl Words {
    pub fn new() -> Self {
        let mut words = Words { errors: (0..64).map(|_| None).collect(), names: vec![None; 64], right: HashSet::new() };
        for line in PAGE.lines().filter(|line| line.starts_with("| ")) {
            let cells: Vec<&str> = line.trim_matches('|').split('|').map(str::trim).collect();
            match cells[..] {
                [number, cell] => {
                    if let Ok(number) = number.parse::<usize>() {
                        words.errors[number] = Some(parts(cell));
                    }
                }
                [_, _, _, _, _, _] => {
                    for pair in cells.chunks_exact(2) {
                        if let Ok(kind) = pair[0].parse::<usize>() {
                            words.names[kind] = Some(pair[1].trim_matches('`'));
                        }
                    }
                }
                _ => {}
            }
        }
        assert_eq!((words.errors.iter().flatten().count(), words.names.iter().flatten().count()), (18, 43), "the tables of docs/WORDS.md");
        words
    }

    fn name(&self, kind: u32) -> Option<&'static str> {
        *self.names.get(kind as usize)?
    }

    /// The words, where there are any.
    fn line(&self, [number, wanted, seen]: [u32; 3]) -> Option<String> {
        let parts = self.errors.get(number as usize)?.as_ref()?;
        let marked = |mark: fn(&Part) -> bool| parts.iter().any(mark);
        if (wanted != 0 && !marked(|p| matches!(p, Part::Wanted))) || (seen != 0 && !marked(|p| matches!(p, Part::Seen | Part::Byte))) {
            return None;
        }
        let mut line = String::new();
        for part in parts {
            match part {
                Part::Text(text) => line.push_str(text),
                Part::Wanted => line.push_str(self.name(wanted)?),
                Part::Seen => line.push_str(self.name(seen)?),
                Part::Byte => line.push_str(&format!("{:02X}", u8::try_from(seen).ok()?)),
            }
        }
        Some(line)
    }

    /// The call with a buffer of `room` bytes, full of `filling`.
    fn told(&self, error: [u32; 5], room: usize, filling: u8) -> Result<(), String> {
        let (mut buffer, mut length) = (vec![filling; room + 8], [u64::MAX]);
        let number = c::describe(&error, &mut buffer[..room], &mut length);
        let mut wanted = vec![filling; room + 8];
        let answer = match self.line([error[0], error[3], error[4]]) {
            _ if room < LONGEST => (41, u64::MAX),
            None => (42, u64::MAX),
            Some(line) => {
                wanted[..line.len()].copy_from_slice(line.as_bytes());
                (0, line.len() as u64)
            }
        };
        if (number, length[0]) != answer || buffer != wanted {
            return Err(format!("the words of {error:?} in {room} bytes: {number}, {} bytes, {}", length[0], buffer.escape_ascii()));
        }
        Ok(())
    }

    /// An error that a reading returned: it has words, and they are the page's.
    pub fn has(&mut self, error: &[u32]) -> Result<(), String> {
        let error: [u32; 5] = error.try_into().expect("five numbers");
        let key = [error[0], error[3], error[4]];
        if self.right.contains(&key) {
            return Ok(());
        }
        if self.line(key).is_none() {
            return Err(format!("{error:?} has no words"));
        }
        self.told(error, LONGEST, b'.')?;
        self.right.insert(key);
        Ok(())
    }

    /// How many errors of readings were described.
    pub fn described(&self) -> usize {
        self.right.len()
    }
}

impl Beside {
    /// What the reading just made returned and gathered.
    pub fn same_words(&mut self, number: u32) -> Result<(), String> {
        let numbers = self.lent.numbers;
        if number >= 10 {
            self.words.has(&numbers[1..6])?;
        }
        for error in self.lent.array(4).chunks_exact(5).take(numbers[11] as usize) {
            self.words.has(error)?;
        }
        Ok(())
    }

    /// Every number, wanted and seen up to past the last, and numbers from far off; buffers around
    /// 160 bytes.
    pub fn describe(&mut self, random: usize) -> u64 {
        let mut count = Count::new("words");
        let mut tell = |words: &Words, error: [u32; 5], room: usize| {
            count.lookups += 1;
            if let Err(what) = words.told(error, room, b'~') {
                count.differs(b"", &what);
            }
        };
        for number in 0..=40 {
            for wanted in 0..=46 {
                for seen in 0..=300 {
                    tell(&self.words, [number, 1, 2, wanted, seen], LONGEST);
                }
            }
        }
        for room in [0, 1, 100, LONGEST - 1, LONGEST, LONGEST + 1, 1000] {
            for error in [[11, 0, 1, 9, 24], [33, 0, 1, 0, 255], [31, 0, 1, 0, 0], [24, 0, 1, 0, 0], [11, 0, 1, 0, 24]] {
                tell(&self.words, error, room);
            }
        }
        for _ in 0..random {
            let near = [0, 1, 9, 10, 11, 12, 23, 24, 30, 31, 33, 34, 35, 43, 44, 255, 256, 267, 65_535, 65_547, u32::MAX - 1, u32::MAX];
            let mut any = || if self.random.chance(80) { near[self.random.below(near.len())] } else { self.random.below(1 << 31) as u32 * 2 };
            let error = [any(), any(), any(), any(), any()];
            let room = if self.random.chance(90) { LONGEST } else { self.random.below(2 * LONGEST) };
            tell(&self.words, error, room);
        }
        println!("words: {} errors of readings were described", self.words.described());
        count.done()
    }
}
