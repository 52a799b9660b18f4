//! Correction sheets: read back from their text by a reader that is written from document 02's
//! words, and compared with the errors that they were printed from. The words of an error come from
//! the two tables of docs/WORDS.md, its line and column from a count of its own (positions.rs).

use crate::c;
use crate::library::{self, Mode};
use crate::positions::place;
use crate::scripts::Random;
use crate::{Beside, Count, LONGEST};
use std::collections::BTreeMap;
use std::time::Instant;

const PAGE: &str = include_str!("../../../docs/WORDS.md");

/// Bytes of a line without its line feed, of the margin, of a piece of words.
const LINE: usize = 72;
const MARGIN: usize = 15;
const PIECE: usize = LINE - MARGIN;

/// Bytes before and behind a buffer that stay as they are.
const GUARD: usize = 16;

type Error = [u32; 5];

// ---- the words, from the page

enum Part {
    Text(&'static str),
    Wanted,
    Seen,
    Byte,
}

struct Words {
    phrases: BTreeMap<u32, Vec<Part>>,
    names: BTreeMap<u32, &'static str>,
}

impl Words {
    fn of_page() -> Self {
        let mut words = Words { phrases: BTreeMap::new(), names: BTreeMap::new() };
        for row in PAGE.lines().filter_map(|l| l.strip_prefix("| ")?.strip_suffix(" |")) {
            let cells: Vec<&'static str> = row.split(" | ").collect();
            let numbers = cells.iter().step_by(2).map(|c| c.trim().parse().ok());
            match cells.len() {
                2 => {
                    if let Some(Some(number)) = numbers.clone().next() {
                        words.phrases.insert(number, parts(cells[1]));
                    }
                }
                6 => numbers.zip(cells.iter().skip(1).step_by(2)).for_each(|(kind, name)| {
                    if let Some(kind) = kind {
                        words.names.insert(kind, name.trim_matches('`'));
                    }
                }),
                _ => {}
            }
        }
        assert!(words.phrases.len() == 18 && words.names.len() == 43, "the tables of docs/WORDS.md");
        words
    }

    /// The words of an error; nothing where it gets 42.
    fn of(&self, [number, _, _, wanted, seen]: Error) -> Option<String> {
        let phrase = self.phrases.get(&number)?;
        let wanted_fits = if number == 11 { self.names.contains_key(&wanted) } else { wanted == 0 };
        let seen_fits = match number {
            10..=23 => self.names.contains_key(&seen),
            33 => seen <= 255,
            _ => seen == 0,
        };
        let part = |p: &Part| match p {
            Part::Text(text) => text.to_string(),
            Part::Wanted => self.names[&wanted].to_string(),
            Part::Seen => self.names[&seen].to_string(),
            Part::Byte => format!("{seen:02X}"),
        };
        (wanted_fits && seen_fits).then(|| phrase.iter().map(part).collect())
    }
}

/// A phrase of the page: text in back quotes, and marks between.
fn parts(cell: &'static str) -> Vec<Part> {
    let part = |(i, text): (usize, &'static str)| match text {
        text if i % 2 == 1 => Some(Part::Text(text)),
        "" => None,
        "WANTED" => Some(Part::Wanted),
        "SEEN" => Some(Part::Seen),
        "BYTE" => Some(Part::Byte),
        _ => panic!("docs/WORDS.md has the phrase {cell}"),
    };
    cell.split('`').enumerate().filter_map(part).collect()
}

// ---- reading a sheet

/// An error as a sheet shows it.
#[derive(PartialEq, Debug)]
struct Shown {
    line: usize,
    column: usize,
    number: usize,
    words: String,
}

/// A number in decimal, right aligned with blanks.
fn right_aligned(places: &str) -> Option<usize> {
    let digits = places.trim_start_matches(' ');
    let plain = digits.bytes().all(|b| b.is_ascii_digit()) && (digits == "0" || !digits.starts_with('0'));
    if plain { digits.parse().ok() } else { None }
}

/// The errors of a sheet: cut off the margins, join the pieces, cut off the last padding.
fn read(sheet: &[u8]) -> Result<Vec<Shown>, String> {
    let mut shown: Vec<Shown> = Vec::new();
    for (i, line) in sheet.chunks(LINE + 1).enumerate() {
        let wrong = |what: &str| format!("line {} of the sheet: {what}", i + 1);
        let Some((b'\n', line)) = line.split_last() else { return Err(wrong("no line feed")) };
        if line.len() != LINE || !line.iter().all(|b| (32..127).contains(b)) {
            return Err(wrong("not 72 printable bytes"));
        }
        let line = std::str::from_utf8(line).expect("ASCII");
        let (margin, piece) = line.split_at(MARGIN);
        if margin.trim().is_empty() {
            shown.last_mut().ok_or(wrong("a blank margin above"))?.words.push_str(piece);
            continue;
        }
        let blank = [6, 12, 15].iter().all(|&place| &margin[place - 1..place] == " ");
        let numbers = [&margin[0..5], &margin[6..11], &margin[12..14]].map(right_aligned);
        match numbers {
            [Some(line), Some(column), Some(number)] if blank && number > 9 => shown.push(Shown { line, column, number, words: piece.to_string() }),
            _ => return Err(wrong("the margin")),
        }
    }
    for error in &mut shown {
        let lines = error.words.len() / PIECE;
        error.words.truncate(error.words.trim_end_matches(' ').len());
        if error.words.len() <= PIECE * (lines - 1) {
            return Err("a line without words".to_string());
        }
    }
    Ok(shown)
}

// ---- printing

/// What the call answers, its length cell and the whole buffer, guards among it.
struct Printed {
    number: u32,
    length: u64,
    buffer: Vec<u8>,
    before: Vec<u8>,
}

const NO_LENGTH: u64 = u64::MAX;

impl Printed {
    fn new(script: &[u8], errors: &[u32], room: usize, random: &mut Random) -> Self {
        let mut length = [NO_LENGTH];
        let salt = random.below(256);
        let before: Vec<u8> = (0..room + 2 * GUARD).map(|i| (i * 7 + salt) as u8).collect();
        let mut buffer = before.clone();
        let number = c::sheet(script, errors, &mut buffer[GUARD..GUARD + room], &mut length);
        Printed { number, length: length[0], buffer, before }
    }

    fn refused(&self, number: u32) -> bool {
        self.number == number && self.length == NO_LENGTH && self.buffer == self.before
    }

    /// The sheet, where all around it is as it was.
    fn sheet(&self, length: usize) -> Option<&[u8]> {
        let (from, to) = (GUARD, GUARD + length);
        let kept = self.buffer[..from] == self.before[..from] && self.buffer[to..] == self.before[to..];
        (self.number == 0 && self.length == length as u64 && kept).then(|| &self.buffer[from..to])
    }
}

/// What is to be shown, or the refusal: 1, then for each error in turn 42, else 3.
fn due(words: &Words, script: &[u8], errors: &[u32]) -> Result<Vec<Shown>, u32> {
    if script.len() > LONGEST {
        return Err(1);
    }
    let show = |error: &[u32]| {
        let error: Error = error.try_into().expect("five numbers");
        let words = words.of(error).ok_or(42u32)?;
        let before = script.get(..error[1] as usize).ok_or(3u32)?;
        let [line, column] = place(script, before.len()).map(|n| n as usize);
        Ok(Shown { line, column, number: error[0] as usize, words })
    };
    errors.chunks_exact(5).map(show).collect()
}

#[derive(Default)]
struct Tally {
    lists: u64,
    errors: u64,
    refused: BTreeMap<u32, u64>,
    spoiled: u64,
}

/// Prints a list into buffers of several lengths, and reads the sheets.
fn compare(tally: &mut Tally, words: &Words, script: &[u8], errors: &[u32], random: &mut Random) -> Result<(), String> {
    tally.lists += 1;
    let due = match due(words, script, errors) {
        Ok(due) => due,
        Err(number) => {
            *tally.refused.entry(number).or_default() += 1;
            let room = [0, 73, 400][random.below(3)];
            let refused = Printed::new(script, errors, room, random).refused(number);
            return if refused { Ok(()) } else { Err(format!("not refused with {number}")) };
        }
    };
    tally.errors += due.len() as u64;
    let length: usize = due.iter().map(|e| (LINE + 1) * e.words.len().div_ceil(PIECE)).sum();
    for room in [length, length + 1 + random.below(200)] {
        let printed = Printed::new(script, errors, room, random);
        let Some(sheet) = printed.sheet(length) else {
            return Err(format!("in {room} bytes: answer {}, length {}, due {length}", printed.number, printed.length));
        };
        let shown = read(sheet)?;
        if shown != due {
            return Err(format!("shown {shown:?}, due {due:?}"));
        }
        // a sheet with one byte changed is not taken for the same
        if length > 0 && random.chance(10) {
            let mut spoiled = sheet.to_vec();
            spoiled[random.below(length)] ^= 1 + random.below(255) as u8;
            tally.spoiled += 1;
            if read(&spoiled).is_ok_and(|shown| shown == due) {
                return Err("a changed byte is not noticed".to_string());
            }
        }
    }
    if length > 0 {
        *tally.refused.entry(44).or_default() += 1;
        let short = if random.chance(80) { length - 1 } else { random.below(length) };
        if !Printed::new(script, errors, short, random).refused(44) {
            return Err(format!("not refused with 44 in {short} bytes"));
        }
    }
    Ok(())
}

// ---- errors

const NUMBERS: [u32; 18] = [10, 11, 12, 13, 14, 15, 16, 17, 18, 19, 20, 21, 22, 23, 31, 32, 33, 34];

fn kind(random: &mut Random) -> u32 {
    1 + random.below(43) as u32
}

/// An error with words, somewhere in the script.
fn error(script: &[u8], random: &mut Random) -> Error {
    let number = NUMBERS[random.below(NUMBERS.len())];
    let seen = match number {
        10..=23 => kind(random),
        33 => random.below(256) as u32,
        _ => 0,
    };
    let wanted = if number == 11 { kind(random) } else { 0 };
    [number, random.below(script.len() + 1) as u32, random.below(1 << 16) as u32, wanted, seen]
}

/// An error that is to be refused, or nearly.
fn spoil(error: &mut Error, script: &[u8], random: &mut Random) {
    let strange = [0, 1, 9, 10, 24, 30, 31, 35, 43, 44, 255, 256, u32::MAX][random.below(13)];
    match random.below(5) {
        0 => error[0] = strange,
        1 => error[3] = strange,
        2 => error[4] = strange,
        3 => error[1] = script.len() as u32 + 1 + [0, 1, 99][random.below(3)],
        _ => {
            error[1] = u32::MAX - random.below(3) as u32;
            if random.chance(50) {
                error[4] = strange;
            }
        }
    }
}

fn script(random: &mut Random) -> Vec<u8> {
    let n = [0, 1, 8, 60, 300][random.below(5)];
    let n = random.below(n + 1);
    let feeds = random.below(60);
    (0..n).map(|_| if random.chance(feeds) { b'\n' } else { random.below(256) as u8 }).collect()
}

fn list(script: &[u8], random: &mut Random) -> Vec<u32> {
    let n = [0, 1, 2, 5, 20][random.below(5)];
    let mut errors: Vec<Error> = (0..n).map(|_| error(script, random)).collect();
    if random.chance(60) {
        errors.sort_by_key(|e| e[1]);
    }
    if n > 0 && random.chance(30) {
        for _ in 0..1 + random.below(2) {
            let i = random.below(n);
            spoil(&mut errors[i], script, random);
        }
    }
    let mut cells = errors.concat();
    if random.chance(30) {
        cells.extend((0..1 + random.below(4)).map(|_| random.below(50) as u32));
    }
    cells
}

impl Beside {
    pub fn sheets(&mut self, lists: usize) -> u64 {
        let mut count = Count::new("sheets");
        let (words, mut tally) = (Words::of_page(), Tally::default());
        let mut gathered = 0;
        for i in 0..lists {
            let (script, errors) = if i % 2 == 0 {
                let script = script(&mut self.random);
                let errors = list(&script, &mut self.random);
                (script, errors)
            } else {
                let bytes = 1 + self.random.below(200);
                let script = self.program(bytes);
                self.lend(script.len());
                if self.lent.parse(Mode::Collecting, &script) != 0 {
                    continue;
                }
                let errors = self.lent.array(4)[..5 * self.lent.numbers[11] as usize].to_vec();
                gathered += errors.len() as u64 / 5;
                (script, errors)
            };
            if let Err(what) = compare(&mut tally, &words, &script, &errors, &mut self.random) {
                count.differs(&script, &format!("{what}; errors {errors:?}"));
            }
        }
        // the longest scripts: lines and columns of five digits, and 1 before all else
        for n in [LONGEST, LONGEST + 1] {
            for fill in ["\n", "a", "a\n"] {
                let script: Vec<u8> = fill.bytes().cycle().take(n).collect();
                for at in [0, 9, 99, 9_998, 9_999, 10_000, LONGEST - 1, LONGEST, LONGEST + 1, LONGEST + 2] {
                    for errors in [&[31, at as u32, 1, 0, 0, 10, 0, 1, 0, 1][..], &[24, at as u32, 1, 0, 0]] {
                        if let Err(what) = compare(&mut tally, &words, &script, errors, &mut self.random) {
                            count.differs(&script, &format!("{what}; errors {errors:?}"));
                        }
                    }
                }
            }
        }
        println!(
            "sheets: {} lists, {} errors on sheets, {gathered} gathered by readings; to be refused: {:?}; {} sheets with a changed byte; {} differ",
            tally.lists, tally.errors, tally.refused, tally.spoiled, count.differ
        );
        time(&mut self.random);
        count.differ
    }
}

/// How long a sheet of 8,000 errors in 65,536 bytes takes, and as many single lookups.
fn time(random: &mut Random) {
    let script: Vec<u8> = (0..LONGEST).map(|i| if i % 40 == 39 { b'\n' } else { b'a' }).collect();
    let mut rising: Vec<Error> = (0..8_000).map(|_| error(&script, random)).collect();
    rising.sort_by_key(|e| e[1]);
    let falling: Vec<Error> = rising.iter().rev().copied().collect();
    let mut sheet = vec![0; 3 * (LINE + 1) * rising.len()];
    let ms = |from: Instant| from.elapsed().as_secs_f64() * 1000.0;
    let mut print = |errors: &[Error]| {
        let (cells, mut length) = (errors.concat(), [0]);
        let from = Instant::now();
        let number = c::sheet(&script, &cells, &mut sheet, &mut length);
        assert!(number == 0 && length[0] > 0);
        ms(from)
    };
    let (up, down) = (print(&rising), print(&falling));
    let from = Instant::now();
    let found = rising.iter().all(|e| library::line_column(&script, e[1]).0 == 0);
    assert!(found);
    let single = ms(from);
    println!("sheets: 8,000 errors in 65,536 bytes: {up:.1} ms, falling {down:.1} ms; 8,000 single lookups {single:.1} ms");
}
