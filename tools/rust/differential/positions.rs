//! Lines and columns beside counts that are written from document 02's words.

use crate::library;
use crate::scripts::Random;
use crate::{Beside, Count, LONGEST};
use std::collections::BTreeMap;
use std::time::Instant;

/// The line of a position in the script: 1 plus the line feeds before it. Its column: 1 plus the bytes since the last of these that are
/// not UTF-8 continuation bytes, that is, not 128 to 191.
pub fn place(script: &[u8], at: usize) -> [u64; 2] {
    let before = &script[..at];
    let line = 1 + before.iter().filter(|&&b| b == b'\n').count();
    let since = before.iter().rev().take_while(|&&b| b != b'\n');
    let column = 1 + since.filter(|&&b| !(128..=191).contains(&b)).count();
    [line as u64, column as u64]
}

/// The column by Rust's own characters, where what stands before the position in its line is whole UTF-8.
fn by_characters(script: &[u8], at: usize) -> Option<u64> {
    let line = script[..at].rsplit(|&b| b == b'\n').next()?;
    Some(1 + std::str::from_utf8(line).ok()?.chars().count() as u64)
}

/// Characters of one to four bytes, at the ends of their ranges too.
const WHOLE: [&str; 14] =
    ["a", "let ", " = ", "\n", "\r\n", "\u{7f}", "\u{80}", "é", "ß", "\u{7ff}", "\u{800}", "€", "\u{ffff}", "\u{10ffff}"];

/// What is no UTF-8: continuation bytes alone, at the ends of their range, first bytes alone, bytes that are never used.
const BROKEN: [&[u8]; 11] =
    [&[127], &[128], &[129], &[190], &[191], &[192], &[193, 191], &[0xc3], &[0xe2, 0x82], &[0xf0, 0x9f, 0x98], &[255]];

/// A script of about `n` bytes; one that is broken has also pieces that are no UTF-8.
fn script(n: usize, broken: bool, random: &mut Random) -> Vec<u8> {
    let mut script = Vec::new();
    while script.len() < n {
        if broken && random.chance(40) {
            script.extend_from_slice(BROKEN[random.below(BROKEN.len())]);
        } else {
            script.extend_from_slice(random.pick(&WHOLE).as_bytes());
        }
    }
    script.truncate(LONGEST);
    script
}

impl Beside {
    /// All positions of short scripts and some of long ones, the end always.
    pub fn columns(&mut self, positions: u64) -> u64 {
        let mut count = Count::new("columns");
        let (mut broken, mut whole) = (0u64, 0u64);
        while count.lookups < positions {
            let is_broken = self.random.chance(50);
            let n = [0, 5, 40, 200, 2_000][self.random.below(5)];
            let n = if self.random.chance(1) { LONGEST } else { self.random.below(n + 1) };
            let script = script(n, is_broken, &mut self.random);
            let all = script.len() <= 400;
            let asked: Vec<usize> = if all { (0..=script.len()).collect() } else { (0..200).map(|_| self.random.below(script.len() + 1)).collect() };
            count.scripts += 1;
            broken += is_broken as u64;
            for at in asked.into_iter().chain([script.len()]) {
                let due = place(&script, at);
                count.lookups += 1;
                if library::line_column(&script, at as u32) != (0, due) {
                    count.differs(&script, &format!("line and column of byte {at}, {due:?} by counting,"));
                }
                if let Some(column) = by_characters(&script, at) {
                    whole += 1;
                    if column != due[1] {
                        count.differs(&script, &format!("the column of byte {at}, {column} by characters,"));
                    }
                }
            }
        }
        println!("columns: {broken} scripts had bytes that are no UTF-8; {whole} columns were counted by characters too");
        count.done()
    }
}

// ---- many positions together

/// Cells before and behind the second list that stay as they are.
const GUARD: usize = 4;

/// The number that is due, and the second list as it is to be left: 1, 50, 49 and 3 in this order.
fn due(script: &[u8], positions: &[u32], places: &[u32]) -> (u32, Vec<u32>) {
    let mut left = places.to_vec();
    let number = if script.len() > LONGEST {
        1
    } else if places.len() < 2 * positions.len() {
        50
    } else if positions.iter().zip(positions.iter().skip(1)).any(|(p, q)| q < p) {
        49
    } else if positions.iter().any(|&p| p as usize > script.len()) {
        3
    } else {
        for (i, &p) in positions.iter().enumerate() {
            let (number, single) = library::line_column(script, p);
            assert!(number == 0);
            left[2 * i] = single[0] as u32;
            left[2 * i + 1] = single[1] as u32;
        }
        0
    };
    (number, left)
}

/// Positions that never fall, most of them inside; sometimes with one past the end, or one that falls.
fn list(script: &[u8], random: &mut Random) -> Vec<u32> {
    let n = [0, 1, 2, 7, 40][random.below(5)];
    let mut list: Vec<u32> = (0..n).map(|_| random.below(script.len() + 1) as u32).collect();
    if n > 1 && random.chance(50) {
        let i = random.below(n - 1);
        list[i + 1] = list[i];
    }
    if n > 0 && random.chance(30) {
        list[n - 1] = script.len() as u32;
    }
    list.sort_unstable();
    if n > 0 && random.chance(20) {
        list[n - 1] = script.len() as u32 + [1, 2, 1_000, u32::MAX - LONGEST as u32 - 1][random.below(4)];
    }
    if n > 0 && random.chance(20) {
        let i = random.below(n);
        list[i] = if random.chance(50) { random.below(script.len() + 3) as u32 } else { list[i].saturating_sub(1) };
    }
    list
}

impl Beside {
    /// Lists of positions beside single lookups; second lists exactly long enough, one short, longer, and empty.
    pub fn marks(&mut self, lists: u64) -> u64 {
        let mut count = Count::new("marks");
        let mut numbers: BTreeMap<u32, u64> = BTreeMap::new();
        for i in 0..lists {
            let n = [0, 1, 8, 60, 300][self.random.below(5)];
            let n = self.random.below(n + 1);
            let script = match i % 1_000 {
                0 => vec![b'a'; LONGEST + 1],
                1 => script(LONGEST, true, &mut self.random),
                _ => script(n, self.random.chance(50), &mut self.random),
            };
            let positions = list(&script, &mut self.random);
            let exact = 2 * positions.len();
            let room = [exact, exact, exact.saturating_sub(1), exact + 1, exact + 9, 0][self.random.below(6)];
            let mut cells: Vec<u32> = (0..room + 2 * GUARD).map(|_| self.random.below(1 << 31) as u32).collect();
            let before = cells.clone();
            let (wanted, left) = due(&script, &positions, &before[GUARD..GUARD + room]);
            let number = library::line_columns(&script, &positions, &mut cells[GUARD..GUARD + room]);
            let kept = cells[..GUARD] == before[..GUARD] && cells[GUARD + room..] == before[GUARD + room..];
            count.scripts += 1;
            count.lookups += positions.len() as u64;
            *numbers.entry(wanted).or_default() += 1;
            if number != wanted || cells[GUARD..GUARD + room] != left[..] || !kept {
                count.differs(&script, &format!("positions {positions:?} into {room} cells, {wanted} due and {number} given,"));
            }
        }
        println!("marks: lists by the number that is due: {numbers:?}");
        time();
        count.done()
    }
}

/// How long all positions of a script take together, and a hundredth of them one by one.
fn time() {
    for n in [LONGEST / 4, LONGEST / 2, LONGEST] {
        let script: Vec<u8> = (0..n).map(|i| if i % 40 == 39 { b'\n' } else { b'a' }).collect();
        let positions: Vec<u32> = (1..=n as u32).collect();
        let mut places = vec![0; 2 * n];
        let ms = |from: Instant| from.elapsed().as_secs_f64() * 1000.0;
        let from = Instant::now();
        assert!(library::line_columns(&script, &positions, &mut places) == 0);
        let together = ms(from);
        let from = Instant::now();
        assert!(positions.iter().step_by(100).all(|&at| library::line_column(&script, at).0 == 0));
        println!("marks: {n} positions in {n} bytes: {together:.3} ms; every hundredth of them one by one {:.1} ms", ms(from));
    }
}
