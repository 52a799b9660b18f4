//! Cutting and reading as two steps, beside both at once; reading from tables that are not those of the script.

use crate::c::{ERROR_CELLS, TOKEN_CELLS};
use crate::library::{ERRORS, Lent, MODES, Mode, NAMES, TOKENS};
use crate::scripts::rows;
use crate::tables::tables;
use crate::{Beside, Count, LONGEST};

/// The tables are not those that cutting the script gives.
const NOT_CUT: u32 = 43;

impl Beside {
    /// `self.lent` gets the tables of a script, with rubbish in its arrays.
    fn tabled(&mut self, records: &[Vec<u32>; 2]) {
        for (i, records) in [TOKENS, ERRORS].into_iter().zip(records) {
            let table = self.lent.array_mut(i);
            table.fill(0);
            table[..records.len()].copy_from_slice(records);
        }
    }

    /// Reading from the tables as they stand in `self.lent` is refused with 43, and nothing changes.
    fn not_cut(&mut self, count: &mut Count, mode: Mode, script: &[u8], what: &str) -> Result<(), String> {
        count.lookups += 1;
        let before = self.lent.copy();
        let number = self.lent.read(mode, script);
        if number != NOT_CUT || self.lent.copy() != before || !self.lent.guarded() {
            return Err(format!("reading with {what}: answer {number}"));
        }
        Ok(())
    }

    /// The same with some cells of a table changed, which then get back what they held.
    fn damaged_at(&mut self, count: &mut Count, mode: Mode, script: &[u8], table: usize, at: usize, cells: &[u32], what: &str) -> Result<(), String> {
        let part = &mut self.lent.array_mut(table)[at..at + cells.len()];
        let kept = part.to_vec();
        if kept == cells {
            return Ok(());
        }
        part.copy_from_slice(cells);
        let result = self.not_cut(count, mode, script, what);
        self.lent.array_mut(table)[at..at + cells.len()].copy_from_slice(&kept);
        result
    }

    fn same_steps(&mut self, count: &mut Count, mode: Mode, script: &[u8], other: &mut Lent) -> Result<(), String> {
        count.scripts += 1;
        let (records, lens) = (tables(script), self.lengths(script.len()));
        other.lend(lens, &self.rubbish, &mut self.random);
        let number = other.parse(mode, script);
        self.lent.lend(lens, &self.rubbish, &mut self.random);
        self.tabled(&records);
        let again = self.lent.read(mode, script);
        if number != again || self.lent.copy() != other.copy() || !self.lent.guarded() {
            return Err(format!("cutting and reading answers {number}, reading from the tables {again}"));
        }
        count.trees += u64::from(number == 0);

        self.lent.lend(lens, &self.rubbish, &mut self.random);
        self.tabled(&records);
        // one cell changed: each of short tables, else some
        let all = lens[TOKENS] + lens[ERRORS] <= 120;
        for table in [TOKENS, ERRORS] {
            let len = lens[table];
            let cells: Vec<usize> = if all { (0..len).collect() } else { (0..len.min(6)).map(|_| self.random.below(len)).collect() };
            for at in cells {
                let cell = self.lent.array(table)[at] ^ (1 << self.random.below(32));
                self.damaged_at(count, mode, script, table, at, &[cell], &format!("cell {at} of the {} changed", NAMES[table]))?;
            }
        }
        // the last cells are zeros behind, where there are any
        for table in [TOKENS, ERRORS] {
            if records[table - TOKENS].len() < lens[table] {
                self.damaged_at(count, mode, script, table, lens[table] - 1, &[1], &format!("a last cell of the {} that is not zero", NAMES[table]))?;
            }
        }
        let [tokens, errors] = &records;
        self.damaged_at(count, mode, script, TOKENS, tokens.len() - TOKEN_CELLS, &[0; TOKEN_CELLS], "no Eof")?;
        if errors.len() + ERROR_CELLS <= lens[ERRORS] {
            self.damaged_at(count, mode, script, ERRORS, errors.len(), &[33, 0, 1, 0, 36, 0], "one error more")?;
        }
        if let Some(last) = errors.len().checked_sub(ERROR_CELLS) {
            self.damaged_at(count, mode, script, ERRORS, last, &[0; ERROR_CELLS], "one error less")?;
        }
        self.another_script(count, mode, script)?;
        self.tabled(&records);
        let last = self.lent.read(mode, script);
        if last == number && self.lent.copy() == other.copy() { Ok(()) } else { Err(format!("the tables as they were: answer {last}")) }
    }

    /// The tables of a script with one byte changed, where they are others.
    fn another_script(&mut self, count: &mut Count, mode: Mode, script: &[u8]) -> Result<(), String> {
        let mut another = script.to_vec();
        if another.is_empty() {
            return Ok(());
        }
        let at = self.random.below(another.len());
        another[at] = b"a1 $+\"("[self.random.below(7)];
        let records = tables(&another);
        if records == tables(script) {
            return Ok(());
        }
        self.tabled(&records);
        self.not_cut(count, mode, script, &format!("the tables of {}", another[..another.len().min(300)].escape_ascii()))
    }

    fn both_modes(&mut self, count: &mut Count, script: &[u8], other: &mut Lent) {
        for mode in MODES {
            if let Err(what) = self.same_steps(count, mode, script, other) {
                count.differs(script, &what);
            }
        }
    }

    pub fn steps(&mut self, scripts: usize) -> u64 {
        let mut count = Count::new("steps");
        let mut other = Lent::new();
        let every: Vec<[u8; 1]> = (0..=255).map(|b| [b]).collect();
        let every: Vec<&[u8]> = every.iter().map(|b| &b[..]).collect();
        for n in 0..=2 {
            rows(&every, n, &mut |script| self.both_modes(&mut count, script, &mut other));
        }
        for i in 0..scripts {
            let bytes = if i % 1000 == 0 { LONGEST + 1 } else { [20, 60, 200, 2000][self.random.below(4)] };
            let bytes = self.random.below(bytes);
            let script = self.program(bytes);
            self.both_modes(&mut count, &script, &mut other);
        }
        for block in ["a", "$", "a $", "\"", "#! d\n", "1.", " ", "(", "\u{e9}"] {
            let script: Vec<u8> = block.bytes().cycle().take(LONGEST).collect();
            self.both_modes(&mut count, &script, &mut other);
        }
        count.done()
    }
}
