//! The tables of tokens and lexer errors beside the Rust's lexer.

use crate::c::{self, ERROR_CELLS, TOKEN_CELLS};
use crate::lex::{Lexer, Type};
use crate::numbers::{Script, error_numbers, kind_number};
use crate::scripts::rows;
use crate::{Beside, Count, LONGEST};

/// Where a token's spelling begins; a fixed one begins at the token's start.
fn spelling_start(script: &[u8], start: usize, t: &Type<'_>) -> usize {
    match t {
        Type::S(s) | Type::D(s) | Type::I(s) | Type::Ident(s) | Type::Doc(s) if !s.is_empty() => s.as_ptr() as usize - script.as_ptr() as usize,
        Type::S(_) => start + 1,
        Type::Doc(_) if script.get(start + 2) == Some(&b' ') => start + 3,
        Type::Doc(_) => start + 2,
        _ => start,
    }
}

/// The records of both tables, by the Rust's lexer.
pub fn tables(script: &[u8]) -> [Vec<u32>; 2] {
    let (mut lexer, numbered) = (Lexer::new(script), Script::new(script));
    let (mut tokens, mut errors) = (Vec::new(), Vec::new());
    loop {
        let known = lexer.diagnostics().len();
        let token = lexer.one();
        for error in &lexer.diagnostics()[known..] {
            errors.extend(error_numbers(&numbered, error).map(|n| n as u32));
            errors.push((tokens.len() / TOKEN_CELLS) as u32);
        }
        let begins = spelling_start(script, token.start, &token.t);
        tokens.extend([kind_number(&token.t), token.start, token.t.as_str().len(), begins].map(|n| n as u32));
        if token.t == Type::Eof {
            return [tokens, errors];
        }
    }
}

impl Beside {
    /// A table of these records and zeros up to `len` cells.
    fn table(records: &[u32], len: usize) -> Vec<u32> {
        let mut cells = records.to_vec();
        cells.resize(len, 0);
        cells
    }

    /// Both tables of one script, and then damaged ones: each is refused.
    fn same_tables(&mut self, count: &mut Count, script: &[u8]) -> Result<(), String> {
        count.scripts += 1;
        let wanted = tables(script);
        let lens = c::table_lengths(script.len()).map(|n| n + if self.random.chance(50) { self.random.below(40) } else { 0 });
        let mut lent = lens.map(|n| (0..n).map(|_| self.random.below(1 << 31) as u32 + 1).collect::<Vec<u32>>());
        let mut counts = [u32::MAX; 2];
        let [tokens, errors] = &mut lent;
        let number = c::cut(script, tokens, errors, &mut counts);
        if (number, counts) != (0, [(wanted[0].len() / TOKEN_CELLS) as u32, (wanted[1].len() / ERROR_CELLS) as u32]) {
            return Err(format!("answer {number}, counts {counts:?}"));
        }
        for i in 0..2 {
            if lent[i] != Self::table(&wanted[i], lens[i]) {
                return Err(format!("the {}", ["tokens", "errors"][i]));
            }
        }
        if !c::is_cut(script, &lent[0], &lent[1]) {
            return Err("tables that were just cut are not cut".to_string());
        }
        self.damaged(count, script, &mut lent, &wanted)
    }

    /// No other tables are cut: one cell changed, a zero behind, Eof missing, one error more.
    fn damaged(&mut self, count: &mut Count, script: &[u8], lent: &mut [Vec<u32>; 2], wanted: &[Vec<u32>; 2]) -> Result<(), String> {
        let all = lent[0].len() + lent[1].len() <= 120;
        for i in 0..2 {
            let cells: Vec<usize> = if all { (0..lent[i].len()).collect() } else { (0..lent[i].len().min(6)).map(|_| self.random.below(lent[i].len())).collect() };
            for at in cells {
                let kept = lent[i][at];
                lent[i][at] = kept ^ (1 << self.random.below(32));
                count.lookups += 1;
                if c::is_cut(script, &lent[0], &lent[1]) {
                    return Err(format!("cell {at} of the {} changed", ["tokens", "errors"][i]));
                }
                lent[i][at] = kept;
            }
        }
        let eof = wanted[0].len() - TOKEN_CELLS;
        let kept: Vec<u32> = lent[0][eof..eof + TOKEN_CELLS].to_vec();
        lent[0][eof..eof + TOKEN_CELLS].fill(0);
        let without_eof = c::is_cut(script, &lent[0], &lent[1]);
        lent[0][eof..eof + TOKEN_CELLS].copy_from_slice(&kept);
        let behind = wanted[1].len();
        let mut more = false;
        if behind + ERROR_CELLS <= lent[1].len() {
            lent[1][behind..behind + ERROR_CELLS].copy_from_slice(&[33, 0, 1, 0, 36, 0]);
            more = c::is_cut(script, &lent[0], &lent[1]);
            lent[1][behind..behind + ERROR_CELLS].fill(0);
        }
        let [least, least_errors] = c::table_lengths(script.len());
        let short = c::is_cut(script, &lent[0][..least - 1], &lent[1]) || least_errors > 0 && c::is_cut(script, &lent[0], &lent[1][..least_errors - 1]);
        let mut longer = script.to_vec();
        longer.push(b'x');
        let another = c::is_cut(&longer, &lent[0], &lent[1]);
        count.lookups += 4;
        if [without_eof, more, short, another] != [false; 4] {
            return Err(format!("cut without Eof {without_eof}, with one error more {more}, too short {short}, of another script {another}"));
        }
        if c::is_cut(script, &lent[0], &lent[1]) { Ok(()) } else { Err("the tables as they were are not cut".to_string()) }
    }

    /// 1 and 2: nothing changes.
    fn refused_tables(&mut self, count: &mut Count, script: &[u8], lens: [usize; 2], wanted: u32) {
        count.scripts += 1;
        let mut lent = lens.map(|n| (0..n).map(|_| self.random.below(1 << 31) as u32).collect::<Vec<u32>>());
        let before = lent.clone();
        let mut counts = [7; 2];
        let [tokens, errors] = &mut lent;
        let number = c::cut(script, tokens, errors, &mut counts);
        let cut = c::is_cut(script, &lent[0], &lent[1]);
        if (number, counts, cut) != (wanted, [7; 2], false) || lent != before {
            count.differs(script, &format!("a refusal with {wanted}, tables of {lens:?}"));
        }
    }

    pub fn tables(&mut self, scripts: usize) -> u64 {
        let mut count = Count::new("tables");
        let every: Vec<[u8; 1]> = (0..=255).map(|b| [b]).collect();
        let every: Vec<&[u8]> = every.iter().map(|b| &b[..]).collect();
        for n in 0..=2 {
            rows(&every, n, &mut |script| {
                if let Err(what) = self.same_tables(&mut count, script) {
                    count.differs(script, &what);
                }
            });
        }
        for i in 0..scripts {
            let bytes = if i % 1000 == 0 { LONGEST + 1 } else { [20, 60, 200, 2000][self.random.below(4)] };
            let bytes = self.random.below(bytes);
            let script = self.program(bytes);
            if let Err(what) = self.same_tables(&mut count, &script) {
                count.differs(&script, &what);
            }
        }
        for block in ["a", "$", "a $", "\"", "#! d\n", "1.", " ", "\u{e9}"] {
            for n in [0, 1, LONGEST] {
                let script: Vec<u8> = block.bytes().cycle().take(n).collect();
                if let Err(what) = self.same_tables(&mut count, &script) {
                    count.differs(&script, &what);
                }
                let [tokens, errors] = c::table_lengths(n);
                self.refused_tables(&mut count, &script, [tokens - 1, errors], 2);
                if errors > 0 {
                    self.refused_tables(&mut count, &script, [tokens, errors - 1], 2);
                }
            }
            let script: Vec<u8> = block.bytes().cycle().take(LONGEST + 1).collect();
            self.refused_tables(&mut count, &script, c::table_lengths(LONGEST + 1), 1);
            self.refused_tables(&mut count, &script, [0; 2], 1);
        }
        count.done()
    }
}
