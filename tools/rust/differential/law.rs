//! The law of a finished tree (request Q-11), computed from the cells that a reading left. Where they lie is docs/LAYOUT.md's.

use crate::diagnostic::Span;
use crate::library::{CELLS, Lent};
use crate::numbers::tokens_of;
use std::slice::ChunksExact;

/// What was named so far among roots and children, and how much was held to the law.
#[derive(Default)]
pub struct Law {
    nodes: Vec<bool>,
    types: Vec<bool>,
    pub trees: u64,
    pub resynchronisings: u64,
}

/// It is a record of the tree, and was not named before.
fn name(seen: &mut [bool], what: &str, i: u32) -> Result<(), String> {
    let records = seen.len();
    match seen.get_mut(i as usize) {
        Some(mark) if !*mark => {
            *mark = true;
            Ok(())
        }
        Some(_) => Err(format!("the law: {what} {i} occurs twice")),
        None => Err(format!("the law: {what} {i} is none of {records}")),
    }
}

/// Below the record that names it, and named as above.
fn child(seen: &mut [bool], what: &str, i: u32, k: usize) -> Result<(), String> {
    if i as usize >= k {
        return Err(format!("the law: {what} {k} names {what} {i}"));
    }
    name(seen, what, i)
}

/// The members of a list, each of so many cells. `run` is its first cell and how many there are.
fn members<'a>(lists: &'a [u32], run: &[u32], width: usize) -> Result<ChunksExact<'a, u32>, String> {
    let first = run[0] as usize;
    let cells = lists.get(first..first + width * run[1] as usize);
    cells.map(|cells| cells.chunks_exact(width)).ok_or_else(|| format!("the law: a list {run:?} outside"))
}

/// So many records of so many cells.
fn records<'a>(array: &'a [u32], count: usize, width: usize) -> impl Iterator<Item = (usize, &'a [u32])> {
    array[..count * width].chunks_exact(width).enumerate()
}

impl Law {
    fn body(&mut self, k: usize, lists: &[u32], run: &[u32]) -> Result<(), String> {
        members(lists, run, 1)?.try_for_each(|m| child(&mut self.nodes, "node", m[0], k))
    }

    /// Names and types: the arguments of a Fn.
    fn params(&mut self, lists: &[u32], run: &[u32]) -> Result<(), String> {
        members(lists, run, 4)?.try_for_each(|m| name(&mut self.types, "type", m[3]))
    }

    fn node(&mut self, k: usize, r: &[u32], lists: &[u32]) -> Result<(), String> {
        match r[0] {
            1 | 2 | 11 => Ok(()),
            3 => {
                child(&mut self.nodes, "node", r[5], k)?;
                child(&mut self.nodes, "node", r[6], k)
            }
            4 => child(&mut self.nodes, "node", r[5], k),
            5 => child(&mut self.nodes, "node", r[7], k),
            6 => {
                self.params(lists, &r[7..9])?;
                name(&mut self.types, "type", r[9])?;
                self.body(k, lists, &r[10..12])
            }
            7 => {
                for case in members(lists, &r[2..4], 6)? {
                    child(&mut self.nodes, "node", case[3], k)?;
                    self.body(k, lists, &case[4..6])?;
                }
                self.body(k, lists, &r[7..9])
            }
            8 => {
                child(&mut self.nodes, "node", r[2], k)?;
                self.body(k, lists, &r[3..5])
            }
            9 => child(&mut self.nodes, "node", r[2], k),
            10 => {
                child(&mut self.nodes, "node", r[5], k)?;
                name(&mut self.types, "type", r[6])
            }
            12 => members(lists, &r[10..12], 8)?.try_for_each(|f| {
                self.params(lists, &f[5..7])?;
                name(&mut self.types, "type", f[7])
            }),
            13 => members(lists, &r[5..7], 4)?.try_for_each(|m| child(&mut self.nodes, "node", m[3], k)),
            14 => self.body(k, lists, &r[5..7]),
            kind => Err(format!("the law: node {k} is of the kind {kind}")),
        }
    }

    fn ty(&mut self, k: usize, r: &[u32], lists: &[u32]) -> Result<(), String> {
        match r[0] {
            1 | 2 => Ok(()),
            3 | 4 => child(&mut self.types, "type", r[1], k),
            5 => members(lists, &r[4..6], 4)?.try_for_each(|m| child(&mut self.types, "type", m[3], k)),
            kind => Err(format!("the law: type {k} is of the kind {kind}")),
        }
    }

    /// The law holds for the tree that a reading of the script left.
    pub fn holds(&mut self, lent: &Lent, script: &[u8]) -> Result<(), String> {
        self.trees += 1;
        let [nodes, types, cells, roots, values, errors] = std::array::from_fn(|i| lent.numbers[6 + i] as usize);
        for (what, count) in [("nodes", nodes), ("types", types), ("values", values)] {
            if count > script.len() {
                return Err(format!("the law: {count} {what} of {} bytes", script.len()));
            }
        }
        for (seen, count) in [(&mut self.nodes, nodes), (&mut self.types, types)] {
            seen.clear();
            seen.resize(count, false);
        }
        for &i in &lent.array(3)[..roots] {
            name(&mut self.nodes, "node", i)?;
        }
        let lists = &lent.array(2)[..cells];
        let mut arguments = 0;
        for (k, r) in records(lent.array(0), nodes, CELLS[0]) {
            arguments += if r[0] == 6 { r[8] as usize } else { 0 };
            self.node(k, r, lists)?;
        }
        for (k, r) in records(lent.array(1), types, CELLS[1]) {
            self.ty(k, r, lists)?;
        }
        if values != nodes + arguments {
            return Err(format!("the law: {values} values of {nodes} nodes and {arguments} arguments"));
        }
        self.resynchronises(&lent.array(4)[..CELLS[4] * errors], script)
    }

    /// A resynchronising follows each error of the parser, 11 to 23. All of these but 13, 14 and 18 name the token that is read
    /// where it begins; 13 is met at the end. Between two of them as many tokens are taken as there are steps, at least.
    fn resynchronises(&mut self, errors: &[u32], script: &[u8]) -> Result<(), String> {
        let mut errors = errors.chunks_exact(CELLS[4]).filter(|e| (11..=23).contains(&e[0])).enumerate().peekable();
        if errors.peek().is_none() {
            return Ok(());
        }
        let starts: Vec<usize> = tokens_of(script).iter().map(|t| Span::from_token(t).start).collect();
        let mut last: Option<(usize, usize)> = None;
        for (i, e) in errors {
            self.resynchronisings += 1;
            let taken = match e[0] {
                13 => starts.len() - 1,
                14 | 18 => continue,
                _ => starts.binary_search(&(e[1] as usize)).map_err(|_| format!("the law: no token at {}", e[1]))?,
            };
            if let Some((j, before)) = last.filter(|&(j, before)| taken < before + (i - j)) {
                return Err(format!("the law: resynchronisings {j} and {i} begin after {before} and {taken} tokens"));
            }
            last = Some((i, taken));
            // all before it began after fewer tokens, so there are no more of them than tokens
            if taken < i {
                return Err(format!("the law: resynchronising {i} begins after {taken} tokens"));
            }
        }
        Ok(())
    }
}
