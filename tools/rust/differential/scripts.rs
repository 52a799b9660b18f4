//! Where scripts come from: every string over an alphabet, random programs of the grammar, and damage done to them.

/// xorshift64*
pub struct Random(u64);

impl Random {
    pub fn new(seed: u64) -> Self {
        Random(seed.wrapping_mul(0x9e37_79b9_7f4a_7c15) | 1)
    }

    pub fn below(&mut self, n: usize) -> usize {
        self.0 ^= self.0 >> 12;
        self.0 ^= self.0 << 25;
        self.0 ^= self.0 >> 27;
        (self.0.wrapping_mul(0x2545_f491_4f6c_dd1d) >> 33) as usize % n
    }

    /// True so many times in a hundred.
    pub fn chance(&mut self, percent: usize) -> bool {
        self.below(100) < percent
    }

    pub fn pick<'a>(&mut self, from: &[&'a str]) -> &'a str {
        from[self.below(from.len())]
    }
}

/// Every row of `n` entries of `alphabet`, one after the other.
pub fn rows(alphabet: &[&[u8]], n: usize, f: &mut dyn FnMut(&[u8])) {
    let mut digits = vec![0; n];
    let mut script = Vec::new();
    loop {
        script.clear();
        digits.iter().for_each(|&d: &usize| script.extend_from_slice(alphabet[d]));
        f(&script);
        let Some(i) = digits.iter().position(|&d| d + 1 < alphabet.len()) else { return };
        digits[i] += 1;
        digits[..i].fill(0);
    }
}

const NAMES: &[&str] = &["a", "b", "x", "f", "_", "a1", "foo", "Bar", "lets", "fn_", "Ints", "a_name_of_some_more_than_thirty_bytes"];
const ATOMS: &[&str] = &[
    "0", "1", "42", "007", "1.", "0.5", "3.14", "\"\"", "\"s\"", "\"a b\"", "\"é\"", "\"#! no\"", "\"a\nb\"", "true", "false",
    "\"a string of more than sixteen bytes, and some\"",
];
const PATHS: &[&str] = &["\"p\"", "\"io\"", "\"str\"", "\"\""];
const OPERATORS: &[&str] = &["+", "-", "*", "/", "%", "==", "<", ">"];
const PLAIN_TYPES: &[&str] = &["Str", "Int", "Double", "Bool", "Void"];
const DOCS: &[&str] = &["#!\n", "#! d\n", "#!d\n", "#!  two\n", "#! é\n", "#! a doc of more than sixteen bytes\n"];
const BLANKS: &[&str] = &[" ", " ", " ", " ", "  ", "\n", "\t", "\r\n", "# r\n", " #r #! no\n", ""];
/// What damage puts in: every kind of token, what is nearly one, and bytes that begin none.
const PIECES: &[&str] = &[
    "(", ")", "+", "-", "*", "/", "%", "=", "==", "<", ">", "!", "!=", "?", ":", ".", "[", "]", "{", "}", "import", "extern", "let", "fn", "match",
    "as", "true", "false", "Str", "Int", "Double", "Bool", "Void", "Option", "Array", "Foreign", "Record", "a", "1", "1.5", "1.2.3", "1..2", "\"", "\"s\"",
    "#", "#!", "#! d\n", "$", "~", ",", ";", "\0", "é", " ", "\n", " -a", "- a", "Option<>", "match{}", "{}", "()", "[]",
];

/// Writes programs of the grammar.
pub struct Program<'r> {
    random: &'r mut Random,
    out: Vec<u8>,
}

impl<'r> Program<'r> {
    /// Items until there are so many bytes.
    pub fn write(random: &'r mut Random, bytes: usize) -> Vec<u8> {
        let mut program = Program { random, out: Vec::new() };
        while program.out.len() < bytes {
            let depth = program.random.below(6);
            program.item(depth);
        }
        program.out
    }

    fn word(&mut self, word: &str) {
        self.out.extend(word.bytes());
        let blank = self.random.pick(BLANKS);
        self.out.extend(blank.bytes());
    }

    fn one(&mut self, words: &[&str]) {
        let word = self.random.pick(words);
        self.word(word);
    }

    fn docs(&mut self, percent: usize) {
        while self.random.chance(percent) {
            self.one(DOCS);
        }
    }

    fn ty(&mut self, depth: usize) {
        if depth == 0 || self.random.chance(50) {
            return self.one(PLAIN_TYPES);
        }
        match self.random.below(4) {
            0 => {
                self.word("Foreign");
                self.word("<");
                self.one(NAMES);
                self.word(">");
            }
            1 | 2 => {
                self.one(&["Option", "Array"]);
                self.word("<");
                self.ty(depth - 1);
                self.word(">");
            }
            _ => {
                self.word("Record");
                self.word("<");
                self.typed(depth - 1);
                self.word(">");
            }
        }
    }

    fn typed(&mut self, depth: usize) {
        for _ in 0..self.random.below(4) {
            self.one(NAMES);
            self.word(":");
            self.ty(depth);
        }
    }

    /// A fn up to its body; the return type may be left out.
    fn signature(&mut self, depth: usize) {
        self.docs(20);
        self.word("fn");
        self.one(NAMES);
        self.word("(");
        self.typed(depth);
        self.word(")");
        if self.random.chance(60) {
            self.ty(depth);
        }
    }

    fn operand(&mut self, depth: usize) {
        match if depth == 0 { self.random.below(4) } else { self.random.below(9) } {
            0 | 1 => self.one(NAMES),
            2 | 3 => self.one(ATOMS),
            4 | 5 => {
                self.word("(");
                self.expr(depth - 1);
                self.word(")");
            }
            6 => {
                self.word("[");
                for _ in 0..self.random.below(4) {
                    self.expr(depth - 1);
                }
                self.word("]");
            }
            7 => {
                self.word("{");
                for _ in 0..self.random.below(4) {
                    self.one(NAMES);
                    self.word(":");
                    self.expr(depth - 1);
                }
                self.word("}");
            }
            _ => {
                self.one(&["-", "+"]);
                self.operand(depth - 1);
            }
        }
    }

    fn expr(&mut self, depth: usize) {
        self.operand(depth);
        while self.random.chance(25) {
            if depth == 0 || self.random.chance(50) {
                self.word(".");
                self.one(NAMES);
            } else {
                self.word("(");
                for _ in 0..self.random.below(4) {
                    self.item(depth - 1);
                }
                self.word(")");
            }
        }
        while self.random.chance(30) {
            if self.random.chance(30) {
                self.word("as");
                self.ty(depth);
            } else {
                self.one(OPERATORS);
                self.operand(depth);
            }
        }
    }

    fn body(&mut self, depth: usize) {
        self.word("{");
        for _ in 0..self.random.below(3) {
            self.item(depth.saturating_sub(1));
        }
        self.word("}");
    }

    fn item(&mut self, depth: usize) {
        match if depth == 0 { self.random.below(12) } else { self.random.below(20) } {
            0..=5 => self.expr(depth),
            6..=9 => {
                self.docs(20);
                self.word("let");
                self.one(NAMES);
                self.word("=");
                self.item(depth.saturating_sub(1));
            }
            10 => {
                self.docs(8);
                self.word("import");
                self.one(PATHS);
            }
            11 => {
                self.word("import");
                self.word("(");
                for _ in 0..self.random.below(4) {
                    self.one(PATHS);
                }
                self.word(")");
            }
            12..=14 => {
                self.signature(depth);
                self.body(depth);
            }
            15..=17 => {
                self.word("match");
                self.word("{");
                for _ in 0..self.random.below(4) {
                    self.operand(0);
                    self.one(OPERATORS);
                    self.operand(depth - 1);
                    self.body(depth);
                }
                self.body(depth);
                if self.random.chance(15) {
                    self.body(depth);
                }
                self.word("}");
            }
            _ => {
                self.docs(20);
                self.word("extern");
                self.one(PATHS);
                self.word("{");
                for _ in 0..self.random.below(4) {
                    self.signature(depth);
                }
                self.word("}");
            }
        }
    }
}

/// Some bytes go, come, move or change.
pub fn damage(script: &mut Vec<u8>, random: &mut Random) {
    for _ in 0..=random.below(3) {
        let at = random.below(script.len() + 1);
        let most = (script.len() - at).min(12);
        let end = at + random.below(most + 1);
        match random.below(7) {
            0 => drop(script.drain(at..end)),
            1 => script.truncate(at),
            2 => drop(script.splice(at..end, [random.below(256) as u8])),
            3 => {
                let part = script[at..end].to_vec();
                let to = random.below(script.len() + 1);
                script.splice(to..to, part);
            }
            _ => {
                let piece = random.pick(PIECES);
                script.splice(at..if random.chance(50) { at } else { end }, piece.bytes());
            }
        }
    }
}

/// The same program written otherwise, or nearly so: other blanks, brackets, a supplied Void, or a token in another's place.
pub fn rewritten(script: &[u8], spans: &[(usize, usize)], random: &mut Random) -> Vec<u8> {
    let mut out = Vec::new();
    let mut last = 0;
    let changes = [0, 0, 1, 2][random.below(4)];
    let chosen: Vec<usize> = (0..changes).map(|_| random.below(spans.len().max(1))).collect();
    for (i, &(start, end)) in spans.iter().enumerate() {
        let (gap, token) = (&script[last..start], &script[start..end]);
        last = end;
        if gap.is_empty() {
            out.extend(gap);
        } else {
            // a doc ends with its line
            out.extend(if gap.contains(&b'\n') { "\n" } else { "" }.bytes());
            out.extend(random.pick(&[" ", "\n", "\t ", " # r\n"]).bytes());
        }
        if !chosen.contains(&i) {
            out.extend(token);
            continue;
        }
        match random.below(4) {
            0 => {
                out.push(b'(');
                out.extend(token);
                out.push(b')');
            }
            1 => out.extend(random.pick(NAMES).bytes()),
            2 => out.extend([token, b" Void "].concat()),
            _ => out.extend(random.pick(PIECES).bytes()),
        }
    }
    out.extend(&script[last..]);
    out
}
