//! A script cut into tokens.
use crate::{ffi, Diagnostic, Error, Kind, Token, MAX_BYTES};

/// A script and its tokens, Eof last, with what the lexer passed over as errors. [`Tree::read`](crate::Tree::read) and
/// [`Tree::read_collect`](crate::Tree::read_collect) read its tree from them.
///
/// ```
/// use purple_garden_reader::{Kind, Tokens};
///
/// let tokens = Tokens::cut("let a = \"s\" $")?;
/// let spelled: Vec<&str> = tokens.iter().map(|(_, spelling)| spelling).collect();
/// assert_eq!(spelled, ["let", "a", "=", "s", "eof"]);
/// assert_eq!(tokens.iter().nth(3).map(|(token, _)| (token.kind, token.start)), Some((Kind::S, 8)));
/// let (error, before) = tokens.errors().next().expect("an unknown character");
/// assert_eq!((error.problem.number(), error.span, before), (33, 12..13, 4));
/// # Ok::<(), purple_garden_reader::Error>(())
/// ```
pub struct Tokens {
    pub(crate) script: Vec<u8>,
    pub(crate) tables: ffi::Tables,
}

impl Tokens {
    /// The tokens of a script; only one that is too long has none.
    pub fn cut(script: impl Into<Vec<u8>>) -> Result<Tokens, Error> {
        let script = script.into();
        if script.len() > MAX_BYTES {
            return Err(Error::TooLong { bytes: script.len() });
        }
        let tables = ffi::Tables::cut(&script).unwrap_or_else(|number| panic!("refused with {number}, though the tables have their lengths"));
        Ok(Tokens { script, tables })
    }

    pub fn script(&self) -> &[u8] {
        &self.script
    }

    /// Each token with its spelling: of a string what stands between its quotes, of a doc its line.
    pub fn iter(&self) -> impl ExactSizeIterator<Item = (Token, &str)> {
        self.tables.tokens().chunks_exact(ffi::TOKEN_CELLS).map(|cells| {
            let token = Token { kind: Kind::from_number(cells[0]).expect("a kind"), start: cells[1], len: cells[2] };
            let spelling = token.kind.fixed_spelling().unwrap_or_else(|| {
                let bytes = &self.script[cells[3] as usize..][..token.len as usize];
                std::str::from_utf8(bytes).expect("the lexer refuses bad UTF-8")
            });
            (token, spelling)
        })
    }

    /// Each error of the lexer, and how many tokens were cut before it.
    pub fn errors(&self) -> impl ExactSizeIterator<Item = (Diagnostic, usize)> + '_ {
        self.tables.errors().chunks_exact(ffi::ERROR_CELLS).map(|cells| {
            let [number, start, len, wanted, seen, before] = cells.try_into().expect("six cells");
            (Diagnostic::new(&self.script, [number, start, len, wanted, seen]), before as usize)
        })
    }
}
