//! The kinds of token.

/// The spelling of a kind whose tokens are all spelled alike.
macro_rules! kinds {
    ($($name:ident $(= $spelling:literal)?,)*) => {
        /// The kinds of token, in the order in which they are numbered from 1.
        #[derive(Clone, Copy, Debug, PartialEq, Eq, Hash)]
        pub enum Kind {
            $($name,)*
        }

        const KINDS: &[Kind] = &[$(Kind::$name,)*];
        const SPELLINGS: &[Option<&str>] = &[$(kinds!(@ $($spelling)?),)*];
    };
    (@) => { None };
    (@ $spelling:literal) => { Some($spelling) };
}

kinds! {
    Eof = "eof",
    BraceLeft = "(",
    BraceRight = ")",
    Plus = "+",
    Minus = "-",
    Asteriks = "*",
    Slash = "/",
    Percent = "%",
    Equal = "=",
    DoubleEqual = "==",
    LessThan = "<",
    GreaterThan = ">",
    Exclaim = "!",
    NotEqual = "!=",
    Question = "?",
    Colon = ":",
    Dot = ".",
    BraketLeft = "[",
    BraketRight = "]",
    CurlyLeft = "{",
    CurlyRight = "}",
    S,
    D,
    I,
    Ident,
    Doc,
    Import = "import",
    Extern = "extern",
    Let = "let",
    Fn = "fn",
    Match = "match",
    As = "as",
    True = "true",
    False = "false",
    Str = "Str",
    Int = "Int",
    Double = "Double",
    Bool = "Bool",
    Void = "Void",
    Option = "Option",
    Array = "Array",
    Foreign = "Foreign",
    Record = "Record",
}

impl Kind {
    /// The number of the kind, from 1.
    pub fn number(self) -> u32 {
        self as u32 + 1
    }

    /// The kind of that number.
    pub fn from_number(number: u32) -> Option<Kind> {
        KINDS.get((number as usize).checked_sub(1)?).copied()
    }

    /// How each token of this kind is spelled; nothing for strings, numbers, names and docs, which have spellings of their own.
    pub fn fixed_spelling(self) -> Option<&'static str> {
        SPELLINGS[self as usize]
    }
}

impl std::fmt::Display for Kind {
    fn fmt(&self, f: &mut std::fmt::Formatter<'_>) -> std::fmt::Result {
        match self {
            Kind::Eof => f.write_str("the end of the script"),
            Kind::S => f.write_str("a string"),
            Kind::D | Kind::I => f.write_str("a number"),
            Kind::Ident => f.write_str("a name"),
            Kind::Doc => f.write_str("a doc"),
            kind => write!(f, "`{}`", kind.fixed_spelling().unwrap_or_default()),
        }
    }
}
