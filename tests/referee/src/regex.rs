//! Regular expressions over bytes, put together by combinators.

/// A set of byte values.
#[derive(Clone, Copy, PartialEq, Eq)]
pub struct ByteSet([u128; 2]);

impl ByteSet {
    /// The set of the bytes for which `belongs` says yes.
    pub fn of(belongs: impl Fn(u8) -> bool) -> ByteSet {
        let mut set = ByteSet([0; 2]);
        for byte in (0..=255).filter(|&byte| belongs(byte)) {
            set.0[usize::from(byte) / 128] |= 1 << (byte % 128);
        }
        set
    }

    /// Whether the byte is in the set.
    pub fn contains(&self, byte: u8) -> bool {
        self.0[usize::from(byte) / 128] >> (byte % 128) & 1 == 1
    }
}

/// A regular expression over bytes.
#[derive(Clone)]
pub enum Regex {
    /// One byte out of a set.
    One(ByteSet),
    /// All parts, one after the other; no parts at all is the empty text.
    Sequence(Vec<Regex>),
    /// Any one of the parts.
    Choice(Vec<Regex>),
    /// One or more times the same.
    Plus(Box<Regex>),
}

/// One byte for which `belongs` says yes.
pub fn one(belongs: impl Fn(u8) -> bool) -> Regex {
    Regex::One(ByteSet::of(belongs))
}

/// Exactly this text.
pub fn literal(text: &str) -> Regex {
    Regex::Sequence(
        text.bytes()
            .map(|wanted| one(|byte| byte == wanted))
            .collect(),
    )
}

/// All parts, one after the other.
pub fn sequence(parts: impl Into<Vec<Regex>>) -> Regex {
    Regex::Sequence(parts.into())
}

/// Any one of the parts.
pub fn choice(parts: impl Into<Vec<Regex>>) -> Regex {
    Regex::Choice(parts.into())
}

/// At most one.
pub fn optional(part: Regex) -> Regex {
    choice([part, sequence([])])
}

/// One or more.
pub fn plus(part: Regex) -> Regex {
    Regex::Plus(Box::new(part))
}

/// Any number.
pub fn star(part: Regex) -> Regex {
    optional(plus(part))
}
