//! Document 01's locations: the grammar, rule 25 and the spans.

use std::cmp::Ordering;

/// How the members of a location are put together.
#[derive(Clone, Copy, Debug, PartialEq, Eq)]
pub enum Operator {
    None = 0,
    Join = 1,
    Order = 2,
}

/// The mark of a complemented span.
pub const COMPLEMENT: u32 = 1;
/// The mark of a span with `<`.
pub const BEFORE: u32 = 2;
/// The mark of a span with `>`.
pub const BEYOND: u32 = 4;
/// The mark of a site.
pub const SITE: u32 = 8;

/// One triple: first, last, marks.
#[derive(Clone, Copy, Debug, PartialEq, Eq)]
pub struct Span {
    pub first: u32,
    pub last: u32,
    pub marks: u32,
}

/// A location of the grammar.
#[derive(Debug)]
pub struct Location {
    pub operator: Operator,
    pub has_complement: bool,
    pub has_site: bool,
    /// Whether a lone `<x` or `>x` stands anywhere in it.
    pub has_lone_partial: bool,
    /// The spans from the feature's 5' end; none if rule 25 is broken.
    pub spans: Option<Vec<Span>>,
}

/// Reads a location text (as read) of a sequence with this many residues.
/// Nothing is given if the text isn't of the grammar.
pub fn location(text: &[u8], residue_count: u32) -> Option<Location> {
    let (inner, outer_complement) = match inside(text, "complement(") {
        Some(inner) => (inner, true),
        None => (text, false),
    };
    let (operator, list) = match (inside(inner, "join("), inside(inner, "order(")) {
        (Some(list), _) => (Operator::Join, list),
        (_, Some(list)) => (Operator::Order, list),
        _ => (Operator::None, inner),
    };
    let mut members = if operator == Operator::None {
        vec![site(inner).or_else(|| segment(inner))?]
    } else {
        let members: Vec<Member> = list
            .split(|&byte| byte == b',')
            .map(|text| member(text, outer_complement))
            .collect::<Option<_>>()?;
        if members.len() < 2 {
            return None;
        }
        members
    };
    if outer_complement {
        members.reverse();
        for member in &mut members {
            member.marks |= COMPLEMENT;
        }
    }
    let limit = residue_count.to_string();
    let limit = Number(limit.as_bytes());
    Some(Location {
        operator,
        has_complement: members.iter().any(|m| m.marks & COMPLEMENT != 0),
        has_site: members.iter().any(|m| m.marks & SITE != 0),
        has_lone_partial: members.iter().any(|m| m.is_lone_partial),
        spans: members.iter().map(|member| member.span(limit)).collect(),
    })
}

/// What stands in the brackets, if the text is this operator from end to end.
fn inside<'t>(text: &'t [u8], operator: &str) -> Option<&'t [u8]> {
    text.strip_prefix(operator.as_bytes())?.strip_suffix(b")")
}

/// A number of any length.
#[derive(Clone, Copy, PartialEq, Eq)]
struct Number<'t>(&'t [u8]);

impl<'t> Number<'t> {
    /// "Decimal digits, first not `0`, any length."
    fn new(text: &'t [u8]) -> Option<Number<'t>> {
        let all_digits = text.iter().all(u8::is_ascii_digit);
        (all_digits && !text.is_empty() && text[0] != b'0').then_some(Number(text))
    }

    /// The value, if it is at most the limit.
    fn up_to(self, limit: Number) -> Option<u32> {
        if self > limit {
            return None;
        }
        Some(
            self.0
                .iter()
                .fold(0, |value, digit| value * 10 + u32::from(digit - b'0')),
        )
    }
}

impl Ord for Number<'_> {
    fn cmp(&self, other: &Self) -> Ordering {
        // No number begins with `0`, so the longer one is the larger.
        let by_size = self.0.len().cmp(&other.0.len());
        by_size.then_with(|| self.0.cmp(other.0))
    }
}

impl PartialOrd for Number<'_> {
    fn partial_cmp(&self, other: &Self) -> Option<Ordering> {
        Some(self.cmp(other))
    }
}

/// A segment or site as written.
struct Member<'t> {
    first: Number<'t>,
    last: Number<'t>,
    marks: u32,
    is_lone_partial: bool,
}

impl Member<'_> {
    /// The span, unless rule 25 is broken.
    fn span(&self, limit: Number) -> Option<Span> {
        let first = self.first.up_to(limit)?;
        let last = self.last.up_to(limit)?;
        let is_true = if self.marks & SITE == 0 {
            first <= last
        } else {
            last - 1 == first || (self.first == limit && last == 1)
        };
        is_true.then_some(Span {
            first,
            last,
            marks: self.marks,
        })
    }
}

/// A member of a join or order; under a complement only segments may stand.
fn member(text: &[u8], under_complement: bool) -> Option<Member<'_>> {
    match inside(text, "complement(") {
        Some(inner) if !under_complement => {
            let mut member = segment(inner)?;
            member.marks |= COMPLEMENT;
            Some(member)
        }
        _ => segment(text),
    }
}

/// `x^y`.
fn site(text: &[u8]) -> Option<Member<'_>> {
    let caret = text.iter().position(|&byte| byte == b'^')?;
    Some(Member {
        first: Number::new(&text[..caret])?,
        last: Number::new(&text[caret + 1..])?,
        marks: SITE,
        is_lone_partial: false,
    })
}

/// `x`, `x..y`, `<x`, `>x`, `<x..y`, `x..>y` or `<x..>y`.
fn segment(text: &[u8]) -> Option<Member<'_>> {
    let dots = text.windows(2).position(|pair| pair == b"..");
    let (before, beyond, first, last) = match dots {
        Some(dots) => {
            let (before, first) = strip(&text[..dots], b"<");
            let (beyond, last) = strip(&text[dots + 2..], b">");
            (before, beyond, first, last)
        }
        None => {
            let (before, without) = strip(text, b"<");
            let (beyond, lone) = strip(without, b">");
            if before && beyond {
                return None;
            }
            (before, beyond, lone, lone)
        }
    };
    Some(Member {
        first: Number::new(first)?,
        last: Number::new(last)?,
        marks: u32::from(before) * BEFORE + u32::from(beyond) * BEYOND,
        is_lone_partial: dots.is_none() && (before || beyond),
    })
}

/// Takes a sign off the front and says whether it stood there.
fn strip<'t>(text: &'t [u8], sign: &[u8]) -> (bool, &'t [u8]) {
    match text.strip_prefix(sign) {
        Some(rest) => (true, rest),
        None => (false, text),
    }
}
