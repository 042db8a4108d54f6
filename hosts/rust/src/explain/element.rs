//! The elements of a listing and their texts.

use std::iter;
use std::ops::Range;

// No text of a listing has `<`, so these stand at start tags only. A qualifier belongs to the last key before it.
pub const MOLTYPE: &[u8] = b"<INSDSeq_moltype";
pub const KEY: &[u8] = b"<INSDFeature_key";
pub const NAME: &[u8] = b"<INSDQualifier_name";
pub const SEQUENCE: &[u8] = b"<INSDSeq_sequence";

const ENTITIES: [(&str, u8); 5] = [
    ("&lt;", b'<'),
    ("&gt;", b'>'),
    ("&amp;", b'&'),
    ("&quot;", b'"'),
    ("&apos;", b'\''),
];

/// Where a tag starts.
pub fn starts<'a>(
    listing: &'a [u8],
    tag: &'static [u8],
) -> impl DoubleEndedIterator<Item = usize> + 'a {
    let windows = listing.windows(tag.len()).enumerate();
    windows.filter_map(move |(at, window)| (window == tag).then_some(at))
}

/// Where the last such tag starts, at the place or before.
pub fn last(listing: &[u8], place: usize, tag: &'static [u8]) -> Option<usize> {
    let end = place.saturating_add(tag.len()).min(listing.len());
    starts(&listing[..end], tag).next_back()
}

/// Where the text of the element stands that starts there.
pub fn stretch(listing: &[u8], element: usize) -> Option<Range<usize>> {
    let next = |from: usize, wanted: u8| {
        let found = listing[from..].iter().position(|&byte| byte == wanted);
        found.map(|at| from + at)
    };
    let close = next(element, b'>')?;
    let end = next(close, b'<')?;
    let is_empty = listing[..close].ends_with(b"/");
    Some(if is_empty { end } else { close + 1 }..end)
}

/// That text, as read.
pub fn text(listing: &[u8], element: usize) -> Option<Vec<u8>> {
    let raw = &listing[stretch(listing, element)?];
    Some(characters(raw).map(|character| character.read).collect())
}

/// A character as read, and where it stands in its text.
pub struct Character {
    pub read: u8,
    pub stands: Range<usize>,
}

/// The characters of a raw text; an entity is one.
pub fn characters(raw: &[u8]) -> impl Iterator<Item = Character> + '_ {
    let mut start = 0;
    iter::from_fn(move || {
        let rest = &raw[start..];
        let first = *rest.first()?;
        let entity = ENTITIES
            .iter()
            .find(|(spelled, _)| rest.starts_with(spelled.as_bytes()));
        let (size, read) = entity.map_or((1, first), |(spelled, byte)| (spelled.len(), *byte));
        let stands = start..start + size;
        start = stands.end;
        Some(Character { read, stands })
    })
}
