//! Texts of a listing: where they stand, and what they read as.

/// A stretch of the listing.
#[derive(Clone, Copy, Debug, Default, PartialEq, Eq)]
pub struct Part {
    /// The offset of its first byte.
    pub start: usize,
    /// Its number of bytes.
    pub size: usize,
}

impl Part {
    /// The bytes of this stretch.
    pub fn of<'a>(&self, listing: &'a [u8]) -> &'a [u8] {
        &listing[self.start..self.start + self.size]
    }
}

/// The text of an element or an attribute.
#[derive(Clone, Copy, Debug, Default)]
pub struct Text {
    /// The raw bytes.
    pub part: Part,
    /// Document 01's place of this value.
    pub place: usize,
}

impl Text {
    /// The characters of this text as read.
    pub fn characters<'a>(&self, listing: &'a [u8]) -> Characters<'a> {
        characters(self.part.of(listing))
    }

    /// The same, each with the offset of its first raw byte: of an entity, its `&`.
    pub fn placed_characters<'a>(
        &self,
        listing: &'a [u8],
    ) -> impl Iterator<Item = (usize, u8)> + 'a {
        let end = self.part.start + self.part.size;
        let mut characters = self.characters(listing);
        std::iter::from_fn(move || {
            let place = end - characters.rest.len();
            Some((place, characters.next()?))
        })
    }

    /// Whether the text reads as exactly this.
    pub fn is(&self, listing: &[u8], wanted: impl AsRef<[u8]>) -> bool {
        self.characters(listing).eq(wanted.as_ref().iter().copied())
    }

    /// Whether the text reads as one of these.
    pub fn is_any(&self, listing: &[u8], wanted: &[&str]) -> bool {
        wanted.iter().any(|text| self.is(listing, text))
    }
}

/// The five entities with what they stand for.
const ENTITIES: [(&[u8], u8); 5] = [
    (b"&lt;", b'<'),
    (b"&gt;", b'>'),
    (b"&amp;", b'&'),
    (b"&quot;", b'"'),
    (b"&apos;", b'\''),
];

/// Reads a raw text of the layout: each entity becomes one character.
pub fn characters(raw: &[u8]) -> Characters<'_> {
    Characters { rest: raw }
}

/// The characters of a raw text, one by one.
pub struct Characters<'a> {
    rest: &'a [u8],
}

impl Iterator for Characters<'_> {
    type Item = u8;

    fn next(&mut self) -> Option<u8> {
        let (&first, after_first) = self.rest.split_first()?;
        let entity = ENTITIES
            .iter()
            .filter(|_| first == b'&')
            .find_map(|&(name, character)| Some((character, self.rest.strip_prefix(name)?)));
        let (character, rest) = entity.unwrap_or((first, after_first));
        self.rest = rest;
        Some(character)
    }
}
