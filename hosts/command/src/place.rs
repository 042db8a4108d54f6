//! Where a byte stands, for people.

use dreichnook::visible;

/// A line and a column, from 1. Lines end with byte 10; columns count bytes.
#[derive(Debug, PartialEq, Eq)]
pub struct Position {
    pub line: u64,
    pub column: u64,
}

pub fn position(listing: &[u8], place: usize) -> Position {
    let before = &listing[..place];
    let ends = before.iter().filter(|&&byte| byte == b'\n').count();
    Position {
        line: ends as u64 + 1,
        column: (place - line_start(before)) as u64 + 1,
    }
}

/// The bytes shown before and after a place.
const BESIDE: usize = 48;

/// What stands at the place, to the end of its line, as far as it is near.
pub fn stretch(listing: &[u8], place: usize) -> String {
    let end = line_end(listing, place).min(place + BESIDE);
    visible(&listing[place..end])
}

/// The place's line, as far as it is near, with `..` where it is cut, and beneath it a line with `^` at the place.
pub fn marked(listing: &[u8], place: usize) -> [String; 2] {
    let dots = |is_cut| if is_cut { ".." } else { "" };
    let line = line_start(&listing[..place])..line_end(listing, place);
    let start = line.start.max(place.saturating_sub(BESIDE));
    let before = dots(start > line.start).to_string() + &visible(&listing[start..place]);
    let mark = " ".repeat(before.chars().count()) + "^";
    let after = stretch(listing, place) + dots(line.end > place + BESIDE);
    [before + &after, mark]
}

fn line_start(before: &[u8]) -> usize {
    let end = before.iter().rposition(|&byte| byte == b'\n');
    end.map_or(0, |end| end + 1)
}

fn line_end(listing: &[u8], place: usize) -> usize {
    let rest = &listing[place..];
    let ends = |&byte: &u8| byte == b'\n' || byte == b'\r';
    place + rest.iter().position(ends).unwrap_or(rest.len())
}

#[cfg(test)]
mod tests {
    use super::*;

    #[test]
    fn lines_and_columns() {
        let at = |place| {
            let Position { line, column } = position(b"ab\r\ncd\n", place);
            (line, column)
        };
        assert_eq!(at(0), (1, 1));
        assert_eq!(at(3), (1, 4));
        assert_eq!(at(4), (2, 1));
        assert_eq!(at(7), (3, 1));
    }

    #[test]
    fn the_mark_stands_below_its_byte() {
        let listing = b"first\n\t<a>\xc3\xa9\x1b</a>\r\nlast";
        let shown = marked(listing, 13);
        assert_eq!(
            shown,
            [" <a>\u{e9}\u{fffd}</a>".to_string(), "      ^".to_string()]
        );
        assert_eq!(marked(b"", 0), ["", "^"]);
        assert_eq!(marked(b"ab\n", 3), ["", "^"]);
    }

    #[test]
    fn a_long_line_is_shown_near_the_place() {
        let listing = [b'x'; 40_000];
        let x = "x".repeat(BESIDE);
        for (size, place, line, at) in [
            (40_000, 20_000, format!("..{x}{x}.."), 2 + BESIDE),
            (40_000, 39_999, format!("..{x}x"), 2 + BESIDE),
            (40_000, 3, format!("xxx{x}.."), 3),
            // What just fits isn't cut.
            (2 * BESIDE, BESIDE, format!("{x}{x}"), BESIDE),
            (2 * BESIDE + 1, BESIDE, format!("{x}{x}.."), BESIDE),
            (2 * BESIDE + 1, BESIDE + 1, format!("..{x}{x}"), 2 + BESIDE),
        ] {
            let mark = " ".repeat(at) + "^";
            assert_eq!(marked(&listing[..size], place), [line, mark]);
        }
        assert_eq!(stretch(&listing, 20_000), x);
        assert_eq!(stretch(&listing, 39_990).len(), 10);
    }
}
