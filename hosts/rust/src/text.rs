//! Texts of a listing as people see them.

/// Of a longer text the first bytes are shown.
const SHOWN: usize = 120;

/// Any bytes as text that is safe to print: a byte that can't be shown becomes one mark.
pub fn visible(bytes: &[u8]) -> String {
    let text = String::from_utf8_lossy(bytes);
    let safe = |letter: char| match letter {
        '\t' => ' ',
        letter if letter.is_control() => char::REPLACEMENT_CHARACTER,
        letter => letter,
    };
    text.chars().map(safe).collect()
}

/// The same, as far as it fits on a line.
pub fn short(bytes: &[u8]) -> String {
    match bytes.get(..SHOWN) {
        Some(front) if bytes.len() > SHOWN => {
            format!("{}.. ({} bytes)", visible(front), bytes.len())
        }
        _ => visible(bytes),
    }
}
