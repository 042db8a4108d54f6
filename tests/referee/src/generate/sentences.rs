//! All short texts of some words.

/// The signs that document 01's locations are made of, besides numbers.
const LOCATION_SIGNS: [&str; 9] = [
    "..",
    "^",
    "<",
    ">",
    ",",
    ")",
    "join(",
    "order(",
    "complement(",
];

/// Calls `each` with every text of at most `longest` of these words and the signs of locations.
pub fn location_texts(words: &[&str], longest: usize, each: &mut dyn FnMut(&str)) {
    sentences(&[words, &LOCATION_SIGNS].concat(), longest, each);
}

/// Calls `each` with every text of at most `longest` of the words.
pub fn sentences(words: &[&str], longest: usize, each: &mut dyn FnMut(&str)) {
    lengthened(&mut String::new(), words, longest, each);
}

/// Calls `each` with the text and every one that at most `left` words more make of it.
fn lengthened(text: &mut String, words: &[&str], left: usize, each: &mut dyn FnMut(&str)) {
    each(text);
    if left == 0 {
        return;
    }
    let length = text.len();
    for word in words {
        text.push_str(word);
        lengthened(text, words, left - 1, each);
        text.truncate(length);
    }
}
