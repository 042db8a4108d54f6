//! The program `referee`: document 01's questions about a listing, the index of document 02, and the generator.

use referee::generate::{case, Case, Expectation};
use referee::{verdict_lines, Listing, Part, Refusal};
use std::io::{self, Read, Write};
use std::path::Path;
use std::process::ExitCode;

const USAGE: &str = "\
referee check FILE
referee sequence FILE K
referee feature FILE K F [ROOM]
referee qualifier FILE K F Q
referee translation FILE K F [ROOM]
referee translations FILE K [ROOM]
referee index FILE [ROOM]
referee index-check FILE INDEX
referee indexed-QUESTION FILE INDEX K.. [ROOM]
referee generate SEED COUNT DIR
referee samples DIR
FILE may be - for standard input. QUESTION is one of those from sequence to translations.";

fn main() -> ExitCode {
    let arguments: Vec<String> = std::env::args().skip(1).collect();
    let words: Vec<&str> = arguments.iter().map(String::as_str).collect();
    let outcome = match words[..] {
        ["generate", seed, count, directory] => generate(seed, count, directory),
        ["samples", directory] => samples(directory),
        [question, file, ref words @ ..] => ask(question, file, words),
        _ => Err(USAGE.into()),
    };
    match outcome {
        Ok(()) => ExitCode::SUCCESS,
        Err(message) => {
            eprintln!("{message}");
            ExitCode::FAILURE
        }
    }
}

/// Answers one question and prints the answer or the refusal.
fn ask(question: &str, file: &str, words: &[&str]) -> Result<(), String> {
    let bytes = read(file)?;
    let listing = Listing::new(&bytes);
    let answer = match (question, question.strip_prefix("indexed-"), words) {
        ("check", ..) if words.is_empty() => listing
            .check()
            .map(|counts| verdict_lines(Ok(counts)).into_bytes()),
        ("index", _, room) if room.len() < 2 => {
            with_room(&numbers(room)?, |room| index(&listing, room))
        }
        ("index-check", _, &[index]) => listing
            .index_check(&read(index)?)
            .map(|()| b"verdict accepted\n".to_vec()),
        (_, Some(plain), &[index, ref words @ ..]) => match listing.indexed(&read(index)?) {
            Ok(listing) => lookup(listing, plain, &numbers(words)?)?,
            Err(refusal) => Err(refusal),
        },
        _ => lookup(&listing, question, &numbers(words)?)?,
    };
    let lines = answer.unwrap_or_else(|refusal| verdict_lines(Err(refusal)).into_bytes());
    io::stdout()
        .write_all(&lines)
        .map_err(|error| error.to_string())
}

/// Answers a question that has numbers.
fn lookup(listing: &Listing, question: &str, numbers: &[u64]) -> Result<Answer, String> {
    Ok(match (question, numbers) {
        ("sequence", &[k]) => sequence(listing, k),
        ("feature", &[k, f, ref room @ ..]) if room.len() < 2 => {
            with_room(room, |room| feature(listing, k, f, room))
        }
        ("qualifier", &[k, f, q]) => qualifier(listing, k, f, q),
        ("translation", &[k, f, ref room @ ..]) if room.len() < 2 => with_room(room, |room| {
            letters(room, |out| listing.translation(k, f, out))
        }),
        ("translations", &[k, ref room @ ..]) if room.len() < 2 => with_room(room, |room| {
            letters(room, |out| listing.translations(k, out))
        }),
        _ => return Err(USAGE.into()),
    })
}

type Answer = Result<Vec<u8>, Refusal>;

fn number(text: &str) -> Result<u64, String> {
    text.parse().map_err(|_| format!("not a number: {text}"))
}

fn numbers(words: &[&str]) -> Result<Vec<u64>, String> {
    words.iter().map(|text| number(text)).collect()
}

fn read(file: &str) -> Result<Vec<u8>, String> {
    let mut bytes = Vec::new();
    let read = match file {
        "-" => io::stdin().read_to_end(&mut bytes).map(|_| bytes),
        _ => std::fs::read(file),
    };
    read.map_err(|error| format!("{file}: {error}"))
}

fn sequence(listing: &Listing, k: u64) -> Answer {
    let answer = listing.sequence(k)?;
    let kind = answer.kind as u8;
    Ok(format!("kind {kind}\nresidues {}\n", shown(answer.residues)).into_bytes())
}

fn feature(listing: &Listing, k: u64, f: u64, room: usize) -> Answer {
    let mut out = vec![0; room];
    let answer = listing.feature(k, f, &mut out)?;
    let (key, location) = (shown(answer.key), shown(answer.location));
    let (operator, count) = (answer.operator as u8, answer.count);
    let mut lines = format!("key {key}\nlocation {location}\noperator {operator}\ncount {count}\n");
    for span in out.chunks(3).take(count as usize) {
        lines += &format!("span {} {} {}\n", span[0], span[1], span[2]);
    }
    Ok(lines.into_bytes())
}

fn qualifier(listing: &Listing, k: u64, f: u64, q: u64) -> Answer {
    let answer = listing.qualifier(k, f, q)?;
    let (name, value) = (shown(answer.name), shown(answer.value));
    let present = u8::from(answer.has_value);
    Ok(format!("name {name}\npresent {present}\nvalue {value}\n").into_bytes())
}

/// A part as its start and size.
fn shown(part: Part) -> String {
    format!("{} {}", part.start, part.size)
}

/// The length, then the bytes themselves on a line of their own.
fn letters(room: usize, ask: impl Fn(&mut [u8]) -> Result<u64, Refusal>) -> Answer {
    let mut out = vec![0; room];
    let length = ask(&mut out)?;
    let mut lines = format!("length {length}\n").into_bytes();
    lines.extend_from_slice(&out[..length as usize]);
    lines.push(b'\n');
    Ok(lines)
}

/// The index itself, byte for byte.
fn index(listing: &Listing, room: usize) -> Answer {
    let mut out = vec![0; room];
    let length = listing.index(&mut out)?;
    out.truncate(length as usize);
    Ok(out)
}

/// Asks with ever more room, up to the given one; if none is given, with enough.
fn with_room(given: &[u64], ask: impl Fn(usize) -> Answer) -> Answer {
    let most = given.first().map_or(usize::MAX, |&room| room as usize);
    let mut room = most.min(1 << 16);
    loop {
        match ask(room) {
            Err(Refusal { rule: 34, .. }) if room < most => {
                room = most.min(room.saturating_mul(8));
            }
            answer => return answer,
        }
    }
}

/// Writes the cases 0 to COUNT - 1 and a list of what is expected of them.
fn generate(seed: &str, count: &str, directory: &str) -> Result<(), String> {
    let (seed, count) = (number(seed)?, number(count)?);
    let mut expected = String::new();
    for index in 0..count {
        let case = case(seed, index);
        let name = format!("{index:06}.xml");
        write(directory, &name, &case.bytes)?;
        expected += &format!("{name} {}\n", expectation(&case));
    }
    write(directory, "expected.txt", expected.as_bytes())
}

/// Writes the hand-made listings: document 01's sample sheet, and some for each rule.
fn samples(directory: &str) -> Result<(), String> {
    for (index, (_, bytes)) in referee::hand::listings().iter().enumerate() {
        write(directory, &format!("{index:06}.xml"), bytes)?;
    }
    Ok(())
}

/// Writes a file of the folder, which is made if it isn't there.
fn write(directory: &str, name: &str, bytes: &[u8]) -> Result<(), String> {
    let path = Path::new(directory).join(name);
    std::fs::create_dir_all(directory)
        .and_then(|()| std::fs::write(&path, bytes))
        .map_err(|error| format!("{}: {error}", path.display()))
}

fn expectation(case: &Case) -> String {
    match case.expectation {
        None => "unknown".into(),
        Some(Expectation::Refused(Refusal { rule, place })) => format!("refused {rule} {place}"),
        Some(Expectation::Accepted(counts)) => format!(
            "accepted {} {} {} {} {}",
            counts.total, counts.skipped, counts.features, counts.judged, counts.unjudged
        ),
    }
}
