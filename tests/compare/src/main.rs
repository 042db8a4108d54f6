//! The program `compare`: the proved reader beside the independent referee.

mod boundary;
mod check;
#[cfg(test)]
mod faults;
mod heavy;
mod index;
mod large;
mod layout;
mod location;
mod lookups;
mod mutants;
mod proved;
mod report;
mod residues;
mod translation;
mod vocabulary;
mod xmllint;

use std::path::Path;
use std::process::ExitCode;
use std::time::Instant;

const USAGE: &str = "\
compare layout COUNT [SEED]      rules 1 and 2 on COUNT generated listings, COUNT mutants, and more
compare location COUNT [SEED]    every short location text, and COUNT generated ones
compare translation COUNT [SEED] every codon, runs with one ambiguous codon, and COUNT generated coding regions
compare check COUNT [SEED]       the whole check on COUNT generated listings, COUNT damages, COUNT mutants, and more
compare vocabulary COUNT [SEED]  the check of every key with every name, of near misses, and of COUNT generated feature tables
compare residues COUNT [SEED]    the check of every character and of foreign residues at each place, and of COUNT generated texts
compare lookups COUNT [SEED]     every public call, with any numbers and any room, on COUNT generated listings, and more
compare index COUNT [SEED]       maker, checker and lookups with right and wrong indexes, on COUNT generated listings, and more
compare make KIND SIZE FILE      writes a listing of this size, or nearly, for measuring";

fn main() -> ExitCode {
    let arguments: Vec<String> = std::env::args().skip(1).collect();
    let words: Vec<&str> = arguments.iter().map(String::as_str).collect();
    // The repository: two folders above this package.
    let package = Path::new(env!("CARGO_MANIFEST_DIR"));
    let root = package.ancestors().nth(2).unwrap_or(package);
    let outcome = match words[..] {
        ["make", kind, size, file] => make(kind, size, file),
        [what, count] => compare(what, count, "1", root),
        [what, count, seed] => compare(what, count, seed, root),
        _ => Err(usage()),
    };
    match outcome {
        Ok(true) => ExitCode::SUCCESS,
        Ok(false) => ExitCode::FAILURE,
        Err(message) => {
            eprintln!("{message}");
            ExitCode::from(2)
        }
    }
}

/// Runs one comparison, and prints how long it took; whether nothing differs.
fn compare(what: &str, count: &str, seed: &str, root: &Path) -> Result<bool, String> {
    let (count, seed) = (number(count)?, number(seed)?);
    let start = Instant::now();
    let outcome = match what {
        "layout" => layout::run(count, seed, root),
        "location" => location::run(count, seed),
        "translation" => translation::run(count, seed),
        "check" => check::run(count, seed, root),
        "vocabulary" => vocabulary::run(count, seed, root),
        "residues" => residues::run(count, seed, root),
        "lookups" => lookups::run(count, seed, root),
        "index" => index::run(count, seed, root),
        _ => Err(usage()),
    }?;
    println!("{:.0} seconds", start.elapsed().as_secs_f64());
    Ok(outcome)
}

fn usage() -> String {
    let kinds = large::MIXES
        .iter()
        .chain(&large::TRAPS)
        .chain(&heavy::HEAVY);
    let kinds: Vec<&str> = kinds.map(|&(name, _)| name).collect();
    format!("{USAGE}\nKIND is one of: {}", kinds.join(" "))
}

fn number(text: &str) -> Result<u64, String> {
    text.parse().map_err(|_| format!("not a number: {text}"))
}

/// Writes the listing of this kind and size.
fn make(kind: &str, size: &str, file: &str) -> Result<bool, String> {
    let size = number(size)?;
    if !(4_000..=1 << 30).contains(&size) {
        return Err(format!("not a size from 4000 to {}: {size}", 1 << 30));
    }
    let bytes = large::make(kind, size as usize).ok_or_else(usage)?;
    std::fs::write(file, bytes).map_err(|error| format!("{file}: {error}"))?;
    Ok(true)
}
