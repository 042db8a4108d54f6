//! `dreichnook`: asks the proved reader about a listing. Every figure it prints comes from the library's calls.

mod answer;
mod arguments;
mod input;
mod json;
mod page;
mod place;
mod refused;
mod show;

use answer::{ask, Answer, Lent};
use arguments::{parse, Arguments, Question, Request};
use dreichnook::{Listing, Refusal};
use json::Json;
use refused::Refused;
use show::Walk;
use std::env;
use std::ffi::OsStr;
use std::io::{self, stderr, stdout, BufWriter, ErrorKind, Write};
use std::os::raw::c_int;
use std::process::ExitCode;

const HELP: &str = include_str!("help.txt");

const REFUSED: u8 = 1;
const MISUSE: u8 = 2;

fn main() -> ExitCode {
    let mut out = BufWriter::new(stdout().lock());
    let arguments = match parse(env::args_os().skip(1)) {
        Ok(Request::Answer(arguments)) => arguments,
        Ok(Request::Index(file)) => return write_index(&file, &mut out),
        Ok(Request::Help) => return ended(0, write!(out, "{HELP}").and_then(|()| out.flush())),
        Ok(Request::Version) => {
            let version = env!("CARGO_PKG_VERSION");
            let written = writeln!(out, "dreichnook {version}, for ST.26 edition 1.2");
            return ended(0, written.and_then(|()| out.flush()));
        }
        Err(misuse) => return trouble(&format!("{misuse}\n`dreichnook --help` says how to ask.")),
    };
    let index = arguments.index.as_deref().map(input::read);
    let (bytes, index) = match (input::read(&arguments.file), index.transpose()) {
        (Ok(bytes), Ok(index)) => (bytes, index),
        (Err(misuse), _) | (_, Err(misuse)) => return trouble(&misuse),
    };
    let lent = Lent {
        listing: &bytes,
        index: index.as_deref(),
    };
    let (status, written) = match ask(lent, arguments.question) {
        Ok(answer) => answered(&arguments, lent, &answer, &mut out),
        Err(refusal) => (REFUSED, refused(&arguments, lent, refusal, &mut out)),
    };
    ended(status, written.and_then(|()| out.flush()))
}

fn answered(
    arguments: &Arguments,
    lent: Lent,
    answer: &Answer,
    out: &mut impl Write,
) -> (u8, io::Result<()>) {
    let written = match (arguments.question, answer) {
        (Question::Show { from, limit }, Answer::Counts { counts, indexed }) => {
            let walk = match Walk::new(lent.listing, from, limit) {
                Ok(walk) => walk,
                Err(refusal) => return (REFUSED, refused(arguments, lent, refusal, out)),
            };
            if arguments.json {
                show_json(answer, walk, out)
            } else {
                let name = input::name(&arguments.file);
                page::write_head(&name, counts, *indexed, out)
                    .and_then(|()| show_page(walk, counts.total, out))
            }
        }
        _ if arguments.json => writeln!(out, "{}", Json::Object(answer.json())),
        _ => answer.write(out),
    };
    (0, written)
}

fn show_page(mut walk: Walk, total: u64, out: &mut impl Write) -> io::Result<()> {
    for shown in &mut walk {
        page::write_sequence(&answer_again(shown)?, out)?;
        // The next may take a while.
        out.flush()?;
    }
    page::write_foot(&walk, total, out)
}

fn show_json(counts: &Answer, mut walk: Walk, out: &mut impl Write) -> io::Result<()> {
    let mut fields = counts.json();
    let shown: Result<Vec<_>, _> = (&mut walk)
        .map(|shown| answer_again(shown).map(|shown| shown.json()))
        .collect();
    fields.push(("sequences", Json::List(shown?)));
    let number = |number: Option<u64>| number.map_or(Json::Null, Json::from);
    fields.push(("next", number(walk.next_number())));
    fields.push(("stopped_amid", number(walk.stopped_amid())));
    writeln!(out, "{}", Json::Object(fields))
}

/// The library accepted these very bytes, so it can't refuse them now.
fn answer_again<T>(answer: Result<T, Refusal>) -> io::Result<T> {
    answer.map_err(|refusal| io::Error::new(ErrorKind::Other, refusal))
}

fn refused(
    arguments: &Arguments,
    lent: Lent,
    refusal: Refusal,
    out: &mut impl Write,
) -> io::Result<()> {
    let file = match &arguments.index {
        Some(index) if refusal.is_of_index() => index,
        _ => &arguments.file,
    };
    let name = input::name(file);
    let refused = Refused { lent, refusal };
    if arguments.json {
        return writeln!(out, "{}", Json::Object(refused.json()));
    }
    let is_shown = matches!(arguments.question, Question::Show { .. });
    if is_shown && (refusal.is_of_listing() || refusal.is_of_index()) {
        return refused.write_page(&name, out);
    }
    refused.write(out)?;
    // A reader of the words may be gone; the answer counts.
    let _ = refused.write_words(&name, &mut stderr());
    Ok(())
}

/// Writes the index of the listing in a file, or nothing.
fn write_index(file: &OsStr, out: &mut impl Write) -> ExitCode {
    if is_terminal() {
        return trouble(
            "an index isn't text; write it to a file: dreichnook index FILE > FILE.idx",
        );
    }
    let bytes = match input::read(file) {
        Ok(bytes) => bytes,
        Err(misuse) => return trouble(&misuse),
    };
    match Listing::new(&bytes).index() {
        Ok(index) => ended(
            0,
            out.write_all(index.as_bytes()).and_then(|()| out.flush()),
        ),
        Err(refusal) => {
            let lent = Lent {
                listing: &bytes,
                index: None,
            };
            // To standard error alone: what reads standard output wants an index.
            let words = Refused { lent, refusal };
            ended(
                REFUSED,
                words.write_words(&input::name(file), &mut stderr()),
            )
        }
    }
}

/// Whether standard output is one. Rust 1.63 has no other way to ask.
fn is_terminal() -> bool {
    extern "C" {
        fn isatty(file: c_int) -> c_int;
    }
    // SAFETY: it takes any number, and only asks.
    unsafe { isatty(1) == 1 }
}

/// The status; a reader that has seen enough, as `head` has, changes nothing.
fn ended(status: u8, written: io::Result<()>) -> ExitCode {
    match written {
        Err(error) if error.kind() != ErrorKind::BrokenPipe => trouble(&error.to_string()),
        _ => ExitCode::from(status),
    }
}

fn trouble(says: &str) -> ExitCode {
    let _ = writeln!(stderr(), "dreichnook: {says}");
    ExitCode::from(MISUSE)
}
