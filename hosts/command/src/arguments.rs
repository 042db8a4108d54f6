//! What the words after `dreichnook` ask for.

use std::ffi::OsString;

/// What to do.
#[derive(Debug, PartialEq, Eq)]
pub enum Request {
    Help,
    Version,
    Answer(Arguments),
    /// The index of the listing of this file is to be written.
    Index(OsString),
}

#[derive(Debug, PartialEq, Eq)]
pub struct Arguments {
    pub question: Question,
    /// `-` is standard input.
    pub file: OsString,
    /// The index beside it.
    pub index: Option<OsString>,
    pub json: bool,
}

#[derive(Clone, Copy, Debug, PartialEq, Eq)]
pub enum Question {
    Check,
    Sequence(u64),
    Feature(u64, u64),
    Qualifier(u64, u64, u64),
    Translation(u64, u64),
    Translations(u64),
    Show { from: u64, limit: Option<u64> },
}

/// The commands with the words they take.
const COMMANDS: [(&str, &str); 8] = [
    ("check", "FILE"),
    ("show", "FILE"),
    ("sequence", "FILE K"),
    ("feature", "FILE K J"),
    ("qualifier", "FILE K J I"),
    ("translation", "FILE K J"),
    ("translations", "FILE K"),
    ("index", "FILE"),
];

/// Reads the words; an error says what is wrong with them.
pub fn parse(words: impl IntoIterator<Item = OsString>) -> Result<Request, String> {
    let mut words = words.into_iter();
    let mut given = Vec::new();
    let (mut json, mut index, mut from, mut limit) = (false, None, None, None);
    while let Some(word) = words.next() {
        match word.to_str() {
            Some("--help" | "-h") => return Ok(Request::Help),
            Some("--version" | "-V") => return Ok(Request::Version),
            Some("--json") => json = true,
            Some("--index") => index = Some(words.next().ok_or("--index lacks its file")?),
            Some("--from") => from = Some(number("--from", words.next())?),
            Some("--limit") => limit = Some(number("--limit", words.next())?),
            Some("--") => given.extend(words.by_ref()),
            Some(option) if option.len() > 1 && option.starts_with('-') => {
                return Err(format!("there is no option {option}"));
            }
            _ => given.push(word),
        }
    }

    let mut given = given.into_iter();
    let command = given.next().ok_or("no command is given")?;
    let (command, takes) = COMMANDS
        .into_iter()
        .find(|(name, _)| command.to_str() == Some(*name))
        .ok_or_else(|| match command.to_str() {
            // Earlier versions had it, so scripts may still ask.
            Some("spans") => "`spans` is now part of `feature`: dreichnook feature FILE K J".into(),
            _ => format!("there is no command {}", command.to_string_lossy()),
        })?;
    let usage = || format!("usage: dreichnook {command} {takes}");
    if command != "show" && (from.is_some() || limit.is_some()) {
        return Err("--from and --limit are for show".into());
    }
    if command == "index" && (json || index.is_some()) {
        return Err("index writes an index, and takes neither --json nor --index".into());
    }

    let mut names = takes.split(' ');
    let mut next = || given.next().ok_or_else(usage);
    let file = next()?;
    names.next();
    if file == "-" && index.as_ref() == Some(&file) {
        return Err("the listing and its index can't both be standard input".into());
    }
    let mut next_number = || number(names.next().unwrap_or_default(), Some(next()?));
    let question = match command {
        "check" => Some(Question::Check),
        "sequence" => Some(Question::Sequence(next_number()?)),
        "feature" => Some(Question::Feature(next_number()?, next_number()?)),
        "qualifier" => Some(Question::Qualifier(
            next_number()?,
            next_number()?,
            next_number()?,
        )),
        "translation" => Some(Question::Translation(next_number()?, next_number()?)),
        "translations" => Some(Question::Translations(next_number()?)),
        "show" => Some(Question::Show {
            from: from.unwrap_or(1),
            limit,
        }),
        _ => None,
    };
    if let Some(more) = given.next() {
        let more = more.to_string_lossy();
        return Err(format!("{more} is one word too many; {}", usage()));
    }
    Ok(match question {
        Some(question) => Request::Answer(Arguments {
            question,
            file,
            index,
            json,
        }),
        None => Request::Index(file),
    })
}

/// A number in decimal digits and nothing else.
fn number(name: &str, word: Option<OsString>) -> Result<u64, String> {
    let word = word.ok_or_else(|| format!("{name} lacks its number"))?;
    let word = word.to_string_lossy();
    if word.is_empty() || !word.bytes().all(|byte| byte.is_ascii_digit()) {
        return Err(format!("{name} must be a number, and {word:?} is none"));
    }
    word.parse()
        .map_err(|_| format!("{name} is {word}, more than {}", u64::MAX))
}

#[cfg(test)]
mod tests {
    use super::*;

    fn parsed(line: &str) -> Result<Request, String> {
        parse(line.split_whitespace().map(OsString::from))
    }

    fn arguments(line: &str) -> Arguments {
        match parsed(line) {
            Ok(Request::Answer(arguments)) => arguments,
            other => panic!("{line}: {other:?}"),
        }
    }

    fn asks(line: &str) -> (Question, String, bool) {
        let Arguments {
            question,
            file,
            json,
            ..
        } = arguments(line);
        (question, file.into_string().unwrap(), json)
    }

    #[test]
    fn every_command() {
        let cases = [
            ("check a.xml", Question::Check),
            ("sequence a.xml 1", Question::Sequence(1)),
            ("feature a.xml 1 2", Question::Feature(1, 2)),
            ("qualifier a.xml 1 2 3", Question::Qualifier(1, 2, 3)),
            ("translation a.xml 1 2", Question::Translation(1, 2)),
            ("translations a.xml 1", Question::Translations(1)),
            (
                "show a.xml",
                Question::Show {
                    from: 1,
                    limit: None,
                },
            ),
        ];
        for (line, question) in cases {
            assert_eq!(asks(line), (question, "a.xml".into(), false));
        }
    }

    #[test]
    fn options_stand_anywhere() {
        let show = Question::Show {
            from: 5,
            limit: Some(2),
        };
        assert_eq!(asks("--json check -"), (Question::Check, "-".into(), true));
        let line = "--from 5 show a.xml --limit 2 --json";
        assert_eq!(asks(line), (show, "a.xml".into(), true));
        assert_eq!(asks("check -- --json").1, "--json");
        assert_eq!(parsed("sequence --help"), Ok(Request::Help));
        assert_eq!(parsed("-V"), Ok(Request::Version));
    }

    #[test]
    fn an_index_is_lent_with_any_question() {
        for line in [
            "--index a.idx sequence a.xml 1",
            "check - --index a.idx",
            "show a.xml --index a.idx --json",
        ] {
            assert_eq!(arguments(line).index, Some("a.idx".into()), "{line}");
        }
        assert_eq!(arguments("check a.xml --index -").index, Some("-".into()));
        assert_eq!(arguments("check a.xml").index, None);
    }

    #[test]
    fn an_index_is_written() {
        assert_eq!(parsed("index a.xml"), Ok(Request::Index("a.xml".into())));
        assert_eq!(parsed("index -"), Ok(Request::Index("-".into())));
    }

    #[test]
    fn misuse_is_told() {
        let cases = [
            ("", "no command is given"),
            ("chek a.xml", "there is no command chek"),
            (
                "spans a.xml 1 2",
                "`spans` is now part of `feature`: dreichnook feature FILE K J",
            ),
            ("check", "usage: dreichnook check FILE"),
            ("feature a.xml 1", "usage: dreichnook feature FILE K J"),
            (
                "check a.xml b.xml",
                "b.xml is one word too many; usage: dreichnook check FILE",
            ),
            (
                "sequence a.xml one",
                "K must be a number, and \"one\" is none",
            ),
            (
                "feature a.xml 1 +2",
                "J must be a number, and \"+2\" is none",
            ),
            ("sequence a.xml -1", "there is no option -1"),
            (
                "sequence a.xml 18446744073709551616",
                "K is 18446744073709551616, more than 18446744073709551615",
            ),
            ("show a.xml --limit", "--limit lacks its number"),
            (
                "show a.xml --from x",
                "--from must be a number, and \"x\" is none",
            ),
            ("check a.xml --limit 3", "--from and --limit are for show"),
            ("check a.xml --index", "--index lacks its file"),
            (
                "check - --index -",
                "the listing and its index can't both be standard input",
            ),
            (
                "index a.xml --json",
                "index writes an index, and takes neither --json nor --index",
            ),
            (
                "index a.xml --index a.idx",
                "index writes an index, and takes neither --json nor --index",
            ),
            ("index", "usage: dreichnook index FILE"),
            (
                "index a.xml a.idx",
                "a.idx is one word too many; usage: dreichnook index FILE",
            ),
            ("check a.xml --jason", "there is no option --jason"),
        ];
        for (line, says) in cases {
            assert_eq!(parsed(line), Err(says.into()), "{line}");
        }
    }
}
