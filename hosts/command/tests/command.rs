//! The command end to end, on the published specimens.

use std::fs::{self, File};
use std::io::Write;
use std::path::PathBuf;
use std::process::{Child, Command, Output, Stdio};

const SPECIMENS: &str = concat!(env!("CARGO_MANIFEST_DIR"), "/../../tests/specimens");

fn command(words: &[&str]) -> Command {
    let mut command = Command::new(env!("CARGO_BIN_EXE_dreichnook"));
    command.args(words).current_dir(SPECIMENS);
    command
}

fn run(line: &str) -> Output {
    let words: Vec<_> = line.split(' ').collect();
    command(&words).stdin(Stdio::null()).output().unwrap()
}

/// Started with pipes on all three sides.
fn piped(words: &[&str]) -> Child {
    let mut command = command(words);
    command
        .stdin(Stdio::piped())
        .stdout(Stdio::piped())
        .stderr(Stdio::piped());
    command.spawn().unwrap()
}

fn run_with_input(line: &str, input: &[u8]) -> Output {
    let words: Vec<_> = line.split(' ').collect();
    let mut child = piped(&words);
    // What is too long isn't read to its end.
    let _ = child.stdin.take().unwrap().write_all(input);
    child.wait_with_output().unwrap()
}

/// Standard output, standard error and status.
fn said(output: Output) -> (String, String, i32) {
    let text = |bytes| String::from_utf8(bytes).unwrap();
    (
        text(output.stdout),
        text(output.stderr),
        output.status.code().unwrap(),
    )
}

/// A file of this test's own.
fn own_file(name: &str) -> PathBuf {
    PathBuf::from(env!("CARGO_TARGET_TMPDIR")).join(name)
}

fn specimens() -> Vec<String> {
    let files = fs::read_dir(SPECIMENS).unwrap();
    let names = files.map(|file| file.unwrap().file_name().into_string().unwrap());
    let names: Vec<_> = names.filter(|name| name.ends_with(".xml")).collect();
    assert_eq!(names.len(), 59);
    names
}

/// The rest after one JSON value, or nothing if there is none.
fn after_json(text: &str) -> Option<&str> {
    let items = |mut rest: &str, close: char, named: bool| {
        let mut first = true;
        loop {
            if let Some(rest) = rest.strip_prefix(close).filter(|_| first) {
                return Some(rest.to_string());
            }
            if named {
                rest = after_json(rest.strip_prefix('"').map(|_| rest)?)?.strip_prefix(':')?;
            }
            rest = after_json(rest)?;
            first = false;
            match rest.strip_prefix(',') {
                Some(more) => rest = more,
                None => return rest.strip_prefix(close).map(str::to_string),
            }
        }
    };
    let tail = |rest: String| Some(&text[text.len() - rest.len()..]);
    match text.chars().next()? {
        '{' => tail(items(&text[1..], '}', true)?),
        '[' => tail(items(&text[1..], ']', false)?),
        '"' => {
            let mut letters = text.char_indices().skip(1);
            loop {
                match letters.next()? {
                    (at, '"') => return Some(&text[at + 1..]),
                    (_, '\\') => match letters.next()?.1 {
                        'u' => {
                            let digits: Vec<_> = letters.by_ref().take(4).collect();
                            let hex = digits.iter().all(|(_, digit)| digit.is_ascii_hexdigit());
                            if digits.len() < 4 || !hex {
                                return None;
                            }
                        }
                        '"' | '\\' => {}
                        _ => return None,
                    },
                    (_, letter) if letter < ' ' => return None,
                    _ => {}
                }
            }
        }
        digit if digit.is_ascii_digit() => {
            Some(text.trim_start_matches(|c: char| c.is_ascii_digit()))
        }
        _ => ["null", "true", "false"]
            .iter()
            .find_map(|word| text.strip_prefix(word)),
    }
}

#[test]
fn the_test_knows_json() {
    for good in [
        "{}",
        "[1,{\"a\":null}]",
        "\"\\\"\\u00e9\"",
        "{\"a\":[],\"b\":true}",
    ] {
        assert_eq!(after_json(good), Some(""), "{good}");
    }
    for bad in [
        "{", "[1,]", "{a:1}", "\"\n\"", "\"\\x\"", "{\"a\"}", "nul", "",
    ] {
        assert_eq!(after_json(bad), None, "{bad}");
    }
}

#[test]
fn every_verdict_is_as_expected() {
    let expected = fs::read_to_string(format!("{SPECIMENS}/expected.txt")).unwrap();
    for row in expected.lines().filter(|line| !line.starts_with('#')) {
        let row: Vec<_> = row.split(' ').collect();
        let (words, status): (&[_], _) = match row[1] {
            "accepted" => (&["total", "skipped", "features", "judged", "unjudged"], 0),
            _ => (&["rule", "place"], 1),
        };
        let mut lines = format!("verdict {}\n", row[1]);
        for (word, figure) in words.iter().zip(&row[2..]) {
            lines += &format!("{word} {figure}\n");
        }
        let (out, _, code) = said(run(&format!("check {}", row[0])));
        assert_eq!((&out, code), (&lines, status), "{}", row[0]);
        let bytes = fs::read(format!("{SPECIMENS}/{}", row[0])).unwrap();
        let (out, _, code) = said(run_with_input("check -", &bytes));
        assert_eq!(
            (&out, code),
            (&lines, status),
            "{} as standard input",
            row[0]
        );
    }
}

#[test]
fn json_is_one_valid_line() {
    let questions = [
        "check F",
        "show F",
        "sequence F 1",
        "feature F 1 1",
        "qualifier F 1 1 1",
        "translation F 1 2",
        "translations F 1",
    ];
    for file in specimens() {
        for question in questions {
            let line = format!("{} --json", question.replace('F', &file));
            let (out, error, code) = said(run(&line));
            assert_eq!(after_json(&out), Some("\n"), "{line}: {out}");
            assert!(error.is_empty() && code < 2, "{line}: {error}");
        }
    }
}

#[test]
fn answers_in_lines_and_json() {
    let cases = [
        (
            "sequence annex-iii.xml 4",
            "kind AA\nsize 19\nresidues MLAPDCPFDPTRIYSSSLC\n",
            r#"{"kind":"AA","residues":{"start":6028,"size":19,"text":"MLAPDCPFDPTRIYSSSLC"}}"#,
        ),
        (
            "feature annex-iii.xml 3 2",
            "key CDS\nlocation 3..62\noperator none\ncount 1\nspan 3 62 0\n",
            concat!(
                r#"{"key":{"start":4442,"size":3,"text":"CDS"},"location":{"start":4496,"size":5,"text":"3..62"},"#,
                r#""operator":"none","count":1,"spans":[{"first":3,"last":62,"marks":0}]}"#,
            ),
        ),
        (
            "feature 002-p66-location-syntax.xml 1 21",
            "key misc_feature\nlocation order(complement(134..&gt;202),complement(&lt;12..78))\n\
             operator order\ncount 2\nspan 134 202 5 complement >\nspan 12 78 3 complement <\n",
            concat!(
                r#"{"key":{"start":4698,"size":12,"text":"misc_feature"},"#,
                r#""location":{"start":4761,"size":54,"text":"order(complement(134..&gt;202),complement(&lt;12..78))"},"#,
                r#""operator":"order","count":2,"#,
                r#""spans":[{"first":134,"last":202,"marks":5},{"first":12,"last":78,"marks":3}]}"#,
            ),
        ),
        (
            "feature 002-p66-location-syntax.xml 1 11",
            "key misc_feature\nlocation 1000^1\noperator none\ncount 1\nspan 1000 1 8 site\n",
            concat!(
                r#"{"key":{"start":2839,"size":12,"text":"misc_feature"},"#,
                r#""location":{"start":2902,"size":6,"text":"1000^1"},"#,
                r#""operator":"none","count":1,"spans":[{"first":1000,"last":1,"marks":8}]}"#,
            ),
        ),
        (
            "qualifier annex-iii.xml 3 2 2",
            "name protein_id\npresent yes\nvalue 4\n",
            r#"{"name":{"start":4818,"size":10,"text":"protein_id"},"value":{"start":4885,"size":1,"text":"4"}}"#,
        ),
        (
            "qualifier 003-annex-i-cds-qualifiers.xml 1 5 1",
            "name pseudo\npresent no\n",
            r#"{"name":{"start":3699,"size":6,"text":"pseudo"},"value":null}"#,
        ),
        (
            "translation annex-iii.xml 3 2",
            "MLAPDCPFDPTRIYSSSLC\n",
            r#"{"size":19,"translation":"MLAPDCPFDPTRIYSSSLC"}"#,
        ),
        (
            "translations annex-iii.xml 3",
            "MLAPDCPFDPTRIYSSSLC\n",
            r#"{"size":20,"translations":["MLAPDCPFDPTRIYSSSLC"]}"#,
        ),
        (
            "translations annex-iii.xml 10",
            "-\n",
            r#"{"size":2,"translations":[null]}"#,
        ),
        (
            "translations annex-iii.xml 4",
            "",
            r#"{"size":0,"translations":[]}"#,
        ),
        (
            "check annex-iii.xml",
            "verdict accepted\ntotal 11\nskipped 1\nfeatures 23\njudged 1\nunjudged 1\n",
            r#"{"verdict":"accepted","total":11,"skipped":1,"features":23,"judged":1,"unjudged":1}"#,
        ),
    ];
    for (line, lines, json) in cases {
        assert_eq!(said(run(line)), (lines.into(), String::new(), 0), "{line}");
        let json = (format!("{json}\n"), String::new(), 0);
        assert_eq!(said(run(&format!("{line} --json"))), json, "{line}");
    }
}

/// The index of a specimen, in a file of this test's own.
fn index_of(specimen: &str, name: &str) -> String {
    let output = run(&format!("index {specimen}"));
    assert_eq!(
        (output.stderr.as_slice(), output.status.code()),
        (&b""[..], Some(0))
    );
    let file = own_file(name);
    fs::write(&file, output.stdout).unwrap();
    file.into_os_string().into_string().unwrap()
}

const QUESTIONS: [&str; 5] = [
    "sequence F 3",
    "feature F 3 2",
    "qualifier F 3 2 1",
    "translation F 3 2",
    "translations F 3",
];

#[test]
fn with_its_index_every_answer_is_the_same() {
    let index = index_of("annex-iii.xml", "annex-iii.idx");
    let more = ["sequence F 7", "feature F 0 1", "qualifier F 3 2 3"];
    for question in QUESTIONS.iter().chain(&more) {
        for json in ["", " --json"] {
            let line = question.replace('F', "annex-iii.xml") + json;
            let with_index = format!("--index {index} {line}");
            assert_eq!(said(run(&with_index)), said(run(&line)), "{line}");
        }
    }

    let check = format!("check annex-iii.xml --index {index}");
    let (out, error, code) = said(run(&check));
    assert!(out.ends_with("\nunjudged 1\nindex accepted\n"), "{out}");
    assert_eq!((error.as_str(), code), ("", 0));
    let (out, _, _) = said(run(&format!("{check} --json")));
    assert!(
        out.ends_with(",\"unjudged\":1,\"index\":\"accepted\"}\n"),
        "{out}"
    );
    let (page, _, _) = said(run("show annex-iii.xml"));
    let (indexed, error, code) = said(run(&format!("show annex-iii.xml --index {index}")));
    assert_eq!(
        indexed.replace("the index beside it is its own\n", ""),
        page
    );
    assert_eq!((error.as_str(), code, indexed == page), ("", 0, false));

    let bytes = fs::read(&index).unwrap();
    let (out, _, code) = said(run_with_input("check annex-iii.xml --index -", &bytes));
    assert!(code == 0 && out.ends_with("\nindex accepted\n"), "{out}");
}

#[test]
fn another_index_is_refused_and_told_of() {
    let index = index_of("annex-iii.xml", "edited.idx");
    let mut bytes = fs::read(&index).unwrap();
    bytes[148] = 2;
    fs::write(&index, bytes).unwrap();
    let words = "the index isn't the one of this listing";
    let explanation = "the kind of sequence 3: the index has 2, the listing gives 1";

    let no_answer = ["check F", "sequence F 0", "translation F 3 1"];
    for question in QUESTIONS.iter().chain(&no_answer) {
        let line = format!("--index {index} {}", question.replace('F', "annex-iii.xml"));
        let (out, error, code) = said(run(&line));
        assert_eq!(
            (out.as_str(), code),
            ("index refused\nrule 50\nplace 148\n", 1),
            "{line}"
        );
        assert_eq!(
            error,
            format!("{index}: rule 50: {words}: {explanation}\n"),
            "{line}"
        );
        let (out, error, code) = said(run(&format!("{line} --json")));
        let json = format!(
            r#"{{"index":"refused","rule":50,"place":148,"words":"{words}","explanation":"{explanation}"}}"#
        );
        assert_eq!(
            (out, error, code),
            (format!("{json}\n"), String::new(), 1),
            "{line}"
        );
    }
    let (out, error, code) = said(run(&format!("show annex-iii.xml --index {index}")));
    let page =
        format!("{index}: refused\nrule 50: {words}\nbyte 148 of the index:\n\n{explanation}\n");
    assert_eq!((out, error, code), (page, String::new(), 1));

    // The listing is judged first.
    let line = "check 02-1-exonn.xml";
    let with_index = format!("{line} --index {index}");
    assert_eq!(said(run(&with_index)), said(run(line)));
}

#[test]
fn a_refused_listing_has_no_index() {
    let file = "02-1-exonn.xml";
    let (out, error, code) = said(run(&format!("index {file}")));
    assert_eq!((out.as_str(), code), ("", 1));
    let words = "rule 40: unknown feature key: `exonn` isn't a key of nucleotides; nearest: exon";
    assert_eq!(error, format!("{file}:49:28: {words}\n"));
}

#[test]
fn a_question_without_an_answer_is_refused() {
    let cases = [
        ("sequence annex-iii.xml 0", 30, "no such sequence"),
        ("translations annex-iii.xml 12", 30, "no such sequence"),
        (
            "sequence annex-iii.xml 18446744073709551615",
            30,
            "no such sequence",
        ),
        ("show annex-iii.xml --from 0", 30, "no such sequence"),
        (
            "show annex-iii.xml --from 12 --json",
            30,
            "no such sequence",
        ),
        ("sequence annex-iii.xml 7", 31, "the sequence is skipped"),
        ("feature annex-iii.xml 3 3", 32, "no such feature"),
        ("qualifier annex-iii.xml 3 2 3", 33, "no such qualifier"),
        (
            "translation annex-iii.xml 3 1",
            35,
            "not a CDS of DNA or RNA",
        ),
        ("translation annex-iii.xml 10 2", 36, "the CDS is unjudged"),
        (
            "translation 003-annex-i-cds-qualifiers.xml 2 2",
            37,
            "a stop stands inside the CDS",
        ),
    ];
    for (line, rule, words) in cases {
        let (out, error, code) = said(run(line));
        assert_eq!(code, 1, "{line}");
        if line.ends_with("--json") {
            let json =
                format!(r#"{{"answer":"refused","rule":{rule},"place":0,"words":"{words}"}}"#);
            assert_eq!((out, error), (format!("{json}\n"), String::new()), "{line}");
        } else {
            assert_eq!(
                out,
                format!("answer refused\nrule {rule}\nplace 0\n"),
                "{line}"
            );
            let file = line.split(' ').nth(1).unwrap();
            let told = format!("{file}: rule {rule}: {words}\n");
            assert_eq!(error, told, "{line}");
        }
    }
}

#[test]
fn a_refusal_is_told_in_words_and_with_its_line() {
    let words = "SequenceTotalQuantity isn't a number equal to the count of SequenceData";
    let file = "002-p10-total-without-skipped.xml";
    let (out, error, code) = said(run(&format!("feature {file} 1 1")));
    assert_eq!(
        (out.as_str(), code),
        ("verdict refused\nrule 14\nplace 434\n", 1)
    );
    assert_eq!(error, format!("{file}:7:26: rule 14: {words}\n"));

    let (out, error, code) = said(run(&format!("show {file}")));
    let page = format!(
        "{file}: refused\nrule 14: {words}\nbyte 434, line 7, column 26:\n\n      \
         <SequenceTotalQuantity>2</SequenceTotalQuantity>\n{:29}^\n",
        ""
    );
    assert_eq!((out, error, code), (page, String::new(), 1));

    let (out, _, code) = said(run(&format!("show {file} --json")));
    let json = format!(
        r#"{{"verdict":"refused","rule":14,"place":434,"words":"{words}","line":7,"column":26,"stretch":"2</SequenceTotalQuantity>"}}"#
    );
    assert_eq!((out, code), (format!("{json}\n"), 1));

    let (out, _, code) = said(run("show -"));
    assert!(
        out.contains("byte 0, line 1, column 1") && out.contains("ends there"),
        "{out}"
    );
    assert_eq!(code, 1);
}

#[test]
fn a_refusal_by_the_vocabulary_is_explained() {
    let (out, error, code) = said(run("show 02-1-exonn.xml"));
    let page = "02-1-exonn.xml: refused
rule 40: unknown feature key
byte 2120, line 49, column 28:

              <INSDFeature_key>exonn</INSDFeature_key>
                               ^

`exonn` isn't a key of nucleotides; nearest: exon
";
    assert_eq!((out.as_str(), error.as_str(), code), (page, "", 1));

    let file = "02-1-amino-gene.xml";
    let (_, error, _) = said(run(&format!("check {file}")));
    let words = "rule 41: qualifier not allowed at its feature key";
    let explanation = "`CHAIN` doesn't allow `gene`; allowed: note";
    assert_eq!(error, format!("{file}:37:35: {words}: {explanation}\n"));

    let (out, _, _) = said(run("check 02-1-modified-base-unnamed.xml --json"));
    let end = r#","explanation":"`modified_base` lacks: mod_base"}"#;
    assert!(out.ends_with(&format!("{end}\n")), "{out}");
}

/// A listing with DNA of 40,000 residues, one of them, of this number, written so.
fn forty_thousand(number: usize, written: &str) -> Vec<u8> {
    let listing = fs::read_to_string(format!("{SPECIMENS}/002-p14-uracil-as-u.xml")).unwrap();
    let residues = "acgt".repeat(10_000);
    let residues = [&residues[..number - 1], written, &residues[number..]].concat();
    listing
        .replace(">RNA<", ">DNA<")
        .replace(">20<", ">40000<")
        .replace("1..20", "1..40000")
        .replace("augaaauuaaaacauaaaag", &residues)
        .into()
}

#[test]
fn of_forty_thousand_residues_the_bad_one_is_shown() {
    let listing = forty_thousand(31_042, "u");
    let words = "rule 18: a residue is outside the kind's symbols";
    let explanation =
        "residue 31042 of 40000 is `u`; the symbols of DNA are acgtmrwsykvhdbn, in lower case";

    let (out, error, code) = said(run_with_input("show -", &listing));
    let page = format!(
        "standard input: refused
{words}
byte 32380, line 29, column 31066:

    ..cgtacgtacgtacgtacgtacgtacgtacgtacgtacgtacgtacgtaugtacgtacgtacgtacgtacgtacgtacgtacgtacgtacgtacgta..
                                                      ^

{explanation}
"
    );
    assert_eq!((out, error, code), (page, String::new(), 1));

    let (_, error, _) = said(run_with_input("check -", &listing));
    assert_eq!(
        error,
        format!("standard input:29:31066: {words}: {explanation}\n")
    );

    let (out, _, _) = said(run_with_input("check - --json", &listing));
    let stretch = format!("u{}gta", "gtac".repeat(11));
    let end = format!(r#""stretch":"{stretch}","explanation":"{explanation}"}}"#);
    assert!(out.ends_with(&format!("{end}\n")), "{out}");
}

#[test]
fn the_mark_stands_below_the_residue() {
    let cut = format!("..{}", "tacg".repeat(12));
    let tag = "      <INSDSeq_sequence>";
    for (number, written, told, before) in [
        (1, "A", "`A`", tag.to_string()),
        (3, " ", "a blank", format!("{tag}ac")),
        (20_000, "&amp;", "`&`, written `&amp;`", cut.clone()),
        (40_000, "x", "`x`", cut),
    ] {
        let (out, _, _) = said(run_with_input("show -", &forty_thousand(number, written)));
        let lines: Vec<_> = out.lines().collect();
        let shown = format!("    {before}{written}");
        assert!(lines[4].starts_with(&shown), "{out}");
        assert!(lines[4].len() < 120, "{out}");
        assert_eq!(lines[5].find('^'), Some(4 + before.len()), "{out}");
        let says = format!("residue {number} of 40000 is {told}; the symbols of DNA are ");
        assert!(lines[7].starts_with(&says), "{out}");
    }
}

#[test]
fn the_page_shows_everything() {
    let (out, error, code) = said(run("show annex-iii.xml"));
    assert_eq!((error.as_str(), code), ("", 0));
    let head = "annex-iii.xml: accepted\nsequences 11, of them skipped 1; features 23\n\
                coding sequences judged 1, unjudged 1\n\nsequence 1: DNA, 133 residues\n";
    assert!(out.starts_with(head), "{out}");
    assert_eq!(out.matches("\nsequence ").count(), 11);
    assert_eq!(out.matches("\n  feature ").count(), 23);
    let third = "
sequence 3: DNA, 62 residues
       1 tgatgctcgc acctgactgt cccttcgacc ccacacgcat ttatagctcc agcctgtgct
      61 ag
  feature 1: source  1..62
    spans 1 to 62
    /organism=\"Homo sapiens\"
    /mol_type=\"genomic DNA\"
  feature 2: CDS  3..62
    spans 3 to 62
    translation MLAPDCPFDPTRIYSSSLC
    /translation=\"MLAPDCPFDPTRIYSSSLC\"
    /protein_id=\"4\"

sequence 4: AA, 19 residues
";
    assert!(out.contains(third), "{out}");
    assert!(out.contains("\nsequence 7: skipped\n"), "{out}");
    assert!(
        out.contains("    translation refused with 36: the CDS is unjudged\n"),
        "{out}"
    );

    let (out, _, _) = said(run("show annex-iii.xml --from 7 --limit 1"));
    let tail = "\n\nsequence 7: skipped\n\nNot shown: sequences 8 to 11.\nGo on with --from 8\n";
    assert!(out.ends_with(tail), "{out}");
    let (out, _, _) = said(run("show annex-iii.xml --from 7 --limit 1 --json"));
    let tail =
        "\"sequences\":[{\"sequence\":7,\"skipped\":true}],\"next\":8,\"stopped_amid\":null}\n";
    assert!(out.ends_with(tail), "{out}");
}

#[test]
fn long_texts_are_shortened_on_the_page_only() {
    let line = "show 002-p88-p90-coding-sequences.xml --from 2 --limit 1";
    let (page, _, _) = said(run(line));
    let shortened = |line: &str| line.contains("MLVHLERTTIMF") && line.ends_with(".. (169 bytes)");
    assert!(page.lines().any(shortened), "{page}");
    assert!(page.contains("\n         ..\n"), "{page}");
    assert!(page.lines().all(|line| line.len() < 160), "{page}");
    let (json, _, _) = said(run(&format!("{line} --json")));
    assert!(!json.contains(".. ("), "{json}");
}

#[test]
fn misuse_has_status_2_and_says_what() {
    let cases = [
        ("check no-such.xml", "there is no file no-such.xml"),
        ("check .", ". is a folder, not a file"),
        (
            "sequence annex-iii.xml two",
            "K must be a number, and \"two\" is none",
        ),
        (
            "feature annex-iii.xml 1",
            "usage: dreichnook feature FILE K J",
        ),
        ("look annex-iii.xml", "there is no command look"),
        (
            "spans annex-iii.xml 3 2",
            "`spans` is now part of `feature`: dreichnook feature FILE K J",
        ),
        ("check annex-iii.xml --jason", "there is no option --jason"),
        ("index no-such.xml", "there is no file no-such.xml"),
        (
            "check annex-iii.xml --index no-such.idx",
            "there is no file no-such.idx",
        ),
    ];
    for (line, says) in cases {
        let (out, error, code) = said(run(line));
        assert_eq!((out.as_str(), code), ("", 2), "{line}");
        assert!(
            error.starts_with(&format!("dreichnook: {says}\n")),
            "{line}: {error}"
        );
    }
    let (out, error, code) = said(command(&[]).output().unwrap());
    assert_eq!((out.as_str(), code), ("", 2));
    assert!(error.contains("--help"), "{error}");
}

#[test]
fn help_and_version() {
    let (out, error, code) = said(run("--help"));
    assert_eq!((error.as_str(), code), ("", 0));
    for name in [
        "check",
        "show",
        "sequence",
        "feature",
        "qualifier",
        "translation",
        "translations",
        "index",
    ] {
        assert!(out.contains(&format!("  dreichnook {name} FILE")), "{name}");
    }
    assert!(!out.contains("dreichnook spans"));
    assert!(said(run("--version")).0.starts_with("dreichnook 0.1.0"));
}

#[test]
fn a_huge_file_costs_no_more_than_the_limit() {
    let file = own_file("huge");
    // A hole: nothing of it is on the disk.
    File::create(&file).unwrap().set_len(1 << 40).unwrap();
    let output = command(&["check", file.to_str().unwrap()])
        .output()
        .unwrap();
    fs::remove_file(&file).unwrap();
    let (out, error, code) = said(output);
    assert_eq!(
        (out.as_str(), code),
        ("verdict refused\nrule 1\nplace 0\n", 1)
    );
    assert!(
        error.ends_with(": rule 1: more than 16,777,216 bytes\n"),
        "{error}"
    );

    let (out, _, code) = said(run_with_input("show -", &vec![b' '; 17 << 20]));
    let page = "standard input: refused\nrule 1: more than 16,777,216 bytes\n";
    assert_eq!((out.as_str(), code), (page, 1));
}

#[test]
fn a_closed_pipe_is_no_trouble() {
    let bytes = fs::read(format!("{SPECIMENS}/annex-iii.xml")).unwrap();
    let mut child = piped(&["show", "-"]);
    drop(child.stdout.take());
    child.stdin.take().unwrap().write_all(&bytes).unwrap();
    let output = child.wait_with_output().unwrap();
    assert_eq!(
        (output.stderr.as_slice(), output.status.code()),
        (&b""[..], Some(0))
    );
}
