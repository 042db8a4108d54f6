//! Locations: the grammar against an automaton, and all small ones against their parts.

use crate::report::Report;
use referee::automaton::Automaton;
use referee::generate::{location_texts, sentences};
use referee::location::{BEFORE, BEYOND, COMPLEMENT, SITE};
use referee::regex::{choice, literal, one, optional, plus, sequence, star, Regex};
use referee::{location, Operator, Span};

pub fn all(report: &mut Report) {
    let grammar = Automaton::new(&grammar());
    let mut each = |text: &str| is_of_grammar(report, &grammar, text);
    location_texts(&["1", "2", "0"], 5, &mut each);
    sentences(&["1", ",", ")", "join(", "complement("], 8, &mut each);
    sentences(&["12", "..", "^", "<", ">", "0", "x"], 6, &mut each);
    near_misses(report, &grammar);
    for residue_count in 1..=3 {
        small_locations(report, residue_count);
    }
}

/// Document 01's grammar of locations, once more as a regular expression.
fn grammar() -> Regex {
    let digit = |least: u8| one(move |byte| (least..=b'9').contains(&byte));
    let number = || sequence([digit(b'1'), star(digit(b'0'))]);
    let signed = |sign: &str| sequence([literal(sign), number()]);
    let range = sequence([
        optional(literal("<")),
        number(),
        literal(".."),
        optional(literal(">")),
        number(),
    ]);
    let segment = choice([number(), signed("<"), signed(">"), range]);
    let site = sequence([number(), literal("^"), number()]);
    let complement =
        |inner: &Regex| sequence([literal("complement("), inner.clone(), literal(")")]);
    let member = choice([segment.clone(), complement(&segment)]);
    let list = |member: &Regex| {
        sequence([
            choice([literal("join("), literal("order(")]),
            member.clone(),
            plus(sequence([literal(","), member.clone()])),
            literal(")"),
        ])
    };
    choice([
        complement(&segment),
        complement(&site),
        complement(&list(&segment)),
        list(&member),
        segment,
        site,
    ])
}

/// Longer locations, and all that one changed, missing or doubled byte makes of them.
fn near_misses(report: &mut Report, grammar: &Automaton) {
    for text in [
        "join(complement(<1..>20),3,complement(4))",
        "complement(order(1..2,<3,>4,5..>6))",
        "order(1,complement(2..3))",
        "complement(12^13)",
    ] {
        is_of_grammar(report, grammar, text);
        for at in 0..text.len() {
            let (before, after) = text.split_at(at);
            is_of_grammar(report, grammar, &format!("{before}{}", &after[1..]));
            is_of_grammar(report, grammar, &format!("{before}{}{after}", &after[..1]));
            for byte in "01.,^<>()jc \u{7f}".chars() {
                is_of_grammar(report, grammar, &format!("{before}{byte}{}", &after[1..]));
            }
        }
    }
}

fn is_of_grammar(report: &mut Report, grammar: &Automaton, text: &str) {
    let wanted = grammar.run(text.as_bytes()).is_ok();
    let got = location(text.as_bytes(), 12).is_some();
    report.equal(got, wanted, || format!("grammar of {text}"));
}

/// A segment or site with what must come of it.
struct Piece {
    text: String,
    span: Span,
    fits: bool,
    is_lone_partial: bool,
}

/// All segments with positions up to 4 in a sequence of this length.
fn segments(residue_count: u32) -> Vec<Piece> {
    let mut pieces = Vec::new();
    for first in 1..=4 {
        for (sign, marks) in [("", 0), ("<", BEFORE), (">", BEYOND)] {
            pieces.push(Piece {
                text: format!("{sign}{first}"),
                span: span(first, first, marks),
                fits: first <= residue_count,
                is_lone_partial: marks != 0,
            });
        }
        for last in 1..=4 {
            for (before, beyond) in [("", ""), ("<", ""), ("", ">"), ("<", ">")] {
                let marks = before.len() as u32 * BEFORE + beyond.len() as u32 * BEYOND;
                pieces.push(Piece {
                    text: format!("{before}{first}..{beyond}{last}"),
                    span: span(first, last, marks),
                    fits: first <= last && last <= residue_count,
                    is_lone_partial: false,
                });
            }
        }
    }
    pieces
}

fn sites(residue_count: u32) -> Vec<Piece> {
    let pairs = (1..=4).flat_map(|first| (1..=4).map(move |last| (first, last)));
    pairs
        .map(|(first, last)| {
            let is_next = last == first + 1 && last <= residue_count;
            let is_round = first == residue_count && last == 1;
            Piece {
                text: format!("{first}^{last}"),
                span: span(first, last, SITE),
                fits: is_next || is_round,
                is_lone_partial: false,
            }
        })
        .collect()
}

fn span(first: u32, last: u32, marks: u32) -> Span {
    Span { first, last, marks }
}

/// Every location of at most two members.
fn small_locations(report: &mut Report, residue_count: u32) {
    let segments = segments(residue_count);
    let sites = sites(residue_count);
    for piece in segments.iter().chain(&sites) {
        for marks in [0, COMPLEMENT] {
            let text = under(marks, &piece.text);
            expect(
                report,
                residue_count,
                &text,
                Operator::None,
                &[(piece, marks)],
            );
        }
    }
    for (operator, name) in [(Operator::Join, "join"), (Operator::Order, "order")] {
        for one in &segments {
            for two in &segments {
                for (first, second) in [(0, 0), (0, 1), (1, 0), (1, 1)] {
                    let texts = [under(first, &one.text), under(second, &two.text)];
                    let text = format!("{name}({})", texts.join(","));
                    let pieces = [(one, first), (two, second)];
                    expect(report, residue_count, &text, operator, &pieces);
                }
                let text = format!("complement({name}({},{}))", one.text, two.text);
                let pieces = [(two, COMPLEMENT), (one, COMPLEMENT)];
                expect(report, residue_count, &text, operator, &pieces);
            }
        }
    }
}

fn under(marks: u32, text: &str) -> String {
    match marks {
        0 => text.into(),
        _ => format!("complement({text})"),
    }
}

/// The location must consist of these pieces in reading order, with these marks added.
fn expect(
    report: &mut Report,
    residue_count: u32,
    text: &str,
    operator: Operator,
    pieces: &[(&Piece, u32)],
) {
    let holds = location(text.as_bytes(), residue_count).map_or(false, |location| {
        let spans = pieces.iter().map(|&(piece, marks)| Span {
            marks: piece.span.marks + marks,
            ..piece.span
        });
        let fits = pieces.iter().all(|(piece, _)| piece.fits);
        let has_site = pieces.iter().any(|(piece, _)| piece.span.marks & SITE != 0);
        let has_lone_partial = pieces.iter().any(|(piece, _)| piece.is_lone_partial);
        location.operator == operator
            && location.has_complement == pieces.iter().any(|&(_, marks)| marks == COMPLEMENT)
            && location.has_site == has_site
            && location.has_lone_partial == has_lone_partial
            && location.spans == fits.then(|| spans.collect())
    });
    report.check(holds, || format!("location {text} in {residue_count}"));
}
