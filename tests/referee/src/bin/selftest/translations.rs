//! Codon letters and coding texts, against tables that are turned the other way.

use crate::report::Report;
use referee::coding::{complement, Coding};
use referee::generate::damage::{Damage, DAMAGES};
use referee::generate::model::Sequence;
use referee::generate::valid::{rich, CODONS};
use referee::generate::Rng;
use referee::location::{COMPLEMENT, SITE};
use referee::{codon_letter, translate, Span, StopInside};
use std::collections::BTreeSet;

const SYMBOLS: &[u8] = b"acgtmrwsykvhdbn";

/// Each plain base with the symbols that include it.
const INCLUDED_IN: [(u8, &[u8]); 4] = [
    (b'a', b"amrwvhdn"),
    (b'c', b"cmsyvhbn"),
    (b'g', b"grskvdbn"),
    (b't', b"twykhdbn"),
];

fn includes(symbol: u8, base: u8) -> bool {
    INCLUDED_IN
        .iter()
        .any(|&(plain, symbols)| plain == base && symbols.contains(&symbol))
}

/// The codons of the generator's hand-made table, with their letters.
fn listed_codons() -> Vec<(u8, [u8; 3])> {
    let rows = CODONS.iter().flat_map(|&(letter, patterns)| {
        let codons = patterns.split(' ').map(|pattern| pattern.as_bytes());
        codons.map(move |codon| (letter as u8, codon.try_into().expect("three letters")))
    });
    rows.collect()
}

pub fn all(report: &mut Report) {
    let listed = listed_codons();
    let is_plain = |codon: &[u8; 3]| codon.iter().all(|base| b"acgt".contains(base));
    let plain: Vec<_> = listed.iter().filter(|(_, codon)| is_plain(codon)).collect();
    report.equal(plain.len(), 64, || {
        "the generator's table is complete".into()
    });
    for &a in SYMBOLS {
        for &b in SYMBOLS {
            for &c in SYMBOLS {
                let codon = [a, b, c];
                let mut letters: Vec<u8> = plain
                    .iter()
                    .filter(|(_, bases)| (0..3).all(|i| includes(codon[i], bases[i])))
                    .map(|(letter, _)| *letter)
                    .collect();
                letters.sort_unstable();
                letters.dedup();
                let wanted = match letters[..] {
                    [letter] => letter,
                    [b'D', b'N'] => b'B',
                    [b'E', b'Q'] => b'Z',
                    [b'I', b'L'] => b'J',
                    _ => b'X',
                };
                report.equal(codon_letter(codon), wanted, || format!("codon {codon:?}"));
                // The generator has every codon of these.
                let is_listed = !b"BZJ".contains(&wanted) || listed.contains(&(wanted, codon));
                report.check(is_listed, || format!("codon {codon:?} isn't listed"));
            }
        }
    }
    for (letter, codon) in listed {
        report.equal(codon_letter(codon), letter, || {
            format!("listed codon {codon:?}")
        });
    }
    for codon in [b"a-a", b"AAA", b"auu", b"   ", b"aa\xff", b"xtg"] {
        report.equal(codon_letter(*codon), b'X', || {
            format!("foreign codon {codon:?}")
        });
    }
    for &symbol in SYMBOLS {
        for (base, pair) in [(b'a', b't'), (b'c', b'g'), (b'g', b'c'), (b't', b'a')] {
            let holds = includes(symbol, base) == includes(complement(symbol), pair);
            report.check(holds, || format!("complement of {symbol}"));
        }
    }
    coding_texts(report);
    sites(report);
}

/// A site has no residues, whichever way round its positions stand.
fn sites(report: &mut Report) {
    let residues = b"atgaaatgctaa";
    let span = |first, last, marks| Span { first, last, marks };
    for marks in [SITE, SITE | COMPLEMENT] {
        for (first, last) in [(12, 1), (3, 4), (1, 1)] {
            let site = span(first, last, marks);
            let between = vec![span(1, 3, 0), site, span(4, 12, 0)];
            for (spans, wanted) in [(vec![site], ""), (between, "MKC")] {
                let letters: Result<Vec<u8>, _> =
                    Coding::new(residues, spans, 1).letters().collect();
                report.equal(letters, Ok(wanted.into()), || {
                    format!("site {first}^{last}, {wanted:?}")
                });
            }
        }
    }
}

fn coding_texts(report: &mut Report) {
    let texts: [(&str, Result<&str, StopInside>); 16] = [
        ("", Ok("")),
        ("a", Ok("")),
        ("at", Ok("")),
        ("atg", Ok("M")),
        ("atga", Ok("M")),
        ("atgaa", Ok("M")),
        ("atgaaatgctaa", Ok("MKC")),
        ("atgaaatgctaag", Ok("MKC")),
        ("atgaaatgctaagg", Ok("MKC")),
        ("atgaaatgctaaggg", Err(StopInside)),
        ("taa", Ok("")),
        ("taataa", Err(StopInside)),
        ("tratg", Ok("")),
        ("tgrtarnnnytrmgrtga", Err(StopInside)),
        ("tgrnnnytrmgrtga", Ok("XXLR")),
        ("raysarmtttgrtga", Ok("BZJX")),
    ];
    for (text, wanted) in texts {
        let wanted = wanted.map(|letters| letters.as_bytes().to_vec());
        report.equal(translate(text.as_bytes()), wanted, || {
            format!("coding text {text}")
        });
    }
}

/// Damaged translations have the letter of each mixed codon in place of what it may give and of `X`, and the other way round.
pub fn mistakes(report: &mut Report) {
    let rng = &mut Rng::new(8);
    let mut made = BTreeSet::new();
    for _ in 0..1000 {
        for (k, sequence) in rich(rng).sequences.iter().enumerate() {
            for (_, damage) in DAMAGES.iter().filter(|&&(rule, _)| rule == 28) {
                let mut damaged = sequence.clone();
                if let Damage::Sequence(apply) = damage {
                    apply(&mut damaged, k, rng);
                }
                made.extend(exchanged(sequence, &damaged));
            }
        }
    }
    for (mixed, others) in [(b'B', b"NDX"), (b'Z', b"QEX"), (b'J', b"ILX")] {
        for &other in others {
            for pair in [(mixed, other), (other, mixed)] {
                report.check(made.contains(&pair), || {
                    let (right, wrong) = (char::from(pair.0), char::from(pair.1));
                    format!("no damage stores {wrong} for {right}")
                });
            }
        }
    }
}

/// Of the values in which exactly one letter differs, that letter of the one sequence and of the other.
fn exchanged(one: &Sequence, other: &Sequence) -> Vec<(u8, u8)> {
    let features = one.features().iter().zip(other.features());
    let qualifiers =
        features.flat_map(|(one, other)| one.qualifiers().iter().zip(other.qualifiers()));
    let mut exchanged = Vec::new();
    for (one, other) in qualifiers {
        if let (Some(one), Some(other)) = (&one.value, &other.value) {
            let letters = one.bytes().zip(other.bytes());
            let differing: Vec<_> = letters.filter(|(one, other)| one != other).collect();
            if one.len() == other.len() && differing.len() == 1 {
                exchanged.extend(differing);
            }
        }
    }
    exchanged
}
