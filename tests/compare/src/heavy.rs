//! Listings that are heavy to judge: much of what a check could read again and again. Each is at most of the size given.

use crate::large::Make;

/// The kinds, and how each is made.
pub const HEAVY: [(&str, Make); 25] = [
    // Right translations, all of one join of 3,000 members of one residue each.
    ("right-translations", |size| {
        let value = "A".repeat(1_000);
        filled(size, |n| coding(&join(3_000), &translations(&value, n)))
    }),
    // Wrong translations, each in its last letter.
    ("wrong-translations", |size| {
        let value = "A".repeat(139) + "C";
        filled(size, |n| coding(&join(3_000), &translations(&value, n)))
    }),
    // A translation of one letter, of as many residues as half the listing, again and again.
    ("one-letter", |size| {
        let residues = size / 6 * 3;
        let members = vec![format!("1..{residues}"); (size - residues) / 12 - 300].join(",");
        let feature = feature("CDS", &format!("join({members})"), &translations("A", 1));
        listing(&sequence(1, residues, &feature), 1).into_bytes()
    }),
    // The complement of a join with a right translation: it is read from behind. `gct` is `agc` there, a serine.
    ("complemented-join", |size| {
        filled(size, |n| {
            let members = vec!["1..3"; n + 2].join(",");
            let value = "S".repeat(n + 2);
            coding(
                &format!("complement(join({members}))"),
                &translations(&value, 1),
            )
        })
    }),
    ("feature-list", |size| {
        filled(size, |n| one(&feature("gene", "1..9", "").repeat(n)))
    }),
    ("qualifier-list", |size| {
        filled(size, |n| {
            one(&feature("gene", "1..9", &qualifier("note", None).repeat(n)))
        })
    }),
    ("sequence-list", |size| {
        filled(size, |n| {
            let all: String = (1..=n).map(|k| sequence(k, 30, "")).collect();
            listing(&all, n)
        })
    }),
    // What decides whether translations are judged comes after them.
    ("late-codon-start", |size| {
        filled(size, |n| {
            coding(
                "1..3000",
                &(translations("A", n) + &qualifier("codon_start", Some("1"))),
            )
        })
    }),
    ("late-pseudo", |size| {
        filled(size, |n| {
            coding(
                "1..3000",
                &(translations("A", n) + &qualifier("pseudo", None)),
            )
        })
    }),
    // Words that the vocabulary hasn't: some 140,000 keys, some 210,000 names, such as differ from a known one in the last letter only,
    // and one that fills the listing.
    ("unknown-keys", |size| {
        filled(size, |n| one(&feature("exonn", "1..9", "").repeat(n)))
    }),
    ("near-keys", |size| {
        filled(size, |n| {
            one(&feature("misc_differencf", "1..9", "").repeat(n))
        })
    }),
    ("unknown-names", |size| {
        filled(size, |n| {
            one(&feature("gene", "1..9", &qualifier("nota", None).repeat(n)))
        })
    }),
    ("near-names", |size| {
        let names = ["standard_namf", "gene_synonyn", "translatioo", "organisn"];
        let all: String = names.map(|name| qualifier(name, None)).concat();
        filled(size, |n| one(&feature("gene", "1..9", &all.repeat(n))))
    }),
    ("long-key", |size| {
        filled(size, |n| one(&feature(&"e".repeat(n), "1..9", "")))
    }),
    ("long-name", |size| {
        filled(size, |n| {
            one(&feature("gene", "1..9", &qualifier(&"e".repeat(n), None)))
        })
    }),
    // Residues, by the hundred bytes. Such as are all symbols: bases; the ten rarer ones in turn, one of them, one beside a base; acids.
    ("plain-residues", |size| lettered(size, &DNA, "acgt")),
    ("rarer-residues", |size| lettered(size, &DNA, "mrwsykvhdb")),
    ("one-rarer", |size| lettered(size, &DNA, "r")),
    ("alternating-residues", |size| lettered(size, &DNA, "ar")),
    ("amino-residues", |size| {
        lettered(size, &AA, "ACDEFGHIKLMNPQRSTVWY")
    }),
    // And others: a foreign one behind all others, none that is defined, entities only.
    ("late-foreign", |size| {
        filled(size, |n| {
            residues(&DNA, 100 * n, &("g".repeat(100 * n - 1) + "u"))
        })
    }),
    ("undefined-residues", |size| lettered(size, &DNA, "n")),
    ("entity-residues", |size| {
        filled(size, |n| residues(&DNA, 20 * n, &"&amp;".repeat(20 * n)))
    }),
    // Long numbers, as the total and as a position.
    ("digits-in-total", |size| {
        filled(size, |n| {
            listing(&sequence(1, 30, ""), 1).replacen(
                "tity>1<",
                &format!("tity>1{}<", "1".repeat(n)),
                1,
            )
        })
    }),
    ("digits-in-location", |size| {
        filled(size, |n| {
            one(&feature("gene", &("1".to_owned() + &"1".repeat(n)), ""))
        })
    }),
];

/// A listing of nearly this size: so many of what `make` repeats. A count may have more digits than in the trial, so it may take fewer.
fn filled(size: usize, make: impl Fn(usize) -> String) -> Vec<u8> {
    let (none, some) = (make(1).len(), make(1_001).len());
    let each = (some - none + 999) / 1_000;
    let mut count = 1 + size.saturating_sub(none) / each;
    while make(count).len() > size {
        count -= count / 100 + 1;
    }
    make(count).into_bytes()
}

fn join(members: usize) -> String {
    let members: Vec<&str> = ["1", "2", "3"].into_iter().cycle().take(members).collect();
    format!("join({})", members.join(","))
}

fn qualifier(name: &str, value: Option<&str>) -> String {
    let value = value.map_or(String::new(), |value| {
        format!("<INSDQualifier_value>{value}</INSDQualifier_value>")
    });
    format!("<INSDQualifier><INSDQualifier_name>{name}</INSDQualifier_name>{value}</INSDQualifier>")
}

fn translations(value: &str, count: usize) -> String {
    qualifier("translation", Some(value)).repeat(count)
}

fn feature(key: &str, location: &str, qualifiers: &str) -> String {
    format!(
        "<INSDFeature><INSDFeature_key>{key}</INSDFeature_key><INSDFeature_location>{location}</INSDFeature_location>\
         <INSDFeature_quals>{qualifiers}</INSDFeature_quals></INSDFeature>"
    )
}

/// A kind of sequence, and what its source is called, with its qualifiers.
struct Kind {
    moltype: &'static str,
    source: &'static str,
    organism: &'static str,
    mol_type: &'static str,
}

const DNA: Kind = Kind {
    moltype: "DNA",
    source: "source",
    organism: "organism",
    mol_type: "mol_type",
};

const AA: Kind = Kind {
    moltype: "AA",
    source: "SOURCE",
    organism: "ORGANISM",
    mol_type: "MOL_TYPE",
};

/// The sequence number k, of so many residues, a multiple of three: alanine codons.
fn sequence(k: usize, length: usize, features: &str) -> String {
    sequence_of(&DNA, k, length, features, &"gct".repeat(length / 3))
}

/// The sequence number k, whose residues are so many and written so.
fn sequence_of(kind: &Kind, k: usize, length: usize, features: &str, residues: &str) -> String {
    let source = qualifier(kind.organism, Some("x")) + &qualifier(kind.mol_type, Some("y"));
    let source = feature(kind.source, &format!("1..{length}"), &source);
    let moltype = kind.moltype;
    format!(
        "<SequenceData sequenceIDNumber=\"{k}\"><INSDSeq><INSDSeq_length>{length}</INSDSeq_length>\
         <INSDSeq_moltype>{moltype}</INSDSeq_moltype><INSDSeq_division>PAT</INSDSeq_division><INSDSeq_feature-table>{source}\
         {features}</INSDSeq_feature-table><INSDSeq_sequence>{residues}</INSDSeq_sequence></INSDSeq></SequenceData>"
    )
}

fn listing(sequences: &str, total: usize) -> String {
    format!(
        "<?xml version=\"1.0\" encoding=\"UTF-8\"?><!DOCTYPE ST26SequenceListing PUBLIC \
         \"-//WIPO//DTD Sequence Listing 1.2//EN\" \"ST26SequenceListing_V1_2.dtd\"><ST26SequenceListing dtdVersion=\"1_2\">\
         <ApplicantFileReference/><InventionTitle languageCode=\"en\"/><SequenceTotalQuantity>{total}</SequenceTotalQuantity>\
         {sequences}</ST26SequenceListing>"
    )
}

/// A listing of one sequence of 3,000 residues with these features.
fn one(features: &str) -> String {
    listing(&sequence(1, 3_000, features), 1)
}

/// A listing of one sequence without other features.
fn residues(kind: &Kind, length: usize, residues: &str) -> String {
    listing(&sequence_of(kind, 1, length, "", residues), 1)
}

/// The same, filled with these letters in turn; they are as many as go into a hundred.
fn lettered(size: usize, kind: &Kind, letters: &str) -> Vec<u8> {
    filled(size, |n| {
        residues(kind, 100 * n, &letters.repeat(100 / letters.len() * n))
    })
}

fn coding(location: &str, qualifiers: &str) -> String {
    one(&feature("CDS", location, qualifiers))
}

#[cfg(test)]
mod tests {
    use super::*;
    use crate::boundary;

    const SIZE: usize = 60_000;

    #[test]
    fn they_fill_the_size_and_are_judged_as_meant() {
        for (name, make) in HEAVY {
            let bytes = make(SIZE);
            assert!(
                bytes.len() <= SIZE && bytes.len() > SIZE / 5 * 4,
                "{name}: {}",
                bytes.len()
            );
            let rule = match name {
                "wrong-translations" | "one-letter" | "late-codon-start" => 28,
                "digits-in-total" => 14,
                "digits-in-location" => 25,
                "late-foreign" | "entity-residues" => 18,
                "undefined-residues" => 19,
                "unknown-keys" | "near-keys" | "long-key" => 40,
                "unknown-names" | "near-names" | "long-name" => 41,
                _ => 0,
            };
            assert_eq!(rule_of(&bytes), rule, "{name}");
        }
    }

    fn rule_of(bytes: &[u8]) -> u32 {
        match boundary::check(bytes) {
            Ok(_) => 0,
            Err(refusal) => refusal.rule,
        }
    }
}
