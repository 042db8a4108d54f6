//! `compare vocabulary`: rules 40 to 42 for every key with every name of either kind, and for what is nearly one of them.

use crate::check::{rng, Check};
use crate::report::Input;
use referee::generate::plain::{feature, listing, qualifier, sequence, source};
use referee::generate::Rng;
use referee::vocabulary::{keys, known, qualifiers, spellings, Key};
use referee::Kind;
use std::collections::BTreeSet;
use std::path::Path;

const KINDS: [Kind; 3] = [Kind::Dna, Kind::Rna, Kind::Aa];

/// What no kind has.
const UNKNOWN: [&str; 6] = ["", "exonn", "Source", "Note", "misc", "3UTR"];

/// The verdicts that must be met: accepted, and the three rules.
const VERDICTS: [u32; 4] = [0, 40, 41, 42];

/// Compares all that doesn't depend on the count, and so many generated feature tables.
pub fn run(count: u64, seed: u64, root: &Path) -> Result<bool, String> {
    // The DTD has no vocabulary, so xmllint isn't asked.
    let mut check = Check::of_archive("vocabulary", VERDICTS.into_iter(), None, root);
    check.kind("every key with every name", pairs())?;
    check.kind("source with two names", sources())?;
    check.kind("near misses", near_misses())?;
    check.kind("generated", generated(count, seed))?;
    check.close()
}

/// These names in every spelling, and unknown ones.
fn with_spellings(names: impl Iterator<Item = &'static str>) -> Vec<&'static str> {
    let spelled = names.flat_map(|name| spellings(Kind::Aa, name));
    let all: BTreeSet<&str> = spelled.chain(UNKNOWN).collect();
    all.into_iter().collect()
}

/// Every key of either kind, and unknown ones.
fn all_keys() -> Vec<&'static str> {
    let both = keys(Kind::Dna).iter().chain(keys(Kind::Aa));
    with_spellings(both.map(|key| key.name))
}

/// Every name of either kind, and unknown ones.
fn all_names() -> Vec<&'static str> {
    let both = qualifiers(Kind::Dna).iter().chain(qualifiers(Kind::Aa));
    with_spellings(both.copied())
}

/// The names that a key written so requires, in upper case where there is such a spelling, as rule 22 wants them.
fn required(kind: Kind, text: &str) -> Vec<&'static str> {
    let names = known(kind, text).into_iter().flat_map(Key::required);
    names
        .filter_map(|name| spellings(kind, name).last())
        .collect()
}

/// Each key in each kind: alone, with each name, and with each name beside those that it requires.
fn pairs() -> impl Iterator<Item = Input> {
    let names = all_names();
    let all = KINDS
        .into_iter()
        .flat_map(|kind| all_keys().into_iter().map(move |key| (kind, key)));
    all.flat_map(move |(kind, key)| {
        let required = required(kind, key);
        let mut inputs = vec![input(kind, key, &[])];
        for &name in &names {
            inputs.push(input(kind, key, &[name]));
            if !required.is_empty() && !required.contains(&name) {
                inputs.push(beside(kind, key, name));
            }
        }
        inputs
    })
}

/// Both spellings of the source, with any two of its names and some others.
fn sources() -> impl Iterator<Item = Input> {
    let names = with_spellings(["organism", "mol_type", "note", "gene"].into_iter());
    let all = KINDS
        .into_iter()
        .flat_map(|kind| ["source", "SOURCE"].map(|key| (kind, key)));
    all.flat_map(move |(kind, key)| {
        let two = names
            .iter()
            .flat_map(|&a| names.iter().map(move |&b| [a, b]));
        let inputs: Vec<Input> = two.map(|names| input(kind, key, &names)).collect();
        inputs
    })
}

/// Each key with a letter changed, and each name at the first key that allows it.
fn near_misses() -> impl Iterator<Item = Input> {
    [Kind::Dna, Kind::Aa].into_iter().flat_map(|kind| {
        let misspelled_keys = keys(kind)
            .iter()
            .flat_map(move |key| spellings(kind, key.name))
            .flat_map(near)
            .map(move |key| input(kind, &key, &[]));
        let misspelled_names = qualifiers(kind).iter().flat_map(move |&name| {
            let mut keys = keys(kind).iter();
            let key = keys.find(|key| key.allowed().any(|allowed| allowed == name));
            let key = key.map_or("", |key| key.name);
            let near = spellings(kind, name).flat_map(near);
            near.map(move |name| beside(kind, key, &name))
        });
        misspelled_keys.chain(misspelled_names)
    })
}

/// The text with a letter dropped, doubled or of the other case, and with something before or behind it.
fn near(text: &str) -> Vec<String> {
    let mut near = Vec::new();
    for (at, letter) in text.char_indices() {
        let (before, after) = (&text[..at], &text[at + 1..]);
        let other_case = if letter.is_lowercase() {
            letter.to_ascii_uppercase()
        } else {
            letter.to_ascii_lowercase()
        };
        near.extend([
            format!("{before}{after}"),
            format!("{before}{letter}{letter}{after}"),
            format!("{before}{other_case}{after}"),
        ]);
    }
    for sign in ["s", "_", " ", "&", "'"] {
        near.extend([format!("{text}{sign}"), format!("{sign}{text}")]);
    }
    // A sign that is no letter has no other case.
    near.retain(|other| other != text);
    near
}

/// So many sequences with several features each, most of which keep the rules.
fn generated(count: u64, seed: u64) -> impl Iterator<Item = Input> {
    let (any_key, any_name) = (all_keys(), all_names());
    (0..count).map(move |number| {
        let rng = &mut rng(seed, number);
        let kind = *rng.pick(&KINDS);
        let own: Vec<&str> = keys(kind).iter().map(|key| key.name).collect();
        let mut table = source(moltype(kind), LENGTH);
        for _ in 0..rng.between(1, 8) {
            let key = mostly(rng, &own, &any_key);
            // A second source would break rule 21, and hide all the others.
            if key != source_key(kind) {
                table += &feature(key, "1", &named(&some_names(rng, kind, key, &any_name)));
            }
        }
        Input {
            name: format!("feature table {number} of seed {seed}"),
            bytes: one_sequence(kind, &table),
        }
    })
}

/// What the key requires, or nearly all, and some names that it mostly allows.
fn some_names(
    rng: &mut Rng,
    kind: Kind,
    key: &str,
    any_name: &[&'static str],
) -> Vec<&'static str> {
    let mut names = required(kind, key);
    names.retain(|_| !rng.chance(5));
    let allowed = known(kind, key).into_iter();
    let allowed: Vec<&str> = allowed.flat_map(|key| key.spelled(kind)).collect();
    for _ in 0..rng.below(6) {
        names.push(mostly(rng, &allowed, any_name));
    }
    rng.shuffle(&mut names);
    names
}

/// Nearly always one of those that fit, if there are any.
fn mostly(rng: &mut Rng, fitting: &[&'static str], all: &[&'static str]) -> &'static str {
    let names = if fitting.is_empty() || rng.chance(3) {
        all
    } else {
        fitting
    };
    names[rng.below(names.len())]
}

fn moltype(kind: Kind) -> &'static str {
    match kind {
        Kind::Dna => "DNA",
        Kind::Rna => "RNA",
        Kind::Aa => "AA",
    }
}

/// The key of which rules 21 to 23 want exactly one.
fn source_key(kind: Kind) -> &'static str {
    match kind {
        Kind::Dna | Kind::Rna => "source",
        Kind::Aa => "SOURCE",
    }
}

/// How many residues each sequence has.
const LENGTH: usize = 12;

/// A listing of one sequence with these features.
fn one_sequence(kind: Kind, table: &str) -> Vec<u8> {
    let residues = match kind {
        Kind::Dna | Kind::Rna => "atgaaatgctaa",
        Kind::Aa => "MKCAMKCAMKCA",
    };
    let sequence = sequence(moltype(kind), table, residues);
    listing("", &[sequence]).into_bytes()
}

/// Qualifiers of these names. A CDS of one residue has an empty translation, and its codon_start may be 1.
fn named(names: &[&str]) -> String {
    let value = |name| if name == "translation" { "" } else { "1" };
    names
        .iter()
        .map(|&name| qualifier(name, value(name)))
        .collect()
}

/// A listing with a feature of this key and these names; the source beside it, unless it is the source.
fn input(kind: Kind, key: &str, names: &[&str]) -> Input {
    let qualifiers = named(names);
    let table = if key == source_key(kind) {
        feature(key, &format!("1..{LENGTH}"), &qualifiers)
    } else {
        source(moltype(kind), LENGTH) + &feature(key, "1", &qualifiers)
    };
    Input {
        name: format!("{} with {key:?} and {names:?}", moltype(kind)),
        bytes: one_sequence(kind, &table),
    }
}

/// A listing with a feature of this key, all that it requires, and this name.
fn beside(kind: Kind, key: &str, name: &str) -> Input {
    let mut names: Vec<&str> = required(kind, key);
    names.push(name);
    input(kind, key, &names)
}

#[cfg(test)]
mod tests {
    use super::*;
    use crate::check::judged;
    use crate::layout::root;

    fn rule(input: &Input) -> u32 {
        judged(&input.bytes).err().map_or(0, |refusal| refusal.rule)
    }

    /// No other rule is broken at or before the name, so every cell of the tables shows.
    #[test]
    fn each_pair_shows() {
        for kind in KINDS {
            for key in keys(kind).iter().flat_map(|key| spellings(kind, key.name)) {
                let allowed: Vec<&str> = known(kind, key).unwrap().spelled(kind).collect();
                for name in all_names() {
                    let is_allowed = allowed.contains(&name);
                    let input = if required(kind, key).contains(&name) {
                        input(kind, key, &required(kind, key))
                    } else {
                        beside(kind, key, name)
                    };
                    assert_eq!(
                        rule(&input),
                        if is_allowed { 0 } else { 41 },
                        "{}",
                        input.name
                    );
                }
            }
        }
    }

    #[test]
    fn each_required_name_shows() {
        for kind in KINDS {
            for key in keys(kind) {
                let expected = match required(kind, key.name).is_empty() {
                    true => 0,
                    // The two are broken at one place.
                    false if key.name == source_key(kind) => 22,
                    false => 42,
                };
                let input = input(kind, key.name, &[]);
                assert_eq!(rule(&input), expected, "{}", input.name);
            }
        }
    }

    #[test]
    fn each_unknown_key_shows() {
        for kind in KINDS {
            for key in all_keys()
                .into_iter()
                .filter(|key| known(kind, key).is_none())
            {
                assert_eq!(rule(&input(kind, key, &["note"])), 40, "{kind:?} {key}");
            }
        }
    }

    #[test]
    fn near_misses_are_nearly_all_refused() {
        let rules: Vec<u32> = near_misses().map(|input| rule(&input)).collect();
        let refused = rules.iter().filter(|rule| [40, 41].contains(rule)).count();
        assert!(
            refused * 100 > rules.len() * 99,
            "{refused} of {}",
            rules.len()
        );
    }

    #[test]
    fn generated_tables_are_of_every_verdict() {
        let rules: Vec<u32> = generated(1000, 1).map(|input| rule(&input)).collect();
        for (verdict, least) in [(0, 300), (40, 50), (41, 50), (42, 20)] {
            let count = rules.iter().filter(|&&rule| rule == verdict).count();
            assert!(count > least, "{verdict}: {count}");
        }
    }

    #[test]
    fn the_proved_check_agrees() {
        assert_eq!(run(200, 1, root()), Ok(true));
    }
}
