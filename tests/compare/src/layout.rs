//! `compare layout`: rules 1 and 2, verdict and place.

use crate::report::{Comparison, Input};
use crate::{large, mutants, proved};
use std::fs;
use std::path::Path;

/// The specimen that has every element and attribute; it is changed at each of its places.
const SWEPT: &str = "004-optional-parts.xml";

/// Compares on so many generated listings, so many mutants, and all that doesn't depend on the count.
pub fn run(count: u64, seed: u64, root: &Path) -> Result<bool, String> {
    let specimens = specimens(&root.join("tests/specimens"))?;
    let swept = specimens
        .iter()
        .find(|(name, _)| name == SWEPT)
        .ok_or_else(|| format!("no specimen {SWEPT}"))?;
    let folder = root.join("target/compare");
    let mut comparison = Comparison::new(proved::layout, referee::layout, Some(folder));

    comparison.kind("generated", generated(count, seed));
    comparison.kind(
        "mutants",
        (0..count).map(|number| mutants::mutant(seed, number)),
    );
    comparison.kind(
        "one change at each place of a specimen",
        mutants::sweep(&swept.0, &swept.1),
    );
    comparison.kind("of the greatest size, and one byte more", large_inputs());
    comparison.kind("specimens", specimen_inputs(specimens));
    Ok(comparison.count.close("layout"))
}

/// So many cases of the referee's generator.
pub fn generated(count: u64, seed: u64) -> impl Iterator<Item = Input> {
    (0..count).map(move |number| {
        let case = referee::generate::case(seed, number);
        Input {
            name: format!("referee::generate::case({seed}, {number}), {}", case.name),
            bytes: case.bytes,
        }
    })
}

/// The referee's hand-made listings, 01's sample sheet among them.
pub fn hand_made() -> impl Iterator<Item = Input> {
    referee::hand::listings()
        .into_iter()
        .map(|(name, bytes)| Input {
            name: format!("referee::hand::listings(), {name}"),
            bytes,
        })
}

/// The specimens as inputs.
pub fn specimen_inputs(specimens: Vec<(String, Vec<u8>)>) -> impl Iterator<Item = Input> {
    specimens.into_iter().map(|(name, bytes)| Input {
        name: format!("tests/specimens/{name}"),
        bytes,
    })
}

/// The mixes and traps of the greatest size, and the mixes with one byte more.
pub fn large_inputs() -> impl Iterator<Item = Input> {
    large::inputs(&large::MIXES, large::LONGEST)
        .chain(large::inputs(&large::TRAPS, large::LONGEST))
        .chain(large::inputs(&large::MIXES, large::LONGEST + 1))
}

/// Every specimen with its name, in order.
pub fn specimens(folder: &Path) -> Result<Vec<(String, Vec<u8>)>, String> {
    let failed = |error| format!("{}: {error}", folder.display());
    let mut found = Vec::new();
    for entry in fs::read_dir(folder).map_err(failed)? {
        let entry = entry.map_err(failed)?;
        let name = entry.file_name().to_string_lossy().into_owned();
        if name.ends_with(".xml") {
            found.push((name, fs::read(entry.path()).map_err(failed)?));
        }
    }
    found.sort();
    if found.is_empty() {
        return Err(format!("{}: no specimen", folder.display()));
    }
    Ok(found)
}

/// The repository.
#[cfg(test)]
pub fn root() -> &'static Path {
    Path::new(concat!(env!("CARGO_MANIFEST_DIR"), "/../.."))
}

#[cfg(test)]
mod tests {
    use super::*;
    use referee::Refusal;

    #[test]
    fn mutants_fail_deep_inside() {
        let mut comparison = Comparison::new(referee::layout, referee::layout, None);
        let tally = comparison.kind("test", (0..1000).map(|number| mutants::mutant(1, number)));
        assert!(tally.wrong_late > 500, "{tally:?}");
        assert!(tally.wrong_early > 100, "{tally:?}");
        assert!(tally.laid_out > 50, "{tally:?}");
    }

    /// How many mutants tell the referee from a reader that errs.
    fn found(error: impl Fn(&[u8], Refusal) -> Result<(), Refusal>) -> usize {
        let wrong = |input: &[u8]| referee::layout(input).or_else(|refusal| error(input, refusal));
        let mut comparison = Comparison::new(wrong, referee::layout, None);
        comparison.kind("test", (0..1000).map(|number| mutants::mutant(1, number)));
        comparison.count.differ
    }

    #[test]
    fn mutants_find_errors_of_a_reader() {
        // Accepts all.
        assert!(found(|_, _| Ok(())) > 500);
        // Takes the end of the input for the place.
        assert!(
            found(|input, refusal| Err(Refusal {
                place: input.len(),
                ..refusal
            })) > 500
        );
        // Takes the last `<` before the place for the place.
        let last_tag = |input: &[u8], refusal: Refusal| {
            let before = &input[..refusal.place];
            let place = before.iter().rposition(|&byte| byte == b'<');
            Err(Refusal {
                place: place.unwrap_or(0),
                ..refusal
            })
        };
        assert!(found(last_tag) > 500);
        // Knows no such error.
        assert_eq!(found(|_, refusal| Err(refusal)), 0);
    }

    #[test]
    fn the_specimens_are_there() {
        let specimens = specimens(&root().join("tests/specimens")).unwrap();
        let (_, swept) = specimens.iter().find(|(name, _)| name == SWEPT).unwrap();
        assert_eq!(referee::layout(swept), Ok(()));
        assert!(specimens.len() > 20);
    }

    #[test]
    fn the_proved_reader_agrees() {
        assert_eq!(run(200, 1, root()), Ok(true));
    }
}
