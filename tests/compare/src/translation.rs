//! Translations: what the proved code writes into lent room, and what it says of a value, beside the referee.

use crate::check::rng;
use crate::proved;
use crate::report::Count;
use referee::coding::{complement, Coding};
use referee::generate::damage::mistaken_for;
use referee::generate::valid::CODONS;
use referee::generate::Rng;
use referee::location::COMPLEMENT;
use referee::{codon_letter, StopInside};

/// A coding region on its own: the residues of a sequence, the location's text as read, and the codon_start.
#[derive(Debug)]
pub struct Region {
    pub residues: Vec<u8>,
    pub location: Vec<u8>,
    pub codon_start: usize,
}

/// The symbols of DNA and RNA, the plain ones first.
const SYMBOLS: &[u8; 15] = b"acgtmrwsykvhdbn";
const PLAIN: &[u8] = b"acgt";

/// Compares all codons, runs with one ambiguous codon, and `count` generated regions; whether nothing differs.
pub fn run(count: u64, seed: u64) -> Result<bool, String> {
    let ambiguous = &ambiguous_codons();
    let runs = runs(ambiguous, &mut Rng::new(!seed));
    let generated = (0..count).map(|number| generated_region(&mut rng(seed, number), ambiguous));
    let choices = &mut Rng::new(seed);
    let compared = kind("codons", codons(), Count::default(), choices);
    let compared = kind("runs", runs.into_iter(), compared, choices);
    let compared = kind("generated", generated, compared, choices);
    Ok(compared.close("translation"))
}

/// Compares the regions of one kind, and tells what they are.
fn kind(name: &str, regions: impl Iterator<Item = Region>, count: Count, rng: &mut Rng) -> Count {
    let mut tally = Tally {
        count,
        ..Tally::default()
    };
    for region in regions {
        tally.compare(&region, rng);
    }
    tally.tell(name);
    tally.count
}

/// Each codon alone, where a stop is the last, and before another, where a stop is inside; on both strands.
fn codons() -> impl Iterator<Item = Region> {
    let triples = (0..15 * 15 * 15).map(|n| [n / 225, n / 15 % 15, n % 15].map(|i| SYMBOLS[i]));
    triples.flat_map(|codon| {
        let lone = |location: &str| region(codon.to_vec(), location, 1);
        let first = |residues: [&[u8]; 2], location| region(residues.concat(), location, 1);
        [
            lone("1..3"),
            lone("complement(1..3)"),
            first([&codon, b"gcc"], "1..6"),
            first([b"gcc", &codon], "complement(1..6)"),
        ]
    })
}

/// Codons, those of one letter together.
type Codons = Vec<Vec<&'static [u8]>>;

/// The ambiguous ones of the generator's table.
fn ambiguous_codons() -> Codons {
    let is_ambiguous = |codon: &&[u8]| codon.iter().any(|symbol| !PLAIN.contains(symbol));
    let rows = CODONS.iter().map(|(_, codons)| {
        let codons = codons.split(' ').map(str::as_bytes);
        codons.filter(is_ambiguous).collect()
    });
    rows.filter(|row: &Vec<_>| !row.is_empty()).collect()
}

/// Plain codons, fewer than a block, as many, and more, with one ambiguous codon of each letter at each place; on both strands.
fn runs(ambiguous: &Codons, rng: &mut Rng) -> Vec<Region> {
    let mut runs = Vec::new();
    for codons in [1, 2, 63, 64, 65, 128, 129] {
        for (at, row) in (0..codons).flat_map(|at| ambiguous.iter().map(move |row| (at, row))) {
            let codon_start = rng.between(1, 3);
            let residues = codon_start - 1 + 3 * codons + rng.below(3);
            let whole = format!("1..{residues}");
            for location in [turned(&whole), whole] {
                let residues = (0..residues).map(|_| *rng.pick(PLAIN)).collect();
                let mut region = region(residues, &location, codon_start);
                let positions = positions(&region);
                without_stops(&mut region.residues, &positions, rng);
                let codon = *rng.pick(row);
                put(&mut region.residues, &positions[3 * at..], codon);
                runs.push(region);
            }
        }
    }
    runs
}

fn region(residues: Vec<u8>, location: &str, codon_start: usize) -> Region {
    Region {
        residues,
        location: location.into(),
        codon_start,
    }
}

/// The referee's translation.
type Translation = Result<Vec<u8>, StopInside>;

/// What the regions of one kind are, by the referee.
#[derive(Default)]
struct Tally {
    count: Count,
    regions: usize,
    stop_inside: usize,
    /// Of the others: without a letter, and with a last stop dropped.
    empty: usize,
    stop_last: usize,
    /// Of the values: those that are right.
    values: usize,
    right: usize,
}

impl Tally {
    /// Compares the translation into room of several sizes, and several values.
    fn compare(&mut self, region: &Region, rng: &mut Rng) {
        let coding = coding(region);
        let translation: Translation = coding.letters().collect();
        self.add(region, &translation);
        // As far as a stop inside, or all of it.
        let letters: Vec<u8> = coding.letters().map_while(Result::ok).collect();
        let length = letters.len();
        for room in [
            0,
            length.saturating_sub(1),
            length,
            length + rng.between(1, 9),
        ] {
            self.room(region, &translation, room);
        }
        for value in values(&letters, rng) {
            self.value(region, &coding, &value);
        }
    }

    fn add(&mut self, region: &Region, translation: &Translation) {
        self.regions += 1;
        match translation {
            Err(StopInside) => self.stop_inside += 1,
            Ok(letters) => {
                let codons = positions(region).len() / 3;
                self.empty += usize::from(letters.is_empty());
                self.stop_last += usize::from(letters.len() < codons);
            }
        }
    }

    /// Compares the number, the length and every byte of the room afterwards.
    fn room(&mut self, region: &Region, translation: &Translation, size: usize) {
        // No byte of the room is a letter, nor the same as the one before it.
        let room: Vec<u8> = (0..size).map(|i| 128 + (i % 128) as u8).collect();
        let mut after = room.clone();
        let (number, length) = match translation {
            Err(StopInside) => (37, 0),
            Ok(letters) if size < letters.len() => (34, 0),
            Ok(letters) => {
                after[..letters.len()].copy_from_slice(letters);
                (0, letters.len())
            }
        };
        let said = (number, length, after);
        let proved = proved::translation(region, room);
        self.count.case(proved == said, |_| {
            println!("{region:?}, room {size}:\n  referee {said:?}\n  proved {proved:?}");
        });
    }

    fn value(&mut self, region: &Region, coding: &Coding, value: &[u8]) {
        let said = coding.reads_as(value.iter().copied());
        self.values += 1;
        self.right += usize::from(said);
        let proved = proved::is_right(region, value);
        self.count.case(proved == u32::from(said), |_| {
            let value = String::from_utf8_lossy(value);
            println!("{region:?}, value {value:?}:\n  referee {said}\n  proved {proved}");
        });
    }

    fn tell(&self, kind: &str) {
        println!(
            "{kind}: {} regions, {} with a stop inside, {} with a last stop, {} empty; {} values, {} right",
            self.regions, self.stop_inside, self.stop_last, self.empty, self.values, self.right
        );
    }
}

/// The region as the referee reads it.
fn coding(region: &Region) -> Coding<'_> {
    Coding::new(&region.residues, spans(region), region.codon_start)
}

fn spans(region: &Region) -> Vec<referee::Span> {
    let location = referee::location(&region.location, region.residues.len() as u32);
    let spans = location.and_then(|location| location.spans);
    spans.expect("a location that fits its residues")
}

/// The right letters, which aren't right where a stop stands inside, and values that are nearly the same.
fn values(right: &[u8], rng: &mut Rng) -> Vec<Vec<u8>> {
    let more = |letter: u8| [right, &[letter]].concat();
    let mut values = vec![
        right.to_vec(),
        more(b'*'),
        more(*rng.pick(b"AMXm<&")),
        Vec::new(),
    ];
    if let Some((_, but_last)) = right.split_last() {
        values.extend([but_last.to_vec(), right[1..].to_vec()]);
        let mut change = |at: usize, letter: u8| {
            let mut changed = right.to_vec();
            changed[at] = letter;
            values.push(changed);
        };
        let at = rng.below(right.len());
        let mut others = b"AKMX*k&'".to_vec();
        others.retain(|&letter| letter != right[at]);
        change(at, *rng.pick(&others));
        for letter in b'A'..=b'Z' {
            let places: Vec<usize> = (0..right.len()).filter(|&at| right[at] == letter).collect();
            if !places.is_empty() {
                let at = *rng.pick(&places);
                mistaken_for(letter).for_each(|other| change(at, other));
            }
        }
    }
    values
}

/// A region of any judged shape, with a stop inside, a last one or none, as far as its members let it.
fn generated_region(rng: &mut Rng, ambiguous: &Codons) -> Region {
    let longest = *rng.pick(&[8, 30, 120, 1200]);
    let count = rng.between(1, longest);
    let percent = *rng.pick(&[0, 0, 3, 20, 100]);
    let residues = (0..count).map(|_| residue(rng, percent)).collect();
    let location = location(rng, count);
    let mut region = region(residues, &location, rng.between(1, 3));
    let positions = positions(&region);
    put_ambiguous(&mut region.residues, &positions, ambiguous, rng);
    without_stops(&mut region.residues, &positions, rng);
    let stop = rng.pick(&["taa", "tag", "tga", "tar", "tra"]).as_bytes();
    let codons: Vec<&[Position]> = positions.chunks_exact(3).collect();
    let stopped = match rng.below(10) {
        0..=1 if !codons.is_empty() => Some(*rng.pick(&codons)),
        2..=5 => codons.last().copied(),
        _ => None,
    };
    if let Some(codon) = stopped {
        put(&mut region.residues, codon, stop);
    }
    region
}

fn residue(rng: &mut Rng, percent: usize) -> u8 {
    *if rng.chance(percent) {
        rng.pick(SYMBOLS)
    } else {
        rng.pick(PLAIN)
    }
}

/// A location that leaves a CDS judged: no order, no site, no lone `<x` or `>x`.
fn location(rng: &mut Rng, residues: usize) -> String {
    match rng.below(6) {
        0 => segment(rng, residues),
        1 => turned(&segment(rng, residues)),
        2..=3 => joined(rng, |rng| {
            let segment = segment(rng, residues);
            if rng.chance(40) {
                turned(&segment)
            } else {
                segment
            }
        }),
        _ => turned(&joined(rng, |rng| segment(rng, residues))),
    }
}

fn turned(text: &str) -> String {
    format!("complement({text})")
}

/// A join of members, of which some are the same as an earlier one.
fn joined(rng: &mut Rng, mut member: impl FnMut(&mut Rng) -> String) -> String {
    let mut members = vec![member(rng)];
    let most = *rng.pick(&[1, 9, 9, 9, 60]);
    for _ in 0..rng.between(1, most) {
        let next = if rng.chance(20) {
            rng.pick(&members).clone()
        } else {
            member(rng)
        };
        members.push(next);
    }
    format!("join({})", members.join(","))
}

fn segment(rng: &mut Rng, residues: usize) -> String {
    let x = rng.between(1, residues);
    let longest = *rng.pick(&[2, 9, 30, residues]);
    let y = residues.min(x + rng.below(longest));
    match rng.below(8) {
        0 => format!("{x}"),
        1 => format!("<{x}..{y}"),
        2 => format!("{x}..>{y}"),
        3 => format!("<{x}..>{y}"),
        _ => format!("{x}..{y}"),
    }
}

/// Where a residue of the coding text stands, and whether it is read as its complement.
type Position = (usize, bool);

/// The residues of the coding text from the codon_start on.
fn positions(region: &Region) -> Vec<Position> {
    let all = spans(region).into_iter().flat_map(|span| {
        let turned = span.marks & COMPLEMENT != 0;
        let mut indices: Vec<usize> = (span.first as usize - 1..span.last as usize).collect();
        if turned {
            indices.reverse();
        }
        indices.into_iter().map(move |index| (index, turned))
    });
    all.skip(region.codon_start - 1).collect()
}

/// Writes so that the coding text reads as these letters at these positions.
fn put(residues: &mut [u8], positions: &[Position], letters: &[u8]) {
    for (&(index, turned), &letter) in positions.iter().zip(letters) {
        residues[index] = if turned { complement(letter) } else { letter };
    }
}

/// Puts ambiguous codons in stretches: none, a few, or nothing else.
fn put_ambiguous(residues: &mut [u8], positions: &[Position], codons: &Codons, rng: &mut Rng) {
    let mut places = positions.chunks_exact(3);
    while places.len() > 0 {
        let percent = *rng.pick(&[0, 2, 100]);
        for place in places.by_ref().take(rng.between(1, 150)) {
            if rng.chance(percent) {
                let row = rng.pick(codons);
                let codon = *rng.pick(row);
                put(residues, place, codon);
            }
        }
    }
}

/// Takes the stops out of the coding text; where members overlap, some may stay.
fn without_stops(residues: &mut [u8], positions: &[Position], rng: &mut Rng) {
    for _ in 0..3 {
        for codon in positions.chunks_exact(3) {
            let read = |&(index, turned): &Position| {
                let own: u8 = residues[index];
                if turned {
                    complement(own)
                } else {
                    own
                }
            };
            if codon_letter([read(&codon[0]), read(&codon[1]), read(&codon[2])]) == b'*' {
                put(residues, &codon[..1], &[*rng.pick(b"acg")]);
            }
        }
    }
}

#[cfg(test)]
mod tests {
    use super::*;

    const FIRST: &[u8] = b"atgaaatgctaa";
    const REVERSED: &[u8] = b"ttagcatttcat";

    fn translated(residues: &[u8], location: &str, codon_start: usize) -> (u32, Vec<u8>) {
        let region = region(residues.to_vec(), location, codon_start);
        let (number, length, mut room) = proved::translation(&region, vec![0; 9]);
        room.truncate(length);
        (number, room)
    }

    #[test]
    fn the_sample_sheet_holds() {
        let said = |letters: &[u8]| (0, letters.to_vec());
        let stop_inside = (37, Vec::new());
        let members = ["complement(7..12)", "complement(1..6)"];
        let join = |a: usize, b: usize| format!("join({},{})", members[a], members[b]);
        assert_eq!(translated(FIRST, "1..12", 1), said(b"MKC"));
        assert_eq!(translated(REVERSED, "complement(1..12)", 1), said(b"MKC"));
        assert_eq!(translated(REVERSED, &join(0, 1), 1), said(b"MKC"));
        assert_eq!(translated(REVERSED, &join(1, 0), 1), stop_inside);
        assert_eq!(translated(FIRST, "1..12", 3), said(b"EML"));
        assert_eq!(translated(FIRST, "1..12", 2), stop_inside);
    }

    #[test]
    fn a_wrong_translation_is_a_difference() {
        let region = region(FIRST.to_vec(), "1..12", 1);
        let differ = |translation: Translation, room: usize| {
            let mut tally = Tally::default();
            tally.room(&region, &translation, room);
            tally.count.differ
        };
        for room in [0, 2, 3, 9] {
            assert_eq!(differ(Ok(b"MKC".to_vec()), room), 0);
            assert_eq!(differ(Err(StopInside), room), 1);
        }
        for (wrong, room) in [("MKR", 3), ("MKC*", 9), ("MK", 3), ("MK", 2), ("", 0)] {
            assert_eq!(differ(Ok(wrong.into()), room), 1, "{wrong} in {room}");
        }
    }

    #[test]
    fn a_wrong_verdict_on_a_value_is_a_difference() {
        let right = region(FIRST.to_vec(), "1..12", 1);
        let other = region(FIRST.to_vec(), "1..12", 3);
        let mut tally = Tally::default();
        tally.value(&right, &coding(&right), b"MKC");
        tally.value(&right, &coding(&right), b"MKC*");
        assert_eq!(tally.count.differ, 0);
        tally.value(&right, &coding(&other), b"MKC");
        tally.value(&right, &coding(&other), b"EML");
        assert_eq!(tally.count.differ, 2);
    }

    #[test]
    fn each_run_has_one_ambiguous_codon() {
        for region in runs(&ambiguous_codons(), &mut Rng::new(1)) {
            let is_ambiguous = |&(at, _): &Position| !PLAIN.contains(&region.residues[at]);
            let positions = positions(&region);
            let codons = positions
                .chunks(3)
                .filter(|codon| codon.iter().any(is_ambiguous));
            assert_eq!(codons.count(), 1, "{region:?}");
        }
    }

    #[test]
    fn each_mixed_letter_is_exchanged() {
        let values = values(b"MBJXD", &mut Rng::new(1));
        for wrong in [
            "MXJXD", "MNJXD", "MDJXD", "MBLXD", "MBIXD", "MBXXD", "MBJBD", "MBJZD", "MBJJD",
            "MBJXB",
        ] {
            assert!(values.contains(&wrong.into()), "{wrong}");
        }
    }

    #[test]
    fn the_generated_regions_are_of_every_kind() {
        let rng = &mut Rng::new(1);
        let ambiguous = &ambiguous_codons();
        let mut tally = Tally::default();
        let mut letters = Vec::new();
        for _ in 0..1000 {
            let region = generated_region(rng, ambiguous);
            tally.compare(&region, rng);
            letters.extend(coding(&region).letters().flatten());
        }
        assert_eq!(tally.count.differ, 0);
        assert!(tally.stop_inside > 100, "{}", tally.stop_inside);
        assert!(tally.stop_last > 200, "{}", tally.stop_last);
        assert!(tally.empty > 100, "{}", tally.empty);
        assert!(tally.right > 800, "{}", tally.right);
        for (letter, _) in &CODONS[..24] {
            let count = letters.iter().filter(|&&own| own == *letter as u8).count();
            assert!(count > 150, "{letter}: {count}");
        }
    }
}
