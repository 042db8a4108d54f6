//! Hand-made cases for the letter of an ambiguous codon (document 02, request 4): stored right, and wrong by rule 28.

use super::base::Edit;
use super::values::{accepted, location, refused, residues, Case};

/// Any first codon of the DNA.
const CODON: Edit = residues("@acgtacgta");

/// Rows of what the plain codons give: the right letter, wrong ones, the codons, and how the residues stand if the other strand has them.
macro_rules! letters {
    ($($given:literal: $right:literal, not $($wrong:literal)+, $codons:tt, $turned:tt;)+) => {
        &[$(
            stored!(accepted, $given, "1..3", $right, [3, 1, 4, 1, 0]).each(CODON, &$codons),
            stored!(accepted, $given, "complement(1..3)", $right, [3, 1, 4, 1, 0]).each(CODON, &$turned),
            $(
                stored!(refused, $given, "1..3", $wrong, &[(28, 2098, concat!($wrong, "<"))])
                    .each(CODON, &$codons),
                stored!(refused, $given, "complement(1..3)", $wrong, &[(28, 2110, concat!($wrong, "<"))])
                    .each(CODON, &$turned),
            )+
        )+]
    };
}

/// The CDS is the first codon, and its translation this letter.
macro_rules! stored {
    ($outcome:ident, $given:literal, $location:literal, $letter:literal, $more:expr) => {
        $outcome(
            concat!($given, " stored as ", $letter, ", ", $location),
            &[location($location), (">MKC<", concat!(">", $letter, "<"))],
            $more,
        )
    };
}

/// "A codon whose plain codons give exactly N and D is `B`, exactly Q and E is `Z`, exactly I and L is `J`; otherwise as before."
pub const LETTERS: &[Case] = letters! {
    // Every codon that has changed.
    "N or D": "B", not "X" "N" "D" "Z",
        ["rac", "rat", "ray"],
        ["gty", "aty", "rty"];
    "Q or E": "Z", not "X" "Q" "E" "B",
        ["saa", "sag", "sar"],
        ["tts", "cts", "yts"];
    "I or L": "J", not "X" "I" "L" "B",
        ["mta", "mtc", "mtt", "mtm", "mtw", "mty", "mth", "wta", "hta"],
        ["tak", "gak", "aak", "kak", "wak", "rak", "dak", "taw", "tad"];
    // One letter more.
    "N, D and H or Y": "X", not "B",
        ["vac", "vat", "vay", "dac", "dat", "day"],
        ["gtb", "atb", "rtb", "gth", "ath", "rth"];
    "Q, E and K or a stop": "X", not "Z",
        ["vaa", "vag", "var", "baa", "bag", "bar"],
        ["ttb", "ctb", "ytb", "ttv", "ctv", "ytv"];
    "I, L and F, M, R or V": "X", not "J",
        ["mtr", "mts", "mtk", "mtv", "mtn", "mka", "wtr", "wth", "hth", "vta", "dta", "nta"],
        ["yak", "sak", "mak", "bak", "nak", "tmk", "yaw", "daw", "dad", "tab", "tah", "tan"];
    // Other pairs.
    "L and M": "X", not "J" "L" "M",
        ["mtg", "wtg", "htg"],
        ["cak", "caw", "cad"];
    "a stop and W": "X", not "J" "W" "*",
        ["tgr"],
        ["yca"];
    // One letter alone.
    "N alone": "N", not "B" "X", ["aay"], ["rtt"];
    "D alone": "D", not "B" "X", ["gay"], ["rtc"];
    "Q alone": "Q", not "Z" "X", ["car"], ["ytg"];
    "E alone": "E", not "Z" "X", ["gar"], ["ytc"];
    "I alone": "I", not "J" "X", ["ath", "atm"], ["dat", "kat"];
    "L alone": "L", not "J" "X", ["ytr", "yta", "ctn"], ["yar", "tar", "nag"];
};
