//! Hand-made cases for rules 10 to 29: each with every rule that it breaks, or with its counts.

use super::base::{edited, Edit};

/// A rule, its place, and what stands at that place; `@` is the family's value.
pub type Broken = (u32, usize, &'static str);

/// Edits of the base listing and what comes of them.
#[derive(Clone, Copy)]
pub struct Case {
    pub name: &'static str,
    pub edits: &'static [Edit],
    /// One more edit, to be made with each of the values in place of its `@`.
    pub family: Option<(Edit, &'static [&'static str])>,
    pub outcome: Outcome,
}

/// What the check must say.
#[derive(Clone, Copy)]
pub enum Outcome {
    /// Total, skipped, features, judged, unjudged.
    Accepted([u64; 5]),
    /// Everything that is broken, in order; the first is the refusal.
    Refused(&'static [Broken]),
}

/// The text of one qualifier.
macro_rules! qualifier {
    ($name:literal) => {
        concat!(
            "<INSDQualifier><INSDQualifier_name>",
            $name,
            "</INSDQualifier_name></INSDQualifier>"
        )
    };
    ($name:literal, $value:literal) => {
        concat!(
            "<INSDQualifier><INSDQualifier_name>",
            $name,
            "</INSDQualifier_name><INSDQualifier_value>",
            $value,
            "</INSDQualifier_value></INSDQualifier>"
        )
    };
}

pub(super) use qualifier;

/// Gives the CDS another key, and other qualifiers or none.
macro_rules! instead_of_cds {
    ($key:literal) => {
        (
            ">CDS<…</INSDFeature_quals>",
            concat!(
                ">",
                $key,
                "</INSDFeature_key><INSDFeature_location>complement(1..12)</INSDFeature_location>"
            ),
        )
    };
    ($key:literal, $($qualifiers:tt)*) => {
        (
            ">CDS<…</INSDFeature_quals>",
            concat!(
                ">",
                $key,
                "</INSDFeature_key><INSDFeature_location>complement(1..12)</INSDFeature_location>",
                "<INSDFeature_quals>",
                $($qualifiers)*,
                "</INSDFeature_quals>"
            ),
        )
    };
}
pub(super) use instead_of_cds;

/// The sample sheet's first sequence; the base listing has the second.
const FIRST: Edit = residues("atgaaatgctaa");

/// Makes the CDS an ordinary feature.
pub const GENE: Edit = instead_of_cds!("gene");

/// Takes the DNA's table away.
const NO_TABLE: Edit = (
    "</INSDSeq_other-seqids>…</INSDSeq_feature-table>",
    "</INSDSeq_other-seqids>",
);

/// Takes the translation away.
const NO_TRANSLATION: Edit = (
    "<INSDQualifier><INSDQualifier_name>translation…</INSDQualifier>\n",
    "",
);

/// Another location of the CDS.
pub(super) const fn location(text: &'static str) -> Edit {
    ("complement(1..12)", text)
}

/// Other residues of the DNA.
pub(super) const fn residues(text: &'static str) -> Edit {
    ("ttagcatttcat", text)
}

/// Other residues of the AA.
const fn amino(text: &'static str) -> Edit {
    ("MKCWX", text)
}

/// What is one character and no symbol of DNA and RNA.
const FOREIGN: &[&str] = &[
    "u", "x", "z", "T", "N", "0", "-", " ", "&lt;", "&gt;", "&amp;", "&quot;", "&apos;",
];

/// What is one character and no symbol of AA.
const AMINO_FOREIGN: &[&str] = &[
    "m", "x", "1", "*", "-", " ", "&lt;", "&gt;", "&amp;", "&quot;", "&apos;",
];

pub(super) const fn refused(
    name: &'static str,
    edits: &'static [Edit],
    broken: &'static [Broken],
) -> Case {
    Case {
        name,
        edits,
        family: None,
        outcome: Outcome::Refused(broken),
    }
}

pub(super) const fn accepted(name: &'static str, edits: &'static [Edit], counts: [u64; 5]) -> Case {
    Case {
        name,
        edits,
        family: None,
        outcome: Outcome::Accepted(counts),
    }
}

impl Case {
    /// The listing of this case; if it has a family, the one of each value, with that value.
    pub fn listings(&self) -> Vec<(&'static str, Vec<u8>)> {
        match self.family {
            None => vec![("", edited(self.edits))],
            Some(((stretch, new), values)) => {
                let listing = |&value: &&'static str| {
                    let new = new.replace('@', value);
                    (value, edited(&[self.edits, &[(stretch, &new)]].concat()))
                };
                values.iter().map(listing).collect()
            }
        }
    }

    /// The same with each of these values in place of the `@` of one more edit.
    pub(super) const fn each(mut self, edit: Edit, values: &'static [&'static str]) -> Case {
        self.family = Some((edit, values));
        self
    }
}

/// Document 01's sample sheet (starred ones with their star) and its errors to expect.
pub const SAMPLES: &[Case] = &[
    accepted(
        "*1..12 on the first",
        &[FIRST, location("1..12")],
        [3, 1, 4, 1, 0],
    ),
    accepted("*complement(1..12) on the second", &[], [3, 1, 4, 1, 0]),
    accepted(
        "*join of complements on the second",
        &[location("join(complement(7..12),complement(1..6))")],
        [3, 1, 4, 1, 0],
    ),
    refused(
        "*members swapped",
        &[location("join(complement(1..6),complement(7..12))")],
        &[(28, 2134, "MKC</INSDQualifier_value>")],
    ),
    accepted(
        "*members swapped, no translation",
        &[
            location("join(complement(1..6),complement(7..12))"),
            NO_TRANSLATION,
        ],
        [3, 1, 4, 1, 0],
    ),
    accepted(
        "*codon_start 3",
        &[
            FIRST,
            location("1..12"),
            (">1</INSDQualifier_value>", ">3</INSDQualifier_value>"),
            (">MKC<", ">EML<"),
        ],
        [3, 1, 4, 1, 0],
    ),
    refused(
        "*codon_start 2",
        &[
            FIRST,
            location("1..12"),
            (">1</INSDQualifier_value>", ">2</INSDQualifier_value>"),
        ],
        &[(28, 2099, "MKC</INSDQualifier_value>")],
    ),
    accepted(
        "*codon_start 2, no translation",
        &[
            FIRST,
            location("1..12"),
            (">1</INSDQualifier_value>", ">2</INSDQualifier_value>"),
            NO_TRANSLATION,
        ],
        [3, 1, 4, 1, 0],
    ),
    accepted(
        "*ytr",
        &[residues("ytracgtacgta"), location("1..3"), (">MKC<", ">L<")],
        [3, 1, 4, 1, 0],
    ),
    accepted(
        "*mgr",
        &[residues("mgracgtacgta"), location("1..3"), (">MKC<", ">R<")],
        [3, 1, 4, 1, 0],
    ),
    accepted(
        "*tra at the end",
        &[residues("traacgtacgta"), location("1..3"), (">MKC<", "><")],
        [3, 1, 4, 1, 0],
    ),
    refused(
        "*tra inside",
        &[
            residues("traacgtacgta"),
            location("1..6"),
            (">MKC<", ">*T<"),
        ],
        &[(28, 2098, "*T</INSDQualifier_value>")],
    ),
    accepted(
        "*tgr",
        &[residues("tgracgtacgta"), location("1..3"), (">MKC<", ">X<")],
        [3, 1, 4, 1, 0],
    ),
    accepted("*12 fits", &[GENE, location("12")], [3, 1, 4, 0, 0]),
    refused("*13", &[GENE, location("13")], &[(25, 1835, "13<")]),
    refused("*0", &[GENE, location("0")], &[(24, 1835, "0<")]),
    accepted("12^1 fits", &[GENE, location("12^1")], [3, 1, 4, 0, 0]),
    refused("4^3", &[GENE, location("4^3")], &[(25, 1835, "4^3<")]),
    refused(
        "join(1..3)",
        &[GENE, location("join(1..3)")],
        &[(24, 1835, "join(1..3)<")],
    ),
    refused(
        "join(1..3,4^5)",
        &[GENE, location("join(1..3,4^5)")],
        &[(24, 1835, "join(1..3,4^5)<")],
    ),
    refused(
        "nine defined bases",
        &[GENE, residues("acgtacgtannn")],
        &[(19, 1934, "acgtacgtannn<")],
    ),
    accepted(
        "ten defined bases",
        &[GENE, residues("acgtacgtacnn")],
        [3, 1, 4, 0, 0],
    ),
    accepted(
        "complement of a join is reversed",
        &[location("complement(join(1..6,7..12))")],
        [3, 1, 4, 1, 0],
    ),
    refused(
        "join in that order is not",
        &[location("complement(join(7..12,1..6))")],
        &[(28, 2122, "MKC</INSDQualifier_value>")],
    ),
    refused(
        "L is not taken from INSDSeq_length",
        &[
            GENE,
            location("13"),
            (">12</INSDSeq_length>", ">13</INSDSeq_length>"),
        ],
        &[(20, 1128, "13<"), (25, 1835, "13<")],
    ),
    refused(
        "position that wraps in 32 bits",
        &[GENE, location("4294967297")],
        &[(25, 1835, "4294967297<")],
    ),
    refused(
        "position that wraps in 64 bits",
        &[GENE, location("18446744073709551617")],
        &[(25, 1835, "18446744073709551617<")],
    ),
];

/// Rules 10 to 15.
pub const HEADER: &[Case] = &[
    refused("dtdVersion", &[], &[(10, 181, "@")]).each(
        ("\"1_2\"", "\"@\""),
        &["V1_2", "", "1_3", " 1_2", "1_2 ", "&amp;"],
    ),
    accepted("productionDate", &[], [3, 1, 4, 1, 0]).each(
        ("2015-01-31", "@"),
        &[
            "2016-02-29",
            "2000-02-29",
            "0004-02-29",
            "0001-01-01",
            "9999-12-31",
            "2400-02-29",
        ],
    ),
    refused("productionDate", &[], &[(11, 261, "@")]).each(
        ("2015-01-31", "@"),
        &[
            "2015-02-29",
            "1500-02-29",
            "1900-02-29",
            "0000-12-31",
            "2015-00-01",
            "2015-13-01",
            "2015-04-31",
            "2015-01-00",
            "2015-1-31",
            "12015-01-31",
            "",
            "2015-01-31 ",
            "2015-01-3&lt;",
            "2015_01_31",
        ],
    ),
    refused(
        "FilingDate of the application",
        &[("2014-02-28", "2014-02-29")],
        &[(11, 409, "2014-02-29")],
    ),
    refused(
        "FilingDate of the priority",
        &[("2013-12-31", "2013-12-32")],
        &[(11, 661, "2013-12-32")],
    ),
    refused(
        "FilingDate written <X/>",
        &[("<FilingDate>2014-02-28</FilingDate>", "<FilingDate/>")],
        &[(11, 397, "<FilingDate/>")],
    ),
    refused(
        "FilingDate written <X />",
        &[("<FilingDate>2014-02-28</FilingDate>", "<FilingDate />")],
        &[(11, 397, "<FilingDate />")],
    ),
    refused(
        "FilingDate written <X></X>",
        &[("2014-02-28", "")],
        &[(11, 409, "</FilingDate>\n</ApplicationIdentificatio")],
    ),
    refused(
        "FilingDate written <X ></X>",
        &[("<FilingDate>2014-02-28", "<FilingDate >")],
        &[(11, 410, "</FilingDate>")],
    ),
    refused("office of the application", &[], &[(12, 316, "@")])
        .each((">IB<", ">@<"), &["ib", "I", "IBB", "", "I1", " I"]),
    refused(
        "office of the priority",
        &[(">US<", ">Us<")],
        &[(12, 575, "Us<")],
    ),
    refused(
        "office written <X/>",
        &[("<IPOfficeCode>IB</IPOfficeCode>", "<IPOfficeCode/>")],
        &[(12, 302, "<IPOfficeCode/>")],
    ),
    refused(
        "language of the applicant",
        &[("\"fr\"", "\"FR\"")],
        &[(13, 759, "FR\"")],
    ),
    refused(
        "language of the inventor",
        &[("\"de\"", "\"d\"")],
        &[(13, 871, "d\"")],
    ),
    refused(
        "language of the title",
        &[("\"en\"", "\"eng\"")],
        &[(13, 980, "eng\"")],
    ),
    refused(
        "language of a second title",
        &[(
            "</InventionTitle>\n",
            "</InventionTitle><InventionTitle languageCode=\"\"/>",
        )],
        &[(13, 1046, "\"/>")],
    ),
    refused(
        "language with an entity",
        &[("\"en\"", "\"&apos;e\"")],
        &[(13, 980, "&apos;e\"")],
    ),
    refused("total", &[], &[(14, 1040, "@")]).each(
        (">3<", ">@<"),
        &[
            "03",
            "2",
            "4",
            "",
            " 3",
            "3 ",
            "4294967299",
            "18446744073709551619",
            "+3",
            "3&amp;",
        ],
    ),
    refused(
        "total written <X/>",
        &[(
            "<SequenceTotalQuantity>3</SequenceTotalQuantity>",
            "<SequenceTotalQuantity/>",
        )],
        &[(14, 1017, "<SequenceTotalQuantity/>")],
    ),
    refused("first id", &[], &[(15, 1098, "@")]).each(
        ("sequenceIDNumber=\"1\"", "sequenceIDNumber=\"@\""),
        &["01", "2", "", "1 ", "4294967297", "18446744073709551617"],
    ),
    refused(
        "id of a skipped sequence",
        &[("sequenceIDNumber=\"2\"", "sequenceIDNumber=\"3\"")],
        &[(15, 2323, "3\">\n<INSDSeq>\n<INSDSeq_length/>")],
    ),
    refused(
        "two ids exchanged",
        &[
            ("sequenceIDNumber=\"2\"", "sequenceIDNumber=\"9\""),
            ("sequenceIDNumber=\"3\"", "sequenceIDNumber=\"2\""),
        ],
        &[(15, 2323, "9\""), (15, 2512, "2\"")],
    ),
    refused(
        "several at once",
        &[
            ("\"1_2\"", "\"1_3\""),
            ("\"2015-01-31\"", "\"\""),
            (">IB<", ">xx<"),
            ("\"de\"", "\"\""),
            ("<SequenceTotalQuantity>3<", "<SequenceTotalQuantity>9<"),
        ],
        &[
            (10, 181, "1_3"),
            (11, 261, "\""),
            (12, 306, "xx"),
            (13, 861, "\">Meyer"),
            (14, 1028, "9<"),
        ],
    ),
];

/// Rules 16 to 23 and 29.
pub const SEQUENCES: &[Case] = &[
    accepted("RNA", &[(">DNA<", ">RNA<")], [3, 1, 4, 1, 0]),
    refused("moltype", &[], &[(16, 1164, "@")])
        .each((">DNA<", ">@<"), &["dna", "DNA ", "", " DNA", "XNA"]),
    refused(
        "moltype written <X/>",
        &[(
            "<INSDSeq_moltype>DNA</INSDSeq_moltype>",
            "<INSDSeq_moltype/>",
        )],
        &[(16, 1147, "<INSDSeq_moltype/>")],
    ),
    refused(
        "division",
        &[("PAT</INSDSeq_division>", "pat</INSDSeq_division>")],
        &[(17, 1203, "pat<")],
    ),
    refused(
        "division of the third, with an entity",
        &[("PAT</INSDSeq_division >", "P&gt;T</INSDSeq_division >")],
        &[(17, 2615, "P&gt;T<")],
    ),
    refused(
        "where 16 fails only 17, 20, 24 and 25 are judged",
        &[
            (">DNA<", ">XNA<"),
            ("PAT</INSDSeq_division>", "</INSDSeq_division>"),
            (">12</INSDSeq_length>", ">11</INSDSeq_length>"),
            ("source<", "Source<"),
            location("13"),
            (">1</INSDQualifier_value>", ">4</INSDQualifier_value>"),
            residues("ux"),
        ],
        &[
            (20, 1128, "11<"),
            (16, 1164, "XNA<"),
            (17, 1203, "</INSDSeq_division>\n<INSDSeq_other"),
            (25, 1406, "1..12<"),
            (25, 1831, "13<"),
        ],
    ),
    refused(
        "where 16 fails 24 is judged, 26 is not",
        &[
            (">AA<", ">aa<"),
            ("&lt;2..3", "complement(2"),
            ("1..5", "complement(1..5)"),
        ],
        &[(16, 2577, "aa<"), (24, 3136, "complement(2<")],
    ),
    refused("first residue", &[], &[(18, 2232, "@tagcatttcat<")])
        .each(residues("@tagcatttcat"), FOREIGN),
    refused("seventh residue", &[], &[(18, 2238, "@ttcat<")])
        .each(residues("ttagca@ttcat"), FOREIGN),
    refused("last residue", &[], &[(18, 2243, "@<")]).each(residues("ttagcatttca@"), FOREIGN),
    refused(
        "residue of RNA",
        &[(">DNA<", ">RNA<")],
        &[(18, 2238, "@ttcat<")],
    )
    .each(residues("ttagca@ttcat"), FOREIGN),
    refused(
        "of several the first counts",
        &[],
        &[(18, 2236, "@attt-at<")],
    )
    .each(residues("ttag@attt-at"), FOREIGN),
    refused("the first of two", &[], &[(18, 2237, "-ttt@at<")])
        .each(residues("ttagc-ttt@at"), FOREIGN),
    refused(
        "each sequence has its first",
        &[residues("ttagcatttca-"), amino("MK-WX")],
        &[(18, 2243, "-<"), (18, 3216, "-WX<")],
    ),
    accepted(
        "every symbol",
        &[
            residues("acgtmrwsykvhdbn"),
            (">12</INSDSeq_length>", ">15</INSDSeq_length>"),
            (">1..12<", ">1..15<"),
            location("1..15"),
            (">MKC<", ">TXXXX<"),
        ],
        [3, 1, 4, 1, 0],
    ),
    refused("first amino residue", &[], &[(18, 3214, "@KCWX<")])
        .each(amino("@KCWX"), AMINO_FOREIGN),
    refused("third amino residue", &[], &[(18, 3216, "@WX<")]).each(amino("MK@WX"), AMINO_FOREIGN),
    refused("last amino residue", &[], &[(18, 3218, "@<")]).each(amino("MKCW@"), AMINO_FOREIGN),
    refused(
        "of several in AA the first counts",
        &[],
        &[(18, 3215, "@-WX<")],
    )
    .each(amino("M@-WX"), AMINO_FOREIGN),
    accepted(
        "every amino symbol",
        &[
            amino("ABCDEFGHIJKLMNOPQRSTUVWXYZ"),
            (">5<", ">26<"),
            (">1..5<", ">1..26<"),
        ],
        [3, 1, 4, 1, 0],
    ),
    refused(
        "three amino residues",
        &[amino("MKCXX")],
        &[(19, 3214, "MKCXX<")],
    ),
    accepted("four amino residues", &[amino("XMKCW")], [3, 1, 4, 1, 0]),
    refused(
        "a foreign residue is the tenth for rule 19",
        &[GENE],
        &[(18, 1943, "@nn<")],
    )
    .each(residues("acgtacgta@nn"), FOREIGN),
    refused(
        "a foreign amino residue is the fourth for rule 19",
        &[],
        &[(18, 3217, "@X<")],
    )
    .each(amino("MKC@X"), AMINO_FOREIGN),
    refused(
        "18 and 19 at one place",
        &[GENE],
        &[(18, 1934, "@cgtacgtannn<"), (19, 1934, "@cgtacgtannn<")],
    )
    .each(residues("@cgtacgtannn"), FOREIGN),
    refused(
        "19 before 18",
        &[GENE],
        &[(19, 1934, "acgtacgt@nnn<"), (18, 1942, "@nnn<")],
    )
    .each(residues("acgtacgt@nnn"), FOREIGN),
    refused(
        "19 before 18 at the end",
        &[GENE],
        &[(19, 1934, "nnnacgtacgt@<"), (18, 1945, "@<")],
    )
    .each(residues("nnnacgtacgt@"), FOREIGN),
    refused(
        "18 and 19 of AA at one place",
        &[],
        &[(18, 3214, "@KCXX<"), (19, 3214, "@KCXX<")],
    )
    .each(amino("@KCXX"), AMINO_FOREIGN),
    refused(
        "19 before 18 in AA",
        &[],
        &[(19, 3214, "MKX@X<"), (18, 3217, "@X<")],
    )
    .each(amino("MKX@X"), AMINO_FOREIGN),
    refused(
        "nine with five entities",
        &[GENE, residues("acgt&lt;&gt;&amp;&quot;&apos;nnn")],
        &[(19, 1934, "acgt&lt;"), (18, 1938, "&lt;&gt;&amp;")],
    ),
    refused(
        "ten with five entities",
        &[GENE, residues("acgta&apos;&quot;&amp;&gt;&lt;nn")],
        &[(18, 1939, "&apos;&quot;&amp;")],
    ),
    refused(
        "three amino residues with two entities",
        &[amino("M&amp;&amp;XX")],
        &[(19, 3214, "M&amp;"), (18, 3215, "&amp;&amp;XX<")],
    ),
    refused(
        "four amino residues with two entities",
        &[amino("MX&quot;&lt;W")],
        &[(18, 3216, "&quot;&lt;W<")],
    ),
    refused(
        "18, 19 and 21 at one place",
        &[NO_TABLE],
        &[
            (18, 1326, "@cgtacgtannn<"),
            (19, 1326, "@cgtacgtannn<"),
            (21, 1326, "@cgtacgtannn<"),
        ],
    )
    .each(residues("@cgtacgtannn"), FOREIGN),
    refused(
        "19 and 21 before 18",
        &[NO_TABLE],
        &[
            (19, 1326, "acgtacgt@nnn<"),
            (21, 1326, "acgtacgt@nnn<"),
            (18, 1334, "@nnn<"),
        ],
    )
    .each(residues("acgtacgt@nnn"), FOREIGN),
    refused(
        "18 and 21 at one place",
        &[NO_TABLE],
        &[(18, 1326, "@tagcatttcat<"), (21, 1326, "@tagcatttcat<")],
    )
    .each(residues("@tagcatttcat"), FOREIGN),
    refused(
        "21 before 18 at the next place",
        &[NO_TABLE],
        &[(21, 1326, "t@agcatttcat<"), (18, 1327, "@agcatttcat<")],
    )
    .each(residues("t@agcatttcat"), FOREIGN),
    refused(
        "21 at the table before 18",
        &[instead_of_cds!("source"), residues("-tagcatttcat")],
        &[
            (21, 1308, "<INSDSeq_feature-table>"),
            (42, 1791, "source<"),
            (18, 1936, "-tagcatttcat<"),
        ],
    ),
    refused(
        "L counts an entity as one character",
        &[
            residues("ttagcattt&amp;at"),
            (">12</INSDSeq_length>", ">16</INSDSeq_length>"),
            (">1..12<", ">1..16<"),
        ],
        &[
            (20, 1128, "16<"),
            (23, 1409, "1..16<"),
            (25, 1409, "1..16<"),
            (18, 2241, "&amp;at<"),
        ],
    ),
    refused(
        "0000 is four foreign residues",
        &[
            GENE,
            residues("0000"),
            (">12</INSDSeq_length>", ">4</INSDSeq_length>"),
            (">1..12<", ">1..4<"),
            location("1"),
        ],
        &[(18, 1916, "0000<"), (19, 1916, "0000<")],
    ),
    refused("length", &[], &[(20, 1128, "@")]).each(
        (">12<", ">@<"),
        &[
            "012",
            "11",
            "13",
            "",
            " 12",
            "12 ",
            "4294967308",
            "18446744073709551628",
            "twelve",
        ],
    ),
    refused(
        "length written <X/>",
        &[("<INSDSeq_length>12</INSDSeq_length>", "<INSDSeq_length />")],
        &[(20, 1112, "<INSDSeq_length />")],
    ),
    refused(
        "no residues at all",
        &[
            residues(""),
            (">12</INSDSeq_length>", ">0</INSDSeq_length>"),
        ],
        &[
            (20, 1128, "0<"),
            (23, 1408, "1..12<"),
            (25, 1408, "1..12<"),
            (25, 1833, "complement(1..12)<"),
            (19, 2231, "</INSDSeq_sequence>\n</INSDSeq>\n</Sequenc"),
        ],
    ),
    refused(
        "residues written <X/>",
        &[
            (
                "<INSDSeq_sequence>ttagcatttcat</INSDSeq_sequence>",
                "<INSDSeq_sequence/>",
            ),
            GENE,
            location("1"),
            (">1..12<", ">1..0<"),
            (">12</INSDSeq_length>", "></INSDSeq_length>"),
        ],
        &[
            (20, 1128, "</INSDSeq_length><INSDSeq_moltype>DNA"),
            (24, 1407, "1..0<"),
            (25, 1832, "1<"),
            (19, 1897, "<INSDSeq_sequence/>"),
        ],
    ),
    refused("no table", &[NO_TABLE], &[(21, 1326, "ttagcatttcat<")]),
    refused(
        "no source",
        &[(">source<", ">sources<")],
        &[
            (21, 1308, "<INSDSeq_feature-table>"),
            (40, 1363, "sources<"),
        ],
    ),
    refused(
        "no source in AA",
        &[(">SOURCE<", ">source<")],
        &[(21, 2639, "<INSDSeq_feature-table>")],
    ),
    refused(
        "SOURCE is no source in DNA",
        &[(">source<", ">SOURCE<")],
        &[(21, 1308, "<INSDSeq_feature-table>"), (40, 1363, "SOURCE<")],
    ),
    refused(
        "two sources",
        &[instead_of_cds!("source")],
        &[(21, 1308, "<INSDSeq_feature-table>"), (42, 1791, "source<")],
    ),
    refused(
        "place of a table with a blank in its tag",
        &[
            (
                "</INSDSeq_other-seqids>\n<INSDSeq_feature-table>",
                "</INSDSeq_other-seqids>\n<INSDSeq_feature-table\n>",
            ),
            (">source<", "><"),
        ],
        &[
            (21, 1308, "<INSDSeq_feature-table\n>"),
            (40, 1364, "</INSDFeature_key><INSDFeature_location>1"),
        ],
    ),
    refused(
        "no organism",
        &[(">organism<", ">ORGANISM<")],
        &[
            (22, 1363, "source<"),
            (42, 1363, "source<"),
            (41, 1493, "ORGANISM<"),
        ],
    ),
    refused(
        "two mol_type",
        &[(">organism<", ">mol_type<")],
        &[(22, 1363, "source<"), (42, 1363, "source<")],
    ),
    refused(
        "three qualifiers, two organisms",
        &[(
            qualifier!("organism", "synthetic"),
            concat!(qualifier!("organism", "synthetic"), qualifier!("organism")),
        )],
        &[(22, 1363, "source<")],
    ),
    refused(
        "no MOL_TYPE in AA",
        &[(">MOL_TYPE<", ">mol_type<")],
        &[(22, 2694, "SOURCE<")],
    ),
    accepted(
        "organism without value",
        &[(qualifier!("organism", "synthetic"), qualifier!("organism"))],
        [3, 1, 4, 1, 0],
    ),
    refused(
        "source without qualifiers",
        &[(
            ">1..5</INSDFeature_location>…</INSDFeature_quals>",
            ">1..5</INSDFeature_location>",
        )],
        &[(22, 2694, "SOURCE<"), (42, 2694, "SOURCE<")],
    ),
    refused("source location", &[], &[(23, 1409, "@")]).each(
        (">1..12<", ">@<"),
        &[
            "1..11",
            "2..12",
            "&lt;1..12",
            "1..&gt;12",
            "12",
            "complement(1..12)",
            "join(1..6,7..12)",
            "1^2",
        ],
    ),
    refused(
        "source location out of reach",
        &[],
        &[(23, 1409, "@"), (25, 1409, "@")],
    )
    .each((">1..12<", ">@<"), &["1..13", "1..4294967308", "12..1"]),
    refused(
        "source location not of the grammar",
        &[],
        &[(23, 1409, "@"), (24, 1409, "@")],
    )
    .each((">1..12<", ">@<"), &[" 1..12", "1..012", "", "1..12 "]),
    refused(
        "source location with complement in AA",
        &[(">1..5<", ">complement(1..5)<")],
        &[
            (23, 2740, "complement(1..5)<"),
            (26, 2740, "complement(1..5)<"),
        ],
    ),
    refused(
        "23 reads L, not INSDSeq_length",
        &[
            (">12</INSDSeq_length>", ">11</INSDSeq_length>"),
            (">1..12<", ">1..11<"),
        ],
        &[(20, 1128, "11<"), (23, 1409, "1..11<")],
    ),
    refused(
        "blank is no empty text for rule 29",
        &[("<INSDSeq_length/>", "<INSDSeq_length> </INSDSeq_length>")],
        &[(29, 2446, "000<")],
    ),
    refused(
        "skipped with length",
        &[("<INSDSeq_length/>", "<INSDSeq_length>3</INSDSeq_length>")],
        &[(29, 2446, "000<")],
    ),
    refused(
        "skipped with moltype",
        &[(
            "<INSDSeq_moltype />",
            "<INSDSeq_moltype>DNA</INSDSeq_moltype>",
        )],
        &[(29, 2448, "000<")],
    ),
    refused(
        "skipped with division",
        &[(
            "<INSDSeq_division></INSDSeq_division>",
            "<INSDSeq_division>PAT</INSDSeq_division>",
        )],
        &[(29, 2432, "000<")],
    ),
    refused(
        "skipped with empty other-seqids",
        &[(
            "<INSDSeq_sequence>000",
            "<INSDSeq_other-seqids/><INSDSeq_sequence>000",
        )],
        &[(29, 2452, "000<")],
    ),
    refused(
        "skipped with a table",
        &[(
            "<INSDSeq_sequence>000",
            concat!(
                "<INSDSeq_feature-table><INSDFeature>",
                "<INSDFeature_key>CDS</INSDFeature_key>",
                "<INSDFeature_location>join(</INSDFeature_location></INSDFeature>",
                "</INSDSeq_feature-table><INSDSeq_sequence>000"
            ),
        )],
        &[(29, 2591, "000<")],
    ),
    refused(
        "skipped and its id wrong",
        &[
            ("sequenceIDNumber=\"2\"", "sequenceIDNumber=\"\""),
            ("<INSDSeq_length/>", "<INSDSeq_length>3</INSDSeq_length>"),
        ],
        &[
            (15, 2323, "\">\n<INSDSeq>\n<INSDSeq_length>3"),
            (29, 2445, "000<"),
        ],
    ),
    refused(
        "blank 000 is not skipped",
        &[(">000<", "> 000<")],
        &[
            (20, 2337, "<INSDSeq_length/>"),
            (16, 2354, "<INSDSeq_moltype />"),
            (17, 2391, "</INSDSeq_division>\n<INSDSeq_sequence>"),
        ],
    ),
    refused(
        "0000 is not skipped",
        &[
            (">000<", ">0000<"),
            ("<INSDSeq_length/>", "<INSDSeq_length>4</INSDSeq_length>"),
        ],
        &[
            (16, 2371, "<INSDSeq_moltype />"),
            (17, 2408, "</INSDSeq_division>\n<INSDSeq_sequence>"),
        ],
    ),
    accepted(
        "two skipped",
        &[(
            "<INSDSeq_length>5<…MKCWX</INSDSeq_sequence>\n",
            concat!(
                "<INSDSeq_length/><INSDSeq_moltype/><INSDSeq_division/>",
                "<INSDSeq_sequence>000</INSDSeq_sequence>"
            ),
        )],
        [3, 2, 2, 1, 0],
    ),
];

/// Rules 24 to 28, and which CDSs are judged.
pub const FEATURES: &[Case] = &[
    accepted("location", &[GENE], [3, 1, 4, 0, 0]).each(
        ("complement(1..12)", "@"),
        &[
            "12",
            "5..5",
            "1..12",
            "&lt;1",
            "&gt;12",
            "&lt;1..12",
            "1..&gt;12",
            "&lt;1..&gt;12",
            "1^2",
            "11^12",
            "12^1",
            "complement(12)",
            "complement(1^2)",
            "complement(12^1)",
            "complement(&lt;3..&gt;4)",
            "join(1,2)",
            "order(1..2,4)",
            "join(4..6,1..3)",
            "join(1..12,1..12)",
            "join(complement(1..3),4)",
            "order(&lt;1,complement(&gt;2),3..&gt;4)",
            "complement(join(1..3,&gt;4))",
            "complement(order(12,1))",
            "join(1,2,3,4,5)",
        ],
    ),
    refused("no location", &[GENE], &[(24, 1835, "@")]).each(
        ("complement(1..12)", "@"),
        &[
            "1,2",
            "01",
            "1.2",
            "1...2",
            "1..",
            "..2",
            "&lt;&gt;1",
            "&gt;1..2",
            "1..&lt;2",
            "1 ..2",
            "1.. 2",
            "join(1, 2)",
            "join(1)",
            "join()",
            "join(1,)",
            "join(,1)",
            "order(1..2)",
            "join(1,join(2,3))",
            "join(1,order(2,3))",
            "order(join(1,2),3)",
            "join(1^2,3)",
            "join(complement(1^2),3)",
            "join(complement(join(1,2)),3)",
            "complement(complement(1))",
            "complement(join(complement(1),2))",
            "complement(join(1))",
            "complement()",
            "complement(1",
            "complement(1))",
            "join(1,2",
            "join(1,2))",
            "(1)",
            "JOIN(1,2)",
            "1^",
            "^2",
            "1^2^3",
            "&lt;1^2",
            "1^&gt;2",
            "0..1",
            "1..0",
            "-1",
            "+1",
            "1&amp;2",
            "one-of(1,2)",
            "A00001.1:1..2",
        ],
    ),
    refused("out of reach", &[GENE], &[(25, 1835, "@")]).each(
        ("complement(1..12)", "@"),
        &[
            "13",
            "&lt;13",
            "&gt;13",
            "1..13",
            "1..&gt;13",
            "13..13",
            "3..2",
            "&lt;3..&gt;2",
            "12..1",
            "2^1",
            "1^1",
            "1^3",
            "12^2",
            "12^13",
            "13^1",
            "11^1",
            "1^12",
            "join(1,13)",
            "order(13,1)",
            "join(3..2,1)",
            "complement(13)",
            "complement(2^1)",
            "complement(join(1,3..2))",
            "join(1,complement(3..2))",
            "4294967296",
            "4294967297",
            "4294967308",
            "18446744073709551628",
            "1..4294967298",
            "123456789012345678901234567890",
            "1^18446744073709551618",
            "340282366920938463463374607431768211457",
        ],
    ),
    accepted("amino site L^1", &[("&lt;2..3", "5^1")], [3, 1, 4, 1, 0]),
    refused(
        "1^1 is true at L = 1",
        &[
            ("&lt;2..3", "1^1"),
            amino("M"),
            (">5<", ">1<"),
            (">1..5<", ">1..1<"),
        ],
        &[(19, 3209, "M<")],
    ),
    accepted(
        "amino join",
        &[("&lt;2..3", "order(5,1..&gt;3)")],
        [3, 1, 4, 1, 0],
    ),
    refused("amino complement", &[], &[(26, 3124, "@")]).each(
        ("&lt;2..3", "@"),
        &[
            "complement(2)",
            "complement(2^3)",
            "join(1,complement(2))",
            "complement(join(2,3))",
            "complement(order(5,1))",
        ],
    ),
    refused(
        "26 is judged although 25 is broken",
        &[("&lt;2..3", "complement(6)")],
        &[(25, 3124, "complement(6)<"), (26, 3124, "complement(6)<")],
    ),
    refused(
        "26 is not judged where 24 is broken",
        &[("&lt;2..3", "complement(6")],
        &[(24, 3124, "complement(6<")],
    ),
    refused("codon_start", &[], &[(27, 1791, "CDS<")]).each(
        (">1</INSDQualifier_value>", ">@</INSDQualifier_value>"),
        &["0", "4", "", " 1", "1 ", "01", "11", "1&lt;"],
    ),
    refused(
        "codon_start without value",
        &[(qualifier!("codon_start", "1"), qualifier!("codon_start"))],
        &[(27, 1791, "CDS<")],
    ),
    refused(
        "two codon_start",
        &[(
            qualifier!("codon_start", "1"),
            concat!(
                qualifier!("codon_start", "1"),
                qualifier!("codon_start", "1")
            ),
        )],
        &[(27, 1791, "CDS<")],
    ),
    refused(
        "two codon_start, one without value",
        &[(
            qualifier!("codon_start", "1"),
            concat!(qualifier!("codon_start"), qualifier!("codon_start", "1")),
        )],
        &[(27, 1791, "CDS<")],
    ),
    refused(
        "27 binds unjudged ones too",
        &[
            (">1</INSDQualifier_value>", ">4</INSDQualifier_value>"),
            NO_TRANSLATION,
            (
                concat!(qualifier!("codon_start", "4"), "\n"),
                concat!(qualifier!("codon_start", "4"), qualifier!("pseudo")),
            ),
        ],
        &[(27, 1791, "CDS<")],
    ),
    refused(
        "27 with a location out of reach",
        &[
            (">1</INSDQualifier_value>", ">4</INSDQualifier_value>"),
            location("13"),
        ],
        &[(27, 1791, "CDS<"), (25, 1834, "13<")],
    ),
    refused(
        "27 with a location not of the grammar",
        &[
            (">1</INSDQualifier_value>", ">4</INSDQualifier_value>"),
            location("x"),
        ],
        &[(27, 1791, "CDS<"), (24, 1834, "x<")],
    ),
    refused(
        "28 is not judged where 27 is broken",
        &[
            (">1</INSDQualifier_value>", ">4</INSDQualifier_value>"),
            (">MKC<", ">wrong<"),
        ],
        &[(27, 1791, "CDS<")],
    ),
    refused(
        "28 is not judged where 25 is broken",
        &[location("1..13"), (">MKC<", ">wrong<")],
        &[(25, 1834, "1..13<")],
    ),
    refused(
        "28 is not judged where 24 is broken",
        &[location("1..x"), (">MKC<", ">wrong<")],
        &[(24, 1834, "1..x<")],
    ),
    refused(
        "28 is not judged where 18 is broken",
        &[(">MKC<", ">wrong<")],
        &[(18, 2245, "@<")],
    )
    .each(residues("ttagcatttca@"), FOREIGN),
    refused(
        "28 is not judged where 18 is broken behind the CDS",
        &[location("complement(1..9)"), (">MKC<", ">wrong<")],
        &[(18, 2244, "@<")],
    )
    .each(residues("ttagcatttca@"), FOREIGN),
    refused(
        "28 is not judged where 18 is broken before the CDS",
        &[location("4..12"), (">MKC<", ">wrong<")],
        &[(18, 2222, "@tagcatttcat<")],
    )
    .each(residues("@tagcatttcat"), FOREIGN),
    refused(
        "28 is judged where another sequence breaks 18",
        &[amino("MK-WX"), (">MKC<", ">wrong<")],
        &[(28, 2111, "wrong<"), (18, 3218, "-WX<")],
    ),
    refused(
        "28 is judged where 17 and 19 to 21 are broken",
        &[
            ("PAT</INSDSeq_division>", "PATT</INSDSeq_division>"),
            (">12</INSDSeq_length>", ">1</INSDSeq_length>"),
            (">source<", ">no source<"),
            residues("nnagcatttcan"),
            (">MKC<", ">wrong<"),
        ],
        &[
            (20, 1128, "1</INSDSeq_length><INSDSeq_moltype>DNA"),
            (17, 1202, "PATT<"),
            (21, 1308, "<INSDSeq_feature-table>"),
            (40, 1363, "no source<"),
            (28, 2114, "wrong</INSDQualifier_value>"),
            (19, 2237, "nnagcatttcan<"),
        ],
    ),
    refused(
        "28 is judged where 19, 22 and 23 are broken",
        &[
            (">organism<", "><"),
            (">1..12<", ">1..6<"),
            residues("nnngcatttcat"),
            (">MKC<", ">wrong<"),
        ],
        &[
            (22, 1363, "source<"),
            (42, 1363, "source<"),
            (23, 1409, "1..6<"),
            (41, 1492, "</INSDQualifier_name><INSDQualifier_value>s"),
            (28, 2102, "wrong</INSDQualifier_value>"),
            (19, 2225, "nnngcatttcat<"),
        ],
    ),
    refused("translation", &[], &[(28, 2111, "@")]).each(
        (">MKC<", ">@<"),
        &[
            "MK", "MKCC", "MKC*", "mkc", " MKC", "MKC ", "MRC", "", "X", "MK&amp;", "MKC&lt;", "-",
            "*",
        ],
    ),
    refused(
        "translation written <X/>",
        &[(
            "<INSDQualifier_value>MKC</INSDQualifier_value>",
            "<INSDQualifier_value/>",
        )],
        &[(28, 2090, "<INSDQualifier_value/>")],
    ),
    refused(
        "translation without value",
        &[(qualifier!("translation", "MKC"), qualifier!("translation"))],
        &[(28, 2058, "translation<")],
    ),
    accepted(
        "two right translations",
        &[(
            qualifier!("translation", "MKC"),
            concat!(
                qualifier!("translation", "MKC"),
                qualifier!("translation", "MKC")
            ),
        )],
        [3, 1, 4, 1, 0],
    ),
    refused(
        "each wrong translation counts",
        &[(
            qualifier!("translation", "MKC"),
            concat!(
                qualifier!("translation", "MK"),
                qualifier!("translation", "MKC"),
                qualifier!("translation"),
                qualifier!("translation", " ")
            ),
        )],
        &[
            (28, 2111, "MK</"),
            (28, 2315, "translation</INSDQualifier_name></"),
            (28, 2451, " </"),
        ],
    ),
    refused(
        "a stop inside breaks every translation",
        &[
            location("join(complement(1..6),complement(7..12))"),
            (
                qualifier!("translation", "MKC"),
                concat!(
                    qualifier!("translation", "C*MK"),
                    qualifier!("translation", ""),
                    qualifier!("translation")
                ),
            ),
        ],
        &[
            (28, 2134, "C*MK<"),
            (28, 2264, "</INSDQualifier_value></INSDQualifier><I"),
            (28, 2337, "translation</INSDQualifier_name></"),
        ],
    ),
    accepted(
        "empty translation of one residue",
        &[location("1"), (">MKC<", "><")],
        [3, 1, 4, 1, 0],
    ),
    accepted(
        "empty translation, codon_start beyond the residues",
        &[
            location("1"),
            (">1</INSDQualifier_value>", ">3</INSDQualifier_value>"),
            (
                qualifier!("translation", "MKC"),
                concat!(
                    "<INSDQualifier>",
                    "<INSDQualifier_name>translation</INSDQualifier_name>",
                    "<INSDQualifier_value/></INSDQualifier>"
                ),
            ),
        ],
        [3, 1, 4, 1, 0],
    ),
    refused(
        "a blank is no empty translation",
        &[location("1..2"), (">MKC<", "> <")],
        &[(28, 2098, " </INSDQualifier_value>")],
    ),
    refused(
        "no value is no empty translation",
        &[
            location("1..2"),
            (qualifier!("translation", "MKC"), qualifier!("translation")),
        ],
        &[(28, 2045, "translation<")],
    ),
    accepted(
        "one stop alone gives an empty translation",
        &[location("complement(1..3)"), (">MKC<", "><")],
        [3, 1, 4, 1, 0],
    ),
    accepted(
        "residues left over after the stop",
        &[FIRST, location("join(1..3,10..12,1..2)"), (">MKC<", ">M<")],
        [3, 1, 4, 1, 0],
    ),
    refused(
        "two stops at the end",
        &[
            FIRST,
            location("join(1..3,10..12,10..12)"),
            (">MKC<", ">M<"),
        ],
        &[(28, 2118, "M</INSDQualifier_value>")],
    ),
    accepted(
        "no stop at the end",
        &[FIRST, location("1..9"), (">MKC<", ">MKC<")],
        [3, 1, 4, 1, 0],
    ),
    accepted(
        "two residues left over",
        &[FIRST, location("1..8"), (">MKC<", ">MK<")],
        [3, 1, 4, 1, 0],
    ),
    accepted(
        "partial marks leave a range judged",
        &[location("complement(&lt;1..&gt;12)")],
        [3, 1, 4, 1, 0],
    ),
    accepted(
        "members on both strands",
        &[
            residues("atgtttgctaaa"),
            location("join(1..3,complement(4..6),7..9)"),
            (">MKC<", ">MKA<"),
        ],
        [3, 1, 4, 1, 0],
    ),
    refused(
        "members on both strands, wrong",
        &[
            residues("atgtttgctaaa"),
            location("join(1..3,complement(4..6),7..9)"),
            (">MKC<", ">MFA<"),
        ],
        &[(28, 2126, "MFA</INSDQualifier_value>")],
    ),
    accepted(
        "complements of ambiguous symbols",
        &[
            residues("nbdhvkmyrwsn"),
            location("complement(1..12)"),
            (">MKC<", ">XXXX<"),
        ],
        [3, 1, 4, 1, 0],
    ),
    accepted(
        "several transl_table 1 leave it judged",
        &[(
            qualifier!("codon_start", "1"),
            concat!(
                qualifier!("transl_table", "1"),
                qualifier!("transl_table", "1")
            ),
        )],
        [3, 1, 4, 1, 0],
    ),
    refused(
        "several transl_table 1 leave it judged, wrong",
        &[
            (
                qualifier!("codon_start", "1"),
                concat!(
                    qualifier!("transl_table", "1"),
                    qualifier!("transl_table", "1")
                ),
            ),
            (">MKC<", ">wrong<"),
        ],
        &[(28, 2240, "wrong</INSDQualifier_value>")],
    ),
    accepted(
        "unjudged by a qualifier",
        &[(">MKC<", ">wrong<")],
        [3, 1, 4, 0, 1],
    )
    .each(
        (qualifier!("codon_start", "1"), "@"),
        &[
            qualifier!("transl_except", "x"),
            qualifier!("transl_except"),
            qualifier!("exception", "x"),
            qualifier!("exception"),
            qualifier!("pseudo"),
            qualifier!("pseudo", "x"),
            qualifier!("pseudogene", ""),
            qualifier!("pseudogene", "unknown"),
            qualifier!("transl_table", "11"),
            qualifier!("transl_table", "01"),
            qualifier!("transl_table", ""),
            qualifier!("transl_table"),
            qualifier!("transl_table", " 1"),
            concat!(
                qualifier!("transl_table", "1"),
                qualifier!("transl_table", "2")
            ),
        ],
    ),
    refused(
        "not unjudged by Pseudo",
        &[
            (qualifier!("codon_start", "1"), qualifier!("Pseudo", "2")),
            (">MKC<", ">wrong<"),
        ],
        &[
            (41, 1930, "Pseudo<"),
            (28, 2106, "wrong</INSDQualifier_value>"),
        ],
    ),
    refused(
        "not unjudged by pseudo ",
        &[
            (qualifier!("codon_start", "1"), qualifier!("pseudo ", "2")),
            (">MKC<", ">wrong<"),
        ],
        &[
            (41, 1930, "pseudo <"),
            (28, 2107, "wrong</INSDQualifier_value>"),
        ],
    ),
    refused(
        "not unjudged by PSEUDOGENE",
        &[
            (
                qualifier!("codon_start", "1"),
                qualifier!("PSEUDOGENE", "2"),
            ),
            (">MKC<", ">wrong<"),
        ],
        &[
            (41, 1930, "PSEUDOGENE<"),
            (28, 2110, "wrong</INSDQualifier_value>"),
        ],
    ),
    refused(
        "not unjudged by Exception",
        &[
            (qualifier!("codon_start", "1"), qualifier!("Exception", "2")),
            (">MKC<", ">wrong<"),
        ],
        &[
            (41, 1930, "Exception<"),
            (28, 2109, "wrong</INSDQualifier_value>"),
        ],
    ),
    refused(
        "not unjudged by transl_exception",
        &[
            (
                qualifier!("codon_start", "1"),
                qualifier!("transl_exception", "2"),
            ),
            (">MKC<", ">wrong<"),
        ],
        &[
            (41, 1930, "transl_exception<"),
            (28, 2116, "wrong</INSDQualifier_value>"),
        ],
    ),
    refused(
        "not unjudged by transl_tables",
        &[
            (
                qualifier!("codon_start", "1"),
                qualifier!("transl_tables", "2"),
            ),
            (">MKC<", ">wrong<"),
        ],
        &[
            (41, 1930, "transl_tables<"),
            (28, 2113, "wrong</INSDQualifier_value>"),
        ],
    ),
    accepted(
        "unjudged by its location",
        &[(">MKC<", ">wrong<")],
        [3, 1, 4, 0, 1],
    )
    .each(
        ("complement(1..12)", "@"),
        &[
            "order(1..3,4..6)",
            "complement(order(1..3,4..6))",
            "1^2",
            "complement(12^1)",
            "&lt;3",
            "&gt;3",
            "complement(&lt;3)",
            "join(1..6,&gt;7)",
            "join(&lt;1,2..3)",
            "join(complement(&gt;1),2..3)",
            "complement(join(1,&lt;2))",
        ],
    ),
    refused(
        "judged: &lt;1..12",
        &[location("&lt;1..12"), (">MKC<", ">wrong<")],
        &[(28, 2103, "wrong</INSDQualifier_value>")],
    ),
    refused(
        "judged: 1..&gt;12",
        &[location("1..&gt;12"), (">MKC<", ">wrong<")],
        &[(28, 2103, "wrong</INSDQualifier_value>")],
    ),
    refused(
        "judged: join(&lt;1..2,5..&gt;6)",
        &[location("join(&lt;1..2,5..&gt;6)"), (">MKC<", ">wrong<")],
        &[(28, 2117, "wrong</INSDQualifier_value>")],
    ),
    refused(
        "judged: 5",
        &[location("5"), (">MKC<", ">wrong<")],
        &[(28, 2095, "wrong</INSDQualifier_value>")],
    ),
    refused(
        "judged: complement(5)",
        &[location("complement(5)"), (">MKC<", ">wrong<")],
        &[(28, 2107, "wrong</INSDQualifier_value>")],
    ),
    refused(
        "judged: join(1,2)",
        &[location("join(1,2)"), (">MKC<", ">wrong<")],
        &[(28, 2103, "wrong</INSDQualifier_value>")],
    ),
    accepted(
        "an unjudged CDS may lack its value",
        &[(
            qualifier!("translation", "MKC"),
            concat!(qualifier!("translation"), qualifier!("pseudo")),
        )],
        [3, 1, 4, 0, 1],
    ),
];
