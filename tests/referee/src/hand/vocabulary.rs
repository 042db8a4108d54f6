//! Hand-made cases for rules 40 to 42, the vocabulary.

use super::base::Edit;
use super::values::{accepted, instead_of_cds, location, qualifier, refused, residues, Case, GENE};

/// What `BASE` counts with its CDS, and with another key instead of it.
const WITH_CDS: [u64; 5] = [3, 1, 4, 1, 0];
const WITHOUT_CDS: [u64; 5] = [3, 1, 4, 0, 0];

/// Gives the CDS any key and no qualifiers.
const ANY_KEY: Edit = instead_of_cds!("@");

/// Gives the CDS any name in place of codon_start.
const ANY_NAME: Edit = (">codon_start<", ">@<");

/// Gives the amino feature qualifiers.
macro_rules! amino_qualifiers {
    ($($qualifiers:tt)*) => {
        (
            "</INSDFeature_location>\n</INSDFeature>",
            concat!(
                "</INSDFeature_location><INSDFeature_quals>",
                $($qualifiers)*,
                "</INSDFeature_quals></INSDFeature>"
            ),
        )
    };
}

/// Gives the amino feature any key.
const ANY_AMINO_KEY: Edit = (">TURN<", ">@<");

/// Makes the amino feature a second source, by its lower-case name.
const AMINO_SOURCE: Edit = (">TURN<", ">source<");

/// Rules 40 to 42.
pub const VOCABULARY: &[Case] = &[
    // Rule 40, "at the offending name's text".
    refused("unknown key", &[], &[(40, 1791, "@")]).each(
        ANY_KEY,
        &[
            "exonn",
            "exo",
            "Exon",
            "EXON",
            " exon",
            "exon ",
            "exon&apos;",
            "&lt;exon&gt;",
            "C_Region",
            "D_loop",
            "D-Loop",
            "misc-feature",
            "3UTR",
            "3&apos;utr",
            "3&quot;UTR",
            "&apos;UTR",
            "4&apos;UTR",
            "3&apos;UTR&apos;",
            "cds",
            "CDSS",
            "genes",
            "operaon",
            "-10_signal",
            "organism",
            "note",
        ],
    ),
    refused("key of AA in DNA", &[], &[(40, 1791, "@")]).each(
        ANY_KEY,
        &["SITE", "TURN", "UNSURE", "VARIANT", "SOURCE", "MOD_RES"],
    ),
    refused(
        "key of AA in RNA",
        &[(">DNA<", ">RNA<"), instead_of_cds!("REGION")],
        &[(40, 1791, "REGION<")],
    ),
    refused(
        "key written <X/>",
        &[(
            "<INSDFeature_key>CDS</INSDFeature_key>",
            "<INSDFeature_key/>",
        )],
        &[(40, 1774, "<INSDFeature_key/>")],
    ),
    refused(
        "empty key",
        &[(">CDS<", "><")],
        &[(40, 1791, "</INSDFeature_key>")],
    ),
    accepted("known key", &[], WITHOUT_CDS).each(
        ANY_KEY,
        &[
            "C_region",
            "centromere",
            "D-loop",
            "exon",
            "gene",
            "iDNA",
            "misc_RNA",
            "mRNA",
            "oriT",
            "polyA_site",
            "STS",
            "unsure",
            "V_segment",
            "variation",
            "3&apos;UTR",
            "5&apos;UTR",
        ],
    ),
    accepted("known key in RNA", &[(">DNA<", ">RNA<")], WITHOUT_CDS).each(
        ANY_KEY,
        // No molecule is asked for, although some of these are for DNA only.
        &["tmRNA", "rRNA", "D-loop", "STS", "iDNA", "5&apos;UTR"],
    ),
    refused("unknown key in AA", &[], &[(40, 3080, "@")]).each(
        ANY_AMINO_KEY,
        &[
            "TURNS",
            "TUR",
            "turn",
            "Turn",
            "Source",
            "SOURCES",
            "COMPBias",
            "compbias",
            "SITES",
            "gene",
            "exon",
            "unsure",
            "CDS",
            "3&apos;UTR",
            "NOTE",
            "&amp;",
        ],
    ),
    refused(
        "a CDS in AA is an unknown key and no CDS",
        &[
            (">TURN<", ">CDS<"),
            amino_qualifiers!(qualifier!("codon_start", "9"), qualifier!("translation")),
        ],
        &[(40, 3080, "CDS<")],
    ),
    accepted("known key in AA", &[], WITH_CDS).each(
        ANY_AMINO_KEY,
        &[
            "ACT_SITE", "CA_BIND", "CHAIN", "COILED", "COMPBIAS", "CONFLICT", "HELIX", "INIT_MET",
            "INTRAMEM", "MOTIF", "MUTAGEN", "NON_STD", "NON_TER", "PEPTIDE", "PROPEP", "REGION",
            "REPEAT", "SIGNAL", "STRAND", "TOPO_DOM", "TRANSMEM", "TRANSIT", "UNSURE", "VARIANT",
            "VAR_SEQ",
        ],
    ),
    // Rule 41, "at the offending name's text".
    refused("name not allowed at CDS", &[], &[(41, 1930, "@")]).each(
        ANY_NAME,
        &[
            "",
            "notee",
            "not",
            "Note",
            "NOTE",
            " note",
            "note ",
            "note&apos;",
            "&lt;note&gt;",
            "codon-start",
            "Codon_start",
            "ec_number",
            "protein id",
            "Protein_id",
            "operaon",
            "gene_synonyms",
            "circular_rna",
            "anticodon",
            "bound_moiety",
            "phenotype",
            "compare",
            "replace",
            "frequency",
            "direction",
            "organism",
            "mol_type",
            "tag_peptide",
            "transl_splicing",
            "source",
            "CDS",
        ],
    ),
    refused(
        "name written <X/>",
        &[(
            "<INSDQualifier_name>codon_start</INSDQualifier_name>",
            "<INSDQualifier_name />",
        )],
        &[(41, 1910, "<INSDQualifier_name />")],
    ),
    refused(
        "other spellings of what makes a CDS judged are not allowed, nor do they count",
        &[(
            qualifier!("translation", "MKC"),
            concat!(
                qualifier!("Translation", "wrong"),
                qualifier!("translation ", "wrong")
            ),
        )],
        &[(41, 2058, "Translation<"), (41, 2189, "translation <")],
    ),
    accepted("name allowed at CDS", &[], WITH_CDS).each(
        ANY_NAME,
        &[
            "allele",
            "circular_RNA",
            "EC_number",
            "function",
            "gene",
            "gene_synonym",
            "map",
            "note",
            "number",
            "operon",
            "product",
            "protein_id",
            "ribosomal_slippage",
            "standard_name",
            // The list of 5.2 has transl_except twice, and not this.
            "trans_splicing",
        ],
    ),
    accepted(
        "a name more than once",
        &[instead_of_cds!(
            "exon",
            qualifier!("note", "a"),
            qualifier!("note", "a"),
            qualifier!("note")
        )],
        WITHOUT_CDS,
    ),
    refused("name not allowed at gene", &[], &[(41, 1929, "@")]).each(
        instead_of_cds!("gene", qualifier!("@", "x")),
        &["product", "number", "translation", "mod_base", "clone"],
    ),
    accepted("name allowed at gene", &[], WITHOUT_CDS).each(
        instead_of_cds!("gene", qualifier!("@", "x")),
        &["gene", "operon", "phenotype", "trans_splicing", "pseudo"],
    ),
    refused("name not allowed at source", &[], &[(41, 1493, "@")]).each(
        (
            qualifier!("organism", "synthetic"),
            concat!(qualifier!("@"), qualifier!("organism", "synthetic")),
        ),
        &["gene", "allele", "ORGANISM", "NOTE", "MOL_TYPE", "country"],
    ),
    accepted("name allowed at source", &[], WITH_CDS).each(
        (
            qualifier!("organism", "synthetic"),
            concat!(qualifier!("@"), qualifier!("organism", "synthetic")),
        ),
        &["cell_line", "map", "note", "PCR_primers", "variety"],
    ),
    refused(
        "each name that is not allowed counts",
        &[instead_of_cds!(
            "D-loop",
            qualifier!("product", "x"),
            qualifier!("note", "x"),
            qualifier!("pseudo")
        )],
        &[(41, 1931, "product<"), (41, 2174, "pseudo<")],
    ),
    refused("name not allowed in AA", &[], &[(41, 3209, "@")]).each(
        amino_qualifiers!(qualifier!("@", "x")),
        &[
            "gene", "product", "Note", "notes", "NOTES", "", "organism", "ORGANISM", "mol_type",
            "MOL_TYPE", "SOURCE",
        ],
    ),
    accepted("name allowed in AA", &[], WITH_CDS).each(
        amino_qualifiers!(qualifier!("@"), qualifier!("@", "x")),
        &["note", "NOTE"],
    ),
    // Rule 42, "at the key".
    refused("required name missing", &[], &[(42, 1791, "@")]).each(
        ANY_KEY,
        &[
            "misc_binding",
            "mobile_element",
            "modified_base",
            "ncRNA",
            "operon",
            "protein_bind",
            "regulatory",
        ],
    ),
    accepted(
        "required name without value",
        &[instead_of_cds!("misc_binding", qualifier!("bound_moiety"))],
        WITHOUT_CDS,
    ),
    accepted(
        "required name after others, twice",
        &[instead_of_cds!(
            "modified_base",
            qualifier!("note", "x"),
            qualifier!("mod_base", "x"),
            qualifier!("mod_base")
        )],
        WITHOUT_CDS,
    ),
    accepted(
        "key and required name alike",
        &[instead_of_cds!("operon", qualifier!("operon", "lac"))],
        WITHOUT_CDS,
    ),
    refused(
        "42 and 41 together",
        &[instead_of_cds!(
            "misc_binding",
            qualifier!("Bound_moiety", "x")
        )],
        &[(42, 1791, "misc_binding<"), (41, 1937, "Bound_moiety<")],
    ),
    refused(
        "both required names missing are one break, and 22 comes first",
        &[(">organism<", ">note<"), (">mol_type<", ">note<")],
        &[(22, 1363, "source<"), (42, 1363, "source<")],
    ),
    refused("required note missing in AA", &[], &[(42, 3080, "@")]).each(
        ANY_AMINO_KEY,
        &[
            "BINDING", "CARBOHYD", "CROSSLNK", "DISULFID", "DNA_BIND", "DOMAIN", "LIPID", "METAL",
            "MOD_RES", "NP_BIND", "SITE", "ZN_FING", "source",
        ],
    ),
    accepted("required note in AA", &[(">TURN<", ">SITE<")], WITH_CDS)
        .each(amino_qualifiers!(qualifier!("@", "x")), &["note", "NOTE"]),
    refused(
        "no note in AA, but its misspelling",
        &[
            (">TURN<", ">SITE<"),
            amino_qualifiers!(qualifier!("Note", "x")),
        ],
        &[(42, 3080, "SITE<"), (41, 3209, "Note<")],
    ),
    // Both spellings of the source in AA.
    accepted("source beside SOURCE", &[AMINO_SOURCE], WITH_CDS).each(
        amino_qualifiers!("@"),
        &[
            concat!(qualifier!("organism"), qualifier!("mol_type")),
            concat!(qualifier!("MOL_TYPE"), qualifier!("ORGANISM")),
            concat!(qualifier!("organism", "x"), qualifier!("MOL_TYPE", "x")),
            concat!(
                qualifier!("ORGANISM"),
                qualifier!("mol_type"),
                qualifier!("note")
            ),
            // Rule 22 passes it by.
            concat!(
                qualifier!("ORGANISM"),
                qualifier!("ORGANISM"),
                qualifier!("mol_type")
            ),
        ],
    ),
    refused(
        "source beside SOURCE",
        &[AMINO_SOURCE],
        &[(42, 3080, "source<")],
    )
    .each(
        amino_qualifiers!("@"),
        &[
            "",
            qualifier!("organism"),
            qualifier!("MOL_TYPE"),
            concat!(qualifier!("organism"), qualifier!("ORGANISM")),
            concat!(
                qualifier!("mol_type"),
                qualifier!("MOL_TYPE"),
                qualifier!("NOTE")
            ),
        ],
    ),
    accepted("names beside SOURCE's own", &[], WITH_CDS).each(
        (qualifier!("MOL_TYPE"), concat!(qualifier!("MOL_TYPE"), "@")),
        &[
            qualifier!("organism"),
            qualifier!("mol_type", "protein"),
            qualifier!("note", "x"),
            qualifier!("NOTE", "x"),
            concat!(
                qualifier!("organism"),
                qualifier!("organism"),
                qualifier!("mol_type")
            ),
        ],
    ),
    refused(
        "22 asks for ORGANISM, 42 for either",
        &[(">ORGANISM<", ">organism<")],
        &[(22, 2694, "SOURCE<")],
    ),
    refused(
        "neither ORGANISM nor organism",
        &[(">ORGANISM<", ">NOTE<")],
        &[(22, 2694, "SOURCE<"), (42, 2694, "SOURCE<")],
    ),
    refused(
        "no source but a lower-case one",
        &[(">SOURCE<", ">source<"), (">MOL_TYPE<", ">note<")],
        &[(21, 2639, "<INSDSeq_feature-table>"), (42, 2694, "source<")],
    ),
    // "They are judged only if 16 holds, and 41 and 42 only if 40 does for that feature."
    refused(
        "none is judged where 16 is broken",
        &[
            (">DNA<", ">XNA<"),
            (">organism<", ">gene<"),
            instead_of_cds!("exonn", qualifier!("exonn")),
        ],
        &[(16, 1164, "XNA<")],
    ),
    refused(
        "41 and 42 are not judged where 40 is broken, but in other features",
        &[
            (">source<", ">sources<"),
            (">organism<", ">no such<"),
            instead_of_cds!("modified_base", qualifier!("no such")),
        ],
        &[
            (21, 1308, "<INSDSeq_feature-table>"),
            (40, 1363, "sources<"),
            (42, 1791, "modified_base<"),
            (41, 1938, "no such<"),
        ],
    ),
    refused(
        "none is judged in a skipped sequence",
        &[(
            "<INSDSeq_sequence>000",
            concat!(
                "<INSDSeq_feature-table><INSDFeature>",
                "<INSDFeature_key>exonn</INSDFeature_key>",
                "<INSDFeature_location>1</INSDFeature_location></INSDFeature><INSDFeature>",
                "<INSDFeature_key>operon</INSDFeature_key>",
                "<INSDFeature_location>1</INSDFeature_location><INSDFeature_quals>",
                qualifier!("no such"),
                "</INSDFeature_quals></INSDFeature>",
                "</INSDSeq_feature-table><INSDSeq_sequence>000"
            ),
        )],
        &[(29, 2821, "000<")],
    ),
    // "In the same order of place and number."
    refused(
        "40 to 42 between the others",
        &[
            ("<SequenceTotalQuantity>3<", "<SequenceTotalQuantity>9<"),
            (">organism<", ">gene<"),
            (">1..12<", ">1..6<"),
            instead_of_cds!("exonn"),
            location("13"),
            residues("ttagcatttca-"),
            (">TURN<", ">SITE<"),
            ("&lt;2..3", "complement(2)"),
        ],
        &[
            (14, 1040, "9<"),
            (22, 1363, "source<"),
            (42, 1363, "source<"),
            (23, 1409, "1..6<"),
            (41, 1492, "gene<"),
            (40, 1786, "exonn<"),
            (25, 1831, "13<"),
            (18, 1926, "-<"),
            (42, 2763, "SITE<"),
            (26, 2807, "complement(2)<"),
        ],
    ),
    accepted("gene without qualifiers", &[GENE], WITHOUT_CDS),
];
