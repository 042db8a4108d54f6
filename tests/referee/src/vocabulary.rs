//! The vocabulary of Annex I, sections 5 to 8 of source document 003: feature keys and qualifiers, in its order.
//!
//! Where the print is damaged or contradicts itself: CDS has trans_splicing, for which its row prints transl_except twice (6.79
//! names CDS). ZN_FING requires note, as 8.2 says, not 7.39. COMPBias is COMPBIAS, operaon operon, flone clone, gnene gene,
//! gene_synonyms gene_synonym, Frequency frequency, Protein_id protein_id, and 5.1's capitals are small letters. Where a cell prints
//! "required" and "optional" together, only its first name is required: after it the alphabet starts anew. Else the lists of
//! sections 5 and 7 hold as printed: gene has no product, and regulatory has bound_moiety and telomere rpt_unit_range and
//! rpt_unit_seq, which the comments of 6.3, 6.62 and 6.63 don't name.

use crate::Kind;

/// A feature key, with the qualifiers that it requires and those that it may have besides.
#[derive(Clone, Copy, Debug)]
pub struct Key {
    pub name: &'static str,
    required: &'static str,
    optional: &'static str,
}

impl Key {
    /// The names that must be there.
    pub fn required(&self) -> impl Iterator<Item = &'static str> {
        self.required.split_whitespace()
    }

    /// The names that may be there: the required ones too.
    pub fn allowed(&self) -> impl Iterator<Item = &'static str> {
        self.required().chain(self.optional.split_whitespace())
    }

    /// The names that may be there, in every spelling of this kind.
    pub fn spelled(&self, kind: Kind) -> impl Iterator<Item = &'static str> {
        self.allowed().flat_map(move |name| spellings(kind, name))
    }
}

const fn key(name: &'static str, required: &'static str, optional: &'static str) -> Key {
    Key {
        name,
        required,
        optional,
    }
}

/// The keys of this kind, by section 5 or 7.
pub fn keys(kind: Kind) -> &'static [Key] {
    match kind {
        Kind::Dna | Kind::Rna => &NUCLEOTIDE_KEYS,
        Kind::Aa => &AMINO_KEYS,
    }
}

/// The key that is written so in this kind, if there is one.
pub fn known(kind: Kind, text: &str) -> Option<&'static Key> {
    let mut keys = keys(kind).iter();
    keys.find(|key| spellings(kind, key.name).any(|spelling| spelling == text))
}

/// The qualifiers of this kind, by section 6 or 8.
pub fn qualifiers(kind: Kind) -> &'static [&'static str] {
    match kind {
        Kind::Dna | Kind::Rna => &NUCLEOTIDE_QUALIFIERS,
        Kind::Aa => &AMINO_QUALIFIERS,
    }
}

/// What counts in AA as a lower-case name. No two of them are a key and a qualifier of one name.
const UPPER_CASE: [(&str, &str); 4] = [
    ("SOURCE", "source"),
    ("ORGANISM", "organism"),
    ("MOL_TYPE", "mol_type"),
    ("NOTE", "note"),
];

/// How this key or qualifier may be written in this kind.
pub fn spellings(kind: Kind, name: &str) -> impl Iterator<Item = &str> {
    let upper = UPPER_CASE
        .iter()
        .filter(move |(_, lower)| kind == Kind::Aa && *lower == name)
        .map(|&(upper, _)| upper);
    std::iter::once(name).chain(upper)
}

/// Section 5.
const NUCLEOTIDE_KEYS: [Key; 49] = [
    key(
        "C_region",
        "",
        "allele gene gene_synonym map note product pseudo pseudogene standard_name",
    ),
    key(
        "CDS",
        "",
        "allele circular_RNA codon_start EC_number exception function gene gene_synonym map note number operon product \
         protein_id pseudo pseudogene ribosomal_slippage standard_name translation transl_except transl_table trans_splicing",
    ),
    key("centromere", "", "note standard_name"),
    key("D-loop", "", "allele gene gene_synonym map note"),
    key(
        "D_segment",
        "",
        "allele gene gene_synonym map note product pseudo pseudogene standard_name",
    ),
    key(
        "exon",
        "",
        "allele EC_number function gene gene_synonym map note number product pseudo pseudogene standard_name trans_splicing",
    ),
    key(
        "gene",
        "",
        "allele function gene gene_synonym map note operon pseudo pseudogene phenotype standard_name trans_splicing",
    ),
    key(
        "iDNA",
        "",
        "allele function gene gene_synonym map note number standard_name",
    ),
    key(
        "intron",
        "",
        "allele function gene gene_synonym map note number pseudo pseudogene standard_name trans_splicing",
    ),
    key(
        "J_segment",
        "",
        "allele gene gene_synonym map note product pseudo pseudogene standard_name",
    ),
    key(
        "mat_peptide",
        "",
        "allele EC_number function gene gene_synonym map note product pseudo pseudogene standard_name",
    ),
    key(
        "misc_binding",
        "bound_moiety",
        "allele function gene gene_synonym map note",
    ),
    key(
        "misc_difference",
        "",
        "allele clone compare gene gene_synonym map note phenotype replace standard_name",
    ),
    key(
        "misc_feature",
        "",
        "allele function gene gene_synonym map note number phenotype product pseudo pseudogene standard_name",
    ),
    key(
        "misc_recomb",
        "",
        "allele gene gene_synonym map note recombination_class standard_name",
    ),
    key(
        "misc_RNA",
        "",
        "allele function gene gene_synonym map note operon product pseudo pseudogene standard_name trans_splicing",
    ),
    key(
        "misc_structure",
        "",
        "allele function gene gene_synonym map note standard_name",
    ),
    key(
        "mobile_element",
        "mobile_element_type",
        "allele function gene gene_synonym map note rpt_family rpt_type standard_name",
    ),
    key(
        "modified_base",
        "mod_base",
        "allele frequency gene gene_synonym map note",
    ),
    key(
        "mRNA",
        "",
        "allele circular_RNA function gene gene_synonym map note operon product pseudo pseudogene standard_name \
         trans_splicing",
    ),
    key(
        "ncRNA",
        "ncRNA_class",
        "allele function gene gene_synonym map note operon product pseudo pseudogene standard_name trans_splicing",
    ),
    key(
        "N_region",
        "",
        "allele gene gene_synonym map note product pseudo pseudogene standard_name",
    ),
    key(
        "operon",
        "operon",
        "allele function map note phenotype pseudo pseudogene standard_name",
    ),
    key(
        "oriT",
        "",
        "allele bound_moiety direction gene gene_synonym map note rpt_family rpt_type rpt_unit_range rpt_unit_seq \
         standard_name",
    ),
    key("polyA_site", "", "allele gene gene_synonym map note"),
    key(
        "precursor_RNA",
        "",
        "allele function gene gene_synonym map note operon product standard_name trans_splicing",
    ),
    key(
        "prim_transcript",
        "",
        "allele function gene gene_synonym map note operon standard_name",
    ),
    key(
        "primer_bind",
        "",
        "allele gene gene_synonym map note standard_name",
    ),
    key(
        "propeptide",
        "",
        "allele function gene gene_synonym map note product pseudo pseudogene standard_name",
    ),
    key(
        "protein_bind",
        "bound_moiety",
        "allele function gene gene_synonym map note operon standard_name",
    ),
    key(
        "regulatory",
        "regulatory_class",
        "allele bound_moiety function gene gene_synonym map note operon phenotype pseudo pseudogene standard_name",
    ),
    key(
        "repeat_region",
        "",
        "allele function gene gene_synonym map note rpt_family rpt_type rpt_unit_range rpt_unit_seq satellite \
         standard_name",
    ),
    key(
        "rep_origin",
        "",
        "allele direction function gene gene_synonym map note standard_name",
    ),
    key(
        "rRNA",
        "",
        "allele function gene gene_synonym map note operon product pseudo pseudogene standard_name",
    ),
    key(
        "S_region",
        "",
        "allele gene gene_synonym map note product pseudo pseudogene standard_name",
    ),
    key(
        "sig_peptide",
        "",
        "allele function gene gene_synonym map note product pseudo pseudogene standard_name",
    ),
    key(
        "source",
        "organism mol_type",
        "cell_line cell_type chromosome clone clone_lib collected_by collection_date cultivar dev_stage ecotype \
         environmental_sample germline haplogroup haplotype host identified_by isolate isolation_source lab_host lat_lon \
         macronuclear map mating_type note organelle PCR_primers plasmid pop_variant proviral rearranged segment serotype \
         serovar sex strain sub_clone sub_species sub_strain tissue_lib tissue_type variety",
    ),
    key(
        "stem_loop",
        "",
        "allele function gene gene_synonym map note operon standard_name",
    ),
    key(
        "STS",
        "",
        "allele gene gene_synonym map note standard_name",
    ),
    key(
        "telomere",
        "",
        "note rpt_type rpt_unit_range rpt_unit_seq standard_name",
    ),
    key(
        "tmRNA",
        "",
        "allele function gene gene_synonym map note product pseudo pseudogene standard_name tag_peptide",
    ),
    key(
        "transit_peptide",
        "",
        "allele function gene gene_synonym map note product pseudo pseudogene standard_name",
    ),
    key(
        "tRNA",
        "",
        "allele circular_RNA anticodon function gene gene_synonym map note operon product pseudo pseudogene standard_name \
         trans_splicing",
    ),
    key(
        "unsure",
        "",
        "allele compare gene gene_synonym map note replace",
    ),
    key(
        "V_region",
        "",
        "allele gene gene_synonym map note product pseudo pseudogene standard_name",
    ),
    key(
        "V_segment",
        "",
        "allele gene gene_synonym map note product pseudo pseudogene standard_name",
    ),
    key(
        "variation",
        "",
        "allele compare frequency gene gene_synonym map note phenotype product replace standard_name",
    ),
    key(
        "3'UTR",
        "",
        "allele function gene gene_synonym map note standard_name trans_splicing",
    ),
    key(
        "5'UTR",
        "",
        "allele function gene gene_synonym map note standard_name trans_splicing",
    ),
];

/// Section 6.
const NUCLEOTIDE_QUALIFIERS: [&str; 81] = [
    "allele",
    "anticodon",
    "bound_moiety",
    "cell_line",
    "cell_type",
    "chromosome",
    "circular_RNA",
    "clone",
    "clone_lib",
    "codon_start",
    "collected_by",
    "collection_date",
    "compare",
    "cultivar",
    "dev_stage",
    "direction",
    "EC_number",
    "ecotype",
    "environmental_sample",
    "exception",
    "frequency",
    "function",
    "gene",
    "gene_synonym",
    "germline",
    "haplogroup",
    "haplotype",
    "host",
    "identified_by",
    "isolate",
    "isolation_source",
    "lab_host",
    "lat_lon",
    "macronuclear",
    "map",
    "mating_type",
    "mobile_element_type",
    "mod_base",
    "mol_type",
    "ncRNA_class",
    "note",
    "number",
    "operon",
    "organelle",
    "organism",
    "PCR_primers",
    "phenotype",
    "plasmid",
    "pop_variant",
    "product",
    "protein_id",
    "proviral",
    "pseudo",
    "pseudogene",
    "rearranged",
    "recombination_class",
    "regulatory_class",
    "replace",
    "ribosomal_slippage",
    "rpt_family",
    "rpt_type",
    "rpt_unit_range",
    "rpt_unit_seq",
    "satellite",
    "segment",
    "serotype",
    "serovar",
    "sex",
    "standard_name",
    "strain",
    "sub_clone",
    "sub_species",
    "sub_strain",
    "tag_peptide",
    "tissue_lib",
    "tissue_type",
    "transl_except",
    "transl_table",
    "trans_splicing",
    "translation",
    "variety",
];

/// Section 7.
const AMINO_KEYS: [Key; 39] = [
    key("ACT_SITE", "", "note"),
    key("BINDING", "note", ""),
    key("CA_BIND", "", "note"),
    key("CARBOHYD", "note", ""),
    key("CHAIN", "", "note"),
    key("COILED", "", "note"),
    key("COMPBIAS", "", "note"),
    key("CONFLICT", "", "note"),
    key("CROSSLNK", "note", ""),
    key("DISULFID", "note", ""),
    key("DNA_BIND", "note", ""),
    key("DOMAIN", "note", ""),
    key("HELIX", "", "note"),
    key("INIT_MET", "", "note"),
    key("INTRAMEM", "", "note"),
    key("LIPID", "note", ""),
    key("METAL", "note", ""),
    key("MOD_RES", "note", ""),
    key("MOTIF", "", "note"),
    key("MUTAGEN", "", "note"),
    key("NON_STD", "", "note"),
    key("NON_TER", "", "note"),
    key("NP_BIND", "note", ""),
    key("PEPTIDE", "", "note"),
    key("PROPEP", "", "note"),
    key("REGION", "", "note"),
    key("REPEAT", "", "note"),
    key("SIGNAL", "", "note"),
    key("SITE", "note", ""),
    key("source", "mol_type organism", "note"),
    key("STRAND", "", "note"),
    key("TOPO_DOM", "", "note"),
    key("TRANSMEM", "", "note"),
    key("TRANSIT", "", "note"),
    key("TURN", "", "note"),
    key("UNSURE", "", "note"),
    key("VARIANT", "", "note"),
    key("VAR_SEQ", "", "note"),
    key("ZN_FING", "note", ""),
];

/// Section 8.
const AMINO_QUALIFIERS: [&str; 3] = ["mol_type", "note", "organism"];
