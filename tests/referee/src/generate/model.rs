//! The generator's own picture of a listing, with what it knows about it.

use crate::{Counts, Kind, Operator, Span};

/// A listing before it is written; all texts are as read.
#[derive(Clone)]
pub struct Model {
    pub header: Header,
    pub sequences: Vec<Sequence>,
}

#[derive(Clone)]
pub struct Header {
    pub dtd_version: String,
    pub file_name: Option<String>,
    pub software_name: Option<String>,
    pub software_version: Option<String>,
    pub production_date: Option<String>,
    pub file_reference: Option<String>,
    pub application: Option<Identification>,
    pub priority: Option<Identification>,
    pub applicant: Option<Name>,
    pub inventor: Option<Name>,
    pub titles: Vec<Worded>,
    pub total: String,
}

#[derive(Clone)]
pub struct Identification {
    pub office: Option<String>,
    pub number: String,
    pub date: Option<String>,
}

#[derive(Clone)]
pub struct Name {
    pub name: Worded,
    pub latin: Option<String>,
}

/// A text in a language.
#[derive(Clone)]
pub struct Worded {
    pub language: String,
    pub text: Vec<u8>,
}

#[derive(Clone)]
pub struct Sequence {
    pub id: String,
    pub length: String,
    pub moltype: String,
    pub division: String,
    /// The element, if there is one, and the INSDSeqid in it, if there is one.
    pub other_seqids: Option<Option<String>>,
    pub table: Option<Vec<Feature>>,
    pub residues: String,
}

#[derive(Clone)]
pub struct Feature {
    pub key: String,
    pub location: Place,
    pub qualifiers: Option<Vec<Qualifier>>,
    pub coding: Coding,
}

/// A location with the spans that it was made from.
#[derive(Clone)]
pub struct Place {
    pub text: String,
    pub operator: Operator,
    pub spans: Vec<Span>,
    /// Whether an order, a site, or a lone `<x` or `>x` stands in it.
    pub is_unclear: bool,
}

/// What the generator knows about the translation of a feature.
#[derive(Clone, PartialEq, Eq)]
pub enum Coding {
    NotCds,
    Unjudged,
    StopInside,
    Letters(String),
}

#[derive(Clone)]
pub struct Qualifier {
    pub name: String,
    pub value: Option<String>,
}

/// A value of a listing whose place is of interest; counted from 0.
#[derive(Clone, Copy, Debug, PartialEq, Eq, Hash)]
pub enum Field {
    DtdVersion,
    ProductionDate,
    ApplicationOffice,
    ApplicationDate,
    PriorityOffice,
    PriorityDate,
    ApplicantLanguage,
    InventorLanguage,
    TitleLanguage(usize),
    Total,
    Id(usize),
    Length(usize),
    Moltype(usize),
    Division(usize),
    Table(usize),
    Residues(usize),
    Residue(usize, usize),
    Key(usize, usize),
    Location(usize, usize),
    QualifierName(usize, usize, usize),
    QualifierValue(usize, usize, usize),
}

impl Sequence {
    pub fn features(&self) -> &[Feature] {
        self.table.as_deref().unwrap_or(&[])
    }

    pub fn is_skipped(&self) -> bool {
        self.residues == "000"
    }

    /// The kind of one that isn't skipped.
    pub fn kind(&self) -> Kind {
        match self.moltype.as_str() {
            "DNA" => Kind::Dna,
            "RNA" => Kind::Rna,
            _ => Kind::Aa,
        }
    }

    pub fn is_nucleic(&self) -> bool {
        ["DNA", "RNA"].contains(&self.moltype.as_str())
    }

    /// The names of source, organism and mol_type in this kind.
    pub fn source_names(&self) -> [&'static str; 3] {
        if self.is_nucleic() {
            ["source", "organism", "mol_type"]
        } else {
            ["SOURCE", "ORGANISM", "MOL_TYPE"]
        }
    }
}

impl Feature {
    pub fn qualifiers(&self) -> &[Qualifier] {
        self.qualifiers.as_deref().unwrap_or(&[])
    }
}

impl Qualifier {
    pub fn new(name: &str, value: impl Into<String>) -> Qualifier {
        Qualifier {
            name: name.into(),
            value: Some(value.into()),
        }
    }

    pub fn without_value(name: &str) -> Qualifier {
        Qualifier {
            name: name.into(),
            value: None,
        }
    }
}

impl Model {
    /// The counts of this listing, if it is valid.
    pub fn counts(&self) -> Counts {
        let features = || self.sequences.iter().flat_map(Sequence::features);
        let count =
            |belongs: fn(&Coding) -> bool| features().filter(|f| belongs(&f.coding)).count() as u64;
        Counts {
            total: self.sequences.len() as u64,
            skipped: self.sequences.iter().filter(|s| s.is_skipped()).count() as u64,
            features: features().count() as u64,
            judged: count(|coding| matches!(coding, Coding::StopInside | Coding::Letters(_))),
            unjudged: count(|coding| *coding == Coding::Unjudged),
        }
    }
}
