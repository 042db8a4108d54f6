//! What document 01 says of CDS features and their qualifiers.

use crate::location::{Location, Operator};
use crate::tree::{Feature, Qualifier};
use crate::values::Kind;

/// The feature's qualifiers of this name.
pub fn named<'a>(
    listing: &'a [u8],
    feature: &'a Feature,
    name: &'a str,
) -> impl Iterator<Item = &'a Qualifier> {
    feature
        .qualifiers
        .iter()
        .filter(move |qualifier| qualifier.name.is(listing, name))
}

/// "CDS rules concern DNA and RNA only."
pub fn is_cds(listing: &[u8], kind: Kind, feature: &Feature) -> bool {
    kind != Kind::Aa && feature.key.is(listing, "CDS")
}

/// The codon_start of a CDS (absent: 1), or nothing if rule 27 is broken.
pub fn codon_start(listing: &[u8], cds: &Feature) -> Option<usize> {
    let mut qualifiers = named(listing, cds, "codon_start");
    let first = match qualifiers.next() {
        Some(first) => first,
        None => return Some(1),
    };
    let value = first.value.filter(|_| qualifiers.next().is_none())?;
    (1..=3).find(|start: &usize| value.is(listing, start.to_string()))
}

/// Whether the CDS is judged; document 01 lists what makes it unjudged.
pub fn is_judged(listing: &[u8], cds: &Feature, location: &Location) -> bool {
    let excepted = cds.qualifiers.iter().any(|qualifier| {
        let names = ["transl_except", "exception", "pseudo", "pseudogene"];
        qualifier.name.is_any(listing, &names)
    });
    let other_table = named(listing, cds, "transl_table")
        .any(|table| !table.value.map_or(false, |value| value.is(listing, "1")));
    let unclear =
        location.operator == Operator::Order || location.has_site || location.has_lone_partial;
    !excepted && !other_table && !unclear
}
