//! A small listing with every kind of sequence, and its index with every number counted by hand.

/// DNA, skipped, AA and RNA; a key and a location with an entity; a source that isn't its sequence's first feature.
pub const SMALL: &str = r#"<?xml version="1.0" encoding="UTF-8"?>
<!DOCTYPE ST26SequenceListing PUBLIC "-//WIPO//DTD Sequence Listing 1.2//EN" "ST26SequenceListing_V1_2.dtd">
<ST26SequenceListing dtdVersion="1_2"><ApplicantFileReference/><InventionTitle languageCode="en">Small</InventionTitle>
<SequenceTotalQuantity>4</SequenceTotalQuantity>
<SequenceData sequenceIDNumber="1"><INSDSeq>
<INSDSeq_length>12</INSDSeq_length><INSDSeq_moltype>DNA</INSDSeq_moltype><INSDSeq_division>PAT</INSDSeq_division>
<INSDSeq_feature-table>
<INSDFeature><INSDFeature_key>source</INSDFeature_key><INSDFeature_location>1..12</INSDFeature_location><INSDFeature_quals>
<INSDQualifier><INSDQualifier_name>organism</INSDQualifier_name></INSDQualifier>
<INSDQualifier><INSDQualifier_name>mol_type</INSDQualifier_name></INSDQualifier>
</INSDFeature_quals></INSDFeature>
<INSDFeature><INSDFeature_key>3&apos;UTR</INSDFeature_key><INSDFeature_location>10..&gt;12</INSDFeature_location></INSDFeature>
</INSDSeq_feature-table>
<INSDSeq_sequence>atgaaatgctaa</INSDSeq_sequence>
</INSDSeq></SequenceData>
<SequenceData sequenceIDNumber="2"><INSDSeq>
<INSDSeq_length/><INSDSeq_moltype/><INSDSeq_division/>
<INSDSeq_sequence>000</INSDSeq_sequence>
</INSDSeq></SequenceData>
<SequenceData sequenceIDNumber="3"><INSDSeq>
<INSDSeq_length>4</INSDSeq_length><INSDSeq_moltype>AA</INSDSeq_moltype><INSDSeq_division>PAT</INSDSeq_division>
<INSDSeq_feature-table>
<INSDFeature><INSDFeature_key>SOURCE</INSDFeature_key><INSDFeature_location>1..4</INSDFeature_location><INSDFeature_quals>
<INSDQualifier><INSDQualifier_name>ORGANISM</INSDQualifier_name></INSDQualifier>
<INSDQualifier><INSDQualifier_name>MOL_TYPE</INSDQualifier_name></INSDQualifier>
</INSDFeature_quals></INSDFeature>
</INSDSeq_feature-table>
<INSDSeq_sequence>MKCA</INSDSeq_sequence>
</INSDSeq></SequenceData>
<SequenceData sequenceIDNumber="4"><INSDSeq>
<INSDSeq_length>10</INSDSeq_length><INSDSeq_moltype>RNA</INSDSeq_moltype><INSDSeq_division>PAT</INSDSeq_division>
<INSDSeq_feature-table>
<INSDFeature><INSDFeature_key>CDS</INSDFeature_key><INSDFeature_location>complement(1..9)</INSDFeature_location></INSDFeature>
<INSDFeature><INSDFeature_key>source</INSDFeature_key><INSDFeature_location>1..10</INSDFeature_location><INSDFeature_quals>
<INSDQualifier><INSDQualifier_name>organism</INSDQualifier_name></INSDQualifier>
<INSDQualifier><INSDQualifier_name>mol_type</INSDQualifier_name></INSDQualifier>
</INSDFeature_quals></INSDFeature>
</INSDSeq_feature-table>
<INSDSeq_sequence>gcatttcatg</INSDSeq_sequence>
</INSDSeq></SequenceData>
</ST26SequenceListing>
"#;

/// The numbers of the index of `SMALL`.
pub const NUMBERS: [u32; 41] = [
    // The contents: the count, then each body's start and size.
    4, 36, 44, 80, 12, 92, 28, 120, 44, //
    // DNA; its residues; source, 1..12; 3&apos;UTR, 10..&gt;12.
    1, 992, 12, 530, 6, 576, 5, 851, 10, 901, 10, //
    // Skipped; 000.
    0, 1168, 3, //
    // AA; its residues; SOURCE, 1..4.
    3, 1761, 4, 1428, 6, 1474, 4, //
    // RNA; its residues; CDS, complement(1..9); source, 1..10.
    2, 2485, 10, 2024, 3, 2067, 16, 2151, 6, 2197, 5,
];
