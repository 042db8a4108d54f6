//! Two small listings, and how the hand-made cases are cut from them.

/// Everything optional once, and one sequence each of DNA, skipped and AA.
pub const BASE: &str = r#"<?xml version="1.0" encoding="UTF-8"?>
<!DOCTYPE ST26SequenceListing PUBLIC "-//WIPO//DTD Sequence Listing 1.2//EN" "ST26SequenceListing_V1_2.dtd">
<ST26SequenceListing dtdVersion="1_2" fileName="one.xml" softwareName="hand" softwareVersion="7" productionDate="2015-01-31">
<ApplicationIdentification>
<IPOfficeCode>IB</IPOfficeCode><ApplicationNumberText>PCT/IB2013/099999</ApplicationNumberText><FilingDate>2014-02-28</FilingDate>
</ApplicationIdentification>
<ApplicantFileReference>AB123</ApplicantFileReference>
<EarliestPriorityApplicationIdentification>
<IPOfficeCode>US</IPOfficeCode><ApplicationNumberText>61/999,999</ApplicationNumberText><FilingDate>2013-12-31</FilingDate>
</EarliestPriorityApplicationIdentification>
<ApplicantName languageCode="fr">Dupont</ApplicantName>
<ApplicantNameLatin>Dupont in Latin</ApplicantNameLatin>
<InventorName languageCode="de">Meyer</InventorName>
<InventorNameLatin>Meyer in Latin</InventorNameLatin>
<InventionTitle languageCode="en">A small listing</InventionTitle>
<SequenceTotalQuantity>3</SequenceTotalQuantity>
<SequenceData sequenceIDNumber="1">
<INSDSeq>
<INSDSeq_length>12</INSDSeq_length><INSDSeq_moltype>DNA</INSDSeq_moltype><INSDSeq_division>PAT</INSDSeq_division>
<INSDSeq_other-seqids><INSDSeqid>pat|WO|1|A1|1</INSDSeqid></INSDSeq_other-seqids>
<INSDSeq_feature-table>
<INSDFeature>
<INSDFeature_key>source</INSDFeature_key><INSDFeature_location>1..12</INSDFeature_location>
<INSDFeature_quals>
<INSDQualifier><INSDQualifier_name>organism</INSDQualifier_name><INSDQualifier_value>synthetic</INSDQualifier_value></INSDQualifier>
<INSDQualifier><INSDQualifier_name>mol_type</INSDQualifier_name><INSDQualifier_value>other DNA</INSDQualifier_value></INSDQualifier>
</INSDFeature_quals>
</INSDFeature>
<INSDFeature>
<INSDFeature_key>CDS</INSDFeature_key><INSDFeature_location>complement(1..12)</INSDFeature_location>
<INSDFeature_quals>
<INSDQualifier><INSDQualifier_name>codon_start</INSDQualifier_name><INSDQualifier_value>1</INSDQualifier_value></INSDQualifier>
<INSDQualifier><INSDQualifier_name>translation</INSDQualifier_name><INSDQualifier_value>MKC</INSDQualifier_value></INSDQualifier>
</INSDFeature_quals>
</INSDFeature>
</INSDSeq_feature-table>
<INSDSeq_sequence>ttagcatttcat</INSDSeq_sequence>
</INSDSeq>
</SequenceData>
<SequenceData sequenceIDNumber="2">
<INSDSeq>
<INSDSeq_length/><INSDSeq_moltype /><INSDSeq_division></INSDSeq_division>
<INSDSeq_sequence>000</INSDSeq_sequence >
</INSDSeq>
</SequenceData>
<SequenceData sequenceIDNumber="3">
<INSDSeq>
<INSDSeq_length>5</INSDSeq_length><INSDSeq_moltype>AA</INSDSeq_moltype><INSDSeq_division>PAT</INSDSeq_division >
<INSDSeq_feature-table>
<INSDFeature>
<INSDFeature_key>SOURCE</INSDFeature_key><INSDFeature_location>1..5</INSDFeature_location>
<INSDFeature_quals>
<INSDQualifier><INSDQualifier_name>ORGANISM</INSDQualifier_name><INSDQualifier_value>synthetic &amp; more</INSDQualifier_value></INSDQualifier>
<INSDQualifier><INSDQualifier_name>MOL_TYPE</INSDQualifier_name></INSDQualifier>
</INSDFeature_quals>
</INSDFeature>
<INSDFeature>
<INSDFeature_key>TURN</INSDFeature_key><INSDFeature_location>&lt;2..3</INSDFeature_location>
</INSDFeature>
</INSDSeq_feature-table>
<INSDSeq_sequence>MKCWX</INSDSeq_sequence>
</INSDSeq>
</SequenceData>
</ST26SequenceListing>
"#;

/// The counts of `BASE`: total, skipped, features, judged, unjudged.
pub const BASE_COUNTS: [u64; 5] = [3, 1, 4, 1, 0];

/// The shortest listing there is.
pub const SHORTEST: &str = concat!(
    r#"<?xml version="1.0" encoding="UTF-8"?><!DOCTYPE ST26SequenceListing PUBLIC "#,
    r#""-//WIPO//DTD Sequence Listing 1.2//EN" "ST26SequenceListing_V1_2.dtd">"#,
    r#"<ST26SequenceListing dtdVersion="1_2"><ApplicantFileReference/>"#,
    r#"<InventionTitle languageCode="en"/><SequenceTotalQuantity>1</SequenceTotalQuantity>"#,
    r#"<SequenceData sequenceIDNumber="1"><INSDSeq><INSDSeq_length/><INSDSeq_moltype/>"#,
    r#"<INSDSeq_division/><INSDSeq_sequence>000</INSDSeq_sequence></INSDSeq></SequenceData>"#,
    r#"</ST26SequenceListing>"#
);

/// What is to be exchanged in `BASE`, and for what.
pub type Edit = (&'static str, &'static str);

/// `BASE` with these stretches exchanged; each must stand there exactly once.
/// `…` in a stretch stands for all that comes up to what follows it.
/// A character from U+0080 to U+00FF stands for the one byte of that number.
pub fn edited(edits: &[(&str, &str)]) -> Vec<u8> {
    let mut text = BASE.to_string();
    for &(stretch, new) in edits {
        let (left, right) = stretch.split_once('…').unwrap_or((stretch, ""));
        assert_eq!(text.matches(left).count(), 1, "{left:?} isn't unique");
        let start = text.find(left).unwrap_or(0);
        let after_left = start + left.len();
        let gap = text[after_left..].find(right).expect("the stretch's end");
        text.replace_range(start..after_left + gap + right.len(), new);
    }
    bytes(&text)
}

/// The text with one byte for each character.
pub fn bytes(text: &str) -> Vec<u8> {
    text.chars()
        .map(|character| u8::try_from(u32::from(character)).expect("a byte"))
        .collect()
}
