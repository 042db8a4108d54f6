//! Hand-made cases for rule 2 and its place, and for what the layout allows.

use super::base::Edit;

/// A listing that isn't of the layout.
pub struct Refused {
    pub name: &'static str,
    pub edits: &'static [Edit],
    pub place: usize,
    /// What stands at the place.
    pub there: &'static str,
}

const fn refused(
    name: &'static str,
    edits: &'static [Edit],
    place: usize,
    there: &'static str,
) -> Refused {
    Refused {
        name,
        edits,
        place,
        there,
    }
}

/// Listings that rule 2 refuses.
pub const REFUSED: &[Refused] = &[
    refused(
        "byte order mark",
        &[(
            "<?xml version=\"1.0\" encoding=\"UTF-8\"?>\n",
            "\u{ef}\u{bb}\u{bf}<?xml version=\"1.0\" encoding=\"UTF-8\"?>\n",
        )],
        0,
        "\u{ef}",
    ),
    refused(
        "blank before the first line",
        &[(
            "<?xml version=\"1.0\" encoding=\"UTF-8\"?>\n",
            " <?xml version=\"1.0\" encoding=\"UTF-8\"?>\n",
        )],
        0,
        " <?xml",
    ),
    refused(
        "blank before the close of the first line",
        &[("\"UTF-8\"?>", "\"UTF-8\" ?>")],
        36,
        " ?>",
    ),
    refused(
        "single quotes in the first line",
        &[("version=\"1.0\"", "version='1.0'")],
        14,
        "'1.0'",
    ),
    refused(
        "two blanks in the first line",
        &[("<?xml version", "<?xml  version")],
        6,
        " version",
    ),
    refused(
        "lower-case encoding",
        &[("\"UTF-8\"", "\"utf-8\"")],
        30,
        "utf-8",
    ),
    refused(
        "no document type line",
        &[("<!DOCTYPE….dtd\">\n", "")],
        40,
        "ST26SequenceListing dtd",
    ),
    refused(
        "first gap missing",
        &[("<!DOCTYPE ST26", "<!DOCTYPEST26")],
        48,
        "ST26",
    ),
    refused(
        "second gap missing",
        &[("Listing PUBLIC", "ListingPUBLIC")],
        68,
        "PUBLIC",
    ),
    refused(
        "third gap missing",
        &[("PUBLIC \"", "PUBLIC\"")],
        75,
        "\"-//",
    ),
    refused(
        "fourth gap missing",
        &[("EN\" \"ST26", "EN\"\"ST26")],
        115,
        "\"ST26",
    ),
    refused(
        "blank before the close of the document type line",
        &[("_V1_2.dtd\">", "_V1_2.dtd\" >")],
        146,
        " >",
    ),
    refused(
        "two blanks inside the public identifier",
        &[("DTD Sequence", "DTD  Sequence")],
        90,
        " Sequence",
    ),
    refused("SYSTEM", &[("PUBLIC", "SYSTEM")], 69, "SYSTEM"),
    refused(
        "upper-case public identifier of the DTD",
        &[("DTD Sequence Listing", "DTD SEQUENCE LISTING")],
        91,
        "EQUENCE",
    ),
    refused(
        "another edition",
        &[("_V1_2.dtd", "_V1_3.dtd")],
        140,
        "3.dtd",
    ),
    refused(
        "comment before the root",
        &[(".dtd\">\n", ".dtd\">\n<!-- x -->\n")],
        149,
        "!-- x",
    ),
    refused(
        "processing instruction before the root",
        &[(".dtd\">\n", ".dtd\">\n<?x y?>\n")],
        149,
        "?x y",
    ),
    refused(
        "comment inside an element",
        &[(
            "<INSDSeq>\n<INSDSeq_length>12",
            "<INSDSeq>\n<!-- x --><INSDSeq_length>12",
        )],
        1113,
        "!-- x",
    ),
    refused(
        "comment inside a text",
        &[("AB123", "AB<!-- x -->123")],
        489,
        "!-- x",
    ),
    refused(
        "CDATA section",
        &[("AB123", "<![CDATA[AB123]]>")],
        487,
        "![CDATA",
    ),
    refused(
        "processing instruction inside",
        &[("<SequenceTotalQuantity>", "<?x y?><SequenceTotalQuantity>")],
        1018,
        "?x y",
    ),
    refused(
        "numeric character reference",
        &[("AB123", "AB&#49;")],
        489,
        "#49;",
    ),
    refused(
        "hexadecimal character reference",
        &[("AB123", "AB&#x31;")],
        489,
        "#x31;",
    ),
    refused("unknown entity", &[("AB123", "AB&nbsp;")], 489, "nbsp;"),
    refused("entity in capitals", &[("AB123", "AB&AMP;")], 489, "AMP;"),
    refused("entity broken off", &[("AB123", "AB&am;")], 491, ";"),
    refused("apos broken off", &[("AB123", "AB&apo;")], 492, ";"),
    refused(
        "entity without semicolon",
        &[("AB123", "AB&lt 1")],
        491,
        " 1",
    ),
    refused("lone ampersand", &[("AB123", "A & B")], 489, " B"),
    refused("bare > in a text", &[("AB123", "A>B")], 487, ">B"),
    refused("bare quote in a text", &[("AB123", "A\"B")], 487, "\"B"),
    refused("bare apostrophe in a text", &[("AB123", "A'B")], 487, "'B"),
    refused("bare < in a text", &[("AB123", "A<B")], 488, "B"),
    refused(
        "bare apostrophe in an attribute",
        &[("\"one.xml\"", "\"o'ne\"")],
        197,
        "'ne",
    ),
    refused(
        "bare < in an attribute",
        &[("\"one.xml\"", "\"o<ne\"")],
        197,
        "<ne",
    ),
    refused(
        "bare > in an attribute",
        &[("\"one.xml\"", "\"o>ne\"")],
        197,
        ">ne",
    ),
    refused("tab in a text", &[("AB123", "AB\t123")], 488, "\t123"),
    refused("line feed in a text", &[("AB123", "AB\n123")], 488, "\n123"),
    refused(
        "carriage return in a text",
        &[("AB123", "AB\r123")],
        488,
        "\r123",
    ),
    refused(
        "line feed in an attribute",
        &[("\"one.xml\"", "\"one\nxml\"")],
        199,
        "\nxml",
    ),
    refused(
        "line feed before the residues",
        &[(">ttagcatttcat", ">\nttagcatttcat")],
        2232,
        "\nttag",
    ),
    refused("byte 0 in a text", &[("AB123", "AB\0")], 488, "\0"),
    refused("byte 31 in a text", &[("AB123", "AB\u{1f}")], 488, "\u{1f}"),
    refused(
        "byte 127 in a text",
        &[("AB123", "AB\u{7f}")],
        488,
        "\u{7f}",
    ),
    refused(
        "byte 127 in a title",
        &[("A small listing", "A\u{7f}")],
        985,
        "\u{7f}",
    ),
    refused(
        "byte 31 in a title",
        &[("A small listing", "A\u{1f}")],
        985,
        "\u{1f}",
    ),
    refused(
        "tab in a title",
        &[("A small listing", "A\tsmall")],
        985,
        "\tsmall",
    ),
    refused(
        "byte 128 in another text",
        &[("AB123", "AB\u{80}")],
        488,
        "\u{80}",
    ),
    refused(
        "byte 255 in another text",
        &[("AB123", "AB\u{ff}")],
        488,
        "\u{ff}",
    ),
    refused(
        "byte 233 in a Latin name",
        &[("Dupont in", "Dup\u{e9} in")],
        809,
        "\u{e9}",
    ),
    refused(
        "byte 233 in a language code",
        &[("\"fr\"", "\"f\u{e9}\"")],
        760,
        "\u{e9}\"",
    ),
    refused(
        "form feed as a blank",
        &[(
            "<INSDSeq>\n<INSDSeq_length>12",
            "<INSDSeq>\u{c}<INSDSeq_length>12",
        )],
        1111,
        "\u{c}",
    ),
    refused(
        "no dtdVersion",
        &[("<ST26SequenceListing dtdVersion…>", "<ST26SequenceListing>")],
        168,
        ">",
    ),
    refused(
        "dtdVersion not first",
        &[(
            "dtdVersion=\"1_2\" fileName=\"one.xml\"",
            "fileName=\"one.xml\" dtdVersion=\"1_2\"",
        )],
        169,
        "fileName",
    ),
    refused(
        "second softwareName",
        &[("softwareVersion=\"7\"", "softwareName=\"x\"")],
        233,
        "Name=\"x\"",
    ),
    refused(
        "softwareVersion before softwareName",
        &[(
            "softwareName=\"hand\" softwareVersion=\"7\"",
            "softwareVersion=\"7\" softwareName=\"hand\"",
        )],
        225,
        "softwareName",
    ),
    refused(
        "second dtdVersion",
        &[(" fileName=\"one.xml\"", " dtdVersion=\"1_2\"")],
        186,
        "dtdVersion=\"1_2\" s",
    ),
    refused(
        "no blank between attributes",
        &[("\"1_2\" fileName", "\"1_2\"fileName")],
        185,
        "fileName",
    ),
    refused("blank before =", &[("fileName=", "fileName =")], 194, " ="),
    refused("blank after =", &[("fileName=", "fileName= ")], 195, " \""),
    refused(
        "single-quoted attribute",
        &[("\"one.xml\"", "'one.xml'")],
        195,
        "'one.xml'",
    ),
    refused(
        "attribute without value",
        &[("fileName=\"one.xml\"", "fileName")],
        194,
        " softwareName",
    ),
    refused(
        "unknown attribute of the root",
        &[("fileName", "xmlns")],
        186,
        "xmlns",
    ),
    refused(
        "attribute of a text element",
        &[(
            "<ApplicantFileReference>",
            "<ApplicantFileReference id=\"1\">",
        )],
        486,
        "id=",
    ),
    refused(
        "attribute of an element with elements",
        &[(
            "<INSDSeq_feature-table>\n<INSDFeature>\n<INSDFeature_key>SOURCE",
            "<INSDSeq_feature-table x=\"\">\n<INSDFeature>\n<INSDFeature_key>SOURCE",
        )],
        2662,
        "x=\"\"",
    ),
    refused(
        "no languageCode",
        &[("<InventionTitle languageCode=\"en\">", "<InventionTitle>")],
        965,
        ">A small",
    ),
    refused(
        "blank but no languageCode",
        &[("<InventionTitle languageCode=\"en\">", "<InventionTitle >")],
        966,
        ">A small",
    ),
    refused(
        "two languageCodes",
        &[(
            "<InventionTitle languageCode=\"en\">",
            "<InventionTitle languageCode=\"en\" languageCode=\"en\">",
        )],
        984,
        "languageCode=\"en\">",
    ),
    refused(
        "empty title without languageCode",
        &[(
            "<InventionTitle languageCode=\"en\">A small listing</InventionTitle>",
            "<InventionTitle/>",
        )],
        965,
        "/>",
    ),
    refused(
        "ApplicationIdentification after the file reference",
        &[(
            "<ApplicationIdentification>…</ApplicantFileReference>",
            concat!(
                "<ApplicantFileReference>AB123</ApplicantFileReference>",
                "<ApplicationIdentification>"
            ),
        )],
        336,
        "tionIdentification>",
    ),
    refused(
        "neither reference nor identification",
        &[(
            "<ApplicationIdentification>…</ApplicantFileReference>\n",
            "",
        )],
        275,
        "EarliestPriority",
    ),
    refused(
        "second file reference",
        &[(
            "<ApplicantFileReference>AB123</ApplicantFileReference>",
            concat!(
                "<ApplicantFileReference>AB123</ApplicantFileReference>",
                "<ApplicantFileReference/>"
            ),
        )],
        526,
        "FileReference/>",
    ),
    refused(
        "second priority",
        &[(
            "<ApplicantName languageCode=\"fr\">",
            "<EarliestPriorityApplicationIdentification/>",
        )],
        731,
        "EarliestPriorityApplicationIdentificatio",
    ),
    refused(
        "empty identification",
        &[(
            "<ApplicationIdentification>…</ApplicationIdentification>",
            "<ApplicationIdentification/>",
        )],
        300,
        "/>",
    ),
    refused(
        "identification without number",
        &[(
            "<ApplicationNumberText>61/999,999</ApplicationNumberText>",
            "",
        )],
        593,
        "FilingDate",
    ),
    refused(
        "filing date first",
        &[("<IPOfficeCode>US</IPOfficeCode>", "<FilingDate/>")],
        562,
        "FilingDate/>",
    ),
    refused(
        "Latin name without the name",
        &[(
            "<ApplicantName languageCode=\"fr\">Dupont</ApplicantName>\n",
            "",
        )],
        744,
        "Latin>Dupont",
    ),
    refused(
        "second applicant name",
        &[(
            "<ApplicantNameLatin>Dupont in Latin</ApplicantNameLatin>",
            "<ApplicantName languageCode=\"fr\"/>",
        )],
        800,
        " languageCode=\"fr\"/>",
    ),
    refused(
        "inventor before applicant",
        &[(
            "<ApplicantName languageCode…</InventorName>\n",
            "<InventorName languageCode=\"de\"/>\n<ApplicantName languageCode=\"fr\"/>\n",
        )],
        765,
        "ApplicantName languageCode",
    ),
    refused(
        "second inventor name",
        &[(
            "<InventorNameLatin>Meyer in Latin</InventorNameLatin>",
            "<InventorName languageCode=\"de\"/>",
        )],
        909,
        " languageCode=\"de\"/>",
    ),
    refused(
        "no title",
        &[(
            "<InventionTitle languageCode=\"en\">A small listing</InventionTitle>\n",
            "",
        )],
        951,
        "SequenceTotalQuantity",
    ),
    refused(
        "title after the total",
        &[(
            "</SequenceTotalQuantity>",
            "</SequenceTotalQuantity><InventionTitle languageCode=\"en\"/>",
        )],
        1066,
        "InventionTitle",
    ),
    refused(
        "no total",
        &[("<SequenceTotalQuantity>3</SequenceTotalQuantity>\n", "")],
        1026,
        "Data",
    ),
    refused(
        "SequenceData without attribute",
        &[("<SequenceData sequenceIDNumber=\"1\">", "<SequenceData>")],
        1079,
        ">",
    ),
    refused(
        "SequenceData with nothing in it",
        &[(
            "<SequenceData sequenceIDNumber=\"1\">",
            "<SequenceData sequenceIDNumber=\"1\"/>",
        )],
        1100,
        "/>",
    ),
    refused(
        "SequenceData closed at once",
        &[(
            "<SequenceData sequenceIDNumber=\"1\">",
            "<SequenceData sequenceIDNumber=\"1\"></SequenceData>",
        )],
        1102,
        "/SequenceData>",
    ),
    refused(
        "two INSDSeq",
        &[(
            "<SequenceData sequenceIDNumber=\"2\">…</INSDSeq>\n",
            concat!(
                "<SequenceData sequenceIDNumber=\"2\"><INSDSeq><INSDSeq_length/>",
                "<INSDSeq_moltype/><INSDSeq_division/>",
                "<INSDSeq_sequence>000</INSDSeq_sequence></INSDSeq><INSDSeq>"
            ),
        )],
        2440,
        "INSDSeq>",
    ),
    refused(
        "INSDSeq with nothing in it",
        &[(
            "<INSDSeq>\n<INSDSeq_length/>",
            "<INSDSeq/>\n<INSDSeq_length/>",
        )],
        2335,
        "/>",
    ),
    refused(
        "INSDSeq closed at once",
        &[(
            "<INSDSeq>\n<INSDSeq_length/>",
            "<INSDSeq></INSDSeq><INSDSeq_length/>",
        )],
        2337,
        "/INSDSeq>",
    ),
    refused(
        "no length",
        &[("<INSDSeq_length/>", "")],
        2346,
        "moltype />",
    ),
    refused(
        "length twice",
        &[("<INSDSeq_length/>", "<INSDSeq_length/><INSDSeq_length/>")],
        2363,
        "length/><INSDSeq_moltype",
    ),
    refused(
        "division before moltype",
        &[(
            "<INSDSeq_moltype /><INSDSeq_division></INSDSeq_division>",
            "<INSDSeq_division></INSDSeq_division><INSDSeq_moltype />",
        )],
        2363,
        "division>",
    ),
    refused(
        "no residues",
        &[("<INSDSeq_sequence>MKCWX</INSDSeq_sequence>\n", "")],
        3197,
        "/INSDSeq>\n</SequenceData>\n</ST26",
    ),
    refused(
        "table before other-seqids",
        &[
            ("<INSDSeq_other-seqids>…</INSDSeq_other-seqids>\n", ""),
            (
                "</INSDSeq_feature-table>\n<INSDSeq_sequence>ttag",
                "</INSDSeq_feature-table>\n<INSDSeq_other-seqids/><INSDSeq_sequence>ttag",
            ),
        ],
        2141,
        "other-seqids/>",
    ),
    refused(
        "two INSDSeqid",
        &[("</INSDSeqid>", "</INSDSeqid><INSDSeqid/>")],
        1285,
        "INSDSeqid/>",
    ),
    refused(
        "text in other-seqids",
        &[("<INSDSeqid>pat|WO|1|A1|1</INSDSeqid>", "pat")],
        1248,
        "pat<",
    ),
    refused(
        "feature table with nothing in it",
        &[(
            "<INSDSeq_sequence>000",
            "<INSDSeq_feature-table/><INSDSeq_sequence>000",
        )],
        2433,
        "/>",
    ),
    refused(
        "feature table closed at once",
        &[(
            "<INSDSeq_sequence>000",
            "<INSDSeq_feature-table></INSDSeq_feature-table><INSDSeq_sequence>000",
        )],
        2435,
        "/INSDSeq_feature-table>",
    ),
    refused(
        "feature with nothing in it",
        &[(
            "<INSDFeature>\n<INSDFeature_key>TURN",
            "<INSDFeature/>\n<INSDFeature_key>TURN",
        )],
        3061,
        "/>",
    ),
    refused(
        "feature without key",
        &[("<INSDFeature_key>TURN</INSDFeature_key>", "")],
        3076,
        "location>&lt;2",
    ),
    refused(
        "feature without location",
        &[("<INSDFeature_location>&lt;2..3</INSDFeature_location>", "")],
        3104,
        "/INSDFeature>",
    ),
    refused(
        "INSDFeature_qual as 002 prints it",
        &[(
            "</INSDFeature_location>\n</INSDFeature>",
            "</INSDFeature_location>\n<INSDFeature_qual/></INSDFeature>",
        )],
        3173,
        "/>",
    ),
    refused(
        "qualifier with nothing in it",
        &[(
            "<INSDQualifier><INSDQualifier_name>MOL_TYPE…</INSDQualifier>",
            "<INSDQualifier/>",
        )],
        2946,
        "/>",
    ),
    refused(
        "qualifier closed at once",
        &[(
            "<INSDQualifier><INSDQualifier_name>MOL_TYPE…</INSDQualifier>",
            "<INSDQualifier></INSDQualifier>",
        )],
        2948,
        "/INSDQualifier>",
    ),
    refused(
        "value without name",
        &[(
            "<INSDQualifier_name>MOL_TYPE</INSDQualifier_name>",
            "<INSDQualifier_value/>",
        )],
        2962,
        "value/>",
    ),
    refused(
        "two values",
        &[(
            "<INSDQualifier_value>MKC</INSDQualifier_value>",
            "<INSDQualifier_value>MKC</INSDQualifier_value><INSDQualifier_value/>",
        )],
        2137,
        "INSDQualifier_value/>",
    ),
    refused(
        "text between elements",
        &[(
            "<INSDSeq>\n<INSDSeq_length/>",
            "<INSDSeq>x<INSDSeq_length/>",
        )],
        2336,
        "x<",
    ),
    refused(
        "entity between elements",
        &[(
            "<INSDSeq>\n<INSDSeq_length/>",
            "<INSDSeq>&amp;<INSDSeq_length/>",
        )],
        2336,
        "&amp;<",
    ),
    refused(
        "blank after </",
        &[(
            "</INSDSeq>\n</SequenceData>\n<SequenceData sequenceIDNumber=\"2\">",
            "</ INSDSeq>\n</SequenceData>\n<SequenceData sequenceIDNumber=\"2\">",
        )],
        2266,
        " INSDSeq>",
    ),
    refused(
        "blank after <",
        &[("<SequenceTotalQuantity>", "< SequenceTotalQuantity>")],
        1018,
        " SequenceTotal",
    ),
    refused(
        "blank between / and >",
        &[("<INSDSeq_length/>", "<INSDSeq_length/ >")],
        2353,
        " >",
    ),
    refused(
        "end tag of another name",
        &[("</ApplicantFileReference>", "</ApplicantFileReferences>")],
        515,
        "s>",
    ),
    refused(
        "end tag in lower case",
        &[("</ApplicantFileReference>", "</applicantFileReference>")],
        493,
        "applicant",
    ),
    refused(
        "element name in another case",
        &[("<SequenceTotalQuantity>", "<sequenceTotalQuantity>")],
        1018,
        "sequenceTotalQ",
    ),
    refused(
        "wrong end tag",
        &[(
            "AB123</ApplicantFileReference>",
            "AB123</ApplicationNumberText>",
        )],
        500,
        "tionNumberText>",
    ),
    refused(
        "text after the root",
        &[("</ST26SequenceListing>\n", "</ST26SequenceListing>\nx")],
        3289,
        "x",
    ),
    refused(
        "second root",
        &[("</ST26SequenceListing>\n", "</ST26SequenceListing>\n<ST26")],
        3289,
        "<ST26",
    ),
    refused(
        "byte 0 after the root",
        &[("</ST26SequenceListing>\n", "</ST26SequenceListing>\n\0")],
        3289,
        "\0",
    ),
    refused(
        "no end of the root",
        &[("</ST26SequenceListing>\n", "")],
        3266,
        "",
    ),
    refused(
        "root end tag broken off",
        &[("</ST26SequenceListing>\n", "</ST26Seq")],
        3275,
        "",
    ),
    refused(
        "no sequence",
        &[("<SequenceData sequenceIDNumber=\"1\">…</ST26", "</ST26")],
        1067,
        "/ST26",
    ),
];

/// Other writings of the base listing; nothing that counts is changed.
pub const ACCEPTED: &[(&str, &[Edit])] = &[
    ("the listing itself", &[]),
    (
        "no blanks around the document type line",
        &[("?>\n<!", "?><!"), (".dtd\">\n", ".dtd\">")],
    ),
    (
        "blanks of all kinds in the gaps",
        &[
            ("<!DOCTYPE ST26", "<!DOCTYPE \t\r\nST26"),
            ("Listing PUBLIC", "Listing\n\nPUBLIC"),
            ("PUBLIC \"", "PUBLIC\t\""),
            ("EN\" \"", "EN\"\r\""),
        ],
    ),
    (
        "no line feed at the end",
        &[("</ST26SequenceListing>\n", "</ST26SequenceListing>")],
    ),
    (
        "blanks at the end",
        &[(
            "</ST26SequenceListing>\n",
            "</ST26SequenceListing \n>\t\r\n  ",
        )],
    ),
    (
        "blanks around attributes",
        &[
            (" fileName=\"one.xml\" ", "\n\tfileName=\"one.xml\"\r\n"),
            ("\"2015-01-31\">", "\"2015-01-31\" \n>"),
        ],
    ),
    (
        "only dtdVersion",
        &[(
            concat!(
                " fileName=\"one.xml\" softwareName=\"hand\" softwareVersion=\"7\" ",
                "productionDate=\"2015-01-31\""
            ),
            "",
        )],
    ),
    (
        "attributes left out here and there",
        &[("softwareName=\"hand\" softwareVersion=\"7\" ", "")],
    ),
    (
        "empty attributes",
        &[
            ("\"one.xml\"", "\"\""),
            ("\"hand\"", "\"\""),
            ("\"7\"", "\"&lt;&gt;&amp;&quot;&apos;\""),
        ],
    ),
    (
        "slash at the end of an attribute",
        &[("\"one.xml\"", "\"one/\"")],
    ),
    (
        "only the file reference",
        &[(
            "<ApplicationIdentification>…</ApplicationIdentification>\n",
            "",
        )],
    ),
    (
        "only the identification",
        &[(
            "<ApplicantFileReference>AB123</ApplicantFileReference>\n",
            "",
        )],
    ),
    (
        "identification with its number alone",
        &[
            ("<IPOfficeCode>IB</IPOfficeCode>", ""),
            ("<FilingDate>2014-02-28</FilingDate>", ""),
        ],
    ),
    (
        "empty number",
        &[
            ("PCT/IB2013/099999", ""),
            (
                "<ApplicationNumberText>61/999,999</ApplicationNumberText>",
                "<ApplicationNumberText />",
            ),
        ],
    ),
    (
        "no priority",
        &[(
            "<Earliest…</EarliestPriorityApplicationIdentification>\n",
            "",
        )],
    ),
    (
        "no names",
        &[("<ApplicantName …</InventorNameLatin>\n", "")],
    ),
    (
        "no Latin names",
        &[
            (
                "<ApplicantNameLatin>Dupont in Latin</ApplicantNameLatin>\n",
                "",
            ),
            (
                "<InventorNameLatin>Meyer in Latin</InventorNameLatin>\n",
                "",
            ),
        ],
    ),
    (
        "only the inventor",
        &[("<ApplicantName languageCode…</ApplicantNameLatin>\n", "")],
    ),
    (
        "high bytes in the three texts",
        &[
            (">Dupont<", ">\u{80}\u{ff}<"),
            (">Meyer<", ">\u{c3} &lt;\u{fe}<"),
            ("A small listing", "\u{a0}"),
        ],
    ),
    (
        "empty names and title",
        &[
            (
                "<ApplicantName languageCode=\"fr\">Dupont</ApplicantName>",
                "<ApplicantName languageCode=\"fr\"/>",
            ),
            (
                "<InventorName languageCode=\"de\">Meyer</InventorName>",
                "<InventorName\nlanguageCode=\"de\" />",
            ),
            ("A small listing", ""),
        ],
    ),
    (
        "two titles",
        &[(
            "</InventionTitle>\n",
            "</InventionTitle><InventionTitle languageCode=\"fr\"> </InventionTitle>",
        )],
    ),
    ("every entity", &[("AB123", "&lt;&gt;&amp;&quot;&apos;")]),
    (
        "every byte that stands for itself",
        &[(
            "AB123",
            concat!(
                " !#$%()*+,-./0123456789:;=?@ABCDEFGHIJKLMNOPQRSTUVWXYZ[\\]^_`",
                "abcdefghijklmnopqrstuvwxyz{|}~"
            ),
        )],
    ),
    (
        "no other-seqids",
        &[("<INSDSeq_other-seqids>…</INSDSeq_other-seqids>\n", "")],
    ),
    (
        "other-seqids with nothing in it",
        &[(
            "<INSDSeq_other-seqids>…</INSDSeq_other-seqids>",
            "<INSDSeq_other-seqids/>",
        )],
    ),
    (
        "other-seqids with blanks in it",
        &[(
            "<INSDSeq_other-seqids>…</INSDSeq_other-seqids>",
            "<INSDSeq_other-seqids > \t</INSDSeq_other-seqids >",
        )],
    ),
    (
        "empty INSDSeqid",
        &[("<INSDSeqid>pat|WO|1|A1|1</INSDSeqid>", " <INSDSeqid/> ")],
    ),
    (
        "empty qualifiers element",
        &[(
            "</INSDFeature_location>\n</INSDFeature>",
            "</INSDFeature_location>\n<INSDFeature_quals/></INSDFeature>",
        )],
    ),
    (
        "qualifiers element with blanks in it",
        &[(
            "</INSDFeature_location>\n</INSDFeature>",
            concat!(
                "</INSDFeature_location>\n<INSDFeature_quals>\r\n</INSDFeature_quals>",
                "</INSDFeature>"
            ),
        )],
    ),
    (
        "empty value",
        &[(
            "<INSDQualifier_name>MOL_TYPE</INSDQualifier_name></INSDQualifier>",
            concat!(
                "<INSDQualifier_name>MOL_TYPE</INSDQualifier_name></INSDQualifier>",
                "<INSDQualifier ><INSDQualifier_name\n>NOTE</INSDQualifier_name ><INSDQualifier_value>",
                "</INSDQualifier_value\n></INSDQualifier>"
            ),
        )],
    ),
    (
        "blanks in every holder",
        &[(
            "<INSDSeq>\n<INSDSeq_length/>",
            "<INSDSeq>\t \r\n<INSDSeq_length/> ",
        )],
    ),
    (
        "blanks before the close of start tags",
        &[
            ("<INSDSeq_length/>", "<INSDSeq_length\t></INSDSeq_length >"),
            ("<INSDSeq_moltype />", "<INSDSeq_moltype\n\n/>"),
        ],
    ),
];
