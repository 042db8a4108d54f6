"""python3 test_dreichnook.py: the answers on the published specimens, and on some edits of them."""

import pathlib
import re
import struct
import subprocess
import sys
import unittest
from ctypes import byref, c_uint8, c_uint32, c_uint64

import dreichnook
from dreichnook import AFTER, BEFORE, COMPLEMENT, LIMIT, SITE, Listing, Part, Refusal, Span

HERE = pathlib.Path(__file__).resolve().parent
SPECIMENS = HERE.parent.parent / "tests" / "specimens"
LETTERS = b"MLAPDCPFDPTRIYSSSLC"


def specimen(name):
    return (SPECIMENS / name).read_bytes()


def specimens(verdict):
    """The specimens of this verdict, by their names."""
    rows = [row.split() for row in specimen("expected.txt").decode().splitlines() if not row.startswith("#")]
    return {row[0]: specimen(row[0]) for row in rows if row[1] == verdict}


def answer(ask, *arguments):
    """What a question gives, or its refusal."""
    try:
        return ask(*arguments)
    except Refusal as refusal:
        return refusal.number, refusal.place


def with_cds(location):
    """Annex III with sequence 3's CDS changed: another location, and no translation qualifier."""
    before, after = specimen("annex-iii.xml").split(b"<INSDQualifier_value>" + LETTERS, 1)
    before, after = before.rpartition(b"<INSDQualifier>")[0], after.partition(b"</INSDQualifier>")[2]
    return (before + after).replace(b"3..62", location)


class Answers(unittest.TestCase):
    def refused(self, number, place, ask, *arguments):
        with self.assertRaises(Refusal) as caught:
            ask(*arguments)
        self.assertEqual((caught.exception.number, caught.exception.place), (number, place))

    def test_every_specimen(self):
        rows = [row.split() for row in specimen("expected.txt").decode().splitlines() if not row.startswith("#")]
        self.assertEqual(len(rows), 59)
        for file, verdict, *figures in rows:
            with self.subTest(file):
                figures = tuple(map(int, figures))
                if verdict == "accepted":
                    self.assertEqual(Listing(specimen(file)).check(), figures)
                else:
                    self.refused(*figures, Listing(specimen(file)).check)

    def test_parts(self):
        listing = Listing(specimen("annex-iii.xml"))
        self.assertEqual(listing.sequence(4), ("AA", Part(6028, LETTERS)))
        feature = (Part(4442, b"CDS"), Part(4496, b"3..62"), "none", [Span(3, 62, 0)])
        self.assertEqual(listing.feature(3, 2), feature)
        self.assertEqual(listing.qualifier(3, 2, 1), (Part(4617, b"translation"), Part(4685, LETTERS)))

    def test_a_value_may_be_absent_or_empty(self):
        listing = specimen("003-annex-i-cds-qualifiers.xml")
        self.assertEqual(Listing(listing).qualifier(1, 5, 1), (Part(3699, b"pseudo"), None))
        name = b"pseudo</INSDQualifier_name>"
        listing = listing.replace(name, name + b"<INSDQualifier_value></INSDQualifier_value>", 1)
        self.assertEqual(Listing(listing).qualifier(1, 5, 1).value.text, b"")

    def test_operator_and_spans_come_with_the_parts(self):
        listing = Listing(specimen("002-p66-location-syntax.xml"))
        key, location, *said = listing.feature(1, 21)
        self.assertEqual(key.text, b"misc_feature")
        self.assertEqual(location.text, b"order(complement(134..&gt;202),complement(&lt;12..78))")
        spans = [Span(134, 202, COMPLEMENT + AFTER), Span(12, 78, COMPLEMENT + BEFORE)]
        self.assertEqual(said, ["order", spans])
        self.assertEqual(listing.feature(1, 11)[2:], ("none", [Span(1000, 1, SITE)]))

    def test_the_spans_are_those_of_the_feature_asked(self):
        listing = Listing(specimen("002-p66-location-syntax.xml"))
        features = [listing.feature(1, j) for j in range(1, 22)]
        self.assertEqual(len({feature.location.text for feature in features}), 21)
        for feature in features:
            written = {int(digits) for digits in re.findall(rb"\d+", feature.location.text)}
            given = {number for span in feature.spans for number in span[:2]}
            self.assertEqual(given, written, feature)

    def test_short_room_shows_nothing_of_a_feature(self):
        # Of the functions themselves: a Refusal shows nothing anyway, and the wrapper lends more room.
        listing = specimen("002-p66-location-syntax.xml")
        index = Listing(listing).index().bytes
        for name, beside in (("feature", ()), ("indexed_feature", (index, len(index)))):
            function = getattr(dreichnook._library(), "dreichnook_" + name)
            for room in (0, 20, 21):
                out = (c_uint32 * 21)(*[7] * 21)
                cells = [cell(7) for cell in [c_uint64] * 5 + [c_uint8, c_uint64]]
                number = function(listing, len(listing), *beside, 1, 12, out, room, *map(byref, cells))
                said = [cell.value for cell in cells]
                if room < 21:
                    self.assertEqual((number, said, list(out)), (34, [0] * 7, [7] * 21))
                else:
                    self.assertEqual((number, said[5:], out[0]), (0, [1, 7], 1))

    def test_translations(self):
        listing = Listing(specimen("annex-iii.xml"))
        self.assertEqual(listing.translation(3, 2), LETTERS)
        self.assertEqual(listing.translations(3), [LETTERS])
        self.assertEqual(listing.translations(10), [None])
        self.assertEqual(listing.translations(4), [])

    def test_more_room_than_the_first(self):
        listing = Listing(with_cds(b"join(" + b",".join([b"3..59"] * 5_000) + b")"))
        self.assertEqual(listing.translation(3, 2), LETTERS * 5_000)
        self.assertEqual(len(listing.feature(3, 2).spans), 5_000)

    def test_refusals_of_a_question(self):
        listing = Listing(specimen("annex-iii.xml"))
        for none in (0, 12, (1 << 64) - 1):
            self.refused(30, 0, listing.sequence, none)
            self.refused(32, 0, listing.feature, 3, none)
            self.refused(33, 0, listing.qualifier, 3, 2, none)
        self.refused(31, 0, listing.translations, 7)
        self.refused(35, 0, listing.translation, 3, 1)
        self.refused(36, 0, listing.translation, 10, 2)
        self.refused(37, 0, Listing(with_cds(b"1..62")).translation, 3, 2)

    def test_numbers_that_do_not_fit(self):
        listing = Listing(specimen("annex-iii.xml"))
        for number in (-1, 1 << 64, (1 << 64) + 1):
            self.assertRaises(ValueError, listing.sequence, number)
        self.assertRaises(TypeError, listing.sequence, "1")

    def test_any_bytes(self):
        for some in (b"", bytearray(b"<?xml"), memoryview(b"\0" * 9)):
            place = 5 if bytes(some) == b"<?xml" else 0
            self.refused(2, place, Listing(some).check)
            self.refused(2, place, Listing(some).feature, 1, 1)
            self.refused(2, place, Listing(some).translations, 1)
        self.refused(2, 0, Listing(bytes(LIMIT)).check)
        self.refused(1, 0, Listing(bytes(LIMIT + 1)).check)

    def test_only_bytes(self):
        for other in ("<?xml", 5, None, [60, 63]):
            self.assertRaises(TypeError, Listing, other)

    def test_words(self):
        self.assertEqual(str(Refusal(17, 603)), "refused by rule 17 at byte 603: division isn't PAT")
        self.assertEqual(str(Refusal(32, 0)), "refused with 32: no such feature")
        self.assertEqual(str(Refusal(40, 2120)), "refused by rule 40 at byte 2120: unknown feature key")
        self.assertEqual(sorted(dreichnook.WORDS), [1, 2, *range(10, 38), 40, 41, 42, 50])
        says = "refused with 50 at byte 96 of the index: the index isn't the one of this listing"
        self.assertEqual(str(Refusal(50, 96)), says)


class Explanations(unittest.TestCase):
    """Of rules 18 and 40 to 42, on the examples that Rust's test reads too."""

    def refused(self, number, listing):
        """The refusal of a specimen, or of a piece of a listing."""
        before, mark, after = listing.encode().partition(b"^")
        if mark:
            return Refusal(number, len(before), before + after)
        with self.assertRaises(Refusal) as caught:
            Listing(specimen(listing)).check()
        return caught.exception

    def test_every_example(self):
        examples = (HERE.parent / "words" / "examples.txt").read_text(encoding="utf-8").splitlines()
        rows = [row.split("\t") for row in examples if not row.startswith("#")]
        self.assertEqual(len(rows), 64)
        for number, listing, explanation in rows:
            with self.subTest(listing):
                refusal = self.refused(int(number), listing)
                self.assertEqual((refusal.number, refusal.explanation or "-"), (int(number), explanation))

    def test_it_ends_the_message(self):
        says = "refused by rule 42 at byte 1327: required qualifier missing: `modified_base` lacks: mod_base"
        self.assertEqual(str(self.refused(42, "02-1-modified-base-unnamed.xml")), says)

    def test_none(self):
        listing = specimen("02-1-exonn.xml")
        for number in (*range(1, 40), *range(43, 51)):
            self.assertIsNone(Refusal(number, 2120, listing).explanation)
        for number in (40, 41, 42):
            no_moltype = b"<x>DNA</x><INSDFeature_key>y</x>"
            for other, place in ((b"", 0), (no_moltype, (1 << 64) - 1), (listing, 0), (listing[:2120], 2120)):
                self.assertIsNone(Refusal(number, place, other).explanation)
        self.assertIsNone(Refusal(40, 2120, listing.replace(b"exonn", b"exon")).explanation)

    def test_one_of_forty_thousand_residues(self):
        listing = specimen("002-p14-uracil-as-u.xml").replace(b">20<", b">40000<").replace(b"1..20", b"1..40000")
        residues = b"acgt" * 10_000
        for number, written, told in (
            (1, b"u", "`u`"),
            (31_042, b" ", "a blank"),
            (40_000, b"&quot;", '`"`, written `&quot;`'),
        ):
            changed = residues[: number - 1] + written + residues[number:]
            with self.assertRaises(Refusal) as caught:
                Listing(listing.replace(b"augaaauuaaaacauaaaag", changed)).check()
            rule = f"refused by rule 18 at byte {1338 + number}: a residue is outside the kind's symbols"
            symbols = "the symbols of RNA are acgtmrwsykvhdbn, in lower case, with t for uracil"
            self.assertEqual(str(caught.exception), f"{rule}: residue {number} of 40000 is {told}; {symbols}")

    def test_residues_as_long_as_a_listing(self):
        piece = "<INSDSeq_moltype>AA</INSDSeq_moltype><INSDSeq_sequence>TEXT^x</INSDSeq_sequence>"
        says = self.refused(18, piece.replace("TEXT", "K&gt;" * (LIMIT // 5))).explanation
        self.assertEqual(says, "residue 6710887 of 6710887 is `x`; the symbols of AA are A to Z, in upper case")

    def test_a_key_as_long_as_a_listing(self):
        piece = "<INSDSeq_moltype>DNA</INSDSeq_moltype><INSDFeature_key>^KEY</INSDFeature_key>"
        says = self.refused(40, piece.replace("KEY", "exon" * (LIMIT // 4))).explanation
        end = ".. (16777216 bytes)` isn't a key of nucleotides; none of the 49 keys is near"
        self.assertEqual(says, "`" + "exon" * 30 + end)


class Indexes(unittest.TestCase):
    """The index: made, checked, read, and lent with each lookup."""

    def test_it_is_that_of_the_format(self):
        for name, listing in specimens("accepted").items():
            with self.subTest(name):
                index = Listing(listing).index()
                contents, bodies = [], []
                for k in range(1, index.total + 1):
                    start = 4 + 8 * index.total + 4 * len(bodies)
                    sequence = answer(Listing(listing).sequence, k)
                    if isinstance(sequence, dreichnook.Sequence):
                        parts = [sequence.residues]
                        while isinstance(feature := answer(Listing(listing).feature, k, len(parts) // 2 + 1), dreichnook.Feature):
                            parts += feature[:2]
                        kind = dreichnook.KINDS.index(sequence.kind)
                    else:
                        parts = [Part(index._numbers[start // 4 + 1], b"000")]
                        self.assertEqual((sequence, listing[parts[0].start :][:3]), ((31, 0), b"000"))
                        kind = 0
                    bodies += [kind, *(number for part in parts for number in (part.start, len(part.text)))]
                    contents += [start, 4 + 8 * index.total + 4 * len(bodies) - start]
                numbers = [Listing(listing).check().total, *contents, *bodies]
                self.assertEqual(index.bytes, struct.pack(f"<{len(numbers)}I", *numbers))
                self.assertIsNone(Listing(listing).index_check(index.bytes))

    def test_what_is_read_off_it(self):
        for name, listing in specimens("accepted").items():
            with self.subTest(name):
                alone, index = Listing(listing), Listing(listing).index()
                each = list(index.sequences())
                self.assertEqual(len(each), index.total)
                for k in range(index.total + 2):
                    self.assertEqual(answer(index.sequence, k), answer(alone.sequence, k))
                    for j in range(4):
                        # Of a feature the parts; a refusal is two numbers.
                        self.assertEqual(answer(index.feature, k, j), answer(alone.feature, k, j)[:2])
                for k, sequence in enumerate(each, 1):
                    self.assertEqual(sequence or (31, 0), answer(alone.sequence, k))
                    features = index.features(k) if sequence else []
                    for j, feature in enumerate(features, 1):
                        self.assertEqual(feature, alone.feature(k, j)[:2])
                    self.assertEqual(answer(alone.feature, k, len(features) + 1), (32 if sequence else 31, 0))
        for number in (-1, 1 << 64):
            self.assertRaises(ValueError, index.sequence, number)
            self.assertRaises(ValueError, index.feature, 1, number)
        self.assertRaises(TypeError, index.features, "1")

    def answers(self, lookups, k):
        said = [answer(lookups.sequence, k), answer(lookups.translations, k)]
        for j in range(4):
            said += [answer(ask, k, j) for ask in (lookups.feature, lookups.translation)]
            said += [answer(lookups.qualifier, k, j, i) for i in range(4)]
        return said

    def test_with_its_index_every_lookup_answers_the_same(self):
        for name, listing in specimens("accepted").items():
            with self.subTest(name):
                index = Listing(listing).index()
                for k in range(index.total + 2):
                    lent = bytearray(index.bytes)
                    self.assertEqual(self.answers(Listing(listing).with_index(lent), k), self.answers(Listing(listing), k))

    def test_another_index_is_refused_by_every_lookup(self):
        listing = Listing(specimen("annex-iii.xml"))
        right = listing.index().bytes
        for index, place in ((right[:-1], 591), (right + b"\0", 592), (b"", 0), (right[:-1] + b"\1", 591)):
            self.assertEqual(answer(listing.index_check, index), (50, place))
            for k in (0, 3, 7, 12):
                self.assertEqual(set(self.answers(listing.with_index(index), k)), {(50, place)})
        self.assertRaises(TypeError, listing.with_index, "index")

    def test_a_refused_listing_has_no_index(self):
        index = Listing(specimen("annex-iii.xml")).index().bytes
        for name, listing in {**specimens("refused"), "nothing": b"", "too long": bytes(LIMIT + 1)}.items():
            with self.subTest(name):
                refused = answer(Listing(listing).check)
                self.assertEqual(answer(Listing(listing).index), refused)
                self.assertEqual(answer(Listing(listing).index_check, index), refused)
                self.assertEqual(answer(Listing(listing).with_index(index).sequence, 1), refused)

    def edited(self, index, edits):
        """As hosts/words/index-examples.txt says."""
        for edit in edits.split():
            if "=" in edit:
                at, number = map(int, edit.split("="))
                index = index[: 4 * at] + struct.pack("<I", number) + index[4 * at + 4 :]
            else:
                size = len(index) + int(edit)
                index = index[:size].ljust(size, b"\0")
        return index

    def test_every_example_is_explained(self):
        examples = (HERE.parent / "words" / "index-examples.txt").read_text(encoding="utf-8").splitlines()
        rows = [row.split("\t") for row in examples if not row.startswith("#")]
        self.assertEqual(len(rows), 17)
        for name, edits, place, explanation in rows:
            with self.subTest(edits):
                listing = Listing(specimen(name))
                index = self.edited(listing.index().bytes, edits)
                for ask, *arguments in ((listing.index_check, index), (listing.with_index(index).sequence, 0)):
                    with self.assertRaises(Refusal) as caught:
                        ask(*arguments)
                    refusal = caught.exception
                    self.assertEqual((refusal.number, refusal.place, refusal.explanation), (50, int(place), explanation))
                    self.assertTrue(str(refusal).endswith(": the index isn't the one of this listing: " + explanation))

    def test_what_was_not_refused_so_is_not_explained(self):
        listing = specimen("annex-iii.xml")
        index = Listing(listing).index().bytes
        wrong, size = self.edited(index, "0=12"), len(index)
        for lent, place in ((index, 0), (index, size), (wrong, 4), (wrong, size), (wrong, size + 1), (wrong, 1 << 63)):
            self.assertIsNone(Refusal(50, place, listing, lent).explanation)
        self.assertIsNone(Refusal(50, 0, wrong, wrong).explanation)


class Example(unittest.TestCase):
    def run_on(self, name):
        words = [sys.executable, HERE / "example.py", SPECIMENS / name]
        return subprocess.run(words, capture_output=True, text=True)

    def test_accepted(self):
        ran = self.run_on("annex-iii.xml")
        self.assertEqual((ran.returncode, ran.stderr), (0, ""))
        self.assertIn("sequence 3: DNA, 62 residues\nMLAPDCPFDPTRIYSSSLC\nsequence 4", ran.stdout)
        self.assertIn("sequence 7: skipped\n", ran.stdout)

    def test_refused(self):
        ran = self.run_on("002-p52-division-empty.xml")
        self.assertEqual((ran.returncode, ran.stdout), (1, ""))
        self.assertIn("refused by rule 17 at byte 603", ran.stderr)


if __name__ == "__main__":
    unittest.main()
