"""Dreichnook from Python: a proved reader of WIPO ST.26 sequence listings, edition 1.2.

A Listing is some bytes, of any content; each question about it checks it whole and then answers from those same bytes.
Sequences, features and qualifiers count from 1. What the calls promise stands in hosts/include/dreichnook.h. One call
makes the Index of a listing, and the places of all its sequences and features are read off that. An index that came with
the listing is checked with each question (Listing.with_index).

    >>> Listing(b"<?xml?>").check()
    Traceback (most recent call last):
    dreichnook.Refusal: refused by rule 2 at byte 5: not of the layout

The shared library is target/native/libdreichnook.so, which scripts/shared makes, or the one in the folder that the
environment variable DREICHNOOK_NATIVE names.
"""

import ctypes
import functools
import operator
import os
import pathlib
import re
import struct
from ctypes import POINTER, byref, c_char_p, c_size_t, c_uint8, c_uint32, c_uint64, c_void_p
from typing import Iterator, List, NamedTuple, Optional

LIMIT = 16_777_216
"""The longest listing, in bytes."""

KINDS = ("none", "DNA", "RNA", "AA")
OPERATORS = ("none", "join", "order")
COMPLEMENT, BEFORE, AFTER, SITE = 1, 2, 4, 8
"""The marks of a span: complemented; `<` is written; `>` is written; a site."""

NOT_A_SYMBOL = 18
NO_SEQUENCE, SKIPPED, NO_FEATURE, NO_QUALIFIER, NO_ROOM, NOT_A_CDS, UNJUDGED, STOP_INSIDE = range(30, 38)
UNKNOWN_KEY, NOT_ALLOWED, REQUIRED_MISSING = range(40, 43)
INDEX_DIFFERS = 50


def _table(name):
    """The lines of a file of hosts/words, split at their tabs."""
    file = pathlib.Path(__file__).resolve().parent.parent / "words" / name
    lines = file.read_text(encoding="utf-8").splitlines()
    return [line.split("\t") for line in lines if not line.startswith("#")]


WORDS = {int(number): words for number, words in _table("refusals.txt")}


class Refusal(Exception):
    """Why a question wasn't answered: 1, 2, 10 to 29, 40 to 42, the broken rule with its place; 30 to 37, no such answer;
    50, the index beside the listing isn't its own, with the place in the index.

    For rules 18 and 40 to 42 the explanation says what exactly is wrong in the listing, the refused one; for 50, where the
    index differs; else it is None.
    """

    def __init__(self, number: int, place: int, listing: bytes = b"", index: bytes = b""):
        self.number, self.place = number, place
        self.words = WORDS.get(number, "a rule that this version doesn't know")
        self.explanation = _explanation(number, place, listing, index)
        if number == INDEX_DIFFERS:
            where = f"with {number} at byte {place} of the index"
        else:
            where = f"with {number}" if NO_SEQUENCE <= number <= STOP_INSIDE else f"by rule {number} at byte {place}"
        said = f"refused {where}: {self.words}"
        super().__init__(f"{said}: {self.explanation}" if self.explanation else said)


class Counts(NamedTuple):
    total: int
    skipped: int
    features: int
    judged: int
    unjudged: int


class Part(NamedTuple):
    """A text of the listing, raw, and the place of its first byte, from 0."""

    start: int
    text: bytes


class Sequence(NamedTuple):
    kind: str
    residues: Part


class Span(NamedTuple):
    first: int
    last: int
    marks: int


class Feature(NamedTuple):
    """A feature, with the operator and the spans of its location, in reading order from the feature's 5' end."""

    key: Part
    location: Part
    operator: str
    spans: List[Span]


class FeatureParts(NamedTuple):
    """The two parts of a feature, which is all that an Index has of it."""

    key: Part
    location: Part


class Qualifier(NamedTuple):
    name: Part
    value: Optional[Part]


class _Triple(ctypes.Structure):
    _fields_ = [("first", c_uint32), ("last", c_uint32), ("marks", c_uint32)]


class Lookups:
    """A listing to look things up in, alone (Listing) or with an index beside it (Listing.with_index). Every question raises
    Refusal where it has no answer. What is shown is part of the listing, never of the index.
    """

    def __init__(self, listing, index=None):
        self._bytes = _bytes(listing)
        self._index = None if index is None else _bytes(index)

    def sequence(self, sequence: int) -> Sequence:
        kind, start, size = self._ask("sequence", (sequence,), [c_uint8, c_uint64, c_uint64])
        return Sequence(KINDS[kind], self._part(start, size))

    def feature(self, sequence: int, feature: int) -> Feature:
        cells = [c_uint64] * 4 + [c_uint8, c_uint64]
        out, (*parts, said, count) = self._lend("feature", (sequence, feature), _Triple, 3, cells)
        spans = [Span(span.first, span.last, span.marks) for span in out[:count]]
        return Feature(self._part(*parts[:2]), self._part(*parts[2:]), OPERATORS[said], spans)

    def qualifier(self, sequence: int, feature: int, qualifier: int) -> Qualifier:
        cells = [c_uint64, c_uint64, c_uint8, c_uint64, c_uint64]
        said = self._ask("qualifier", (sequence, feature, qualifier), cells)
        return Qualifier(self._part(*said[:2]), self._part(*said[3:]) if said[2] else None)

    def translation(self, sequence: int, feature: int) -> bytes:
        """The translation of a judged CDS; one of more than LIMIT letters is refused with 34."""
        out, (size,) = self._lend("translation", (sequence, feature), c_uint8, 1, [c_uint64])
        return bytes(memoryview(out)[:size])

    def translations(self, sequence: int) -> List[Optional[bytes]]:
        """The translations of all CDS features; None for one that is unjudged or has a stop inside."""
        out, (size,) = self._lend("translations", (sequence,), c_uint8, 1, [c_uint64])
        lines = bytes(memoryview(out)[:size]).split(b"\n")[:-1]
        return [None if line == b"-" else line for line in lines]

    def _ask(self, name, numbers, cells, lent=()):
        numbers = [_number(number) for number in numbers]
        if self._index is None:
            return self._call(name, (*numbers, *lent), cells)
        return self._call("indexed_" + name, (self._index, len(self._index), *numbers, *lent), cells, self._index)

    def _call(self, name, arguments, cells, index=b""):
        place, cells = c_uint64(), [cell() for cell in cells]
        function = getattr(_library(), "dreichnook_" + name)
        number = function(self._bytes, len(self._bytes), *arguments, byref(place), *map(byref, cells))
        if number:
            raise Refusal(number, place.value, self._bytes, index)
        return [cell.value for cell in cells]

    def _lend(self, name, numbers, element, width, cells):
        # Each question costs a whole check, so the room starts with enough for most, and grows in few steps.
        room = 4096
        while True:
            out = (element * room)()
            try:
                return out, self._ask(name, numbers, cells, (out, room * width))
            except Refusal as refusal:
                if refusal.number != NO_ROOM or room >= LIMIT:
                    raise
            room *= 16

    def _part(self, start, size):
        return Part(start, self._bytes[start : start + size])


class Listing(Lookups):
    """Some bytes to ask about."""

    def __init__(self, listing):
        super().__init__(listing)

    def check(self) -> Counts:
        return Counts(*self._call("check", (), [c_uint64] * 5))

    def index(self) -> "Index":
        # It always fits; see DREICHNOOK_INDEX_ROOM in the header. What is longer than the limit has none.
        room = min(len(self._bytes), LIMIT) // 4
        out = (c_uint8 * room)()
        (size,) = self._call("index", (out, room), [c_uint64])
        return Index(self._bytes, bytes(memoryview(out)[:size]))

    def index_check(self, index) -> None:
        """Whether these bytes are the listing's index; others are refused with 50."""
        index = _bytes(index)
        self._call("index_check", (index, len(index)), [], index)

    def with_index(self, index) -> Lookups:
        """The lookups with an index beside the listing, of any bytes. Each is refused with 50 where index_check is; else it
        answers as the one without an index does.
        """
        return Lookups(self._bytes, index)


# The format of the index, which hosts/include/dreichnook.h tells: what the numbers are of its head, of a sequence in the table
# of contents, of a body before its features, of a feature.
_HEAD = ("the count of sequences",)
_ENTRY = ("the start of the body", "the size of the body")
_BODY = ("the kind", "the place of the residues", "the length of the residues")
_FEATURE = ("the place of the key", "the length of the key", "the place of the location", "the length of the location")
_WIDTH = 4
"""The bytes of a number."""


class Index:
    """The index of a listing, with the listing: Listing.index makes it. The proved maker wrote its numbers from those very
    bytes. So what is read off it, without a call, is what Lookups would answer; of features these are the two parts,
    without operator and spans.
    """

    def __init__(self, listing: bytes, made: bytes):
        self._listing = listing
        self._numbers = struct.unpack(f"<{len(made) // _WIDTH}I", made)
        self.bytes = made

    @property
    def total(self) -> int:
        """All sequences, skipped ones too."""
        return self._numbers[0]

    def sequence(self, sequence: int) -> Sequence:
        body = self._shown(sequence)
        return Sequence(KINDS[self._numbers[body.start]], self._part(body.start + 1))

    def feature(self, sequence: int, feature: int) -> FeatureParts:
        features = self._features(self._shown(sequence))
        if not 1 <= _number(feature) <= len(features):
            raise Refusal(NO_FEATURE, 0)
        return self._feature(features[feature - 1])

    def sequences(self) -> Iterator[Optional[Sequence]]:
        """The sequences in their order; None for one that is skipped."""
        for sequence in range(1, self.total + 1):
            skipped = self._numbers[self._body(sequence).start] == 0
            yield None if skipped else self.sequence(sequence)

    def features(self, sequence: int) -> List[FeatureParts]:
        """The two parts of each feature of a sequence, in their order."""
        return [self._feature(at) for at in self._features(self._shown(sequence))]

    def _shown(self, sequence):
        """The body of a sequence that isn't skipped."""
        if not 1 <= _number(sequence) <= self.total:
            raise Refusal(NO_SEQUENCE, 0)
        body = self._body(sequence)
        if self._numbers[body.start] == 0:
            raise Refusal(SKIPPED, 0)
        return body

    def _body(self, sequence):
        """Which numbers the body of a sequence is."""
        entry = _entry(sequence)
        start, size = self._numbers[entry : entry + 2]
        return range(start // _WIDTH, (start + size) // _WIDTH)

    def _features(self, body):
        """The first number of each feature."""
        return body[len(_BODY) :: len(_FEATURE)]

    def _feature(self, at):
        return FeatureParts(self._part(at), self._part(at + 2))

    def _part(self, at):
        start, size = self._numbers[at : at + 2]
        return Part(start, self._listing[start : start + size])

    def _meaning(self, at):
        """What the number is that is the at-th, from 0."""
        if at < len(_HEAD):
            return _HEAD[at]
        for sequence in range(1, self.total + 1):
            past_entry, past_body = at - _entry(sequence), at - self._body(sequence).start
            if 0 <= past_entry < len(_ENTRY):
                return f"{_ENTRY[past_entry]} of sequence {sequence}"
            if 0 <= past_body < len(_BODY):
                return f"{_BODY[past_body]} of sequence {sequence}"
            if at in self._body(sequence):
                feature, what = divmod(past_body - len(_BODY), len(_FEATURE))
                return f"{_FEATURE[what]} of feature {feature + 1} of sequence {sequence}"
        return None


def _entry(sequence):
    """Which number is the first of a sequence in the table of contents."""
    return len(_HEAD) + len(_ENTRY) * (sequence - 1)


def _bytes(some):
    # bytes don't change while they are lent.
    return some if isinstance(some, bytes) else bytes(memoryview(some))


def _number(number):
    number = operator.index(number)
    # A number of another size would be cut to 64 bits on its way.
    if not 0 <= number < 1 << 64:
        raise ValueError(f"a number isn't of 64 bits: {number}")
    return number


@functools.lru_cache(maxsize=None)
def _library():
    here = pathlib.Path(__file__).resolve().parent
    folder = here / os.environ.get("DREICHNOOK_NATIVE", "../../target/native")
    file = folder / "libdreichnook.so"
    if not file.is_file():
        raise OSError(f"there is no {file}; scripts/shared makes it")
    library = ctypes.CDLL(str(file))
    listing, lent, numbers = [c_char_p, c_size_t], [c_void_p, c_size_t], [c_uint64]
    byte, number = [POINTER(c_uint8)], [POINTER(c_uint64)]
    index = listing
    lookups = {
        "sequence": numbers + number + byte + number * 2,
        "feature": numbers * 2 + lent + number * 5 + byte + number,
        "qualifier": numbers * 3 + number * 3 + byte + number * 2,
        "translation": numbers * 2 + lent + number * 2,
        "translations": numbers + lent + number * 2,
    }
    for name, types in {
        "check": number * 6,
        **lookups,
        "index": lent + number * 2,
        "index_check": index + number,
        **{"indexed_" + name: index + types for name, types in lookups.items()},
    }.items():
        function = getattr(library, "dreichnook_" + name)
        function.argtypes, function.restype = listing + types, c_uint32
    return library


# The explanations of rules 18 and 40 to 42 and of refusal 50, as in hosts/rust/src/explain; the tests of both read
# hosts/words/examples.txt and index-examples.txt.

_SYMBOLS = {kind.encode(): (kind, symbols.encode(), words) for kind, symbols, words in _table("symbols.txt")}
_MOLTYPES = {b"DNA": "nucleotides", b"RNA": "nucleotides", b"AA": "AA"}

# The older names, which in AA count as their lower-case ones.
_OLDER = (b"SOURCE", b"ORGANISM", b"MOL_TYPE", b"NOTE")

# No text of a listing has `<`, so these stand at start tags only. A qualifier belongs to the last key before it.
_MOLTYPE, _SEQUENCE = b"<INSDSeq_moltype", b"<INSDSeq_sequence"
_KEY, _NAME = b"<INSDFeature_key", b"<INSDQualifier_name"
_ELEMENT = re.compile(rb"<[^>]*?(?:/>[^<]*|>([^<]*))<")

_ENTITIES = {b"&lt;": b"<", b"&gt;": b">", b"&amp;": b"&", b"&quot;": b'"', b"&apos;": b"'"}
_ENTITY = re.compile(b"|".join(_ENTITIES))

# What print can't show, by its code: a tab becomes a blank.
_SHOWN = {**dict.fromkeys([*range(32), *range(127, 160)], "\ufffd"), 9: " "}


class _Row(NamedTuple):
    kind: str
    key: str
    required: List[str]
    others: List[str]


@functools.lru_cache(maxsize=None)
def _rows():
    rows = _table("vocabulary.txt")
    return [_Row(kind, key, required.split(), others.split()) for kind, key, required, others in rows]


def _row(kind, key):
    key = _counted(kind, key)
    return next((row for row in _rows() if row.kind == kind and row.key.encode() == key), None)


def _counted(kind, name):
    """The name that it counts as."""
    return name.lower() if kind == "AA" and name in _OLDER else name


def _explanation(number, place, listing, index):
    if number == INDEX_DIFFERS:
        return _of_index(place, listing, index)
    if number == NOT_A_SYMBOL:
        return _of_residue(place, listing)
    if UNKNOWN_KEY <= number <= REQUIRED_MISSING:
        return _of_vocabulary(number, place, listing)
    return None


def _of_index(place, listing, index):
    try:
        made = Listing(listing).index()
    except Refusal:
        return None
    has, needs, at = len(index), len(made.bytes), place // _WIDTH
    if place == min(has, needs):
        if has < needs:
            return f"the index is too short by {needs - has}: it has {has} of {needs} bytes"
        if has > needs:
            return f"the index is too long by {has - needs}: it has {has} bytes, the listing gives {needs}"
        return None
    if place > min(has, needs) or index[place] == made.bytes[place]:
        return None
    number = index[at * _WIDTH :][:_WIDTH]
    says = f"has {int.from_bytes(number, 'little')}" if len(number) == _WIDTH else "ends amid it"
    return f"{made._meaning(at)}: the index {says}, the listing gives {made._numbers[at]}"


def _of_residue(place, listing):
    kind = _SYMBOLS.get(_text(listing, _last(listing, place, _MOLTYPE)))
    sequence = _element(listing, _last(listing, place, _SEQUENCE))
    start, end = sequence.span(1) if sequence else (0, 0)
    if kind is None or not start <= place < end:
        return None
    name, symbols, words = kind
    before, rest = _read(listing[start:place]), _read(listing[place:end])
    total, residue = len(_read(listing[start:end])), rest[:1]
    # No residue starts amid an entity, which cut there has more characters.
    if len(before) + len(rest) != total or residue in symbols:
        return None
    entity = _ENTITY.match(listing, place)
    said = "a blank" if residue == b" " else _quoted(residue)
    written = f", written {_quoted(entity[0])}" if entity else ""
    return f"residue {len(before) + 1} of {total} is {said}{written}; the symbols of {name} are {words}"


def _of_vocabulary(number, place, listing):
    kind = _MOLTYPES.get(_text(listing, _last(listing, place, _MOLTYPE)))
    feature = _last(listing, place, _KEY)
    key = _text(listing, feature)
    if kind is None or key is None:
        return None
    row = _row(kind, key)
    if number == UNKNOWN_KEY and row is None:
        return _unknown_key(kind, key)
    if number == NOT_ALLOWED and row is not None:
        name = _text(listing, _last(listing, place, _NAME))
        return None if name is None else _not_allowed(row, key, name)
    if number == REQUIRED_MISSING and row is not None:
        return _required_missing(row, key, listing, feature)
    return None


def _unknown_key(kind, key):
    known = [row.key for row in _rows() if row.kind == kind]
    near = [(_distance(key, name), name) for name in known]
    # Stable: at one distance they stay in the vocabulary's order.
    near = sorted((pair for pair in near if pair[0] is not None), key=operator.itemgetter(0))[:3]
    nearest = ", ".join(name for _, name in near)
    other = "nucleotides" if kind == "AA" else "AA"
    but = f", but of {other}" if _row(other, key) else ""
    says = f"nearest: {nearest}" if near else f"none of the {len(known)} keys is near"
    return f"{_quoted(key)} isn't a key of {kind}{but}; {says}"


def _not_allowed(row, key, name):
    allowed = [f"{required} (required)" for required in row.required] + row.others
    return f"{_quoted(key)} doesn't allow {_quoted(name)}; allowed: {', '.join(allowed)}"


def _required_missing(row, key, listing, feature):
    end = listing.find(_KEY, feature + len(_KEY))
    own = listing[feature : end if end >= 0 else None]
    names = (_text(own, tag.start()) for tag in re.finditer(_NAME, own))
    there = {_counted(row.kind, name) for name in names if name is not None}
    missing = [name for name in row.required if name.encode() not in there]
    return f"{_quoted(key)} lacks: {', '.join(missing)}"


def _distance(key, known):
    """How many letters must be changed, dropped or added, upper and lower case being the same; None if more than half of the key's."""
    # Of a long text the length tells it.
    if abs(len(key) - len(known)) > len(key) // 2:
        return None
    # To the beginnings of `known`, from the beginning of `key` that is read so far.
    distances = list(range(len(known) + 1))
    for letter in key.lower():
        before, distances[0] = distances[0], distances[0] + 1
        for at, other in enumerate(known.lower().encode(), 1):
            changed = before + (letter != other)
            before = distances[at]
            distances[at] = min(changed, before + 1, distances[at - 1] + 1)
    return distances[-1] if distances[-1] <= len(key) // 2 else None


def _last(listing, place, tag):
    """Where the last such tag starts, at the place or before; -1 if none does."""
    return listing.rfind(tag, 0, place + len(tag))


def _element(listing, at):
    """The element there, with its raw text as group 1; of `<X/>` that is None."""
    return _ELEMENT.match(listing, at) if at >= 0 else None


def _text(listing, at):
    """The text, as read, of the element there."""
    element = _element(listing, at)
    return element and _read(element[1] or b"")


def _read(raw):
    return _ENTITY.sub(lambda entity: _ENTITIES[entity[0]], raw)


def _quoted(text):
    """As far as it fits on a line, and safe to print."""
    shown = text[:120].decode("utf-8", "replace").translate(_SHOWN)
    cut = f".. ({len(text)} bytes)" if len(text) > 120 else ""
    return f"`{shown}{cut}`" if text else "an empty text"
