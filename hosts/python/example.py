"""python3 example.py FILE: the verdict on a listing, then the translations of each sequence."""

import sys

import dreichnook


def main(file):
    with open(file, "rb") as opened:
        # One byte more than the limit is enough for the verdict that it is too long.
        listing = dreichnook.Listing(opened.read(dreichnook.LIMIT + 1))
    try:
        counts = listing.check()
    except dreichnook.Refusal as refusal:
        sys.exit(f"{file}: {refusal}")
    print(f"accepted: {counts.total} sequences, {counts.features} features")
    # One call for the places of all sequences; the translations of each take one of their own.
    for k, sequence in enumerate(listing.index().sequences(), 1):
        if sequence is None:
            print(f"sequence {k}: skipped")
            continue
        print(f"sequence {k}: {sequence.kind}, {len(sequence.residues.text)} residues")
        for letters in listing.translations(k):
            print("-" if letters is None else letters.decode("ascii"))


if __name__ == "__main__":
    if len(sys.argv) != 2:
        sys.exit(__doc__)
    main(sys.argv[1])
