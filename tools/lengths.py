#!/usr/bin/env python3
"""The table of state lengths: in the code, in its proof, in what the program crates/sheet must print, and on the printed sheet.

usage: tools/lengths.py            writes the four files
       tools/lengths.py --check    says which of them is not as it would be written now

The first three come from the formula, which stands here once. The sheet comes from the third, which the gate holds against what the program prints.
That the figures are right is not left to this: the code's are proved.
"""
import pathlib
import sys

ROOT = pathlib.Path(__file__).resolve().parent.parent
CODE = ROOT / "crates/state/src/lengths.rt"
PROOF = ROOT / "crates/state/proofs/LengthTable.antt"
PRINTED = ROOT / "crates/sheet/stdout"
SHEET = ROOT / "docs/STATE-LENGTHS.md"
NODES, AHEAD = range(1, 17), range(16)
OPENING, CLOSING = "```text\n", "```\n"


def length(n, ahead):
    """`state_length` of crates/state/specs/State.antt."""
    return 16 + (ahead + 1) * (16 + n * (8 + n))


ROWS = [[length(n, ahead) for ahead in AHEAD] for n in NODES]


def code():
    rows = "".join(f"    // N {n}\n    " + ", ".join(map(str, row)) + ",\n" for n, row in zip(NODES, ROWS))
    return ("// The sheet of state lengths (docs/STATE-LENGTHS.md): a row for each N, with look-ahead 0 to 15. Made by tools/lengths.py.\n"
            f"pub const STATE_LENGTHS: [u16; 256] = [\n{rows}];\n")


def proof():
    rows = "".join("    " + " ∷ ".join(map(str, row)) + " ∷\n" for row in ROWS)
    return ("-- The table of src/lengths.rt as a list, since the checker does not take it from the code. A row for each N. Made by tools/lengths.py.\n"
            f"use Rattle.std.proofs.Common.{{ℕ, List, [], ◌∷◌}}\n\nabbrev pub lengths : List ℕ\nlengths =\n{rows}    []\n")


def printed():
    return "".join(" ".join(map(str, row)) + "\n" for row in ROWS)


def sheet():
    """The page, with the stored output in its block under headings."""
    rows = [line.split() for line in PRINTED.read_text().splitlines()]
    block = "     F" + "".join(f"{ahead:6}" for ahead in AHEAD) + "\n  N\n"
    block += "".join(f"{n:3}   " + "".join(f"{figure:>6}" for figure in row) + "\n" for n, row in zip(NODES, rows))
    before, _, rest = SHEET.read_text().partition(OPENING)
    return before + OPENING + block + CLOSING + rest.partition(CLOSING)[2]


def main():
    check = sys.argv[1:] == ["--check"]
    if sys.argv[1:] and not check:
        sys.exit(__doc__)
    stale = []
    for file, text in ((CODE, code), (PROOF, proof), (PRINTED, printed), (SHEET, sheet)):
        if check:
            stale += [str(file.relative_to(ROOT))] if file.read_text() != text() else []
        else:
            file.write_text(text())
    if stale:
        sys.exit("not as tools/lengths.py would write it: " + ", ".join(stale))
    print("the state lengths are the same in the code, the proof, the stored output and the sheet" if check else "written")


if __name__ == "__main__":
    main()
