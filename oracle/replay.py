#!/usr/bin/env python3
"""Writes stdin and stdout of the program crate `replay`: the calls of the recorded runs, and what the original makes of them.

    oracle/replay.py [FILE ..]      (default: recorded/*.bin)

Lines of stdin, numbers in decimal:

    c N F AHEAD OWN KEY STRATEGY START SCHEDULE A B
    p RECORDS TABLE ..
    m SENDER EPOCH CONTENT PROPOSER ITEM RECORDS TABLE ..
    s TARGET

Lines of stdout, for each call: `r REPLY WORD ..`, the reply and the words written to the step table; then, if a state was created,
`q EPOCH INPUT RECEIVED FAULTS DIGEST SCRATCH`, what the queries give, the state's digest, and how many words of scratch are as they must be:
as many as the state has and eight more that are lent, 0 for a call that is lent none.
"""
import pathlib
import subprocess
import sys
import tempfile

sys.path.insert(0, str(pathlib.Path(__file__).parent))
import judge

LETTERS = {"create": "c", "propose": "p", "message": "m", "skip": "s"}
# the limits of the program: lines, bytes of a line with its newline, numbers of a line
MOST_LINES = 65_536
MOST_BYTES = 65_536
MOST_NUMBERS = 4112
FACTOR, MODULUS = 65_599, 4_294_967_291


def digest(words):
    h = 0
    for word in words:
        h = (h * FACTOR + word % MODULUS) % MODULUS
    return h


def lines(text):
    """The lines of stdin and of stdout, from what `oracle text` says of a file."""
    given, out, queries, lent = [], [], "", False
    for line in text.splitlines():
        what, _, rest = line.partition(" ")
        if what == "call":
            name, _, numbers = rest.partition(" ")
            assert len(numbers.split()) <= MOST_NUMBERS
            given.append(f"{LETTERS[name]} {numbers}".rstrip())
            lent = name in ("propose", "message")
        elif what == "reply":
            out.append(f"r {rest}")
        elif what == "queries":
            queries = rest
        else:
            state = list(map(int, rest.split()))
            out.append(f"q {queries} {digest(state)} {len(state) + 8 if lent else 0}")
    return given, out


def main():
    files = sys.argv[1:] or sorted((judge.ROOT / "oracle" / "recorded").glob("*.bin"))
    with tempfile.NamedTemporaryFile() as joined:
        for file in files:
            joined.write(pathlib.Path(file).read_bytes())
        joined.flush()
        text = subprocess.run([judge.ORACLE, "text", joined.name], check=True, stdout=subprocess.PIPE, text=True).stdout
    given, out = lines(text)
    assert len(given) <= MOST_LINES and all(len(line) < MOST_BYTES for line in given)
    crate = judge.ROOT / "crates" / "replay"
    (crate / "stdin").write_text("".join(line + "\n" for line in given))
    (crate / "stdout").write_text("".join(line + "\n" for line in out))
    print(len(given), "calls")


if __name__ == "__main__":
    main()
