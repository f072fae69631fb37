#!/usr/bin/env python3
"""tools/places.py [COMMIT]: the places in crates/*/src of the eight points of docs/DESIGN-PASS.md, in the working tree or in a commit.

Each line is one place, FILE:LINE and its text; a search that finds more than the point means (a number that is a limit, a `while` that counts
nothing) is told apart by hand on the page. The counts on the page are this command's.
"""
import pathlib
import re
import subprocess
import sys

ROOT = pathlib.Path(__file__).resolve().parent.parent
SEARCHES = [
    ("1 enums of one's own", r"^\s*(pub )?enum \w+"),
    ("1 enums: a variant for 'none' or 'refused'", r"^\s*(Refused|Missing|Nothing|End|NotReady|Invalid|MultipleInputs|Decryption|No|Vacant)(\(.*\))?,"),
    ("1 an outcome beside a value", r"^\s*(pub )?(outcome|told|batch|reply|current|encrypted): "),
    ("1 numbers for kinds, tags, replies", r"^\s*(pub )?const \w+: u64 ="),
    ("1 functions that answer a number for a refusal", r"return (SUCCESS|[A-Z]+_[A-Z_]+);"),
    ("2 three forms of one function", r"fn \w+_(at|from)\("),
    ("2 functions of one name in several types or files", None),
    ("3 loops counted by hand", r"^\s*while "),
    ("3 an index counted by hand", r"^\s*\w+ (\+|-)= [12];"),
    ("4 conversions and tests by hand", r"fn (flag|bit|digit|copy|clear|\w+_of|is_\w+|strategy\w*|content_\w*)\("),
    ("4 tests that are `matches!`", r"=> (true|false),"),
    ("5 a fact in many contracts", r"(EpochWords|Records|StateWords|Network \w|state_ok state)"),
    ("5 answers and place", r"^\s*(place: &mut usize|cursor: &mut Cursor)|[(,] ?(place: &mut usize|cursor: &mut Cursor)"),
    ("6 a length beside a buffer", r"\[u(8|16|64); \d+\]"),
    ("7 a switch on which step", r"match (content|input|call|kind|what|outcome|ended|told)\b|if what == "),
]


def files(commit):
    if commit:
        names = subprocess.run(["git", "ls-tree", "-r", "--name-only", commit], cwd=ROOT, capture_output=True, text=True, check=True).stdout.split()
        for name in names:
            if re.fullmatch(r"crates/\w+/src/.*\.rt", name):
                yield name, subprocess.run(["git", "show", f"{commit}:{name}"], cwd=ROOT, capture_output=True, text=True, check=True).stdout
    else:
        for path in sorted(ROOT.glob("crates/*/src/**/*.rt")):
            yield str(path.relative_to(ROOT)), path.read_text()


def main():
    texts = list(files(sys.argv[1] if len(sys.argv) > 1 else None))
    short = "--short" in sys.argv
    for title, pattern in SEARCHES:
        found = []
        if pattern is None:
            names = {}
            for name, text in texts:
                for number, line in enumerate(text.split("\n"), 1):
                    for function in re.findall(r"\bfn (\w+)", line):
                        names.setdefault(function, []).append(f"{name}:{number}")
            found = [f"{function}: {' '.join(where)}" for function, where in sorted(names.items()) if len(where) > 1]
        else:
            for name, text in texts:
                for number, line in enumerate(text.split("\n"), 1):
                    if re.search(pattern, line) and not line.lstrip().startswith(("//", "ghost use", "use ")):
                        found.append(f"{name}:{number}: {line.strip()}")
        print(f"== {title}: {len(found)}")
        for line in found:
            print("  ", line)


main()
