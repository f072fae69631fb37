#!/usr/bin/env python3
"""tools/edits.py: says of each must-fail edit whether its `old` text stands exactly once where it should.

tools/edits.py FOLDER CRATE NAME ..: tries these edits of definitions in FOLDER, a copy made by tools/quick.py, and shows where each is refused.
"""
import pathlib
import re
import subprocess
import sys

ROOT = pathlib.Path(__file__).resolve().parent.parent


def changes(edit):
    """The changes of an edit: the file in its crate, the old text and the new."""
    file = old = None
    for line in edit.read_text().split("\n"):
        key, _, text = line.partition(": ")
        if key == "file":
            file = text
        elif key == "old":
            old = text
        elif key == "new":
            yield file, old, text


def check():
    edits = sorted(ROOT.glob("crates/*/must-fail/*.edit"))
    for edit in edits:
        for file, old, _ in changes(edit):
            times = (edit.parent.parent / file).read_text().count(old)
            if times != 1:
                print(f"{edit.relative_to(ROOT)}: {times} times: {old}")
    print(len(edits), "edits")


def attempt(folder, crate, name):
    saved = {}
    for file, old, new in changes(ROOT / "crates" / crate / "must-fail" / f"{name}.edit"):
        path = folder / "crates" / crate / file
        text = path.read_text()
        saved.setdefault(path, text)
        path.write_text(text.replace(old, new, 1))
    ran = subprocess.run(["rt", "check"], cwd=folder / "crates" / crate, capture_output=True, text=True)
    for path, text in saved.items():
        path.write_text(text)
    errors = [line for line in (ran.stdout + ran.stderr).splitlines() if ": error: " in line and "was not admitted" not in line]
    print(f"{crate}/{name}: {'refused' if ran.returncode else 'NOT REFUSED'}")
    for line in errors[:5]:
        print("   ", re.sub(r"^\S*/crates/", "", line)[:180])


if __name__ == "__main__":
    if len(sys.argv) == 1:
        check()
    elif len(sys.argv) > 3:
        for label in sys.argv[3:]:
            attempt(pathlib.Path(sys.argv[1]), sys.argv[2], label)
    else:
        sys.exit(__doc__)
