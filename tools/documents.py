#!/usr/bin/env python3
"""Checks the documents: what they name in `code marks` must be there, and EVIDENCE.md must name every must-fail edit.

usage: tools/documents.py          (from anywhere; Python 3.9 or newer, no packages)

    `steps/Table: table_ok, handle`       definitions or theorems of a file of specs/ or proofs/ of a crate; also `steps/proofs/RunLaws: …`
    `Settled: propose_settled`, `Settled.antt`   the same where the crate is plain from the text: a file of that name in any crate
    `engine: create_f_third`              must-fail edits of a crate
    `answers::table_ok, is_handle` functions, types or constants of the code
    `crates/…`, `docs/…`, `oracle/…`      files and folders
    `table_ok`, `hb_skip`                 a single name: somewhere in the crates, the oracle or its stand-ins
"""
import pathlib
import re
import sys

ROOT = pathlib.Path(__file__).resolve().parent.parent
CRATES = ROOT / "crates"
DOCUMENTS = ["EVIDENCE", "DECISIONS", "PROOFS", "STATE", "DIFFERENCES", "READING"]
NAME = r"[A-Za-z_][\w'₀-₉-]*"
# what a person writes of a function's proof, in a folder for each
PROOF_FILES = ("Answers.antt", "Invariants.antt")
# names of the Rust that stand nowhere in this repository
ORIGINAL = {"BTreeSet", "CiphertextIsNone"}


def defined(text):
    """The names that an antt file declares: definitions, theorems, records and their fields, constructors."""
    return set(re.findall(rf"^\s*(?:(?:unfoldable|abbrev|pub|record|data|mod) )*({NAME})[ \n]*(?::|\()", text, re.M)) | set(
        re.findall(rf"\bpub (?:record|data|mod) ({NAME})", text))


ANTT = {file: defined(file.read_text()) for part in ("specs", "proofs") for file in CRATES.glob(f"*/{part}/*.antt")}
FILES = {}
for file in ANTT:
    FILES.setdefault(file.stem, []).append(file)
EDITS = {crate.name: {file.stem for file in crate.glob("must-fail/*.edit")} for crate in CRATES.iterdir()}
CODE = {file: file.read_text() for folder, kind in ((CRATES, "*.rt"), (ROOT / "oracle", "*.rs"), (ROOT / "oracle", "*.py"), (ROOT / "tools", "*.py"))
        for file in folder.rglob(kind) if not {"target", "out"} & {*file.parts}}
SOURCES = {crate.name: "\n".join(text for file, text in CODE.items() if crate in file.parents and "src" in file.parts) for crate in CRATES.iterdir()}
WORDS = set(ORIGINAL)
for text in CODE.values():
    WORDS |= set(re.findall(r"[A-Za-z_]\w*", text)) | set(re.findall(r'"([a-z]+(?:-[a-z]+)+)"', text))
for file, names in ANTT.items():
    WORDS |= names | {file.stem}
for file in CRATES.glob("*/proofs/*/**/*.antt"):
    WORDS |= defined(file.read_text()) | {file.parent.name}
for names in EDITS.values():
    WORDS |= names


def in_files(files, names):
    """Those of the names that none of the files declares."""
    known = set().union(*(ANTT[file] for file in files)) if files else set()
    return [name for name in names if name not in known]


def split(text):
    return [name.strip() for name in text.split(",") if name.strip() not in ("", "…")]


def faults(mark):
    """What is wrong with one text between code marks, or nothing."""
    if (CRATES / mark).exists() or "/" in mark and (CRATES / mark.replace("/", "/must-fail/", 1)).with_suffix(".edit").exists():
        return []
    place = re.fullmatch(rf"(?:crates/)?(\w+)/(?:(specs|proofs)/)?({NAME})(?:\.antt)?(?:: (.*))?", mark)
    if place and place[1] in EDITS and not (ROOT / mark).exists():
        crate, part, stem, names = place.groups()
        files = [file for file in FILES.get(stem, []) if file.parts[-3] == crate and part in (None, file.parts[-2])]
        if not files:
            return [f"no file {stem}.antt in crate {crate}"]
        return [f"{name} is not in {crate}/{stem}" for name in in_files(files, [n.split(" : ")[0].lstrip("…") for n in split(names or "")])
                if name and not any(known.endswith(name) for file in files for known in ANTT[file])]
    several = re.fullmatch(r"(.*)\{(.*)\}", mark)
    if several and place is None and several[1].endswith(("specs/", "proofs/")):
        return [fault for name in split(several[2]) for fault in faults(several[1] + name)]
    if re.fullmatch(r"[A-Z]\w*\.antt", mark) and mark not in PROOF_FILES and mark[:-5] not in FILES:
        return [f"no file {mark}"]
    listed = re.fullmatch(rf"({NAME}): (.+)", mark)
    if listed and re.match("[A-Z]", mark) and listed[1] not in FILES:
        return [f"no file {listed[1]}.antt"]
    if listed and listed[1] in EDITS:
        return [f"crate {listed[1]} has no must-fail edit {name}" for name in split(listed[2]) if name not in EDITS[listed[1]]]
    if listed and listed[1] in FILES:
        return [f"{name} is in no {listed[1]}.antt" for name in in_files(FILES[listed[1]], [n.split(" : ")[0] for n in split(listed[2])])]
    path = re.fullmatch(rf"(\w+)(::\w+)+(, \w+)*", mark)
    if path:
        first, *others = split(mark)
        words = first.split("::")
        text = SOURCES.get(words[0], "\n".join(CODE.values()))
        modules = {file.stem for file in CODE if words[0] not in SOURCES or CRATES / words[0] in file.parents}
        wanted = [word for word in words[1:] if word not in modules] + others
        return [f"{word} is not in the code of {words[0]}" for word in wanted if not re.search(rf"\b{word}\b", text)]
    if re.match(r"(crates|docs|oracle|tools|include|examples|fuzz|bench|\.ci)/", mark) and re.fullmatch(r"[\w./*-]+", mark):
        return [] if any(ROOT.glob(mark.rstrip("/"))) or "NAME" in mark or "CRATE" in mark else [f"no file {mark}"]
    names = split(mark)
    if names and all(re.fullmatch(NAME, name) and re.search(r"[a-z][A-Z_-]|[a-z]\w*-", name) for name in names):
        return [f"{name} is nowhere" for name in names if name not in WORDS]
    return []


def main():
    found = []
    for stem in DOCUMENTS:
        file = ROOT / "docs" / f"{stem}.md"
        fenced = False
        for number, line in enumerate(file.read_text().splitlines(), 1):
            fenced ^= line.startswith("```")
            for mark in [] if fenced else re.findall(r"`([^`]+)`", line):
                found += [f"docs/{stem}.md:{number}: `{mark}`: {fault}" for fault in faults(mark)]
    evidence = (ROOT / "docs" / "EVIDENCE.md").read_text()
    for crate, names in sorted(EDITS.items()):
        listed = {name for text in re.findall(rf"`{crate}: ([^`]+)`", evidence) for name in split(text)}
        found += [f"docs/EVIDENCE.md does not name the must-fail edit {crate}: {name}" for name in sorted(names - listed)]
    print("\n".join(found) if found else "the documents name what is there, and every must-fail edit")
    sys.exit(1 if found else 0)


if __name__ == "__main__":
    main()
