#!/usr/bin/env python3
"""tools/quick.py FOLDER: makes or refreshes a copy of the layers in which definitions and laws check in seconds.

src/ holds the type declarations only, specs/ and proofs/*.antt are those of the repository: no function is proved. Run `rt check`
in a crate's folder there, lowest crates first, after each edit here and a refresh; only what changed is written.
"""
import pathlib
import re
import subprocess
import sys

ROOT = pathlib.Path(__file__).resolve().parent.parent


def imports(text):
    """The imports of a source file, one name a line: `use a::{B, C};` is `use a::B;` and `use a::C;`."""
    for head, path, group in re.findall(r"^((?:pub )?use )([\w:]+?)(?:::\{([^}]*)\})?;", text, re.M):
        for name in re.findall(r"\w+", group):
            yield f"{head}{path}::{name};"
        if not group:
            yield f"{head}{path};"


def types_only(text):
    """The declared types of a source file, without its functions, and without those that hold a fact, of which no definition speaks."""
    found = re.findall(r"^(?:#\[[^\n]*\]\n)?(?:pub )?(?:struct|enum) \w+(?:<'a>)? \{.*?^\}", text, re.S | re.M)
    found = [declared for declared in found if not re.search(r"^ +ghost ", declared, re.M)]
    named = set(re.findall(r"\w+", "\n".join(found)))
    kept = re.findall(r"^pub mod .*", text, re.M) + [line for line in imports(text) if line.rstrip(";").split("::")[-1] in named]
    return "\n".join(kept) + "\n\n" + "\n\n".join(found) + "\n"


def sources(crate):
    """The source files of a crate by name, cut to their types; a module that declares none is left out."""
    texts = {file.name: types_only(file.read_text()) for file in (crate / "src").glob("*.rt")}
    empty = {name for name, text in texts.items() if name != "lib.rt" and not re.search(r"^(pub )?(struct|enum) ", text, re.M)}
    texts["lib.rt"] = "".join(line for line in texts["lib.rt"].splitlines(True) if not any(line == f"pub mod {name[:-3]};\n" for name in empty))
    return {name: text for name, text in texts.items() if name not in empty}


def copy(folder):
    lines = [line for line in (ROOT / "crates.txt").read_text().splitlines() if re.match(r"\w+:", line)]
    layers = [line for line in lines if (ROOT / "crates" / line.split(":")[0] / "src" / "lib.rt").exists()]
    wanted = {folder / "crates.txt": "\n".join(layers) + "\n"}
    for name in (line.split(":")[0] for line in layers):
        crate, made = ROOT / "crates" / name, folder / "crates" / name
        wanted |= {made / "src" / file: text for file, text in sources(crate).items()}
        for part in ("specs", "proofs"):
            wanted |= {made / part / file.name: file.read_text() for file in (crate / part).glob("*.antt")}
    for file in (folder / "crates").rglob("*"):
        if file.is_file() and file not in wanted:
            file.unlink()
    for file, text in wanted.items():
        file.parent.mkdir(parents=True, exist_ok=True)
        if not file.exists() or file.read_text() != text:
            file.write_text(text)
    if not (folder / ".git").exists():
        subprocess.run(["git", "init", "-q", folder], check=True)


if __name__ == "__main__":
    if len(sys.argv) != 2:
        sys.exit(__doc__)
    copy(pathlib.Path(sys.argv[1]).resolve())
