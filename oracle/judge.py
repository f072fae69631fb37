#!/usr/bin/env python3
"""Has the checker compute our definitions on runs of the original, call by call.

usage: oracle/judge.py [--keep FOLDER] CLASS:SEED:RUNS:CALLS ...     (oracle/build.sh first; rt must be on the PATH)

Each run of the original becomes an antt term: its calls with their answers, and what the original made of them (reply, step words, the
four queries, all state words). The checker computes `create_state`, `propose_call`, `message_call`, `skip_state` and the queries of
crates/engine/specs on it and compares every word; scratch and the untouched part of the step table are compared too, by document 01.
The work is done in a temporary repository of the crates' definitions and types; their functions are left out, so nothing is proved here.
"""
import argparse
import collections
import re
import shutil
import subprocess
import sys
import tempfile
from pathlib import Path

ROOT = Path(__file__).resolve().parent.parent
sys.path.insert(0, str(ROOT / "tools"))
import quick  # noqa: E402

ORACLE = ROOT / "oracle" / "target" / "release" / "oracle"
LAYERS = {"steps": "", "network": "steps", "decryption": "network steps", "proposal": "steps", "subset": "network proposal steps",
          "epochwords": "decryption steps subset", "epoch": "decryption epochwords network proposal steps subset",
          "state": "decryption epochwords network steps subset", "work": "decryption epoch epochwords network proposal state steps subset",
          "calls": "decryption epoch network state steps subset work", "engine": "calls decryption epoch network state steps subset work"}

JUDGE = """-- What a run of the original was given and what it made of it, and whether the definitions make the same of it.
use Rattle.std.specs.Prelude.{ℕ, ◌+◌, ◌*◌, List, [], ◌∷◌, ◌++◌, Bool, true, false, cond, ◌&&◌, length, drop, set, replicate, eqb}
use Rattle.state.specs.State.{state_length}
use Rattle.engine.specs.Create.{Numbers, create_reply, create_state}
use Rattle.calls.specs.Calls.{After, propose_call, message_call, skip_reply, skip_state, current_epoch_result, has_input_result, received_proposals_result, fault_count_result}

pub data Op : Type 0 where
  create : Numbers → Op
  propose : (records : ℕ) (answers : List ℕ) → Op
  message : (sender epoch content proposer item records : ℕ) (answers : List ℕ) → Op
  skip : (target : ℕ) → Op

-- a call, and what is seen of it: the reply, the step's words, the queries, and the state's length and words other than 0 with their places
pub record Row : Type 0 where
  pub op : Op
  pub reply : ℕ
  pub step : List ℕ
  pub queries : List ℕ
  pub length : ℕ
  pub words : List ℕ

unfoldable pub same : List ℕ → List ℕ → Bool
same [] [] = true
same [] (y ∷ ys) = false
same (x ∷ xs) [] = false
same (x ∷ xs) (y ∷ ys) = eqb x y && same xs ys

unfoldable pub others : ℕ → List ℕ → List ℕ
others i [] = []
others i (x ∷ xs) = cond (eqb x 0) [] (i ∷ x ∷ []) ++ others (i + 1) xs

-- tables are lent with numbers in them, so that untouched words show
unfoldable pub table : ℕ → List ℕ
table records = replicate (records * 4) 9

unfoldable pub scratch : List ℕ → List ℕ
scratch w = replicate (length w + 2) 5

unfoldable pub after : List ℕ → Op → After
after w (create c) =
    record {
      reply = create_reply c (replicate (state_length c.nodes c.ahead) 9);
      state = cond (eqb (create_reply c (replicate (state_length c.nodes c.ahead) 9)) 0) (create_state c (replicate (state_length c.nodes c.ahead) 9)) w;
      scratch = [];
      step = []
    }
after w (propose records answers) = propose_call w (scratch w) answers (table records)
after w (message sender epoch content proposer item records answers) = message_call w (scratch w) answers (table records) sender epoch content proposer item
after w (skip target) = record { reply = skip_reply target w; state = skip_state target w; scratch = []; step = [] }

-- the lent words that the row does not list: the step table past the step, and the scratch
unfoldable pub whole_step : Op → List ℕ → List ℕ
whole_step (create c) step = []
whole_step (propose records answers) step = step ++ drop (length step) (table records)
whole_step (message sender epoch content proposer item records answers) step = step ++ drop (length step) (table records)
whole_step (skip target) step = []

unfoldable pub whole_scratch : List ℕ → Op → List ℕ
whole_scratch w (create c) = []
whole_scratch w (propose records answers) = replicate (length w) 0 ++ (5 ∷ 5 ∷ [])
whole_scratch w (message sender epoch content proposer item records answers) = replicate (length w) 0 ++ (5 ∷ 5 ∷ [])
whole_scratch w (skip target) = []

unfoldable pub queried : List ℕ → List ℕ
queried w = current_epoch_result w 7 ∷ has_input_result w 7 ∷ received_proposals_result w 7 ∷ fault_count_result w 7 ∷ []

unfoldable pub agrees : List ℕ → Row → After → Bool
agrees w r a =
    eqb a.reply r.reply
    && same a.step (whole_step r.op r.step)
    && same a.scratch (whole_scratch w r.op)
    && cond (eqb r.length 0) true (same (queried a.state) r.queries && eqb (length a.state) r.length && same (others 0 a.state) r.words)

-- a state from its length and its words other than 0
unfoldable pub filled : ℕ → List ℕ → List ℕ
filled n [] = replicate n 0
filled n (i ∷ []) = replicate n 0
filled n (i ∷ (x ∷ rest)) = set (filled n rest) i x

-- 0 where all rows agree, else the number of the first that does not
unfoldable pub first_bad : ℕ → List ℕ → List Row → ℕ
first_bad i w [] = 0
first_bad i w (r ∷ rs) = elim (agrees w r (after w r.op)) [ true ↦ first_bad (i + 1) (after w r.op).state rs | false ↦ i ]
"""


def unfoldable(folder):
    """Every name that is `unfoldable` in the definitions below this folder, by module."""
    names = {}
    for file in sorted(folder.rglob("specs/*.antt")):
        crate = file.relative_to(folder).parts[0]
        found = re.findall(r"^ *unfoldable pub (\S+) :", file.read_text(), re.M)
        if found:
            names[(crate, file.stem)] = found
    return names


def opened(names):
    """A declaration that opens all of them: `unfolding opened` under a statement lets the whole of it compute."""
    uses, words = [], []
    for (crate, module), found in names.items():
        renamed = [f"{name} as {crate}{module}{name}" for name in found]
        uses.append(f"use Rattle.{crate}.specs.{module}.{{{', '.join(renamed)}}}")
        words += [f"{crate}{module}{name}" for name in found]
    return "\n".join(uses) + "\n\nunfoldable pub opened : Unit {0}\nunfolding " + " ".join(words) + "\nopened = tt\n"


def make_repository(folder):
    for layer in LAYERS:
        source, made = ROOT / "crates" / layer, folder / "crates" / layer
        # the judged crate opens all definitions in one module of its own
        shutil.copytree(source / "specs", made / "specs", ignore=shutil.ignore_patterns("Opened.antt"))
        lib = made / "specs" / "Lib.antt"
        lib.write_text(lib.read_text().replace("pub mod Opened\n", ""))
        (made / "src").mkdir(parents=True)
        for name, text in quick.sources(source).items():
            (made / "src" / name).write_text(text)
    judged = folder / "crates" / "judged"
    (judged / "src").mkdir(parents=True)
    (judged / "src" / "lib.rt").write_text("// Nothing: the definitions are in specs/.\n")
    (judged / "specs").mkdir()
    (judged / "specs" / "Judge.antt").write_text(JUDGE)
    (judged / "specs" / "Opened.antt").write_text(opened(unfoldable(folder / "crates")))
    lines = [f"{layer}: {below}\n" for layer, below in LAYERS.items()] + ["judged: calls decryption engine epoch epochwords network proposal state steps subset work\n"]
    (folder / "crates.txt").write_text("".join(lines))


def words(numbers):
    return "(" + " ∷ ".join([*map(str, numbers), "[]"]) + ")" if numbers else "[]"


def term(op):
    name, *numbers = op
    if name == "create":
        fields = "nodes faulty ahead own key strategy epoch schedule first second".split()
        return "create (record { " + "; ".join(f"{f} = {x}" for f, x in zip(fields, numbers)) + " })"
    if name == "propose":
        return f"propose {numbers[0]} {words(numbers[1:])}"
    if name == "message":
        return f"message {' '.join(map(str, numbers[:6]))} {words(numbers[6:])}"
    return f"skip {numbers[0]}"


Row = collections.namedtuple("Row", "op reply step queries state")


def read_runs(text):
    """The runs of the oracle's text: a create with reply 0 begins one."""
    rows = []
    for line in text.split("\n"):
        name, *numbers = line.split()[:1] + line.split()[1:] or [""]
        if name == "call":
            rows.append(Row([numbers[0], *map(int, numbers[1:])], None, [], [], []))
        elif name == "reply":
            rows[-1] = rows[-1]._replace(reply=int(numbers[0]), step=list(map(int, numbers[1:])))
        elif name in ("queries", "state"):
            rows[-1] = rows[-1]._replace(**{name: list(map(int, numbers))})
    runs = []
    for row in rows:
        if not runs or row.op[0] == "create" and any(r.op[0] != "create" for r in runs[-1]):
            runs.append([])
        runs[-1].append(row)
    return runs


def row_term(row):
    places = [x for i, word in enumerate(row.state) if word for x in (i, word)]
    return (f"record {{ op = {term(row.op)}; reply = {row.reply}; step = {words(row.step)}; queries = {words(row.queries)}; "
            f"length = {len(row.state)}; words = {words(places)} }}")


def state_term(row):
    places = [x for i, word in enumerate(row.state) if word for x in (i, word)]
    return f"(filled {len(row.state)} {words(places)})"


def parts(run):
    """A run in parts that the checker computes within its limit of steps, each with the row whose state it starts from."""
    start, part, weight = None, [], 0
    for row in run:
        weight += max(len(row.state), 200)
        if part and weight > 9000:
            yield start, part
            start, part, weight = part[-1], [], len(row.state)
        part.append(row)
    yield start, part


def run_module(runs):
    text = ["use Rattle.std.specs.Prelude.{◌≡◌, refl, List, [], ◌∷◌}",
            "use Rattle.judged.specs.Judge.{create, propose, message, skip, Row, filled, first_bad}",
            "use Rattle.judged.specs.Opened.{opened}", ""]
    for number, run in enumerate(runs):
        for place, (start, part) in enumerate(parts(run)):
            name = f"{number}-{place}"
            rows = "\n    ∷ ".join(row_term(row) for row in part)
            first = state_term(start) if start else "[]"
            text.append(f"abbrev run{name} : List Row\nrun{name} =\n    {rows}\n    ∷ []\n")
            text.append(f"agrees{name} : first_bad 1 {first} run{name} ≡ 0\nunfolding opened\nagrees{name} = refl\n")
    return "\n".join(text)


def count(counts, runs):
    """What the runs have, for the table in oracle/README.md."""
    for run in runs:
        counts["runs"] += 1
        start = next((row.op for row in run if row.op[0] == "create" and row.reply == 0), None)
        if start:
            n, f, ahead, own, key, strategy, epoch, schedule = start[1:9]
            counts[f"N {n}"] += 1
            counts[f"strategy {strategy}"] += 1
            counts[f"schedule {schedule}"] += 1
            counts["observers" if own == n else "validators"] += 1
        for row in run:
            counts["calls"] += 1
            counts[f"calls {row.op[0]}"] += 1
            counts[f"reply {row.reply}"] += 1
            if row.reply == 0 and row.op[0] in ("propose", "message"):
                records = [row.step[i:i + 4] for i in range(4, len(row.step), 4)]
                outputs = row.step[2] or len(records) + 1
                batches = sum(1 for r in records[outputs - 1:] if r[1] == 1)
                counts[f"calls with {batches} batches"] += batches > 0


def main():
    args = argparse.ArgumentParser(description=__doc__, formatter_class=argparse.RawDescriptionHelpFormatter)
    args.add_argument("--keep", help="leave the temporary repository here")
    args.add_argument("--together", type=int, default=8, help="runs that are checked at one time")
    args.add_argument("what", nargs="+", metavar="CLASS:SEED:RUNS:CALLS")
    args = args.parse_args()
    folder = Path(args.keep or tempfile.mkdtemp(prefix="judge-"))
    make_repository(folder)
    judged = folder / "crates" / "judged" / "specs"
    counts, bad = collections.Counter(), 0
    for what in args.what:
        text = subprocess.run([ORACLE, "generate", *what.split(":"), "text"], check=True, stdout=subprocess.PIPE, text=True).stdout
        runs = read_runs(text)
        for first in range(0, len(runs), args.together):
            part = runs[first:first + args.together]
            (judged / "Runs.antt").write_text(run_module(part))
            (judged / "Lib.antt").write_text("pub mod Judge\npub mod Opened\npub mod Runs\n")
            ran = subprocess.run(["rt", "check"], cwd=folder / "crates" / "judged", stdout=subprocess.PIPE, stderr=subprocess.STDOUT, text=True)
            if ran.returncode == 0 and "logic=proved" in ran.stdout:
                print(f"{what}: runs {first} to {first + len(part) - 1}: every word as the original has it", flush=True)
                count(counts, part)
            else:
                bad += 1
                errors = [line[:400] for line in ran.stdout.split("\n") if "error" in line]
                print(f"{what}: runs {first} to {first + len(part) - 1}: NOT SHOWN", *errors, sep="\n", flush=True)
    for name, number in sorted(counts.items(), key=lambda x: [int(w) if w.isdigit() else w for w in re.split(r"(\d+)", x[0])]):
        print(f"{number:7} {name}")
    if not args.keep:
        shutil.rmtree(folder)
    sys.exit(1 if bad else 0)


if __name__ == "__main__":
    main()
