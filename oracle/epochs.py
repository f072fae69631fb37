#!/usr/bin/env python3
"""Writes stdin and stdout of the program crate `epochs`: calls of single epochs, cut out of runs of the original.

    oracle/epochs.py [CLASS:SEED:RUNS:CALLS ..]

A call is taken where it runs an epoch of at most 7 nodes and hands out no batch but that of this epoch. stdin has what the epoch is given, and
its words before the call, as the original had left them; stdout what the original made of it.

Lines of stdin, numbers in decimal:

    n N F OWN KEY STRATEGY ENCRYPTED     the network of the calls that follow
    w I X ..                             the epoch's words before the call: index and word of those that are not 0
    p EPOCH CURRENT TABLE ..             a propose; CURRENT is 1 where the epoch's batch may go out: it is the current one
    m EPOCH CURRENT SENDER CONTENT PROPOSER ITEM TABLE ..

Lines of stdout, for each call: `r REPLY WORD ..`, the reply (0, or the failure) and the words of the step; then, unless the batch went out, which
ends the epoch, `w I X ..`, its words after the call.
"""
import pathlib
import subprocess
import sys

sys.path.insert(0, str(pathlib.Path(__file__).parent))
import judge

DEFAULT = ["clean:11:4:60", "ahead:12:4:60", "wild:13:4:60", "failing:14:8:60"]
# the limits of the program: nodes, and numbers of a line
MOST_NODES = 7
MOST_NUMBERS = 256


def encrypted(state, epoch):
    kind, a, b = state[7:10]
    return int([lambda: True, lambda: False, lambda: epoch % a == 0, lambda: epoch % (a + b) < a][kind]())


def epoch_words(state, epoch):
    n, ahead = state[1], state[3]
    size = 16 + n * (8 + n)
    at = 16 + epoch % (ahead + 1) * size
    return state[at:at + size]


def line(letter, *numbers):
    return " ".join(map(str, [letter, *numbers]))


def sparse(words):
    return line("w", *(number for i, x in enumerate(words) if x for number in (i, x)))


def batches(step):
    """The epochs whose batches a step hands out: it is chained without gaps, and its outputs are last."""
    if not step or not step[2]:
        return []
    return [step[i * 4 + 2] for i in range(step[2], len(step) // 4) if step[i * 4 + 1] == 1]


def taken(before, row):
    """The epoch of a call that is to be run, or None."""
    name, *numbers = row.op
    current, ahead, n, own = before[10], before[3], before[1], before[4]
    if name == "propose":
        epoch = current
        runs = own < n
    elif name == "message":
        epoch = numbers[1]
        runs = current <= epoch <= current + ahead
    else:
        return None
    if not runs or not (row.reply == 0 or row.reply >= 20) or n > MOST_NODES:
        return None
    if any(b != epoch for b in batches(row.step)):
        return None
    return epoch


def call_line(row, epoch, current):
    name, *numbers = row.op
    if name == "propose":
        _, *table = numbers
        return line("p", epoch, current, *table)
    sender, _, content, proposer, item, _, *table = numbers
    return line("m", epoch, current, sender, content, proposer, item, *table)


def lines(runs):
    """Pairs of a line of stdin and, for a call, its lines of stdout."""
    for run in runs:
        before, shown = None, None
        for row in run:
            epoch = taken(before, row) if before else None
            if epoch is not None:
                network = line("n", before[1], before[2], *before[4:7], encrypted(before, epoch))
                call = call_line(row, epoch, int(epoch == before[10]))
                if len(call.split()) <= MOST_NUMBERS:
                    if network != shown:
                        yield network, None
                        shown = network
                    yield sparse(epoch_words(before, epoch)), None
                    after = [] if batches(row.step) else [sparse(epoch_words(row.state, epoch))]
                    yield call, [line("r", row.reply, *row.step), *after]
            if row.state:
                before = row.state


def main():
    pairs = []
    for what in sys.argv[1:] or DEFAULT:
        text = subprocess.run([judge.ORACLE, "generate", *what.split(":"), "text"], check=True, stdout=subprocess.PIPE, text=True).stdout
        pairs += lines(judge.read_runs(text))
    crate = judge.ROOT / "crates" / "epochs"
    (crate / "stdin").write_text("".join(line + "\n" for line, _ in pairs))
    (crate / "stdout").write_text("".join(f"{text}\n" for _, out in pairs for text in out or []))
    print(sum(out is not None for _, out in pairs), "calls")


if __name__ == "__main__":
    main()
