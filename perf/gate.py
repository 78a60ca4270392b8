#!/usr/bin/env python3
"""Runs the gate (or another command of rt) and says what each crate cost it, in processor seconds:

    perf/gate.py [--out FILE] rt ci [NAME..]

The prover is a process of its own for each proof, each crate's tests and each must-fail edit. This looks at the
processes below the command twice a second and adds up their processor time by crate and kind. What ends between two
looks is missed, so the sums are a little low. The figures of a crate that was kept from an earlier run are those of
this run alone: only a gate from nothing has them all. FILE gets the table as Markdown.
"""
import collections
import os
import re
import subprocess
import sys
import time

TICK = os.sysconf("SC_CLK_TCK")


def processes():
    """Each process: its number, its parent's, its processor seconds, its words."""
    for name in os.listdir("/proc"):
        if not name.isdigit():
            continue
        try:
            with open(f"/proc/{name}/stat", encoding="utf-8") as it:
                fields = it.read().rsplit(")", 1)[1].split()
            with open(f"/proc/{name}/cmdline", encoding="utf-8", errors="replace") as it:
                words = it.read().split("\0")
        except OSError:
            continue
        yield int(name), int(fields[1]), (int(fields[11]) + int(fields[12])) / TICK, words


def kind_of(words):
    """What a process of the prover does: the crate, and `check`, `tests` or `edits`."""
    text = " ".join(words)
    found = re.search(r"--crate-name (\w+)", text)
    if not found or not words[0].endswith("/rattle"):
        return None
    if "/rt-edits-" in text:
        return found.group(1), "edits"
    return found.group(1), "tests" if "--test" in words else "check"


def watch(command):
    """Runs a command, and gives its exit status, its seconds and the processor seconds by crate and kind."""
    begun = time.time()
    running = subprocess.Popen(command)
    seen = {}
    while running.poll() is None:
        found = list(processes())
        below = {running.pid}
        for _ in range(8):
            below |= {pid for pid, parent, _, _ in found if parent in below}
        for pid, _, used, words in found:
            kind = kind_of(words) if pid in below else None
            if kind:
                seen[pid, kind] = used
        time.sleep(0.5)
    shares = collections.Counter()
    for (_, kind), used in seen.items():
        shares[kind] += used
    return running.returncode, time.time() - begun, shares


def table(shares):
    """The table, the dearest crate first."""
    crates = sorted({crate for crate, _ in shares}, key=lambda it: -sum(shares[it, kind] for kind in KINDS))
    yield "| crate | check | tests | edits | all |"
    yield "|---|---|---|---|---|"
    for crate in crates + ["all"]:
        figures = [sum(used for (name, kind), used in shares.items() if kind == wanted and crate in (name, "all")) for wanted in KINDS]
        yield f"| `{crate}` | " + " | ".join(str(round(it)) for it in [*figures, sum(figures)]) + " |"


KINDS = ["check", "tests", "edits"]


def main(words):
    out = None
    if words[:1] == ["--out"]:
        out, words = words[1], words[2:]
    if not words:
        sys.exit(__doc__)
    status, seconds, shares = watch(words)
    lines = list(table(shares))
    print("\n".join(lines))
    print(f"{seconds / 60:.1f} minutes by the clock, {sum(shares.values()) / 60:.1f} of processors")
    if out:
        with open(out, "w", encoding="utf-8") as it:
            it.write("\n".join(lines) + "\n")
    sys.exit(status)


main(sys.argv[1:])
