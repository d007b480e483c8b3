#!/usr/bin/env python3
"""Measure how long the check of each crate takes from nothing, for the table of an entry in docs/CHANGES.md.

    tools/measure.py COMMIT [CRATE ..] [--lanes N] [--new]   a line for each crate: its name and its seconds
    tools/measure.py --table BEFORE AFTER    the lines of two such runs, kept in files, as rows of a table

Where crates are named, it measures these and those that they stand on.

A crate's seconds are the processor's, of all processes that took part in `rt ci NAME` once the crates below it were
proved: its proof, its must-fail edits, its tests and its runs. They depend less on the number of cores and on what else
the machine does than the time that somebody waits for them: by up to a sixth. N crates that do not stand on one
another are measured side by side, one if N is not given.

What earlier runs on the machine proved is not used: the commit is copied into a folder of its own, and a comment that
no other copy has goes behind each crate's root file. With --new the comments are left out, for a commit of which
nothing was proved here before; what is proved is then kept for the gate. Measure both commits on one machine.
"""

import argparse
import os
import re
import subprocess
import sys
import tempfile
import time
from concurrent.futures import FIRST_COMPLETED, ThreadPoolExecutor, wait
from pathlib import Path

ROOT = Path(__file__).resolve().parent.parent


def listed(text):
    """The crates of a crates.txt, each with those of them that it stands on."""
    lines = [line.partition(":") for line in text.splitlines() if ":" in line and not line.startswith("#")]
    names = [head.split()[0] for head, _, _ in lines]
    return {name: [it for it in below.split() if it in names] for name, (_, _, below) in zip(names, lines)}


def chosen_of(crates, names):
    """The crates that are named and those below them, or all."""
    wanted = {it for name in names or crates for it in (name, *crates[name])}
    return {name: below for name, below in crates.items() if name in wanted}


def copied(commit, folder, new):
    """Puts the files of a commit into a folder, each crate unlike any that was proved before."""
    packed = subprocess.run(["git", "archive", commit], cwd=ROOT, check=True, capture_output=True).stdout
    subprocess.run(["tar", "x", "-C", folder], input=packed, check=True)
    for name in () if new else ("lib.rt", "main.rt"):
        for root in Path(folder).glob(f"crates/*/src/{name}"):
            root.write_text(root.read_text() + f"\n// measured {time.time_ns()}\n")


def measured(folder, name):
    """The processor seconds of one crate's check, and what it printed where it did not pass."""
    with tempfile.TemporaryFile("w+") as log:
        run = subprocess.Popen(["rt", "ci", name], cwd=folder, stdin=subprocess.DEVNULL, stdout=log, stderr=log)
        _, status, used = os.wait4(run.pid, 0)
        run.returncode = status
        log.seek(0)
        said = log.read()
    passed = status == 0 and re.search(r"^\d+ passed, 0 failed", said, re.M)
    return used.ru_utime + used.ru_stime, None if passed else said


def measure(commit, names, lanes, new):
    """Prints a line for each crate, once those that it stands on are proved."""
    with tempfile.TemporaryDirectory() as folder, ThreadPoolExecutor(lanes) as pool:
        copied(commit, folder, new)
        left = chosen_of(listed((Path(folder) / "crates.txt").read_text()), names)
        done, running = set(), {}
        while left or running:
            for name in [it for it, below in left.items() if done.issuperset(below)]:
                del left[name]
                running[pool.submit(measured, folder, name)] = name
            for ended in wait(running, return_when=FIRST_COMPLETED).done:
                name, (used, said) = running.pop(ended), ended.result()
                if said is not None:
                    sys.exit(f"measure: {name} is not proved:\n{said[-3000:]}")
                print(f"{name} {used:.0f}", flush=True)
                done.add(name)


def seconds(file):
    """The lines of a run, by crate."""
    return {line.split()[0]: int(line.split()[1]) for line in Path(file).read_text().splitlines()}


def table(before, after):
    """The rows of a table, for the crates of either run."""
    old, new = seconds(before), seconds(after)
    print("| crate | before | after |\n|---|---|---|")
    for name in {**old, **new}:
        print(f"| `{name}` | {old.get(name, 'not there')} | {new.get(name, 'gone')} |")
    print(f"| together | {sum(old.values())} | {sum(new.values())} |")


def main():
    parser = argparse.ArgumentParser(description=__doc__, formatter_class=argparse.RawDescriptionHelpFormatter)
    parser.add_argument("commit", nargs="?")
    parser.add_argument("crates", nargs="*")
    parser.add_argument("--lanes", type=int, default=1)
    parser.add_argument("--new", action="store_true")
    parser.add_argument("--table", nargs=2, metavar=("BEFORE", "AFTER"))
    chosen = parser.parse_args()
    if chosen.table:
        table(*chosen.table)
    elif chosen.commit:
        measure(chosen.commit, chosen.crates, chosen.lanes, chosen.new)
    else:
        parser.error("name a commit, or two files after --table")


if __name__ == "__main__":
    main()
