"""Compares weekbook and setbook with the model, on all directed scripts and on generated ones.

    python3 tests/oracle/crosscheck.py [--seeds S] [--self]

Standard output, standard error and the status are compared. The inputs that differ are kept in target/crosscheck.
With --self the model's own command line takes the place of the programs, to try this file without them.
"""
import argparse
import multiprocessing
import subprocess
import sys
from itertools import zip_longest
from pathlib import Path

import generated
import script
import scripts

ROOT = Path(__file__).resolve().parents[2]
KEPT = ROOT / "target" / "crosscheck"
SECONDS = 120


def program(arguments, itself):
    """The command line that stands for the arguments `week` or `set`.."""
    if itself:
        return [sys.executable, str(ROOT / "tests" / "oracle" / "script.py"), *arguments]
    return [str(ROOT / "target" / "bin" / f"{arguments[0]}book"), *arguments[1:]]


def run(command, data):
    """What a program writes to standard output and standard error, and its status; None if it does not end."""
    try:
        done = subprocess.run(command, input=data, capture_output=True, timeout=SECONDS)
    except subprocess.TimeoutExpired:
        return None
    return done.stdout, done.stderr, done.returncode


def first_difference(one, other):
    """The number of the first line in which two texts differ, and that line of both."""
    lines = zip_longest(one.split(b"\n"), other.split(b"\n"))
    for at, (left, right) in enumerate(lines, 1):
        if left != right:
            return f"line {at}: program {left}, model {right}"


def difference(got, wanted):
    """Where a program's run and the model's differ first, or None."""
    if got is None:
        return f"the program does not end in {SECONDS} seconds"
    for name, one, other in zip(("standard output", "standard error"), got, wanted):
        if one != other:
            return f"{name}, {first_difference(one, other)}"
    if got[2] != wanted[2]:
        return f"status: program {got[2]}, model {wanted[2]}"
    return None


def compare(task):
    (name, arguments, data), itself = task
    got = run(program(arguments, itself), data)
    return difference(got, script.answer(arguments, data))


def keep(name, data):
    KEPT.mkdir(parents=True, exist_ok=True)
    kept = KEPT / name
    kept.write_bytes(data)
    return kept


def crosscheck(seeds, itself):
    """Runs all scripts. Answers how many there are and how many differ."""
    all_scripts = scripts.directed()
    for seed in range(seeds):
        all_scripts.append((f"seed-{seed}", *generated.generate(seed)))
    differ = 0
    with multiprocessing.Pool() as pool:
        told = pool.imap(compare, [(one, itself) for one in all_scripts])
        for (name, arguments, data), found in zip(all_scripts, told):
            if found is not None:
                differ += 1
                print(f"{name}: {' '.join(program(arguments, itself))} < {keep(name, data)}\n  {found}")
    return len(all_scripts), differ


def main():
    options = argparse.ArgumentParser(description="compares weekbook and setbook with the model")
    options.add_argument("--seeds", type=int, default=300, help="how many generated scripts")
    options.add_argument("--self", action="store_true", help="compare the model with its own command line")
    chosen = options.parse_args()
    itself = getattr(chosen, "self")
    for arguments in (("week",), ("set",)):
        if not Path(program(arguments, itself)[0]).exists():
            sys.exit(f"crosscheck: not built: {program(arguments, itself)[0]}")
    number, differ = crosscheck(chosen.seeds, itself)
    print(f"{number} scripts, {differ} differ")
    sys.exit(1 if differ else 0)


if __name__ == "__main__":
    main()
