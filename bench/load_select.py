#!/usr/bin/env python3
"""Times LOAD and SELECT * of a million records of five INT columns over four nodes, beside sqlite3 on the same work.

It prints the seconds and the peak memory of both and their ratio. It is no test. Build the program first, by running ../pdw once.
"""
import os
import pathlib
import random
import shutil
import subprocess
import tempfile
import time

RECORDS = 1_000_000
RUNS = 3
TOP = pathlib.Path(__file__).resolve().parent.parent
COLUMNS = ("a", "b", "c", "d", "e")


def write_inputs(folder):
    numbers = random.Random(1)
    with open(folder / "t.csv", "w", encoding="ascii") as records:
        for _ in range(RECORDS):
            records.write(",".join(str(numbers.randint(0, 1_000_000)) for _ in COLUMNS) + "\n")
    columns = ", ".join(f"{name} INT" for name in COLUMNS)
    (folder / "s.sql").write_text(
        f"CREATE TABLE t ({columns}) WITH (DISTRIBUTION = HASH(a));\nLOAD t FROM 't.csv';\nSELECT * FROM t;\n")
    (folder / "sqlite.txt").write_text(f"CREATE TABLE t ({columns});\n.mode csv\n.import t.csv t\nSELECT * FROM t;\n")


def measured(words, folder, source=None):
    """The seconds and the peak memory in MiB of one run, whose output goes to a file."""
    with open(folder / "out.txt", "wb") as out, open(source or os.devnull, "rb") as given:
        begun = time.monotonic()
        process = subprocess.Popen(words, cwd=folder, stdin=given, stdout=out)
        _, status, usage = os.wait4(process.pid, 0)
    if status != 0:
        raise SystemExit(f"{words[0]} ended with status {os.waitstatus_to_exitcode(status)}")
    return time.monotonic() - begun, usage.ru_maxrss / 1024


def best(name, words, folder, source=None):
    runs = [measured(words, folder, source) for _ in range(RUNS)]
    seconds, memory = min(run[0] for run in runs), max(run[1] for run in runs)
    print(f"{name:8} {seconds:6.2f} s {memory:7.0f} MiB   (best of {RUNS})")
    return seconds


def main():
    with tempfile.TemporaryDirectory() as name:
        folder = pathlib.Path(name)
        write_inputs(folder)
        ours = best("pdw", [TOP / "crates" / "pdw" / "out" / "pdw", "run", "4", "s.sql"], folder)
        if shutil.which("sqlite3") is None:
            print("sqlite3 is not installed, so there is nothing to compare with")
            return
        theirs = best("sqlite3", ["sqlite3", ":memory:"], folder, folder / "sqlite.txt")
        print(f"pdw takes {ours / theirs:.2f} times the time of sqlite3")


if __name__ == "__main__":
    main()
