#!/usr/bin/env python3
"""Times CHECK PLAN of files of growing size, up to the limit of 64 MiB: with many nodes, with values in values, with one long text.

It prints for each file what the program answers, the seconds and the peak memory, so that time linear in the bytes is seen. It is
no test. Build the program first, by running ../pdw once.
"""
import os
import pathlib
import subprocess
import tempfile
import time

TOP = pathlib.Path(__file__).resolve().parent.parent
MOST = 67_108_864
SCRIPT = "CREATE TABLE e (k INT, v INT) WITH (DISTRIBUTION = HASH(k));\nCHECK PLAN 'f' FOR SELECT COUNT(*) FROM e;\n"
NODE = '{"children":[],"group":0,"kind":"scan","prop":"spread"}'


def many_nodes(size, out):
    out.write('{"bounds":[],"cost":"0","nodes":[' + NODE)
    for _ in range(size // (len(NODE) + 1) - 2):
        out.write("," + NODE)
    out.write('],"version":1}')


def values_in_values(size, out):
    for bracket in "[]":
        for _ in range(size // 2):
            out.write(bracket)


def one_text(size, out):
    out.write('"')
    for _ in range(size - 2):
        out.write("a")
    out.write('"')


def measured(folder, make, size):
    # (in pieces: what this script holds when it starts the program counts in the program's peak)
    with open(folder / "f", "w", encoding="ascii") as file:
        make(size, file)
    with open(folder / "out.txt", "wb") as out:
        begun = time.monotonic()
        process = subprocess.Popen([TOP / "crates" / "pdw" / "out" / "pdw", "run", "4", "s.sql"], cwd=folder, stdout=out, stderr=subprocess.DEVNULL)
        _, status, usage = os.wait4(process.pid, 0)
    lines = (folder / "out.txt").read_text().splitlines()
    answer = lines[-1] if status == 0 else f"status {os.waitstatus_to_exitcode(status)}"
    return answer, time.monotonic() - begun, usage.ru_maxrss / 1024


def main():
    with tempfile.TemporaryDirectory() as name:
        folder = pathlib.Path(name)
        (folder / "s.sql").write_text(SCRIPT)
        for make in (many_nodes, values_in_values, one_text):
            for size in (MOST // 64, MOST // 16, MOST // 4, MOST):
                answer, seconds, memory = measured(folder, make, size)
                print(f"{make.__name__:17} {size:>9} bytes {seconds:6.2f} s {memory:6.0f} MiB   {answer}")


if __name__ == "__main__":
    main()
