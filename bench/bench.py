#!/usr/bin/env python3
"""Times the program: `list` with the report and with the trace, and `run` by 1, 2 and 4 workers with the report.

    bench/bench.py [--program P] [--beside P] [--before P] [--rounds N] [--only NAME,..] [--modes MODE,..]
                   [--horizon PER_CENT] [--same] [--wide]

For each scenario of this folder and each mode it prints the best time of N rounds (3), millions of entries a second, the
most memory that the process had (20 MiB are the least that is shown: they are Python's, before the program begins), and
processor time in nanoseconds an entry; with list-report among the modes also how many times as long it takes as that,
by wall and by processor. A window of `run` is as long as the scenario's lookahead. The rounds are interleaved, so that a
busy machine slows all modes alike; compare times of one table alone. What is printed goes nowhere.

P is the program's file; where none is named, ./fdbench proves and builds it. --beside times another program that takes
the arguments `list PATH --print WHAT` and writes the same bytes, and adds the ratio of both times. --before times another
state of the program in the same rounds and modes, and prints its rows too. --same compares the bytes first, by their
hashes. --horizon runs a part of each scenario. --wide takes the scenarios with wide windows. Modes are list-report, list-trace, run-1 and so on.
"""
import argparse
import hashlib
import os
import re
import subprocess
import sys
import tempfile
import time

HERE = os.path.dirname(os.path.abspath(__file__))
ROOT = os.path.dirname(HERE)
SCENARIOS = ["sure_16", "lossy_64", "shared_64", "storm_64", "wide_64", "lossy_long"]
WIDE = ["wide_64_100", "wide_64", "wide_64_2000", "wide_256_500", "wide_256_2000", "vectors_128"]
MODES = ["list-report", "list-trace", "run-1", "run-2", "run-4"]


def number_in(text, key):
    return int(re.search(rf"(?m)^{key} = (\d+)", text)[1])


def scenario_at(folder, name, per_cent):
    """The file of a scenario, with a part of its horizon, and its lookahead."""
    with open(os.path.join(HERE, name + ".toml"), encoding="utf-8") as file:
        text = file.read()
    horizon = max(number_in(text, "horizon") * per_cent // 100, 1)
    path = os.path.join(folder, name + ".toml")
    with open(path, "w", encoding="utf-8") as file:
        file.write(re.sub(r"(?m)^horizon = \d+", f"horizon = {horizon}", text))
    return path, number_in(text, "lookahead")


def words_of(mode, path, window):
    way, _, what = mode.partition("-")
    if way == "list":
        return ["list", path, "--print", what]
    return ["run", path, "--workers", what, "--window", str(window), "--print", "report"]


def timed(command):
    """How many seconds a run takes, how many of processor time, and how many MiB it has at most."""
    began = time.perf_counter()
    ran = subprocess.Popen(command, stdout=subprocess.DEVNULL)
    _, status, usage = os.wait4(ran.pid, 0)
    took = time.perf_counter() - began
    ran.returncode = os.waitstatus_to_exitcode(status)
    if ran.returncode:
        sys.exit(f"bench: status {ran.returncode}: {' '.join(command)}")
    return took, usage.ru_utime + usage.ru_stime, usage.ru_maxrss / 1024


def hash_of(command):
    found = hashlib.sha256()
    with subprocess.Popen(command, stdout=subprocess.PIPE) as ran:
        for piece in iter(lambda: ran.stdout.read(1 << 20), b""):
            found.update(piece)
    return ran.returncode, found.hexdigest()


def entries_of(program, path):
    report = subprocess.run([program, "list", path], stdout=subprocess.PIPE, check=True, text=True).stdout
    return int(re.search(r"(?m)^run,0,0,0,entries,(\d+)$", report)[1])


def same_as_list(mode, path, window):
    """The arguments of the list's run that writes the same bytes."""
    return ["list", path, "--print", "trace" if mode == "list-trace" else "report"]


def line_of(name, state, mode, best, entries):
    """The row of a mode: beside its own numbers how it stands to the list's, where the list was timed."""
    took, spent, memory = best[state, mode]
    line = f"{name:<11} {state:<7} {mode:<12} {took:8.3f} {entries / took / 1e6:8.2f} {memory:8.0f}"
    line += f" {spent / entries * 1e9:8.0f}"
    if (state, "list-report") in best:
        whole, alone, _ = best[state, "list-report"]
        line += f" {took / whole:7.2f} {spent / alone:7.2f}"
    return line


def bench(name, path, window, given):
    modes = given.modes.split(",")
    entries = entries_of(given.program, path)
    states = {"before": given.before, "now": given.program} if given.before else {"now": given.program}
    runs = [((state, mode), [it] + words_of(mode, path, window)) for mode in modes for state, it in states.items()]
    if given.beside:
        whats = {same_as_list(mode, path, window)[3] for mode in modes}
        runs = [(("beside", what), [given.beside, "list", path, "--print", what]) for what in sorted(whats)] + runs
    if given.same:
        for (state, mode), command in runs:
            what = mode if state == "beside" else same_as_list(mode, path, window)[3]
            if hash_of(command) != hash_of([given.program, "list", path, "--print", what]):
                sys.exit(f"bench: other bytes: {' '.join(command)}")
    best = {}
    for _ in range(given.rounds):
        for key, command in runs:
            best[key] = min(best.get(key, (float("inf"), 0, 0)), timed(command))
    for state in states:
        for mode in modes:
            line = line_of(name, state, mode, best, entries)
            if given.beside:
                other = best["beside", same_as_list(mode, path, window)[3]][0]
                line += f" {other:8.3f} {best[state, mode][0] / other:7.2f}"
            print(line, flush=True)


def main():
    parser = argparse.ArgumentParser(description=__doc__.partition("\n")[0])
    parser.add_argument("--program")
    parser.add_argument("--beside")
    parser.add_argument("--before")
    parser.add_argument("--rounds", type=int, default=3)
    parser.add_argument("--only", default=",".join(SCENARIOS))
    parser.add_argument("--modes", default=",".join(MODES))
    parser.add_argument("--horizon", type=int, default=100)
    parser.add_argument("--same", action="store_true")
    parser.add_argument("--wide", action="store_true")
    given = parser.parse_args()
    if given.wide:
        given.only = ",".join(WIDE)
    if given.program is None:
        subprocess.run([os.path.join(ROOT, "fdbench"), "--help"], stdout=subprocess.DEVNULL, check=True)
        given.program = os.path.join(ROOT, "crates", "fdbench", "out", "fdbench")
    head = "scenario    state   mode          seconds  Mentr/s      MiB ns/entry"
    if "list-report" in given.modes.split(","):
        head += "    wall    proc"
    print(head + ("   beside   ratio" if given.beside else ""))
    with tempfile.TemporaryDirectory() as folder:
        for name in given.only.split(","):
            path, window = scenario_at(folder, name, given.horizon)
            bench(name, path, window, given)


if __name__ == "__main__":
    main()
