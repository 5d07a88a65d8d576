#!/usr/bin/env python3
"""Times a study: 100 time-outs by 100 seeds of examples/cluster_5.toml, on 1, 2 and 4 threads, and the same by a loop.

    bench/study.py [--program P] [--loop-program L] [--rounds N] [--loop-time-outs N] [--seeds N]

Each round runs `fdstudy sweep` on 1, 2 and 4 threads in turn; of each number of threads it prints the best wall time,
the processor time and the most memory of one process, and stops where two outputs differ. Then it runs what one would
write without `fdstudy`: for each time-out and seed the file by sed, `fdbench list -`, and the sums by awk, one after the
other and four at a time (bench/study_loop.sh). --loop-time-outs is how many time-outs the loop runs (100); what it adds
up is compared with the rows of the sweep.
"""
import argparse
import csv
import io
import os
import subprocess
import sys
import time

HERE = os.path.dirname(os.path.abspath(__file__))
ROOT = os.path.dirname(HERE)
SCENARIO = os.path.join(ROOT, "examples", "cluster_5.toml")
FIRST, STEP, COUNT = 110, 5, 100
COMPARED = ["entries", "mistakes", "mistake_ticks", "detection_sum"]


def run(command):
    """What a command prints, its wall and processor seconds, and the most MiB of one process of it."""
    began = time.perf_counter()
    ran = subprocess.Popen(["/usr/bin/time", "-f", "%U %S %M", *command], stdout=subprocess.PIPE,
                           stderr=subprocess.PIPE, text=True)
    out, err = ran.communicate()
    took = time.perf_counter() - began
    if ran.returncode:
        sys.exit(f"bench: status {ran.returncode}: {' '.join(command)}: {err}")
    user, system, most = err.split()[-3:]
    return out, took, float(user) + float(system), int(most) / 1024


def sweep(program, seeds, threads):
    last = FIRST + STEP * (COUNT - 1)
    return run([program, "sweep", SCENARIO, "--seeds", f"1..={seeds}", "--vary",
                f"detector.timeout={FIRST}..={last}:{STEP}", "--threads", str(threads)])


def loop(program, seeds, time_outs, at_once):
    last = FIRST + STEP * (time_outs - 1)
    return run([os.path.join(HERE, "study_loop.sh"), program, SCENARIO, str(FIRST), str(STEP), str(last), str(seeds),
                str(at_once)])


def main():
    words = argparse.ArgumentParser(description=__doc__, formatter_class=argparse.RawDescriptionHelpFormatter)
    words.add_argument("--program", default=os.path.join(ROOT, "crates/fdstudy/out/fdstudy"))
    words.add_argument("--loop-program", default=os.path.join(ROOT, "crates/fdbench/out/fdbench"))
    words.add_argument("--rounds", type=int, default=3)
    words.add_argument("--loop-time-outs", type=int, default=COUNT)
    words.add_argument("--seeds", type=int, default=100)
    asked = words.parse_args()
    best, texts = {}, set()
    for _ in range(asked.rounds):
        for threads in (1, 2, 4):
            out, *numbers = sweep(asked.program, asked.seeds, threads)
            texts.add(out)
            best[threads] = min(best.get(threads, numbers), numbers)
    if len(texts) != 1:
        sys.exit("bench: the threads change what is printed")
    print("| What | Wall, s | Processor, s | Memory, MiB | Times as fast as one thread |")
    for threads, (wall, processor, most) in best.items():
        print(f"| sweep, {threads} threads | {wall:.1f} | {processor:.1f} | {most:.0f} | {best[1][0] / wall:.2f} |")
    rows = {int(it["detector.timeout"]): it for it in csv.DictReader(io.StringIO(texts.pop()))}
    for at_once in (1, 4):
        if not asked.loop_time_outs:
            break
        out, wall, processor, most = loop(asked.loop_program, asked.seeds, asked.loop_time_outs, at_once)
        for it in csv.DictReader(io.StringIO(out)):
            row = rows[int(it["timeout"])]
            if any(int(it[name]) != int(row[name]) for name in COMPARED):
                sys.exit(f"bench: the loop's sums differ: {it} {row}")
        part = asked.loop_time_outs / COUNT
        print(f"| loop, {at_once} at once, {asked.loop_time_outs} time-outs | {wall:.1f} | {processor:.1f} | {most:.0f} "
              f"| {best[1][0] * part / wall:.2f} |")


if __name__ == "__main__":
    main()
