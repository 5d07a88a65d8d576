#!/usr/bin/env python3
"""What suite/advise makes of one hour, against 100 other hours of the process that the hour is of.

    bench/made_logs.py [--only NAME].. [--hours N] [--swept RATES] [--jobs N] [--page FILE]

Five processes make hours of letters, ten a second, each by a random stream of its own; what each does stands below. One
hour of each is written as CSV and goes through `suite/advise`, with its sweeps, or those of RATES of letters alone. The
same settings, those with a bound beyond the delays and those that wishes got, are counted straight from N (100) other
hours. Of each setting the mistakes of `advise`, by the log and by both network files, are compared with the mean of the
other hours; rows of the files that `advise` itself says aren't to be believed are counted apart. An error is that of one
hour, the greater of what `advise` says and of the deviation among the other hours, with that of the mean and of the sweep.
Of each wish that is answered as shown it is asked whether the other hours keep it, and of each setting whether they keep
what its mistakes are at most, as 95 in 100 should. It prints a table, which with --page takes the place of the one in
FILE, and ends with status 1 where a mean is more than 3 errors off, or what was shown isn't kept.
"""
import argparse
import math
import os
import random
import re
import sys
import tempfile
from types import SimpleNamespace

ROOT = os.path.dirname(os.path.dirname(os.path.abspath(__file__)))
sys.dont_write_bytecode = True
sys.path.insert(0, os.path.join(ROOT, "suite"))
from advice import command, reading, settings  # noqa: E402

INTERVAL, LETTERS = 0.1, 36_000
FIRST = 1_000_000  # the seed of the hour that becomes a log


# ---- the processes: of an hour each letter's delay in seconds, or None


def usual(draws):
    """Log-normal delays: half take at most 8 ms, one in 1000 more than 24."""
    return [0.008 * math.exp(draws.gauss(0, 0.35)) for _ in range(LETTERS)]


def lose(delays, places):
    for place in places:
        if place < len(delays):
            delays[place] = None


def alone(draws, delays, share):
    """Each letter is lost by itself."""
    place = -1
    while place < LETTERS:
        place += 1 + int(math.log(1 - draws.random()) / math.log(1 - share))
        lose(delays, [place])


def in_bursts(draws, delays, gap, length):
    """Bursts of a geometric number of letters, with a geometric number of others between."""
    place = int(draws.expovariate(1 / gap))
    while place < LETTERS:
        burst = 1 + int(math.log(1 - draws.random()) / math.log(1 - 1 / length))
        lose(delays, range(place, place + burst))
        place += burst + 1 + int(draws.expovariate(1 / gap))


def in_stalls(draws, delays, mean, least, most):
    """From time to time nothing comes for a while, and then all at once, in order."""
    at = draws.expovariate(1 / mean)
    while at < LETTERS * INTERVAL:
        end = at + draws.uniform(least, most)
        for place in range(math.ceil(at / INTERVAL), min(LETTERS, math.ceil(end / INTERVAL))):
            if delays[place] is not None:
                delays[place] = max(delays[place], end - place * INTERVAL)
        at = end + draws.expovariate(1 / mean)


def independent(draws):
    """One letter in 100 is lost, each by itself."""
    delays = usual(draws)
    alone(draws, delays, 0.01)
    return delays


def bursts(draws):
    """One letter in 100 is lost, in bursts of 8 on the mean."""
    delays = usual(draws)
    in_bursts(draws, delays, 792, 8)
    return delays


def stalls(draws):
    """Bursts as before, and every five minutes a stall of 0.3 to 2 s."""
    delays = bursts(draws)
    in_stalls(draws, delays, 300, 0.3, 2.0)
    return delays


def tail(draws):
    """Delays of Pareto's law from 5 ms on, with exponent 1.5: one in 1000 takes more than 500 ms; one in 500 is lost."""
    delays = [0.005 * (1 - draws.random()) ** (-1 / 1.5) for _ in range(LETTERS)]
    alone(draws, delays, 0.002)
    return delays


def cut(draws):
    """One letter in 500 is lost by itself, and once an hour on the mean all are for 30 s."""
    delays = usual(draws)
    alone(draws, delays, 0.002)
    place = int(draws.expovariate(1 / LETTERS))
    while place < LETTERS:
        lose(delays, range(place, place + 300))
        place += 300 + int(draws.expovariate(1 / LETTERS))
    return delays


PROCESSES = {"independent losses": independent, "bursts": bursts, "bursts and stalls": stalls, "a heavy tail": tail,
             "a cut of 30 s": cut}


def hour(name, number):
    return PROCESSES[name](random.Random(f"{name}, hour {number}"))


# ---- what advise says, and what the other hours have


def log_of(name):
    """The hour that is the log; of the cut one that has a cut, as there'd be nothing to see else."""
    number = FIRST
    delays = hour(name, number)
    while name == "a cut of 30 s" and sum(it is None for it in delays) < 300:
        number += 1
        delays = hour(name, number)
    return delays


def write_log(path, delays):
    with open(path, "w", encoding="ascii") as file:
        file.write("sent,delay\n")
        for place, delay in enumerate(delays):
            file.write(f"{place * INTERVAL:.1f},{'' if delay is None else f'{delay * 1000:.3f}'}\n")


def advice_on(name, asked):
    """The rows and answers of advise, by its own modules."""
    with tempfile.TemporaryDirectory() as folder:
        path = os.path.join(folder, "log.csv")
        write_log(path, log_of(name))
        words = command.words_of([path, "--one-way", "--jobs", str(asked.jobs), "--to", os.path.join(folder, "advice"),
                                  "--hours", str(asked.pair_hours)])
        return command.advised(words, folder, asked.swept)


def looked_at(made):
    """The rows with a bound beyond the delays, and those that wishes got."""
    got = [it.row or it.near for it in made.answers]
    return [it for it in made.rows if it.setting.bears >= 0 or it in got]


def counts_of(name, number, made):
    """Of each setting the mistakes of an hour, by the log's own ticks and bounds."""
    track = reading.Track(name, (), [reading.Stretch(0.0, INTERVAL, INTERVAL, hour(name, number))])
    whole = SimpleNamespace(track=track, seconds=LETTERS * INTERVAL, hours=1.0, least=made.log.measured[0].least,
                            most=made.log.measured[0].most, one_way=True, of_letter=lambda it: it)
    log = settings.Log([whole], made.log.tick, [1.0], longest_run=made.log.longest_run)
    found, rows = {}, looked_at(made)
    lowest = min(it.setting.bound for it in rows if it.setting.detector == "freshness")
    for letters in {it.setting.letters for it in rows}:
        rate = settings.Rate(log, letters, floor=min(made.log.most, lowest))
        found |= {it.setting: settings.count(log, rate, it.setting, False).rate for it in rows
                  if it.setting.letters == letters}
    return found


def compared(name, asked):
    """For each setting the mean and the deviation of the other hours, beside what advise says."""
    made = advice_on(name, asked)
    hours = [counts_of(name, number, made) for number in range(1, asked.hours + 1)]
    found = []
    for row in looked_at(made):
        rates = [it[row.setting] for it in hours]
        mean = sum(rates) / len(rates)
        deviation = math.sqrt(sum((it - mean) ** 2 for it in rates) / (len(rates) - 1))
        found.append((row, mean, deviation))
    return made, found


def off(rate, own, swept, mean, deviation, hours):
    """How many errors of one hour a rate is off."""
    whole = math.sqrt(max(own, deviation) ** 2 + deviation**2 / hours + swept**2)
    return abs(rate - mean) / whole if whole else (0.0 if rate == mean else math.inf)


def within(errors):
    if not errors:
        return "none"
    return ", ".join(str(sum(it <= most for it, _ in errors)) for most in (1, 2, 3)) + f" of {len(errors)}"


def apart(errors):
    """Of the rows that aren't to be believed."""
    return f"; {sum(it <= 3 for it, _ in errors)} of {len(errors)}" if errors else ""


def line_of(name, made, found, hours):
    """A process's line of the table, and what is wrong."""
    cells, wrong, means = [], [], {row.setting: mean for row, mean, _ in found}
    kinds = [("log", lambda it: it.log), ("replayed", lambda it: it.replayed), ("fitted", lambda it: it.fitted)]
    for kind, of in kinds:
        errors = [(off(of(row).rate, row.log.error, 0.0 if kind == "log" else of(row).error, mean, deviation, hours), row)
                  for row, mean, deviation in found if of(row) and row.setting.bears >= 0]
        believed = [it for it in errors if kind == "log" or not it[1].doubt]
        cells.append(within(believed) + apart([it for it in errors if it not in believed]))
        wrong += [f"{name}: {kind}, {row.setting.row}: {it:.1f} errors off" for it, row in believed if it > 3]
    kept = [mean <= row.log.most for row, mean, _ in found]
    answers = []
    for it in made.answers:
        near = it.row or it.near
        mean = means.get(near.setting) if near else None
        answers.append(("none" if mean is None else f"{mean:.2g}") + " shown" * (it.row is not None))
        if it.row and mean is not None and mean > it.wish.hourly:
            wrong.append(f"{name}: {it.wish.name}: {near.setting.row} makes {mean:.3g} an hour")
    return [name, *cells, f"{sum(kept)} of {len(kept)}", ", ".join(answers)], wrong


HEADS = ["One hour with", "By the log: within 1, 2, 3 errors", "Replayed: believed; others", "Fitted", "Bounds kept",
         "*quick*, *middle*, *safe*: an hour"]


def main():
    words = argparse.ArgumentParser(description=__doc__, formatter_class=argparse.RawDescriptionHelpFormatter)
    words.add_argument("--only", action="append", choices=PROCESSES, help="a process (all)")
    words.add_argument("--hours", type=int, default=100)
    words.add_argument("--pair-hours", type=float, default=15, help="hours of pairs that a sweep of advise has (15)")
    words.add_argument("--swept", type=command.letters_of, metavar="RATES", help="letters a second that are swept (all)")
    words.add_argument("--jobs", type=int, default=len(os.sched_getaffinity(0)))
    words.add_argument("--page")
    asked = words.parse_args()
    lines, wrong = [], []
    for name in asked.only or PROCESSES:
        line, faults = line_of(name, *compared(name, asked), asked.hours)
        print(" | ".join(line), flush=True)
        lines.append(line)
        wrong += faults
    for it in wrong:
        print(it)
    if asked.page:
        text = "\n".join([" | ".join(HEADS), "|".join(["---"] * len(HEADS)), *map(" | ".join, lines)])
        with open(asked.page, encoding="utf-8") as file:
            page = file.read()
        with open(asked.page, "w", encoding="utf-8") as file:
            file.write(re.sub(r"(<!-- made -->\n)(?:.*\|.*\n)*", lambda it: f"{it[1]}{text}\n", page))
    print(f"{len(lines)} processes, {len(wrong)} faults")
    return 1 if wrong else 0


if __name__ == "__main__":
    sys.exit(main())
