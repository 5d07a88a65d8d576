"""advise LOG.. [options]: from logs of a network to settings of a failure detector.

A LOG is what `ping -D` of iputils printed (with -O it says more of losses), or CSV with a line of names, `sent,delay`
or `from,to,sent,delay`: seconds and milliseconds, the delay empty where the letter was lost. It prints what the logs
have, how far they can be trusted, and for each wish a setting, and writes a folder:

    page.html                        all of it, with pictures, for a browser
    settings.csv                     each setting that was tried
    scenario.toml                    a scenario with the first setting that was found
    replayed.network.toml            the network as the logs were
    fitted.network.toml              the network as it is drawn from the logs' gaps and bursts
"""
import argparse
import os
import shutil
import signal
import sys
import tempfile
from dataclasses import dataclass

from . import fitting, judging, measuring, page, reading, settings, sweeping, telling
from .words import Refused, hourly_of, ms, printable, seconds_of

HOME = os.path.dirname(os.path.dirname(os.path.abspath(__file__)))
FILES = ("page.html", "settings.csv", "scenario.toml", "replayed.network.toml", "fitted.network.toml")
SHOWN = 10  # lines that were left out
UNSWEPT = ("The settings weren't swept over the network files (--no-sweeps): what is said of them is the count straight "
           "from the log alone, and no row says whether the files agree with it.")
TOLD = "replayed.network.toml has the losses as they were; fitted.network.toml draws their gaps and lengths."


def words_of(arguments):
    words = argparse.ArgumentParser(prog="advise", description=__doc__,
                                    formatter_class=argparse.RawDescriptionHelpFormatter)
    words.add_argument("logs", nargs="+", metavar="LOG")
    words.add_argument("--to", default="advice", metavar="FOLDER", help="the folder that is written (advice)")
    words.add_argument("--one-way", action="store_true", help="the delays are of one way, and not of round trips")
    words.add_argument("--letters", default="10,5,2,1", help="letters a second (10,5,2,1)")
    words.add_argument("--detect", metavar="TIME", help="each crash is detected within so long, as 1s")
    words.add_argument("--wrong", metavar="RATE", help="so many mistakes of a pair, as 1/day")
    words.add_argument("--hours", type=float, default=15, help="hours of pairs that a sweep has, about (15)")
    words.add_argument("--no-sweeps", action="store_true",
                       help="nothing is swept: the count straight from the logs answers alone, and needs no program")
    words.add_argument("--jobs", type=int, default=len(os.sched_getaffinity(0)), help="how many sweeps run at once")
    words.add_argument("--fdstudy", default=os.environ.get("FDSTUDY") or os.path.join(os.path.dirname(HOME), "fdstudy"),
                       help="the program (the environment's FDSTUDY, or that of this repository)")
    return words.parse_args(arguments)


def wishes_of(asked):
    if not asked.detect and not asked.wrong:
        return judging.USUAL
    return [judging.Wish("yours", hourly_of(asked.wrong) if asked.wrong else float("inf"),
                         seconds_of(asked.detect) if asked.detect else float("inf"))]


def letters_of(word):
    try:
        found = sorted({float(it) for it in word.split(",")}, reverse=True)
    except ValueError:
        found = []
    if not found or not all(0.001 <= it <= 1000 for it in found):
        raise Refused(f"--letters {printable(word)}: not numbers from 0.001 to 1000 with commas between")
    return found


def read_logs(asked):
    """The log, and the lines that were left out, of which the first are told."""
    tracks, left = reading.read(asked.logs, asked.one_way)
    for it in left[:SHOWN]:
        print(f"advise: {it}", file=sys.stderr)
    if len(left) > SHOWN:
        print(f"advise: and {len(left) - SHOWN} more lines that can't be read", file=sys.stderr)
    measured = [measuring.Measured(it, asked.one_way) for it in tracks]
    if not any(it.delays for it in measured):
        raise Refused("no letter came: all probes are lost")
    tick = measuring.tick_of(measured)
    plan = fitting.plan_of(measured, tick)
    log = settings.Log(measured, tick, plan.shares(len(measured)), longest_run=fitting.longest_run(plan, measured))
    return log, plan, left


def rows_of(log, asked):
    """Each setting with what the log says of it; and why letters of some rates have none."""
    counted, without = [], []
    for letters in letters_of(asked.letters):
        rate = settings.Rate(log, letters)
        found = [(it, settings.count(log, rate, it)) for it in settings.grid(log, rate)] if rate.parts else []
        found = [it for it in found if it[1] is not None]
        slowest = max(interval for it in log.measured for interval in it.intervals)
        if not found:
            without.append(f"{letters:g} letters a second can't be judged: the log has a probe each {ms(slowest)} ms. "
                           f"Ping more often, as with ping -D -O -i {0.9 / letters:.2g}.")
        elif slowest * letters > 1.01:
            without.append(f"The log has a probe each {ms(slowest)} ms, which counts as {letters:g} letters a second.")
        counted += found
    if not counted:
        raise Refused(" ".join(without))
    return counted, without


def told_first(title):
    return "".join(f"# {it}\n" for it in title)


@dataclass
class Advice:
    """All that comes of the logs."""

    log: object
    plan: object
    left: list
    without: list
    rows: list
    answers: list


def advised(asked, folder, rates=None):
    """Writes the network files to a folder, and sweeps the settings over them, or those of some rates alone."""
    log, plan, left = read_logs(asked)
    counted, without = rows_of(log, asked)
    name = ", ".join(it.track.name for it in log.measured)
    first = [f"What {printable(name, 90)} had; 1 tick = {ms(log.tick)} ms. Made by suite/advise.", TOLD]
    for kind, text in (("replayed", fitting.replayed_text), ("fitted", fitting.fitted_text)):
        write(folder, f"{kind}.network.toml", told_first(first) + "".join(text(plan, log)))
    chosen = [it for it, _ in counted if rates is None or it.letters in rates]
    swept = {} if asked.no_sweeps else sweeping.sweep(chosen, log, plan, asked, folder)
    rows = [judging.Row(it, count, *(swept.get((kind, it)) for kind in sweeping.KINDS), not asked.no_sweeps)
            for it, count in counted]
    without += [UNSWEPT] if asked.no_sweeps else []
    return Advice(log, plan, left, without, rows, [judging.answer(rows, it, log) for it in wishes_of(asked)])


def write_folder(asked):
    """Makes all files in a new folder beside the one that is wanted, which takes its place at the end."""
    parent = os.path.dirname(os.path.abspath(asked.to))
    os.makedirs(parent, exist_ok=True)
    with tempfile.TemporaryDirectory(prefix=".advise.", dir=parent) as folder:
        made = advised(asked, folder)
        log, plan, rows, answers = made.log, made.plan, made.rows, made.answers
        best = next((it.best for it in answers if it.best), rows[0])
        write(folder, "scenario.toml", told_first(
            [f"Under the network files beside it; 1 tick = {ms(log.tick)} ms. Made by suite/advise.",
             f"The detector: {judging.name(best.setting, log)}."]) + fitting.scenario_text(
            plan, log, log.horizon(best.setting), fitting.detector_text(best.setting)))
        write(folder, "settings.csv", telling.settings_text(rows, log))
        write(folder, "page.html", page.text(log, plan, rows, answers, made.left, made.without, asked.one_way))
        put_in_place(folder, asked.to)
    return list(telling.report(log, made.left, made.without, answers, asked.one_way))


def write(folder, name, text):
    with open(os.path.join(folder, name), "w", encoding="utf-8", newline="\n") as file:
        file.write(text)


def refuse_other_folders(path):
    """A folder that has anything else isn't overwritten."""
    if os.path.lexists(path):
        others = sorted(set(os.listdir(path)) - set(FILES)) if os.path.isdir(path) else [path]
        if others:
            raise Refused(f"{printable(path, 200)}: is there, and has {printable(others[0], 200)}; "
                          "--to names another folder")


def put_in_place(folder, path):
    refuse_other_folders(path)
    old = folder + ".old"
    if os.path.lexists(path):
        os.rename(path, old)
    os.chmod(folder, 0o755)
    os.rename(folder, path)
    os.mkdir(folder)  # what is taken away at the end
    shutil.rmtree(old, ignore_errors=True)


def main(arguments):
    asked = words_of(arguments)
    signal.signal(signal.SIGTERM, lambda *_: sys.exit(143))  # so that nothing half-written is left
    try:
        wishes_of(asked)
        letters_of(asked.letters)
        if not 0 < asked.hours <= 10_000 or not 1 <= asked.jobs <= 1000:
            raise Refused("--hours and --jobs are above 0, and at most 10000 and 1000")
        refuse_other_folders(asked.to)
        lines = write_folder(asked)
    except Refused as refused:
        print(f"advise: {refused}", file=sys.stderr)
        return 1
    except KeyboardInterrupt:
        return 130
    print("\n".join(lines))
    print(f"\n{asked.to}/page.html has all of it.")
    return 0
