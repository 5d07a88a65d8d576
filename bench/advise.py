#!/usr/bin/env python3
"""Tries suite/advise: what its readers make of odd logs, and its count of both detectors against fdbench.

    bench/advise.py [--fdstudy P] [--fdbench P] [--runs N]

The readers get logs as text, with what is wrong in them. The count gets what became of each letter of a run, as
`fdstudy letters` says it, and has to come to the very measures of each pair that `fdbench list` reports: over N runs of
each detector, with delays in which letters overtake each other, losses, outages and crashes. A log is made a network
file too, whose runs have to lose what the log lost, from the place that was drawn on, and to make the mistakes that the
count finds in the log turned so far. It prints what differs, and `N passed, M failed`.
"""
import argparse
import csv
import io
import os
import random
import subprocess
import sys
import tempfile
import tomllib
from types import SimpleNamespace

ROOT = os.path.dirname(os.path.dirname(os.path.abspath(__file__)))
sys.dont_write_bytecode = True
sys.path.insert(0, os.path.join(ROOT, "suite"))
from advice import counting, fitting, judging, measuring, reading, settings, words  # noqa: E402


class Tried:
    def __init__(self):
        self.passed = self.failed = 0

    def same(self, what, wanted, found):
        if wanted == found:
            self.passed += 1
        else:
            self.failed += 1
            print(f"{what}: {found!r} and not {wanted!r}")

    def refused(self, what, wanted, call):
        try:
            self.same(what, wanted, f"no refusal, but {call()!r}")
        except words.Refused as refused:
            self.same(what, wanted, str(refused))


# ---- readers


def ping(count, interval=0.1, taken=20.0, begin=1000.0, first=1, lost=(), host="10.0.0.2"):
    """The lines of a log, answers alone."""
    return [f"[{begin + (it - first) * interval + taken / 1000:.6f}] 64 bytes from {host}: icmp_seq={it % 65536} ttl=64 "
            f"time={taken:g} ms" for it in range(first, first + count) if it not in lost]


HEAD = "PING 10.0.0.2 (10.0.0.2) 56(84) bytes of data."
END = ["", "--- 10.0.0.2 ping statistics ---", "30 packets transmitted, 30 received, 0% packet loss, time 2903ms",
       "rtt min/avg/max/mdev = 20.0/20.0/20.0/0.000 ms"]


def read(lines, one_way=True):
    with tempfile.TemporaryDirectory() as folder:
        path = os.path.join(folder, "log")
        with open(path, "wb") as file:
            file.write("\n".join(lines).encode() if isinstance(lines, list) else lines)
        here = os.getcwd()
        os.chdir(folder)
        try:
            return reading.read(["log"], one_way)
        finally:
            os.chdir(here)


def fates(stretch):
    """A letter for each probe: `.` came, `x` lost."""
    return "".join("x" if it is None else "." for it in stretch.delays)


def try_ping(tried):
    tracks, left = read([HEAD, *ping(30), *END])
    tried.same("a plain log", (["." * 30], 0.1, []), ([fates(it) for it in tracks[0].stretches],
                                                    tracks[0].stretches[0].interval, left))
    tried.same("one way", 0.02, tracks[0].stretches[0].delays[0])
    tried.same("a round trip", 0.01, read([HEAD, *ping(30)], False)[0][0].stretches[0].delays[0])
    tracks, left = read([HEAD.replace("10.0.0.2", "fd00::2"), *ping(30, host="fd00::2"), *END])
    tried.same("IPv6", (["." * 30], []), ([fates(it) for it in tracks[0].stretches], left))
    tracks, left = read([HEAD, *ping(30, host="a.example.org (10.0.0.2)")])
    tried.same("a host's name", (["." * 30], []), ([fates(it) for it in tracks[0].stretches], left))
    tracks, left = read([HEAD, *ping(30, host="fe80::1%eth0")])
    tried.same("an interface", (["." * 30], []), ([fates(it) for it in tracks[0].stretches], left))
    tracks, _ = read([HEAD, *ping(30, lost=(1, 2, 7, 8, 9, 20)), *END])
    tried.same("lost ones", ["xx....xxx..........x.........."], [fates(it) for it in tracks[0].stretches])
    tracks, _ = read([HEAD, *ping(30, lost=(29, 30)), *END])
    tried.same("lost at the end, by the summary", "." * 28 + "xx", fates(tracks[0].stretches[0]))
    tracks, _ = read([HEAD, *ping(30, lost=(29, 30))])
    tried.same("a log that breaks off", "." * 28, fates(tracks[0].stretches[0]))
    tracks, left = read([HEAD, *ping(29), ping(30)[-1][:40]])
    tried.same("within a line", ("." * 29, ["log:31: not what ping prints: [1002.920000] 64 bytes from 10.0.0.2: ic"]),
               (fates(tracks[0].stretches[0]), [str(it) for it in left]))


def try_ping_lines(tried):
    """Lines that `-O`, duplicates and routers add."""
    lines = ping(30, lost=(5, 6))
    lines[4:4] = ["[1000.500000] no answer yet for icmp_seq=5", "[1000.600000] no answer yet for icmp_seq=6"]
    tracks, left = read([HEAD, *lines])
    tried.same("no answer yet", ("....xx" + "." * 24, []), (fates(tracks[0].stretches[0]), left))
    lines.insert(6, "[1000.650000] 64 bytes from 10.0.0.2: icmp_seq=6 ttl=64 time=150 ms")
    tracks, left = read([HEAD, *lines])
    tried.same("an answer after all", ("....x" + "." * 25, 0.15), (fates(tracks[0].stretches[0]),
                                                                 tracks[0].stretches[0].delays[5]))
    lines = ping(30)
    lines.insert(3, lines[2] + " (DUP!)")
    lines.insert(9, lines[8])
    tracks, left = read([HEAD, *lines])
    tried.same("duplicates", ("." * 30, 2, []), (fates(tracks[0].stretches[0]), tracks[0].duplicates, left))
    lines = ping(30)
    lines[10], lines[11] = lines[11], lines[10]
    tracks, left = read([HEAD, *lines])
    tried.same("out of order", ("." * 30, 1, []), (fates(tracks[0].stretches[0]), tracks[0].unordered, left))
    lines = ping(30, lost=(8,))
    lines.insert(7, "[1000.750000] From 10.0.0.1 icmp_seq=8 Destination Host Unreachable")
    tracks, left = read([HEAD, *lines])
    tried.same("unreachable", ("." * 7 + "x" + "." * 22, []), (fates(tracks[0].stretches[0]), left))
    tracks, left = read([HEAD, *ping(30), "ping: sendmsg: Network is unreachable"])
    tried.same("another line", ["log:32: not what ping prints: ping: sendmsg: Network is unreachable"],
               [str(it) for it in left])
    tracks, _ = read([HEAD, *ping(40, first=65520)])
    tried.same("numbers that begin anew at 65536", "." * 40, fates(tracks[0].stretches[0])[-40:])
    tracks, left = read(("\r\n".join([HEAD, *ping(30), *END]) + "\r\n").encode())
    tried.same("lines of Windows", ("." * 30, []), (fates(tracks[0].stretches[0]), left))


def try_stretches(tried):
    tracks, left = read([HEAD, *ping(30), *ping(30, 1.0, begin=1003.0, first=31)])
    tried.same("a changed interval", ([(0.1, 31), (1.0, 29)], 1), (
        [(it.interval, len(it.delays)) for it in tracks[0].stretches], tracks[0].changes))
    tracks, left = read([HEAD, *ping(30), *ping(30, begin=1009.0, first=31)])
    tried.same("a sender that paused", ([30, 30], [6.1]), ([len(it.delays) for it in tracks[0].stretches],
                                                         [round(it, 6) for it in tracks[0].pauses]))
    tracks, left = read([HEAD, *ping(30), *END, HEAD, *ping(25, begin=2000.0), *END])
    tried.same("two runs of ping", [30, 30], [len(it.delays) for it in tracks[0].stretches])
    tracks, left = read([HEAD, *ping(100, 0.1003)])
    tried.same("an interval that is nearly round", [0.1], [it.interval for it in tracks[0].stretches])
    tracks, left = read([HEAD, *ping(30, lost=range(3, 28))])
    tried.same("hardly an answer", "..xxxxxxxxxxxxxxxxxxxxxxxxx...", fates(tracks[0].stretches[0]))
    tried.refused("too short", "log: fewer than 20 probes in a row can be read", lambda: read([HEAD, *ping(10)]))
    tried.refused("empty", "log: fewer than 20 probes in a row can be read", lambda: read(b""))
    tried.refused("without -D", "log: fewer than 20 probes in a row can be read; log:2: no time in front, as ping -D prints "
                  "it: 64 bytes from 10.0.0.2: icmp_seq=1 ttl=64 time=20 ms",
                  lambda: read([HEAD, *(it.split("] ")[1] for it in ping(30))]))
    tried.refused("no text", "log: fewer than 20 probes in a row can be read; log:1: not what ping prints: "
                  "\\u{0}\\u{1}\ufffd\ufffd", lambda: read(b"\x00\x01\xff\xfe"))
    tried.refused("no file", "nothing/there: No such file or directory", lambda: reading.read(["nothing/there"], True))


def try_csv(tried):
    rows = [f"{it * 0.1:.1f},{20 + it}" for it in range(30)]
    tracks, left = read(["sent,delay", *rows])
    tried.same("CSV", ("." * 30, 0.02, []), (fates(tracks[0].stretches[0]), tracks[0].stretches[0].delays[0], left))
    tracks, left = read([" Sent , Delay ", *rows[:7], "0.7,", *rows[8:], ""])
    tried.same("a lost one", ("." * 7 + "x" + "." * 22, []), (fates(tracks[0].stretches[0]), left))
    tracks, left = read(["\ufeffsent,delay", *reversed(rows)])
    tried.same("from the last to the first", ("." * 30, 29), (fates(tracks[0].stretches[0]), tracks[0].unordered))
    odd = ["3.0,x", "3.1,-4", "3.2,nan", "3.3", "3.4,5,6", "inf,3", ",4", "3.0,1e300"]
    tracks, left = read(["sent,delay", *rows, *odd])
    tried.same("lines that can't be read", ["not a number: 3.0,x", "not a time: 3.1,-4", "not a time: 3.2,nan",
                                            "not 2 fields: 3.3", "not 2 fields: 3.4,5,6", "not a time: inf,3",
                                            "not a number: ,4", "not a time: 3.0,1e300"],
               [str(it).split(": ", 1)[1] for it in left])
    tried.same("where they stand", "log:32", str(left[0]).split(": ")[0])
    pairs = [f"a,b,{it}" for it in rows] + [f"b,a,{it}" for it in rows[:25]] + ["a,a,1,2", "a,,1,2"]
    tracks, left = read(["from,to,sent,delay", *pairs])
    tried.same("pairs", ([("a to b", 30), ("b to a", 25)], ["from a machine to itself", "not 4 fields"]), (
        [(it.name, len(it.stretches[0].delays)) for it in tracks], [it.why for it in left]))


def try_words(tried):
    tried.same("times", [0.25, 1.0, 120.0], [words.seconds_of(it) for it in ("250ms", "1s", "2min")])
    tried.same("rates", [60.0, 1 / 24, 0.01, 1.0], [words.hourly_of(it) for it in ("1/min", "1/day", "1/100h", "1 / hour")])
    tried.refused("a time without a unit", "5: no time, as 250ms, 1s or 2min", lambda: words.seconds_of("5"))
    tried.refused("a rate of nothing", "0/h: no rate, as 1/day, 60/h or 1/100h", lambda: words.hourly_of("0/h"))
    tried.same("numbers", ["0", "0.0034", "0.15", "1.2", "12", "1,230,000", "0.1", "9.9", "10"], [
        words.number(it) for it in (0, 0.0034, 0.15, 1.2, 12.3, 1234567, 0.1, 9.94, 9.99)])


# ---- the count


def must(order, given=""):
    ran = subprocess.run(order, input=given, capture_output=True, text=True)
    if ran.returncode:
        sys.exit(f"advise: {' '.join(order)}: status {ran.returncode}: {ran.stderr.strip()}")
    return ran.stdout


def drawn_run(draws, detector):
    """A scenario with its numbers drawn, and what they are."""
    period = draws.randint(2, 40)
    least = draws.randint(1, 15)
    run = SimpleNamespace(detector=detector, period=period, bound=draws.randint(1, 4 * period),
                          check=draws.randint(1, period), grow=draws.randint(1, 9), horizon=draws.randint(200, 1500),
                          crash=draws.choice([10_000_000, draws.randint(1, 1400)]))
    if detector == "freshness":
        kind = f'kind = "freshness"\neta = {period}\ndelta = {run.bound}'
    else:
        kind = f"period = {period}\ncheck = {run.check}\ntimeout = {run.bound}\ngrow = {run.grow}"
    begin = draws.randint(0, 900)
    run.text = (f"version = 2\nprocesses = 3\nhorizon = {run.horizon}\nlookahead = 1\nseed = {draws.randint(0, 2**40)}\n"
                f'algorithm = "none"\n[detector]\n{kind}\n[link]\nmin = {least}\nmax = {least + draws.randint(0, 3 * period)}\n'
                f"loss = {draws.choice([0, 50, 300, 600])}\n[[crash]]\nprocess = 2\nat = {run.crash}\n[[outage]]\nfrom = 2\n"
                f"to = 1\nbegin = {begin}\nuntil = {begin + draws.randint(1, 200)}\n")
    return run


def suspicions_of(run, delays, observer, subject):
    """Counted from what became of the letters of the pair."""
    if run.detector == "freshness":
        return counting.Heartbeats(delays, run.period, run.horizon).suspicions(run.bound)
    alives = counting.Alives(delays, run.period, run.horizon, letter_first=subject < observer)
    return alives.suspicions(run.bound, run.check, run.grow)


def measures_of(found, end):
    """The measures of docs/measures.md that a pair's mistakes have."""
    mine = [it for it in found if it[0] < end]
    ended = [it for it in mine if it[1] < end]
    return {"mistakes": len(mine), "mistake_ticks": sum(min(until, end) - at for at, until in mine),
            "duration_sum": sum(until - at for at, until in ended), "duration_count": len(ended)}


def delays_by_pair(text):
    """Of each sender and receiver what became of the letters, in order."""
    pairs = {}
    for it in csv.DictReader(io.StringIO(text)):
        delay = None if it["fate"] == "lost" else int(it["due"]) - int(it["sent"])
        pairs.setdefault((int(it["sender"]), int(it["receiver"])), []).append(delay)
    return pairs


def report_of(fdbench, text):
    return {(int(it["observer"]), int(it["subject"]), it["measure"]): it["value"]
            for it in csv.DictReader(io.StringIO(must([fdbench, "list", "-"], text))) if it["section"] == "pair"}


def try_count(tried, asked):
    draws = random.Random(4)
    for number in range(2 * asked.runs):
        run = drawn_run(draws, ("freshness", "timeouts")[number % 2])
        report = report_of(asked.fdbench, run.text)
        letters = delays_by_pair(must([asked.fdstudy, "letters", "-"], run.text))
        for observer, subject in ((1, 2), (1, 3), (2, 1), (3, 1), (3, 2), (2, 3)):
            end = min(run.horizon, run.crash if 2 in (observer, subject) else run.horizon)
            found = suspicions_of(run, letters.get((subject, observer), []), observer, subject)
            wanted = {key: int(report[observer, subject, key]) for key in measures_of([], 1)}
            tried.same(f"run {number}, {observer} of {subject}\n{run.text}", wanted, measures_of(found, end))
            if subject == 2 and run.crash < run.horizon:
                lasting = found[-1][0] if found and found[-1][1] >= run.horizon else None
                value = "none" if lasting is None else str(max(0, lasting - run.crash))
                tried.same(f"run {number}, detection of {subject} by {observer}\n{run.text}",
                           report[observer, subject, "detection"], value)


def try_detections(tried):
    """The percentiles of the detection against crashes at each tick, one by one."""
    draws = random.Random(5)
    for number in range(60):
        period, count = draws.randint(2, 12), draws.randint(3, 25)
        bound, check = draws.randint(1, 3 * period), draws.randint(1, period)
        delays = [draws.choice([None, *range(1, 3 * period, 2)]) for _ in range(count)]
        far = (count + 9) * period + 9 * bound
        fresh, late = [], []
        for place in range(count):
            for crash in range(1, period + 1):
                found = counting.Heartbeats(delays[: place + 1], period, far).suspicions(bound)
                fresh.append(max(0, found[-1][0] - (place + 1) * period - crash))
                found = counting.Alives(delays[: place + 1], period, far).suspicions(bound, check, 0)
                late.append(max(0, found[-1][0] - place * period - crash))
        lags = counting.Alives(delays, period).lags(check)
        for percent in (50, 99, 100):
            tried.same(f"detection {number} by freshness points", measuring.percentile(sorted(fresh), percent),
                       counting.detection(counting.Heartbeats(delays, period).detections(bound), period, percent))
            tried.same(f"detection {number} by time-outs", measuring.percentile(sorted(late), percent),
                       counting.detection(counting.detections_of(lags, bound, check), period, percent))


# ---- the files


def log_of(draws, count):
    """A log of one stretch with bursts of losses, and letters that take 7 ms."""
    delays = []
    while len(delays) < count:
        delays += [0.007] * draws.randint(1, 30) + [None] * draws.choice([1, 1, 1, 2, 3, 8])
    track = reading.Track("made", (), [reading.Stretch(0.0, 0.1, 0.1, delays[:count])])
    measured = [measuring.Measured(track, True)]
    plan = fitting.plan_of(measured, 0.001)
    return settings.Log(measured, 0.001, plan.shares(1)), plan


def turned(delays, outages, period):
    """By how many letters the log has to be turned to lose what a run loses."""
    lost = [any(begin <= it * period < until for begin, until in outages) for it in range(len(delays))]
    return next((turn for turn in range(len(delays))
                 if lost == [delays[(it + turn) % len(delays)] is None for it in range(len(delays))]), None)


def try_replays(tried, asked):
    """A log as a network file: what its runs lose, and which mistakes they make."""
    draws = random.Random(6)
    with tempfile.TemporaryDirectory() as folder:
        for number in range(asked.runs // 4):
            log, plan = log_of(draws, 300)
            path = os.path.join(folder, "replayed.toml")
            with open(path, "w", encoding="ascii") as file:
                file.write("".join(fitting.replayed_text(plan, log)))
            bears = draws.randint(0, 4)
            setting = settings.Setting(settings.DETECTORS[number % 2], 10, 100, 7 + 100 * (bears + number % 2), 5, bears)
            text = must([asked.fdstudy, "show", "-", "--network", path, "--seeds", str(number + 1), "--point", "1"],
                        fitting.scenario_text(plan, log, 30_000, fitting.detector_text(setting)))
            report, run = report_of(asked.fdbench, text), tomllib.loads(text)
            for observer, subject in ((1, 2), (4, 3)):
                outages = [(it["begin"], it["until"]) for it in run["outage"]
                           if (it["from"], it["to"]) == (subject, observer)]
                delays = log.ticks[0][0]
                turn = turned(delays, outages, 100)
                tried.same(f"replay {number}: loses what the log lost", True, turn is not None)
                sent = [delays[(it + (turn or 0)) % len(delays)] for it in range(len(delays))]
                like = SimpleNamespace(detector=setting.detector, period=100, horizon=30_000, bound=setting.bound,
                                       check=setting.check, grow=1)
                found = suspicions_of(like, sent[1:] if number % 2 == 0 else sent, observer, subject)
                tried.same(f"replay {number}: mistakes", int(report[observer, subject, "mistakes"]), len(found))


def try_fits(tried):
    """The fitted gaps and lengths have the log's share of losses, whatever its stretches."""
    draws = random.Random(7)
    for number in range(20):
        stretches = []
        for _ in range(draws.randint(1, 4)):
            delays = [None if draws.random() < 0.2 else 0.01 for _ in range(draws.randint(20, 60))]
            stretches.append(reading.Stretch(0.0, draws.choice([0.1, 0.2]), 0.1, draws.choice([delays, [0.01] * 30])))
        stretches.append(reading.Stretch(0.0, 0.1, 0.1, [0.01] * 20 + [None] * 3))
        measured = measuring.Measured(reading.Track("made", (), stretches), True)
        gaps, lengths = fitting.spells_of(measured, 0.001)
        lost = sum(it.interval * 1000 for it in stretches for delay in it.delays if delay is None)
        whole = sum(it.interval * 1000 * len(it.delays) for it in stretches)
        tried.same(f"fit {number}", (round(whole), round(lost)), (sum(gaps) + sum(lengths), sum(lengths)))


def try_answers(tried):
    """Which setting a wish gets, of rows that are made up."""
    log = SimpleNamespace(tick=0.001, hours=10.0)

    def row(bound, letters, mistakes, times):
        setting = settings.Setting("freshness", letters, 1000 // letters, bound, 1, bound // (1000 // letters))
        most = settings.most_rate(mistakes, mistakes**0.5, log.hours)
        return judging.Row(setting, settings.Count(mistakes, 10.0, mistakes / 10, 0.1, most, 0.0, times), None, None)

    rows = [row(20, 10, 500, (70, 119, 119)), row(120, 10, 20, (170, 219, 219)), row(220, 10, 0, (270, 319, 319)),
            row(20, 1, 50, (520, 1009, 1019)), row(1020, 1, 0, (1520, 2009, 2019))]

    def got(hourly, detect):
        found = judging.answer(rows, judging.Wish("", hourly, detect), log)
        return found.row and rows.index(found.row), found.near and rows.index(found.near)

    never = float("inf")
    tried.same("60 an hour", (0, None), got(60.0, never))
    tried.same("5 an hour", (1, None), got(5.0, never))
    tried.same("once in 3 hours", (2, None), got(1 / 3, never))
    tried.same("once in 100 hours isn't shown by 10", (None, 2), got(0.01, never))
    tried.same("with few letters where detection has time", (4, None), got(1.0, 3.0))
    tried.same("detection alone", (4, None), got(never, 3.0))
    tried.same("a detection that none has", (None, 2), got(1.0, 0.05))
    tried.same("few mistakes, but too late", (None, 0), got(1.0, 0.15))
    tried.same("at most of none in 10 hours", 0.3, settings.most_rate(0, 0.0, 10.0))


def try_command(tried, asked):
    """What ends the command, and leaves nothing behind."""
    with tempfile.TemporaryDirectory() as folder:
        log, out = os.path.join(folder, "log"), os.path.join(folder, "out")
        with open(log, "w", encoding="ascii") as file:
            file.write("\n".join([HEAD, *ping(60, 1.0)]))
        for options in (["--letters", "0"], ["--letters", "x"], ["--wrong", "often"], ["--detect", "1"], ["--letters", "10"],
                        ["--fdstudy", "/nothing/there"], ["--fdstudy", "/bin/false"], ["--to", folder]):
            ran = subprocess.run([os.path.join(ROOT, "suite", "advise"), log, "--fdstudy", asked.fdstudy, "--to", out,
                                  *options], capture_output=True, text=True)
            tried.same(f"{options}: status and lines", (1, "", 1),
                       (ran.returncode, ran.stdout, ran.stderr.count("advise: ")))
            tried.same(f"{options}: nothing is left", ["log"], os.listdir(folder))


def main():
    options = argparse.ArgumentParser(description=__doc__, formatter_class=argparse.RawDescriptionHelpFormatter)
    for name in ("fdstudy", "fdbench"):
        built = os.path.join(ROOT, f"crates/{name}/out/{name}")
        options.add_argument(f"--{name}", default=os.environ.get(name.upper()) or built)
    options.add_argument("--runs", type=int, default=100, help="how many runs of each detector (100)")
    asked = options.parse_args()
    tried = Tried()
    for part in (try_ping, try_ping_lines, try_stretches, try_csv, try_words, try_detections, try_fits, try_answers):
        part(tried)
    for part in (try_command, try_count, try_replays):
        part(tried, asked)
    print(f"{tried.passed} passed, {tried.failed} failed")
    return 1 if tried.failed else 0


if __name__ == "__main__":
    sys.exit(main())
