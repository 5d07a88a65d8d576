#!/usr/bin/env python3
"""The points of the suite: which there are, and their runs.

    suite.py points STUDY [--quick] [--only NETWORK]..
    suite.py shard STUDY K/N [--quick] [--only NETWORK]..
    suite.py run [--quick] [--only NETWORK].. [--jobs N] [--to FOLDER]

STUDY is `frontiers`, `consensus` or `worst`. Each point is one call of ../fdstudy with one setting and with seeds of
its own, which no other point has: `points` prints the calls, `shard` makes those of the K-th of N blocks and prints
their rows, and `run` makes all studies, N calls at a time, and writes FOLDER/STUDY.csv of each. The outputs of all
shards, one after the other, are the file that `run` writes. With --quick there are few runs, and 10 letters a second.

A network is a file of networks/ and a line of networks.csv:

    tick_us             how long a tick is, in microseconds
    quick, middle, safe how many lost letters in a row the settings bear under which consensus runs
    most                how many those of the frontier bear at most
    watch               `all`; `next` (each machine by one other); `shared` (so too, with the reduction)
    crash               `dealt` over a period late in the run, or as the `file` has it
    seconds             how long a run is, where it isn't a number of periods
    consensus_seconds   how long a run of consensus is
    over                of a twin: the network whose file it has, with no losses one by one; NAME.network.toml is laid
                        over it
    bears               of a twin: how many lost letters in a row the settings of its frontier bear; with fewer letters
                        a second those up to `most`, and those that bear as long an outage

The programs are ../fdstudy, or what the environment's FDSTUDY names.
"""
import argparse
import concurrent.futures
import csv
import functools
import io
import itertools
import math
import os
import re
import resource
import shlex
import subprocess
import sys
import time
import tomllib
import zlib
from dataclasses import dataclass

HOME = os.path.dirname(os.path.abspath(__file__))
FDSTUDY = os.environ.get("FDSTUDY") or os.path.join(os.path.dirname(HOME), "fdstudy")
LETTERS = [10, 5, 2, 1]  # a second, from each machine to each other
WISHES = ["quick", "middle", "safe"]
MISTAKES = 115  # how many are aimed at, so that 100 are seen
LEAST_DETECTIONS = 900
DEAR = 172_000_000  # entries of a point: the most for 100 mistakes
PAIR_SECONDS = 310 * 3600

# of twins
APART_SECONDS = 360 * 3600  # of what fails together, so that few mistakes apart leave a setting safe
LONGEST_RUN = 600  # seconds
DEAR_TWINS = {("freshness", 10): 400_000_000, ("timeouts", 10): 120_000_000}  # entries, with so many letters a second
DEAR_TWIN = 48_000_000  # entries of any other point
NEVER = 10_000_000  # a crash tick after each horizon
# so fdstudy warns of partition_5, whose partition is the same on purpose
WARNING = "fdstudy: at each point every run has the same outages of the scenario file, so runs are no independent " \
    "evidence of them\n"

FRONTIERS = (
    "layer,runs,limited,entries,sent,lost,pair_ticks,mistakes,mistake_ticks,mistake_recurrence,mistaken_ppm,"
    "mistakes_squared_sum,runs_with_mistakes,duration_p99,duration_max,detections,undetected,at_once,detection_sum,"
    "detection_p50,detection_p90,detection_p99,detection_max,detection_bound").split(",")
CONSENSUS = (
    "layer,runs,limited,entries,sent,lost,mistakes,to_decide,decided,all_decided,last_decision_p50,last_decision_p90,"
    "last_decision_p99,last_decision_max,rounds_p50,rounds_p99,rounds_max,disagreements,disagreement_run").split(",")


@dataclass
class Network:
    """A network: its line of networks.csv, its file's text, and what the file says; of a twin also what is laid over
    it."""

    line: dict
    text: str
    file: dict
    laid: dict

    @property
    def name(self):
        return self.line["network"]

    @property
    def count(self):
        return self.file["processes"]

    @property
    def path(self):
        return os.path.join("networks", (self.line["over"] or self.name) + ".toml")

    @property
    def words(self):
        """Of a twin: how its file is laid over the other's, which loses no letters one by one."""
        if not self.laid:
            return []
        losses = ["link.loss=0", *(["links[*].loss=0"] if "links" in self.file else [])]
        path = os.path.join("networks", self.name + ".network.toml")
        return ["--network", path, *(word for it in losses for word in ("--set", it))]

    @property
    def pairs(self):
        """The pairs of machines that are watched for a whole run, or up to a crash that is dealt."""
        crashes = [] if self.line["crash"] == "dealt" else self.file["crash"]
        gone = {it["process"] for it in crashes if it["at"] < NEVER}
        return [it for it in self.links if not gone & set(it)]

    @property
    def together(self):
        """How many pairs fail together: all where a line is cut, those with one sender where machines pause."""
        if "cuts" in self.laid or "outage" in self.file:
            return len(self.pairs)
        return self.count - 1 if "pauses" in self.laid else 1

    def period(self, letters):
        """The ticks from one letter to the next, of so many a second."""
        return 1_000_000 // int(self.line["tick_us"]) // letters

    @functools.cached_property
    def links(self):
        """Of each pair of different machines, by sender and receiver, the link's `min`, `max` and `loss`."""
        own = {(it["from"], it["to"]): it for it in self.file.get("links", [])}
        everybody = range(1, self.count + 1)
        tables = {(s, r): own.get((s, r), self.file["link"]) for s in everybody for r in everybody if s != r}
        return {pair: (it["min"], it["max"], it.get("loss", 0)) for pair, it in tables.items()}

    @functools.cached_property
    def slowest(self):
        """The least and the greatest delay of the slowest link."""
        return max(((least, most) for least, most, _ in self.links.values()), key=lambda it: it[1])


def lines_of(only):
    with open(os.path.join(HOME, "networks.csv"), encoding="ascii", newline="") as file:
        return [it for it in csv.DictReader(file) if not only or it["network"] in only]


def networks(only, quick=False):
    """In order; of twins the quick ones have few machines."""
    lines = lines_of(only)
    missing = set(only) - {it["network"] for it in lines}
    if missing:
        sys.exit(f"suite: networks.csv has no {' '.join(sorted(missing))}")
    for line in lines:
        text, laid = text_of_network(line["over"] or line["network"]), {}
        if line["over"]:
            laid = tomllib.loads(text_of_network(line["network"] + ".network"))
        network = Network(line, text, tomllib.loads(text), laid)
        if not (quick and laid and network.count > 10):
            yield network


def text_of_network(name):
    with open(os.path.join(HOME, "networks", name + ".toml"), encoding="utf-8") as file:
        return file.read()


# ---- detectors: for a period and a number of letters lost in a row their settings, and the checks of a period


def freshness(network, period, bears, at):
    least, most = network.slowest
    beyond = {"full": most, "half": (least + most) // 2, "flat": (most + period) // 2}[at]
    return {"kind": "freshness", "eta": period, "delta": bears * period + beyond}


def time_outs(network, period, bears, at):
    least, most = network.slowest
    beyond = {"full": most - least + 1, "half": (most - least) // 2, "flat": (most - least + period) // 2}[at]
    time_out = (bears + 1) * period + beyond
    return {"kind": "timeout", "period": period, "check": max(1, period // 20), "timeout": time_out}


DETECTORS = {"freshness": (freshness, 1), "timeouts": (time_outs, 20)}


@dataclass
class Point:
    """One setting: `row` is its name, `own` the columns that are the suite's."""

    row: str
    own: dict
    text: str  # the scenario file, where it isn't the network's own
    path: str
    words: list
    runs: int
    cost: int  # entries of all runs, about
    columns: list
    layer: int

    @property
    def first_seed(self):
        """No two points share a seed: each has a block of 2^20, by the name of its row."""
        return (zlib.crc32(self.row.encode()) << 20) + 1

    def command(self):
        seeds = f"{self.first_seed}..={self.first_seed + self.runs - 1}"
        shown = ["--columns", ",".join(self.columns), "--threads", "1"]
        return ["sweep", self.path, "--seeds", seeds, *self.words, *shown]


def tied(settings):
    """A tied axis of one value."""
    return ["--vary", f"{','.join(settings)}={':'.join(str(it) for it in settings.values())}"]


def up_to(number, step):
    return -(-number // step) * step


# ---- frontiers


def phases(count):
    """How many crash ticks are dealt, spread over a period."""
    return 100 if count <= 10 else 20 if count <= 100 else 5


def runs_of(network, watch, letters, at, bears, seconds, periods, entries):
    """How many runs a point has: enough for 900 detections; just beyond the delays also for so many hours that none seen
    means at most one in 100 hours or, at 10 letters a second, for 100 mistakes where that isn't too dear."""
    least = math.ceil(LEAST_DETECTIONS / (3 if watch == "next" else network.count - 1))
    if watch != "all" or at != "full" or "outage" in network.file:
        return least
    crashed = {it["process"] for it in network.file["crash"] if it["at"] < NEVER}
    pairs = [link for pair, link in network.links.items() if not crashed & set(pair)]
    a_run = periods * sum((loss / 1000) ** (bears + 1) for _, _, loss in pairs)
    if letters == LETTERS[0] and a_run and MISTAKES / a_run * entries <= DEAR:
        return max(least, math.ceil(MISTAKES / a_run))
    return max(least, math.ceil(PAIR_SECONDS / (len(pairs) * seconds)))


def frontier_point(network, detector, watch, letters, bears, at, quick):
    settings_of, checks = DETECTORS[detector]
    base = network.period(letters)
    period = 2 * base if watch == "shared" else base  # every other letter is a share
    settings = {f"detector.{key}": it for key, it in settings_of(network, period, bears, at).items()}
    if watch != "all":
        settings["detector.watch"] = "next"
    if watch == "shared":
        settings["share.period"] = period
    periods = 300 if network.count <= 100 else 60
    seconds = network.line["seconds"]
    horizon = int(seconds) * network.period(1) if seconds else periods * base
    beats = horizon // period
    each = network.count - 1 + 1 + checks + (network.count + 1 if watch == "shared" else 0)
    entries = beats * network.count * each
    runs = runs_of(network, watch, letters, at, bears, horizon / network.period(1), horizon // base, entries)
    step = phases(network.count)
    step = 5 if quick else step
    runs = up_to(min(runs, 300 // network.count), step) if quick else up_to(runs, step)
    words, crashes = ["--vary", f"horizon={horizon}", *tied(settings)], ""
    if network.line["crash"] == "dealt":
        # the letter of a crash tick's period is out; the last tick of these is just before the next one
        begin = horizon // period * period - 20 * base + 1
        crashes = f"{begin}..={begin + (step - 1) * (period // step)}:{period // step}"
        words += ["--deal", f"crash[1].at={crashes}"]
    row = f"{network.name}:{detector}:{watch}:{letters}:{bears}" + ("" if at == "full" else f"-{at}")
    bound = settings.get("detector.delta", settings.get("detector.timeout"))
    own = {"row": row, "network": network.name, "detector": detector, "watch": watch, "letters": letters,
           "bears": bears, "at": at, "period": period, "bound": bound, "horizon": horizon, "crashes": crashes}
    return Point(row, own, "", network.path, words, runs, runs * entries, FRONTIERS, 2 if watch == "shared" else 1)


def steps(network, watch):
    """How many lost letters in a row the settings of a frontier bear, and where they stand: `full` just beyond the
    delays, `half` amid them, so that late letters are missed, `flat` between two letters."""
    if watch != "all" or network.count > 100:
        return [(bears, "full") for bears in range(int(network.line["most"]) + 1)]
    more = [(bears, "full") for bears in range(2, int(network.line["most"]) + 1)]
    return [(0, "half"), (0, "full"), (0, "flat"), (1, "half"), (1, "full"), *more]


# ---- frontiers of twins


def mean_of(spell):
    """Of a gap or a length as a network file has it."""
    if isinstance(spell, int):
        return spell
    return spell["mean"] if "mean" in spell else sum(spell["values"]) / len(spell["values"])


def share_above(spell, ticks):
    """Which share of the lengths is longer."""
    if isinstance(spell, int):
        return float(spell > ticks)
    if "mean" in spell:
        return math.exp(-ticks / spell["mean"])
    return sum(it > ticks for it in spell["values"]) / len(spell["values"])


def longer_outages(network, ticks):
    """How many outages of a pair are longer, in a tick, added up over all pairs; about, as some meet others."""
    everybody = list(range(1, network.count + 1))
    found = 0.0
    for kind, tables in network.laid.items():
        for table in tables:
            if kind == "cuts":
                hit = 2 * math.prod(len(it) for it in table["between"])
            elif kind == "pauses":
                hit = (network.count - 1) * len(everybody if table["processes"] == "all" else table["processes"])
            else:
                sides = [everybody if table[it] == "all" else table[it] for it in ("from", "to")]
                hit = sum(one != other for one, other in itertools.product(*sides)) * (1 + table.get("both", False))
            found += hit * share_above(table["length"], ticks) / (mean_of(table["gap"]) + mean_of(table["length"]))
    return found


def length_and_runs(network, often, opening, entries, dear):
    """Of a twin's setting: how many seconds a run has, and how many runs there are: enough for 900 detections, and, where
    that isn't too dear, for 100 mistakes or for as many hours that none seen means at most one in 100 hours. What fails
    together is counted once. In a second some pair makes a mistake so `often`, and there are so many `entries`."""
    runs = math.ceil(LEAST_DETECTIONS / (network.count - 1))
    if network.line["seconds"]:
        return int(network.line["seconds"]), runs
    shortest = 60 if network.count <= 10 else 30 if network.count <= 100 else 10
    shortest = max(shortest, math.ceil(3 * opening))
    wanted = min(MISTAKES / often if often else math.inf, APART_SECONDS * network.together / len(network.pairs))
    wanted = wanted if wanted * entries <= dear else 0
    seconds = min(max(shortest, LONGEST_RUN), max(shortest, math.ceil(wanted / runs + opening)))
    return seconds, max(runs, math.ceil(wanted / (seconds - opening)))


def twin_point(network, detector, letters, bears, quick):
    settings_of, checks = DETECTORS[detector]
    period = network.period(letters)
    settings = settings_of(network, period, bears, "full")
    bound = settings["delta"] if detector == "freshness" else settings["timeout"]
    opening = period + bound if detector == "freshness" else up_to(bound, settings["check"])
    entries = letters * network.count * (network.count + checks)
    second = network.period(1)
    often = longer_outages(network, bears * period) * second
    dear = DEAR_TWINS.get((detector, letters), DEAR_TWIN) if network.count <= 10 else DEAR_TWIN
    seconds, runs = length_and_runs(network, often, opening / second, entries, dear)
    step = 5 if quick else phases(network.count)
    if quick:
        seconds, runs = min(seconds, 60), min(runs, 300 // network.count)
    runs = up_to(runs, step)
    horizon = seconds * second
    words, crashes = [*network.words, "--vary", f"horizon={horizon}",
                      *tied({f"detector.{key}": it for key, it in settings.items()})], ""
    if network.line["crash"] == "dealt":
        begin = horizon // period * period - (bears + 10) * period + 1
        crashes = f"{begin}..={begin + (step - 1) * (period // step)}:{period // step}"
        words += ["--deal", f"crash[1].at={crashes}"]
    row = f"{network.name}:{detector}:all:{letters}:{bears}"
    own = {"row": row, "network": network.name, "detector": detector, "watch": "all", "letters": letters,
           "bears": bears, "at": "full", "period": period, "bound": bound, "horizon": horizon, "crashes": crashes}
    return Point(row, own, "", network.path, words, runs, runs * entries * seconds, FRONTIERS, 1)


def twin_points(network, quick):
    """Of time-outs those alone that are wished for, at 10 letters a second; more than ten machines have freshness points
    alone, at 10 letters a second."""
    every = [int(it) for it in network.line["bears"].split()]
    for letters in LETTERS[: 1 if quick or network.count > 10 else None]:
        long = max(int(network.line["most"]), -(-every[-1] * letters // LETTERS[0]))
        most = min(it for it in every if it >= long)
        for bears in (it for it in every if it <= most):
            yield twin_point(network, "freshness", letters, bears, quick)
    for bears in sorted({int(network.line[it]) for it in WISHES} if network.count <= 10 else ()):
        yield twin_point(network, "timeouts", LETTERS[0], bears, quick)


def frontiers(only, quick):
    for network in networks(only, quick):
        if network.laid:
            yield from twin_points(network, quick)
            continue
        kinds = itertools.product(DETECTORS, network.line["watch"].split(), LETTERS[:1] if quick else LETTERS)
        for detector, watch, letters in kinds:
            for bears, at in steps(network, watch):
                yield frontier_point(network, detector, watch, letters, bears, at, quick)


# ---- consensus


CRASHES = {"none": (NEVER, NEVER), "first": (0, NEVER), "two": (0, 0)}


def consensus_point(network, algorithm, detector, wish, crash, links, quick):
    settings_of, checks = DETECTORS[detector]
    period = network.period(LETTERS[0])
    bears = int(network.line[wish])
    settings = {f"detector.{key}": it for key, it in settings_of(network, period, bears, "full").items()}
    horizon = int(network.line["consensus_seconds"]) * network.period(1)
    words = [*network.words, "--vary", f"horizon={horizon}", *tied({"algorithm": algorithm, **settings})]
    at = (network.file["crash"][0]["at"], NEVER)
    if crash != "worst":
        at = CRASHES.get(crash, (crash, NEVER))
        words += tied({"crash[1].at": at[0], "crash[2].at": at[1]})
    if links == "sure":
        words += tied({"link.loss": 0, **({"links[*].loss": 0} if "links" in network.file else {})})
    proposals = ", ".join(str(10 * it) for it in range(1, network.count + 1))
    text = network.text.replace('algorithm = "none"\n', f'algorithm = "es"\nproposals = [{proposals}]\n')
    each = network.count + checks
    entries = horizon // period * network.count * each + 5 * network.count ** 2
    runs = 500 if network.count <= 10 else 40 if network.count <= 100 else 10
    runs = runs // 2 if network.laid else runs
    runs = max(1, runs // 10) if quick else runs
    # letters of the detectors: at each beat before the machine's crash and the horizon, time-outs also at the start
    ends = [min(horizon, it) for it in at] + [horizon] * (network.count - 2)
    beats = sum((end - 1) // period + (1 if detector == "timeouts" else 0) for end in ends if end > 0)
    row = f"{network.name}:{algorithm}:{detector}:{wish}:{crash}:{links}"
    bound = settings.get("detector.delta", settings.get("detector.timeout"))
    own = {"row": row, "network": network.name, "algorithm": algorithm, "detector": detector, "wish": wish,
           "crash": crash, "links": links, "period": period, "bound": bound, "horizon": horizon,
           "detector_letters": runs * beats * (network.count - 1)}
    return Point(row, own, text, "-", words, runs, runs * entries, CONSENSUS, 1)


def consensus(only, quick):
    for network in networks(only, quick):
        crashes = CRASHES if network.line["crash"] == "dealt" else ["worst"]
        links = ["bursts"] if network.laid else ["lossy", "sure"] if network.count <= 50 else ["lossy"]
        detectors = ["freshness"] if network.laid else DETECTORS
        algorithms = ("es",) if network.laid and network.count > 100 else ("es", "s")
        for kind in itertools.product(algorithms, detectors, WISHES, crashes, links):
            yield consensus_point(network, *kind, quick)


def worst(only, quick):
    """When the coordinator of round 1 has to crash for the others to decide latest: a point for each tick."""
    for network in networks(only):
        for detector in DETECTORS if network.line["crash"] == "file" and not network.laid else ():
            for tick in range(0, 41, 10 if quick else 1):
                yield consensus_point(network, "es", detector, "middle", tick, "sure", quick)


# ---- the defaults of systems, in ticks of a millisecond, with times rounded up


COARSE = 1000  # microseconds
DEAR_SYSTEM = 2_000_000
MOST_DRAWN = 90_000  # outages of a run


def systems():
    with open(os.path.join(HOME, "systems.toml"), "rb") as file:
        return tomllib.load(file)["system"]


def short_name(system):
    return re.sub(r"\W+", "_", system["name"].lower()).strip("_")


def coarse(network, ticks):
    return max(1, -(-ticks * int(network.line["tick_us"]) // COARSE))


def coarse_spell(network, spell):
    """A gap or a length, as a word of TOML."""
    if isinstance(spell, int):
        return str(coarse(network, spell))
    if "mean" in spell:
        return f"{{mean={coarse(network, spell['mean'])}}}"
    return f"{{values={[coarse(network, it) for it in spell['values']]}}}"


def coarse_words(network):
    """What makes ticks of a millisecond of a network's own."""
    if int(network.line["tick_us"]) == COARSE:
        return []
    link = network.file["link"]
    keys = {"lookahead": 1, "link.min": coarse(network, link["min"]), "link.max": coarse(network, link["max"])}
    if "outage" in network.file:
        keys["outage[*].until"] = coarse(network, network.file["outage"][0]["until"])
    if network.line["crash"] == "file":
        keys["crash[1].at"] = coarse(network, network.file["crash"][0]["at"])
    for kind, tables in network.laid.items():
        for place, table in enumerate(tables, 1):
            for key in ("gap", "length"):
                keys[f"network.{kind}[{place}].{key}"] = coarse_spell(network, table[key])
    return [word for key, it in keys.items() for word in ("--set", f"{key}={it}")]


def defaults_point(network, system, quick):
    """None where a run is too long for the outages that it would draw."""
    period, check, time_out = (system[it] for it in ("period", "check", "timeout"))
    entries = 1000 / period * network.count * (network.count + period / check)
    step = min(period, 5 if quick else 100 if network.count <= 10 else 10 if network.count <= 100 else 5)
    runs = up_to(10 if quick else math.ceil(LEAST_DETECTIONS / 2.5 / (network.count - 1)), step)
    # crash ticks are spread over a period, and over the time between two checks
    apart = period // step + max(0, round(check / period / step)) * period
    longest = (3 if network.count <= 10 else 2) * (time_out + period + check) + step * apart
    least = 20_000 if network.count <= 10 else 10_000 if network.count <= 100 else 6_000
    wanted = round(DEAR_SYSTEM / (10 if quick else 1) / entries / runs * 1000)
    horizon = up_to(max(longest, least, min(wanted, 3_600_000)), period)
    drawn = longer_outages(network, 0) / max(1, network.together if "bursts" not in network.laid else 1)
    if drawn * horizon * COARSE / int(network.line["tick_us"]) > MOST_DRAWN:
        return None
    settings = {"kind": "timeout", "period": period, "check": check, "timeout": time_out}
    words = [*network.words, *coarse_words(network), "--vary", f"horizon={horizon}",
             *tied({f"detector.{key}": it for key, it in settings.items()})]
    crashes = ""
    if network.line["crash"] == "dealt":
        begin = horizon - step * apart - (time_out + 2 * period + check) + 1
        crashes = f"{begin}..={begin + (step - 1) * apart}:{apart}"
        words += ["--deal", f"crash[1].at={crashes}"]
    row = f"{network.name}:defaults:{short_name(system)}"
    own = {"row": row, "network": network.name, "system": system["name"], "period": period, "check": check,
           "bound": time_out, "horizon": horizon, "crashes": crashes}
    cost = round(runs * entries * horizon / 1000)
    return Point(row, own, "", network.path, words, runs, cost, FRONTIERS, 1)


def defaults(only, quick):
    """The quick ones of few machines alone."""
    for network in (it for it in networks(only) if not quick or it.count <= 10):
        for system in systems():
            point = defaults_point(network, system, quick)
            if point:
                yield point


STUDIES = {"frontiers": frontiers, "consensus": consensus, "worst": worst, "defaults": defaults}


# ---- runs


def points_of(study, asked):
    points = list(STUDIES[study](asked.only, asked.quick))
    if len({it.first_seed for it in points}) != len(points):
        sys.exit("suite: two points share their seeds")
    return points


def make_ready():
    """The program is proved and built first, where it has to be: what is said of that is no line of a point's run."""
    subprocess.run([FDSTUDY, "--help"], stdout=subprocess.DEVNULL, check=True)


def rows_of(point):
    """Runs a point. Answers its row, as the values of its columns."""
    ran = subprocess.run([FDSTUDY, *point.command()], input=point.text, capture_output=True, text=True, cwd=HOME)
    told = ran.stderr.replace(WARNING, "")
    if ran.returncode or told:
        sys.exit(f"suite: {point.row}: status {ran.returncode}: {told.strip()}")
    found = [it for it in csv.DictReader(io.StringIO(ran.stdout)) if int(it["layer"]) == point.layer]
    return [*point.own.values(), point.first_seed, *(found[0][it] for it in point.columns)]


def header(point):
    return [*point.own, "first_seed", *point.columns]


def text_of(rows):
    out = io.StringIO()
    csv.writer(out, lineterminator="\n").writerows(rows)
    return out.getvalue()


def run_points(points, jobs, told):
    """Runs the points, the costliest ones first. Answers their rows in order."""
    began, last, whole = time.monotonic(), 0, sum(it.cost for it in points)
    with concurrent.futures.ThreadPoolExecutor(jobs) as pool:
        started = {pool.submit(rows_of, it): it for it in sorted(points, key=lambda it: -it.cost)}
        done = cost = 0
        for it in concurrent.futures.as_completed(started):
            if it.exception():
                pool.shutdown(cancel_futures=True)
                raise it.exception()
            done, cost = done + 1, cost + started[it].cost
            spent = time.monotonic() - began
            if spent - last >= 5 or done == len(points):
                last = spent
                print(f"{told}: {done} of {len(points)} points, {100 * cost // whole} % of the work, {spent:.0f} s",
                      file=sys.stderr, flush=True)
        rows = {started[it].row: it.result() for it in started}
    return [rows[it.row] for it in points]


def order_points(asked):
    for point in points_of(asked.study, asked):
        print(f"{point.row}: ../fdstudy {shlex.join(point.command())}")


def order_shard(asked):
    make_ready()
    points = points_of(asked.study, asked)
    k, n = (int(it) for it in asked.shard.split("/"))
    block = points[len(points) * (k - 1) // n : len(points) * k // n]
    if k == 1:
        sys.stdout.write(text_of([header(points[0])]))
    for point in block:
        sys.stdout.write(text_of([rows_of(point)]))
        sys.stdout.flush()


def order_run(asked):
    make_ready()
    os.makedirs(asked.to, exist_ok=True)
    for study in STUDIES:
        points = points_of(study, asked)
        if not points:
            continue
        text = text_of([header(points[0]), *run_points(points, asked.jobs, study)])
        with open(os.path.join(asked.to, study + ".csv"), "w", encoding="ascii", newline="") as file:
            file.write(text)
    used = resource.getrusage(resource.RUSAGE_CHILDREN)
    print(f"{used.ru_utime + used.ru_stime:.0f} s of processor time", file=sys.stderr)


def main():
    words = argparse.ArgumentParser(description=__doc__, formatter_class=argparse.RawDescriptionHelpFormatter)
    orders = words.add_subparsers(required=True)
    for name, order in (("points", order_points), ("shard", order_shard), ("run", order_run)):
        each = orders.add_parser(name)
        each.set_defaults(order=order)
        if name != "run":
            each.add_argument("study", choices=STUDIES)
        if name == "shard":
            each.add_argument("shard")
        if name == "run":
            each.add_argument("--jobs", type=int, default=len(os.sched_getaffinity(0)))
            each.add_argument("--to", default=os.path.join(HOME, "out"))
        each.add_argument("--quick", action="store_true")
        each.add_argument("--only", action="append", default=[])
    asked = words.parse_args()
    asked.order(asked)


if __name__ == "__main__":
    main()
