#!/usr/bin/env python3
"""Adds up the reports of a study's runs by itself, and compares the sums with the rows of `fdstudy sweep`.

    bench/rows.py [--fdstudy P] [--fdbench P] [--seeds N]

Three studies of twelve points each, over files of its own: a detector under losses with crashes that are dealt to the
seeds, a coordinator whose processes crash, and detectors that watch the next process alone and share what they suspect,
with a limit that some runs pass. The first and the last come once more with rows for groups of pairs, and one of two
points comes under each of the networks of bench/networks. Of each run it takes the file that `fdstudy show` prints, and the report and the trace that `fdbench list` gives of it. It shares no
code with the programs: crashes, pairs, ranks and the lengths of mistakes are worked out here anew. It prints what
differs, and ends with status 1 where something does.
"""
import argparse
import csv
import io
import itertools
import math
import os
import subprocess
import sys
import tomllib

ROOT = os.path.dirname(os.path.dirname(os.path.abspath(__file__)))
VERDICTS = ["strong_completeness", "weak_completeness", "strong_accuracy", "weak_accuracy",
            "eventual_strong_accuracy", "eventual_weak_accuracy"]
SUMS = ["mistakes", "mistake_ticks", "recurrence_sum", "recurrence_count", "duration_sum", "duration_count",
        "good_sum", "good_count"]

LOSSY = """
version = 2
processes = 4
horizon = 3000
lookahead = 1
seed = 1
algorithm = "none"
[detector]
period = 50
check = 7
timeout = 70
[link]
min = 1
max = 30
loss = 100
[[crash]]
process = 2
at = 1500
[[crash]]
process = 4
at = 2990
"""
COORDINATOR = """
version = 1
processes = 5
horizon = 400
lookahead = 1
seed = 1
algorithm = "es"
proposals = [10, 20, 30, 40, 50]
[detector]
period = 10
check = 5
timeout = 25
[share]
period = 15
[link]
min = 1
max = 12
loss = 50
[[crash]]
process = 2
at = 3
"""
NEXT = """
version = 1
processes = 5
horizon = 600
lookahead = 1
seed = 1
limit = 2300
algorithm = "s"
proposals = [1, 2, 3, 4, 5]
[detector]
period = 20
check = 6
timeout = 30
watch = "next"
[share]
period = 40
[link]
min = 1
max = 15
loss = 120
[[crash]]
process = 3
at = 200
"""
STUDIES = [
    ("lossy", LOSSY, ["--vary", "detector.timeout=60,90,140", "--vary", "link.loss=0,50,100,300",
                      "--deal", "crash[1].at=1490..=1510:10"]),
    ("coordinator", COORDINATOR, ["--vary", "detector.timeout=15,25,60", "--vary", "link.loss=0,50,200,400",
                                  "--deal", "crash[1].at=0,3,40"]),
    ("next", NEXT, ["--vary", "detector.period,detector.timeout=10:15,20:30,40:60", "--vary", "link.loss=0,50,120,300",
                    "--over", "crash[1].at=150,600"]),
]
# the second group of each has pairs that two of its blocks have
GROUPS = {
    "lossy": ["1:2..=4", "1..=2:1..=3+3..=4:2+2:3", "4:4"],
    "next": ["1..=3:1..=3", "1..=2:2..=3+2..=5:3..=5+5:1", "3:1..=2"],
}
NETWORKS = ["links", "bursts", "cuts", "pauses", "replays"]


def network_studies():
    """A study of two points under each of the networks."""
    with open(os.path.join(ROOT, "bench/networks/four.toml"), encoding="utf-8") as file:
        four = file.read()
    for name in NETWORKS:
        network = os.path.join(ROOT, f"bench/networks/{name}.toml")
        yield f"network {name}", four, ["--network", network, "--vary", "detector.timeout=70,140",
                                        "--deal", "crash[1].at=1490..=1510:10"]


def run(words, given=""):
    ran = subprocess.run(words, input=given, capture_output=True, text=True)
    return ran.returncode, ran.stdout, ran.stderr


def must(words, given=""):
    status, out, told = run(words, given)
    if status:
        sys.exit(f"rows: status {status}: {' '.join(words)}: {told}")
    return out


def is_in(word, observer, subject):
    """Whether one of the blocks of a group's word has the pair; each pair is in, where there is no group."""
    def has(side, process):
        low, _, high = side.partition("..=")
        return int(low) <= process <= int(high or low)
    if word is None:
        return True
    blocks = [block.split(":") for block in word.split("+")]
    return any(has(observers, observer) and has(subjects, subject) for observers, subjects in blocks)


class Run:
    """What one run tells: its file, and its trace and its report, or that it passed its limit."""

    def __init__(self, text, trace, report):
        self.file = tomllib.loads(text)
        self.rows = None if report is None else list(csv.DictReader(io.StringIO(report)))
        self.entries = list(csv.DictReader(io.StringIO(trace)))
        self.horizon, self.count = self.file["horizon"], self.file["processes"]
        self.crashes = {it["process"]: it["at"] for it in self.file.get("crash", [])}
        self.group = None
        self.layers = [1, 2] if "share" in self.file else [1]

    def is_correct(self, process):
        return self.crashes.get(process, math.inf) >= self.horizon

    def is_counted(self, layer, observer, subject):
        """Whether the pair counts on the layer: with watch = "next" only those that are watched do on layer 1."""
        is_next = self.file["detector"].get("watch", "all") == "next"
        return layer == 2 or not is_next or subject == observer % self.count + 1

    def pairs(self, layer):
        everybody = range(1, self.count + 1)
        return [(q, p) for q in everybody for p in everybody if q != p and self.is_counted(layer, q, p)
                and is_in(self.group, q, p)]

    def durations(self, layer, observer, subject):
        """How long each mistake was that ended before the first crash of the two and the horizon."""
        end = min(self.crashes.get(observer, math.inf), self.crashes.get(subject, math.inf), self.horizon)
        states = {}  # whether there is suspicion at the end of a tick with a note
        for entry in (it for it in self.entries if int(it["receiver"]) == observer):
            for word, *rest in (note.split(":") for note in entry["notes"].split()):
                if word in ("suspect", "trust") and rest == [str(layer), str(subject)]:
                    states[int(entry["tick"])] = word == "suspect"
        lengths, since = [], None
        for tick, suspected in sorted(states.items()):
            if suspected and since is None:
                since = tick
            elif not suspected and since is not None:
                lengths += [tick - since] if tick < end else []
                since = None
        return lengths

    def trusts(self, observer, subject):
        """How often the observer noted that it trusts the subject again, on layer 1."""
        notes = [it["notes"].split() for it in self.entries if int(it["receiver"]) == observer]
        return sum(it.count(f"trust:1:{subject}") for it in notes)

    def slowest(self, sender, receiver):
        """The longest delay of a link."""
        own = [it for it in self.file.get("links", []) if [it["from"], it["to"]] == [sender, receiver]]
        return (own or [self.file["link"]])[0]["max"]

    def bound(self, observer, subject):
        """How many ticks after its crash, at most, the subject is suspected to the end on layer 1; None where that isn't
        before the horizon."""
        its, crash = self.file["detector"], self.crashes[subject]
        if its.get("kind") == "freshness":
            tick = (max(crash - 1, 0) // its["eta"] + 1) * its["eta"] + its["delta"]
        else:
            last = (crash - 1) // its["period"] * its["period"] + self.slowest(subject, observer) if crash else 0
            grown = its["timeout"] + its.get("grow", 1) * self.trusts(observer, subject)
            tick = math.ceil((last + grown) / its["check"]) * its["check"]
        return max(tick - crash, 0) if tick < self.horizon else None

    def values(self, section, layer, observer, subject):
        return {row["measure"]: row["value"] for row in self.rows if row["section"] == section
                and [int(row["layer"]), int(row["observer"]), int(row["subject"])] == [layer, observer, subject]}

    def outcomes(self):
        """Of each process what it decided."""
        return {p: self.values("decision", 0, p, 0) for p in range(1, self.count + 1)}


def rank(percent, values, infinite):
    """The nearest rank, with so many values that are infinite at the end."""
    every = sorted(values) + [None] * infinite
    return every[math.ceil(percent * len(every) / 100) - 1] if every else None


def most(values):
    return max(values, default=None)


def detection_bound(done):
    """The greatest of the bounds on layer 1 of all crashes that were to be detected; none where one has none."""
    bounds = [run.bound(q, p) for run in done for q, p in run.pairs(1) if run.is_correct(q) and not run.is_correct(p)]
    return None if None in bounds else most(bounds)


def detections(done, layer):
    found = [run.values("pair", layer, q, p)["detection"] for run in done for q, p in run.pairs(layer)]
    times = [int(it) for it in found if it not in ("na", "none")]
    missed = found.count("none")
    return {"detections": len(times), "undetected": missed, "at_once": times.count(0), "detection_sum": sum(times),
            "detection_max": most(times), **{f"detection_p{p}": rank(p, times, missed) for p in (50, 90, 99)}}


def decisions(done):
    row = {name: 0 for name in ("to_decide", "decided", "decision_tick_sum", "all_decided", "disagreements")}
    ticks, lasts, missing, greatest, rounds = [], [], 0, [], []
    for run in (it for it in done if it.file["algorithm"] != "none"):
        outcomes = run.outcomes()
        decided = {p: it for p, it in outcomes.items() if it["value"] not in ("none", "novalue")}
        correct = [p for p in outcomes if run.is_correct(p)]
        mine = [int(decided[p]["tick"]) for p in correct if p in decided]
        row["to_decide"] += len(correct)
        row["decided"] += len(mine)
        ticks += mine
        row["disagreements"] += len({it["value"] for it in decided.values()}) > 1
        greatest.append(max(int(it["rounds"]) for it in outcomes.values()))
        if correct and len(mine) == len(correct):
            row["all_decided"] += 1
            lasts.append(max(mine))
        elif correct:
            missing += 1
    rounds = [it for it in greatest if it > 0]
    row |= {"decision_tick_sum": sum(ticks), "decision_tick_max": most(ticks), "last_decision_max": most(lasts)}
    row |= {f"last_decision_p{p}": rank(p, lasts, missing) for p in (50, 90, 99)}
    return row | {"rounds_p50": rank(50, rounds, 0), "rounds_p99": rank(99, rounds, 0), "rounds_max": most(rounds)}


def first(runs, test):
    """The number, from 1, of the first run of which it is so."""
    return next((number for number, run in enumerate(runs, 1) if run.rows is not None and test(run)), None)


def mistakes_of(run, layer):
    return sum(int(run.values("pair", layer, q, p)["mistakes"]) for q, p in run.pairs(layer))


def longest(run, layer):
    return detections([run], layer)["detection_max"]


def do_differ(run):
    if run.file["algorithm"] == "none":
        return False
    return len({it["value"] for it in run.outcomes().values() if it["value"] not in ("none", "novalue")}) > 1


def error_of(runs, total, squares):
    """The standard error of a total: the least e with e * e * (runs - 1) at least runs * squares - total * total."""
    if runs < 2:
        return None
    return next(e for e in itertools.count() if e * e * (runs - 1) >= runs * squares - total * total)


def row_of(runs, layer):
    """A row's columns by name, worked out of the runs of its point."""
    mine = [run for run in runs if layer in run.layers]
    done = [run for run in mine if run.rows is not None]
    row = {"layer": layer, "runs": len(mine), "limited": len(mine) - len(done)}
    if not done:
        return row
    for name in ("entries", "sent", "lost"):
        row[name] = sum(int(run.values("run", 0, 0, 0)[name]) for run in done)
    row["pair_ticks"] = sum(min(run.crashes.get(q, math.inf), run.crashes.get(p, math.inf), run.horizon)
                            for run in done for q, p in run.pairs(layer))
    measured = [run.values("pair", layer, q, p) for run in done for q, p in run.pairs(layer)]
    row |= {name: sum(int(it[name]) for it in measured) for name in SUMS}
    lengths = [it for run in done for q, p in run.pairs(layer) for it in run.durations(layer, q, p)]
    row["duration_p99"], row["duration_max"] = rank(99, lengths, 0), most(lengths)
    each = [mistakes_of(run, layer) for run in done]
    row["mistakes_squared_sum"], row["runs_with_mistakes"] = sum(it * it for it in each), sum(it > 0 for it in each)
    row["mistakes_error"] = error_of(len(done), row["mistakes"], row["mistakes_squared_sum"])
    row["mistake_recurrence"] = row["pair_ticks"] // row["mistakes"] if row["mistakes"] else None
    row["mistaken_ppm"] = 1000000 * row["mistake_ticks"] // row["pair_ticks"] if row["pair_ticks"] else None
    row |= detections(done, layer) | decisions(done)
    row["detection_bound"] = detection_bound(done) if layer == 1 else None
    for name in VERDICTS:
        row[name] = sum(run.values("verdict", layer, 0, 0)[name] not in ("no", "none") for run in done)
    row["mistake_run"] = first(runs, lambda run: layer in run.layers and mistakes_of(run, layer) > 0)
    row["disagreement_run"] = first(runs, lambda run: layer in run.layers and do_differ(run))
    row["detection_max_run"] = None if row["detection_max"] is None else first(
        runs, lambda run: layer in run.layers and longest(run, layer) == row["detection_max"])
    return row


def compare(name, file, words, groups, asked, points=12):
    """Compares a study's rows with the sums of its runs. Answers how many fields were compared, and how many differ."""
    study = ["-", "--seeds", f"1..={asked.seeds}", *words]
    named = [it for group in groups for it in ("--pairs", group)]
    rows = list(csv.DictReader(io.StringIO(must([asked.fdstudy, "sweep", *study, *named], file))))
    per_point = asked.seeds * (2 if "--over" in words else 1)
    fields = differ = limited = 0
    for point in range(1, points + 1):
        runs = []
        for number in range(1, per_point + 1):
            text = must([asked.fdstudy, "show", *study, "--point", str(point), "--run", str(number)], file)
            status, report, told = run([asked.fdbench, "list", "-"], text)
            if status not in (0, 3) or status == 3 and told != "fdbench: run: Limit\n":
                sys.exit(f"rows: status {status} of run {number} of point {point} of {name}: {told}")
            trace = must([asked.fdbench, "list", "-", "--print", "trace"], text) if status == 0 else ""
            runs.append(Run(text, trace, report if status == 0 else None))
        for group, layer in itertools.product(groups or [None], runs[0].layers):
            for each in runs:
                each.group = group
            found, wanted = rows.pop(0), row_of(runs, layer) | {"pairs": group}
            limited += wanted["limited"]
            for column in [it for it in found if "." not in it]:
                fields += 1
                text = "" if wanted.get(column) is None else str(wanted[column])
                if found[column] != text:
                    differ += 1
                    print(f"{name}, point {point}, {group or 'all pairs'}, layer {layer}: "
                          f"{column} is {found[column]}, and not {text}")
    if rows:
        sys.exit(f"rows: {name} has {len(rows)} rows more than points and layers")
    print(f"{name}: {fields} fields of {points} points, {limited} runs limited, {differ} fields differ")
    return differ


def main():
    words = argparse.ArgumentParser(description=__doc__, formatter_class=argparse.RawDescriptionHelpFormatter)
    words.add_argument("--fdstudy", default=os.path.join(ROOT, "crates/fdstudy/out/fdstudy"))
    words.add_argument("--fdbench", default=os.path.join(ROOT, "crates/fdbench/out/fdbench"))
    words.add_argument("--seeds", type=int, default=6, help="how many seeds, a multiple of 3 (6)")
    asked = words.parse_args()
    differ = sum(compare(*study, [], asked) for study in STUDIES)
    differ += sum(compare(*study, GROUPS[study[0]], asked) for study in STUDIES if study[0] in GROUPS)
    differ += sum(compare(*study, [], asked, 2) for study in network_studies())
    return 1 if differ else 0


if __name__ == "__main__":
    sys.exit(main())
