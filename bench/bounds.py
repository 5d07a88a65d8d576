#!/usr/bin/env python3
"""Draws scenarios, runs them, and compares their reports with the bounds that no run breaks.

    bench/bounds.py [--fdbench P] [--scenarios N] [--seed N] [--check P]

Half of the 3,000 scenarios (N) have time-outs and half freshness points. They have 2 to 6 processes with crashes, links
of their own, losses, outages, shares and each algorithm. Of each run the report gives detections, mistakes and verdicts,
and the trace how often a process was trusted again; by when a crash is detected and which links can bring no mistake is
reckoned here anew, by the tables of docs/detectors.md. On layer 2 the bound of a shared suspicion is compared too.
It prints how many detections and pairs were compared, how many met their bound exactly, and each run that breaks one;
the status is 1 where one does. With --check P, P is fdstudy, and what its `check` says of each file is compared as well.
"""
import argparse
import collections
import os
import random
import subprocess
import sys
import tempfile

ROOT = os.path.dirname(os.path.dirname(os.path.abspath(__file__)))


def drawn_link(draw, lookahead, lossy):
    least = draw.randint(lookahead, lookahead + 6)
    return {"min": least, "max": least + draw.choice([0, 0, 1, 2, 5, 12]),
            "loss": draw.choice([0, 0, 50, 300]) if lossy else 0}


def drawn(draw, kind):
    """A scenario, as a dictionary."""
    n = draw.randint(2, 6)
    horizon = draw.randint(20, 300)
    lookahead = draw.randint(1, 3)
    lossy = draw.random() < 0.6
    scenario = {"n": n, "horizon": horizon, "lookahead": lookahead, "seed": draw.randint(0, 10**6),
                "algorithm": draw.choice(["none", "none", "s", "es"]), "kind": kind,
                "watch": draw.choice(["all", "all", "next"]), "share": draw.choice([None, None, draw.randint(1, 25)]),
                "link": drawn_link(draw, lookahead, lossy), "links": {}, "crash": {}, "outage": []}
    for sender in range(1, n + 1):
        for receiver in range(1, n + 1):
            if sender != receiver and draw.random() < 0.2:
                scenario["links"][sender, receiver] = drawn_link(draw, lookahead, lossy)
            if sender != receiver and lossy and draw.random() < 0.05:
                begin = draw.randint(0, horizon)
                scenario["outage"].append((sender, receiver, begin, begin + draw.randint(1, 40)))
    for process in range(1, n + 1):
        if draw.random() < 0.35:
            scenario["crash"][process] = draw.choice([0, draw.randint(1, 12), draw.randint(1, horizon + 5)])
    most = max([scenario["link"], *scenario["links"].values()], key=lambda link: link["max"])
    if kind == "timeout":
        period = draw.randint(1, 20)
        needed = max(most["max"], most["max"] - most["min"] + period)
        scenario |= {"period": period, "check": draw.randint(1, 9), "grow": draw.randint(1, 8),
                     "timeout": max(1, draw.choice([needed, needed, needed - 1, needed + 3, draw.randint(1, 30)]))}
    else:
        scenario |= {"eta": draw.randint(1, 20),
                     "delta": max(1, draw.choice([most["max"], most["max"], most["max"] - 1, draw.randint(1, 25)]))}
    return scenario


def text_of(scenario):
    rows = ["version = 2", f"processes = {scenario['n']}", f"horizon = {scenario['horizon']}",
            f"lookahead = {scenario['lookahead']}", f"seed = {scenario['seed']}", f'algorithm = "{scenario["algorithm"]}"']
    if scenario["algorithm"] != "none":
        rows.append(f"proposals = {list(range(10, 10 + scenario['n']))}")
    rows += ["[detector]", f'kind = "{scenario["kind"]}"', f'watch = "{scenario["watch"]}"']
    keys = ("period", "check", "timeout", "grow") if scenario["kind"] == "timeout" else ("eta", "delta")
    rows += [f"{key} = {scenario[key]}" for key in keys]
    if scenario["share"]:
        rows += ["[share]", f"period = {scenario['share']}"]
    rows += ["[link]", *(f"{key} = {value}" for key, value in scenario["link"].items())]
    for (sender, receiver), link in scenario["links"].items():
        rows += ["[[links]]", f"from = {sender}", f"to = {receiver}", *(f"{key} = {value}" for key, value in link.items())]
    for process, tick in scenario["crash"].items():
        rows += ["[[crash]]", f"process = {process}", f"at = {tick}"]
    for sender, receiver, begin, until in scenario["outage"]:
        rows += ["[[outage]]", f"from = {sender}", f"to = {receiver}", f"begin = {begin}", f"until = {until}"]
    return "\n".join(rows) + "\n"


class Bounds:
    """The bounds of one scenario, by the tables of docs/detectors.md."""

    def __init__(self, scenario):
        self.s = scenario
        self.processes = range(1, scenario["n"] + 1)

    def link(self, sender, receiver):
        if sender == receiver:
            return {"min": 1, "max": 1, "loss": 0}
        return self.s["links"].get((sender, receiver), self.s["link"])

    def crash(self, process):
        return self.s["crash"].get(process, self.s["horizon"] + 1)

    def is_correct(self, process):
        return self.crash(process) >= self.s["horizon"]

    def watches(self, observer, subject):
        if observer == subject:
            return False
        return self.s["watch"] == "all" or subject == observer % self.s["n"] + 1

    def loses(self, sender, receiver):
        if sender == receiver:
            return False
        return self.link(sender, receiver)["loss"] > 0 or any(it[:2] == (sender, receiver) for it in self.s["outage"])

    def needed(self, sender, receiver):
        """The least delta or timeout with which the link brings no mistake."""
        link = self.link(sender, receiver)
        if self.s["kind"] == "freshness":
            return link["max"]
        return max(link["max"], link["max"] - link["min"] + self.s["period"])

    def is_reliable(self, sender, receiver):
        has = self.s["delta"] if self.s["kind"] == "freshness" else self.s["timeout"]
        return not self.loses(sender, receiver) and self.needed(sender, receiver) <= has

    def suspected_from(self, observer, subject, trusts):
        """The tick from which the observer suspects the subject to the end, which crashes."""
        crash = self.crash(subject)
        if self.s["kind"] == "freshness":
            last = max(crash - 1, 0) // self.s["eta"]
            return (last + 1) * self.s["eta"] + self.s["delta"]
        last = 0
        if crash > 0:
            last = (crash - 1) // self.s["period"] * self.s["period"] + self.link(subject, observer)["max"]
        grown = self.s["timeout"] + self.s["grow"] * trusts
        return -(-(last + grown) // self.s["check"]) * self.s["check"]

    def shared_from(self, watcher, observer, subject, trusts):
        """The tick from which the observer suspects the subject on layer 2, by what the watcher shares with it; none
        where nothing is promised."""
        period, crash = self.s["share"], self.crash(subject)
        from_tick = self.suspected_from(watcher, subject, trusts)
        if from_tick >= self.s["horizon"] or self.loses(watcher, observer):
            return None
        last = max(crash - 1, 0) // period
        cleared = 0 if last == 0 else last * period + self.link(subject, observer)["max"] + 1
        link = self.link(watcher, observer)
        shared = -(-max(from_tick + 1, cleared - link["min"], 0) // period) * period
        # the first share is after one period
        return max(shared, period) + link["max"]


def run_of(program, path):
    """The report's rows of a run by their names, and how often each pair trusted again on layer 1."""
    ran = subprocess.run([program, "list", path, "--print", "both"], capture_output=True, text=True)
    if ran.returncode or ran.stderr:
        raise SystemExit(f"{path}: status {ran.returncode}, {ran.stderr.strip()}")
    rows, trusts, crashed = {}, collections.Counter(), False
    for line in ran.stdout.splitlines():
        words = line.split(",")
        if words[0].isdigit():
            for note in words[7].split(";") if len(words) > 7 else ():
                for part in note.split(" "):
                    if part.startswith("trust:1:"):
                        trusts[int(words[1]), int(part[8:])] += 1
        elif words[0] in ("pair", "verdict"):
            rows[words[0], int(words[1]), int(words[2]), int(words[3]), words[4]] = words[5]
    return rows, trusts


def compared(scenario, rows, trusts, counts):
    """What of a run is outside its bounds, a text each."""
    bounds = Bounds(scenario)
    horizon = scenario["horizon"]
    pairs = [(q, p) for q in bounds.processes for p in bounds.processes if bounds.watches(q, p)]
    for q, p in pairs:
        if bounds.is_correct(q) and not bounds.is_correct(p):
            until = bounds.suspected_from(q, p, trusts[q, p])
            told = rows["pair", 1, q, p, "detection"]
            if until < horizon:
                counts["detections"] += 1
                most = max(until - bounds.crash(p), 0)
                if not told.isdigit() or int(told) > most:
                    yield f"process {q} detects {p} within {told} ticks, and not {most}"
                counts["detections at their bound"] += told == str(most)
        if bounds.is_reliable(p, q):
            counts["pairs without a mistake"] += 1
            found = rows["pair", 1, q, p, "mistakes"], rows["pair", 1, q, p, "mistake_ticks"]
            if found != ("0", "0"):
                yield f"process {q} makes {found[0]} mistakes of {p}, of {found[1]} ticks"
    if all(bounds.is_reliable(p, q) for q, p in pairs):
        counts["runs of strong accuracy"] += 1
        if rows["verdict", 1, 0, 0, "strong_accuracy"] != "yes":
            yield "strong accuracy is no"
    by = [bounds.suspected_from(q, p, trusts[q, p]) for q, p in pairs if bounds.is_correct(q) and not bounds.is_correct(p)]
    if scenario["watch"] == "all" and all(it < horizon for it in by):
        counts["runs of strong completeness"] += 1
        told = rows["verdict", 1, 0, 0, "strong_completeness"]
        if not told.isdigit() or int(told) > max(by, default=0):
            yield f"strong completeness comes at {told}, and not by {max(by, default=0)}"
    if scenario["share"]:
        yield from shared(bounds, rows, trusts, counts)


def shared(bounds, rows, trusts, counts):
    """What of layer 2 is outside the bound of a shared suspicion."""
    for w in bounds.processes:
        for p in bounds.processes:
            if not bounds.watches(w, p) or not bounds.is_correct(w) or bounds.is_correct(p):
                continue
            for r in bounds.processes:
                if not bounds.is_correct(r) or r == p:
                    continue
                until = bounds.shared_from(w, r, p, trusts[w, p])
                if until is None or until >= bounds.s["horizon"]:
                    continue
                counts["shared detections"] += 1
                told, most = rows["pair", 2, r, p, "detection"], max(until - bounds.crash(p), 0)
                if not told.isdigit() or int(told) > most:
                    yield f"process {r} detects {p} on layer 2 within {told} ticks, and not {most}, as {w} shares it"
                counts["shared detections at their bound"] += told == str(most)


def check_lines(scenario):
    """What `fdstudy check` is to say of the bounds of a scenario."""
    bounds = Bounds(scenario)
    pairs = [(q, p) for q in bounds.processes for p in bounds.processes if bounds.watches(q, p)]
    found = [(bounds.suspected_from(q, p, 0), bounds.crash(p)) for q, p in pairs
             if bounds.is_correct(q) and not bounds.is_correct(p)]
    if any(until >= scenario["horizon"] for until, _ in found):
        yield "the detection of some crash is not promised before the horizon"
    elif found:
        most = max(max(until - crash, 0) for until, crash in found)
        until = ", as long as no suspicion is taken back" if scenario["kind"] == "timeout" else ""
        yield f"each correct process detects each crash of whom it watches within {most} ticks{until}"
    if pairs:
        reliable = sum(bounds.is_reliable(p, q) for q, p in pairs)
        yield f"watched links that surely bring no mistake: {reliable} of {len(pairs)}"
    lossy = sum(bounds.loses(p, q) for q, p in pairs)
    if lossy:
        yield f"watched links with loss or outages, of whose mistakes nothing is promised: {lossy}"
    needed = [bounds.needed(p, q) for q, p in pairs if not bounds.loses(p, q)]
    if needed:
        key = "delta" if scenario["kind"] == "freshness" else "timeout"
        yield f"with {key} {max(needed)} or more no link without loss and outages can bring a mistake"


def check_compared(program, path, scenario, counts):
    ran = subprocess.run([program, "check", path], capture_output=True, text=True)
    wanted = list(check_lines(scenario))
    told = [line for line in ran.stdout.splitlines() if "mistake" in line or "each crash" in line or "some crash" in line
            or "nothing is promised" in line]
    counts["files checked"] += 1
    if ran.returncode or told != wanted:
        yield f"check says {told}, and not {wanted}"


def main():
    words = argparse.ArgumentParser(usage=__doc__.split("\n\n")[1].strip())
    words.add_argument("--fdbench", default=os.path.join(ROOT, "fdbench"))
    words.add_argument("--scenarios", type=int, default=3000)
    words.add_argument("--seed", type=int, default=1)
    words.add_argument("--check")
    asked = words.parse_args()
    # proved and built first, where it has to be: what is said of that is no line of a run
    for program in filter(None, (asked.fdbench, asked.check)):
        subprocess.run([program, "--help"], stdout=subprocess.DEVNULL, check=True)
    draw = random.Random(asked.seed)
    counts, broken = collections.Counter(), 0
    with tempfile.TemporaryDirectory() as folder:
        path = os.path.join(folder, "drawn.toml")
        for number in range(asked.scenarios):
            scenario = drawn(draw, "timeout" if number % 2 else "freshness")
            with open(path, "w", encoding="utf-8") as file:
                file.write(text_of(scenario))
            rows, trusts = run_of(asked.fdbench, path)
            faults = list(compared(scenario, rows, trusts, counts))
            if asked.check:
                faults += check_compared(asked.check, path, scenario, counts)
            for fault in faults:
                broken += 1
                print(f"scenario {number} ({scenario['kind']}): {fault}")
            if faults and broken < 3:
                print(text_of(scenario))
    for name, count in sorted(counts.items()):
        print(f"{name}: {count:,}")
    print(f"{asked.scenarios:,} scenarios, {broken} outside their bounds")
    return 1 if broken else 0


if __name__ == "__main__":
    sys.exit(main())
