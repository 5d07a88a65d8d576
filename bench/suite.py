#!/usr/bin/env python3
"""Makes a part of the suite again, and compares it with what is committed.

    bench/suite.py [--jobs N] [--points N]

It makes all quick points again (suite/results/quick is of `suite.py run --quick --to results/quick`), and of each study
of suite/results the cheapest points of N parts of its list (12), twins and systems among them. It runs each of the latter
by `--each run` too: the runs have different seeds, which no other point of the study has, and their mistakes, entries and
decisions come to those of the point's row. From the committed rows it makes the tables, the pictures and the pages anew.
Each row that results/learned.csv names behind a sentence of the pages has to be there with the value that stands beside
it. Consensus over a twin has to run with the settings of its table, and its bursts have to lose as many letters as the
network. It prints what differs, and ends with status 1 where something does. The environment's FDSTUDY names another
program.
"""
import argparse
import csv
import io
import os
import re
import shutil
import subprocess
import sys
import tempfile

ROOT = os.path.dirname(os.path.dirname(os.path.abspath(__file__)))
SUITE = os.path.join(ROOT, "suite")
sys.dont_write_bytecode = True
sys.path.insert(0, SUITE)
import page  # noqa: E402
import suite  # noqa: E402

ADDED = ["mistakes", "entries", "sent", "lost", "detections", "pair_ticks", "to_decide", "decided"]


class Faults:
    def __init__(self):
        self.compared = self.count = 0

    def compare(self, what, wanted, found):
        self.compared += 1
        if wanted != found:
            self.count += 1
            print(f"{what}: {found!r} and not {wanted!r}" if len(str(wanted)) < 80 else f"{what}: another")


def text(path):
    with open(path, encoding="utf-8", newline="") as file:
        return file.read()


def rows(*path):
    return {it["row"]: it for it in csv.DictReader(io.StringIO(text(os.path.join(SUITE, "results", *path))))}


def compare_quick(faults, folder, jobs):
    words = ["suite.py", "run", "--quick", "--to", folder, "--jobs", str(jobs)]
    subprocess.run([sys.executable, *words], cwd=SUITE, check=True)
    for study in suite.STUDIES:
        wanted = text(os.path.join(SUITE, "results", "quick", study + ".csv"))
        faults.compare(f"results/quick/{study}.csv", wanted, text(os.path.join(folder, study + ".csv")))


def compare_points(faults, study, count):
    points, committed = list(suite.STUDIES[study]([], False)), rows(study + ".csv")
    faults.compare(f"rows of {study}.csv", [it.row for it in points], list(committed))
    parts = [points[len(points) * k // count : len(points) * (k + 1) // count] for k in range(count)]
    for point in (min(it, key=lambda point: point.cost) for it in parts if it):
        names = suite.header(point)
        row = dict(zip(names, (str(it) for it in suite.rows_of(point))))
        for name in names:
            faults.compare(f"{study}.csv, {point.row}: {name}", committed[point.row][name], row[name])
        each = runs_of(point)
        faults.compare(f"{point.row}: seeds", list(range(point.first_seed, point.first_seed + point.runs)),
                       [int(it["seed"]) for it in each])
        for name in (it for it in ADDED if it in point.columns):
            faults.compare(f"{point.row}: {name} of its runs", int(row[name]), sum(int(it[name]) for it in each))
    blocks = sorted((it.first_seed, it.runs) for it in points)
    apart = all(first + runs <= after for (first, runs), (after, _) in zip(blocks, blocks[1:]))
    faults.compare(f"{study}: no two points share a seed", True, apart)


def runs_of(point):
    """The rows of a point's runs, each by itself."""
    words = point.command()
    words[words.index("--columns") + 1] = ",".join(["seed", "layer", *(it for it in ADDED if it in point.columns)])
    ran = subprocess.run([suite.FDSTUDY, *words, "--each", "run"], input=point.text, capture_output=True, text=True,
                         cwd=SUITE, check=True)
    return [it for it in csv.DictReader(io.StringIO(ran.stdout)) if int(it["layer"]) == point.layer]


def compare_pages(faults, folder):
    for name in page.PAGES:
        shutil.copy(os.path.join(SUITE, name), folder)
    for program in ("page.py", "systems.py"):
        words = [program, "--to", folder, "--pages", folder]
        subprocess.run([sys.executable, *words], cwd=SUITE, check=True, stdout=subprocess.DEVNULL)
    made = {**{f"{it}.csv": "results" for it in ("settings", "wishes", "theory", "decisions")}, "systems.csv": ""}
    made.update(dict.fromkeys(page.PAGES, ""))
    made.update({it: "pictures" for it in os.listdir(os.path.join(SUITE, "pictures"))})
    for name, place in sorted(made.items()):
        committed = text(os.path.join(SUITE, place, name))
        faults.compare(f"suite/{place}/{name}", committed, text(os.path.join(folder, name)))


def compare_wishes(faults):
    """The settings of the twins' consensus are those of the table, where it has one."""
    known, wished = rows("frontiers.csv"), list(csv.DictReader(io.StringIO(text(os.path.join(
        SUITE, "results", "settings.csv")))))
    for network in (it for it in suite.networks([]) if it.laid):
        for row in wished:
            if (row["network"], row["detector"], row["letters"]) == (network.name, "freshness", str(suite.LETTERS[0])):
                faults.compare(f"networks.csv, {network.name}: {row['wish']}", known[row["row"]]["bears"],
                               network.line[row["wish"]])


def compare_losses(faults):
    """The bursts of a twin lose as many letters of each link, in the mean, as the network loses one by one."""
    for network in (it for it in suite.networks([]) if it.laid):
        shares = dict.fromkeys(network.links, 0.0)
        for table in network.laid["bursts"]:
            ends = [range(1, network.count + 1) if table[it] == "all" else table[it] for it in ("from", "to")]
            gap, length = suite.mean_of(table["gap"]), suite.mean_of(table["length"])
            pairs = {(one, other) for one in ends[0] for other in ends[1] if one != other}
            if table.get("both"):
                pairs |= {(other, one) for one, other in pairs}
            for pair in pairs:
                shares[pair] += length / (gap + length)
        faults.compare(f"{network.name}: letters of 1000 that bursts lose",
                       {pair: loss for pair, (_, _, loss) in network.links.items()},
                       {pair: round(1000 * it, 6) for pair, it in shares.items()})


def compare_sentences(faults):
    known = {}
    for name in (*suite.STUDIES, "theory"):
        for row, values in rows(name + ".csv").items():
            known.setdefault(row, {}).update(values)
    for it in csv.DictReader(io.StringIO(text(os.path.join(SUITE, "results", "learned.csv")))):
        head = rf"(?m)^{it['sentence']}\. \*\*|^## {it['sentence']}$"
        faults.compare(f"{it['page']} has {it['sentence']}", True,
                       re.search(head, text(os.path.join(SUITE, it["page"]))) is not None)
        faults.compare(f"{it['page']}, {it['row']}: {it['column']}", known.get(it["row"], {}).get(it["column"]),
                       it["value"])


def main():
    words = argparse.ArgumentParser(description=__doc__, formatter_class=argparse.RawDescriptionHelpFormatter)
    words.add_argument("--jobs", type=int, default=len(os.sched_getaffinity(0)))
    words.add_argument("--points", type=int, default=12)
    asked = words.parse_args()
    suite.make_ready()
    faults = Faults()
    with tempfile.TemporaryDirectory() as folder:
        compare_pages(faults, folder)
        compare_wishes(faults)
        compare_losses(faults)
        compare_sentences(faults)
        compare_quick(faults, folder, asked.jobs)
    for study in suite.STUDIES:
        compare_points(faults, study, asked.points)
    print(f"{faults.compared} compared, {faults.count} differ")
    return 1 if faults.count else 0


if __name__ == "__main__":
    sys.exit(main())
