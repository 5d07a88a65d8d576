#!/usr/bin/env python3
"""Draws the outages of a network file, apart from the product: another program, by the rules of crates/network/specs.

    bench/network.py outages FILE SEED PROCESSES HORIZON    one outage a line: sender receiver begin until
    bench/network.py words SEED STREAM PLACE ..             words of a stream, in hexadecimal
    bench/network.py lengths FILE SEEDS                     how gaps and lengths are spread, over so many seeds
    bench/network.py shown FILE SCENARIO SEEDS [FDSTUDY]    whether `fdstudy show` prints what is drawn here, from seed 1

It needs Python 3.11 or later, and nothing else.
"""
import math
import os
import struct
import subprocess
import sys
import tomllib

ROOT = os.path.dirname(os.path.dirname(os.path.abspath(__file__)))
MOST_OUTAGES = 100_000
KINDS = {"bursts": 0, "cuts": 1, "pauses": 2, "replays": 3}


def chacha8_block(seed, stream, block):
    """The 16 words of one block: the seed is the first 8 of the 32 bytes of the key."""
    key = struct.unpack("<8I", struct.pack("<Q", seed) + bytes(24))
    start = [0x61707865, 0x3320646E, 0x79622D32, 0x6B206574, *key,
             block & 0xFFFFFFFF, block >> 32, stream & 0xFFFFFFFF, stream >> 32]
    x = list(start)

    def mix(a, b, c, d):
        for first, second, third, turn in ((a, b, d, 16), (c, d, b, 12), (a, b, d, 8), (c, d, b, 7)):
            x[first] = (x[first] + x[second]) & 0xFFFFFFFF
            y = x[third] ^ x[first]
            x[third] = ((y << turn) | (y >> (32 - turn))) & 0xFFFFFFFF

    for _ in range(4):
        for column in range(4):
            mix(column, column + 4, column + 8, column + 12)
        mix(0, 5, 10, 15)
        mix(1, 6, 11, 12)
        mix(2, 7, 8, 13)
        mix(3, 4, 9, 14)
    return [(a + b) & 0xFFFFFFFF for a, b in zip(x, start)]


class Words:
    """The words of a stream, in turn."""

    def __init__(self, seed, stream):
        self.seed, self.stream, self.place, self.block = seed, stream, 0, []

    def next(self):
        if self.place % 16 == 0:
            self.block = chacha8_block(self.seed, self.stream, self.place // 16)
        word = self.block[self.place % 16]
        self.place += 1
        return word


def geometric(mean, words):
    odds = (mean - 1) * 2**32 // mean
    total = 1
    for digit in range(28):
        if words.next() * (2**32 + odds) < 2**32 * odds:
            total += 2**digit
        odds = odds * odds // 2**32
    return total


def spell(said, words):
    """How many ticks a gap or a length is."""
    if isinstance(said, int):
        return said
    if "values" in said:
        return said["values"][words.next() % len(said["values"])]
    return geometric(said["mean"], words)


def first_spell(said, words):
    """How many ticks of the first gap are left at tick 0."""
    if isinstance(said, int):
        return words.next() % said
    if "values" in said:
        value = spell(said, words)
        return words.next() % value
    return spell(said, words) - 1


def episodes(table, words, horizon):
    begin = first_spell(table["gap"], words)
    while begin < horizon:
        end = begin + spell(table["length"], words)
        yield begin, min(end, horizon)
        begin = end + spell(table["gap"], words)


def replayed(table, words, horizon):
    lasts = table["lasts"]
    place = words.next() % lasts
    turn = 0
    while turn * lasts - place < horizon:
        for begin, end in sorted(table["outages"]):
            first, last = begin - place + turn * lasts, end - place + turn * lasts
            first, last = max(first, 0), min(last, horizon)
            if first < last:
                yield first, last
        turn += 1


def members(said, processes):
    return set(range(1, processes + 1)) if said == "all" else set(said)


def links(senders, receivers, both, processes):
    """By sender and then by receiver."""
    joined = {(s, r) for s in senders for r in receivers}
    if both:
        joined |= {(r, s) for s, r in joined}
    return sorted((s, r) for s, r in joined if s != r and max(s, r) <= processes)


def links_of(table, processes):
    return links(members(table["from"], processes), members(table["to"], processes), table.get("both", False),
                 processes)


def stream(kind, table, place):
    return 2**32 * (1 + 4 * table + KINDS[kind]) + place


def link_place(s, r):
    return (s - 1) * 65536 + (r - 1)


def sources(network, processes):
    """Each source: its table, whether it replays, its stream and its links."""
    for i, table in enumerate(network.get("bursts", [])):
        for s, r in links_of(table, processes):
            yield table, False, stream("bursts", i, link_place(s, r)), [(s, r)]
    for i, table in enumerate(network.get("cuts", [])):
        one, other = (members(group, processes) for group in table["between"])
        yield table, False, stream("cuts", i, 0), links(one, other, True, processes)
    for i, table in enumerate(network.get("pauses", [])):
        for p in sorted(members(table["processes"], processes)):
            if p <= processes:
                yield table, False, stream("pauses", i, p - 1), links({p}, members("all", processes), False, processes)
    for i, table in enumerate(network.get("replays", [])):
        for s, r in links_of(table, processes):
            yield table, True, stream("replays", i, link_place(s, r)), [(s, r)]


def outages(network, seed, processes, horizon):
    drawn = []
    for table, replays, number, joined in sources(network, processes):
        if not joined:
            continue
        words = Words(seed, number)
        for begin, end in (replayed if replays else episodes)(table, words, horizon):
            drawn += [(s, r, begin, end) for s, r in joined]
            if len(drawn) > MOST_OUTAGES:
                raise SystemExit("TooManyOutages")
    return drawn


def laid_links(network, scenario):
    """The tables of `links` of a run: the file's of pairs of which the network says nothing, and then the network's."""
    processes = scenario["processes"]
    said = {}
    for table in network.get("links", []):
        for pair in links_of(table, processes):
            said[pair] = (table["min"], table["max"], table.get("loss", 0))
    own = [(it["from"], it["to"], it["min"], it["max"], it["loss"]) for it in scenario.get("links", [])]
    return [it for it in own if it[:2] not in said] + [(*pair, *said[pair]) for pair in sorted(said)]


def shown(network_path, scenario_path, seeds, fdstudy):
    """Whether the file that `show` prints of each seed's run has just the links and the outages that it should have."""
    with open(network_path, "rb") as file:
        network = tomllib.load(file)
    with open(scenario_path, "rb") as file:
        scenario = tomllib.load(file)
    own = [(it["from"], it["to"], it["begin"], it["until"]) for it in scenario.get("outage", [])]
    links_wanted = laid_links(network, scenario)
    count = 0
    for seed in range(1, seeds + 1):
        words = [fdstudy, "show", scenario_path, "--network", network_path, "--seeds", f"1..={seeds}",
                 "--point", "1", "--run", str(seed)]
        text = subprocess.run(words, check=True, capture_output=True, text=True).stdout
        run = tomllib.loads(text)
        drawn = outages(network, seed, scenario["processes"], scenario["horizon"])
        got = [(it["from"], it["to"], it["begin"], it["until"]) for it in run.get("outage", [])]
        links_got = [(it["from"], it["to"], it["min"], it["max"], it["loss"]) for it in run.get("links", [])]
        others = {key: value for key, value in run.items() if key not in ("seed", "links", "outage")}
        kept = {key: value for key, value in scenario.items() if key not in ("seed", "links", "outage")}
        if run["seed"] != seed or got != own + drawn or links_got != links_wanted or others != kept:
            print(f"seed {seed}: the file that is shown differs")
            return False
        count += len(drawn)
    name = os.path.basename(network_path)
    print(f"{name}: {seeds} seeds, {len(links_wanted)} links, {count} drawn outages: the same")
    return True


def spread(draws, name, mean, wanted):
    """Whether the mean and the percentiles of draws are within 3 standard errors of those that they should have."""
    draws = sorted(draws)
    count = len(draws)
    got = sum(draws) / count
    deviation = math.sqrt(sum((x - got) ** 2 for x in draws) / (count - 1))
    good = abs(got - mean) <= 3 * deviation / math.sqrt(count) + mean * 0.0012
    print(f"{name}: {count} draws, mean {got:.2f} for {mean:.2f}: {'good' if good else 'BAD'}")
    for percent, value in wanted:
        # how many draws are below the value that should stand there, and at most it
        error = 3 * math.sqrt(count * percent / 100 * (1 - percent / 100))
        below = sum(1 for x in draws if x < value)
        within = sum(1 for x in draws if x <= value)
        fits = below - error <= count * percent / 100 <= within + error
        good = good and fits
        print(f"  {percent}th percentile {draws[min(count - 1, count * percent // 100)]} for {value}:"
              f" {'good' if fits else 'BAD'}")
    return good


def wanted_of(said):
    """The mean and the 1st, 50th and 99th percentiles that draws should have."""
    percents = (1, 50, 99)
    if isinstance(said, int):
        return said, [(p, said) for p in percents]
    if "values" in said:
        values = sorted(said["values"])
        return sum(values) / len(values), [(p, values[math.ceil(p / 100 * len(values)) - 1]) for p in percents]
    mean = said["mean"]
    if mean == 1:
        return 1, [(p, 1) for p in percents]
    stay = 1 - 1 / mean
    return mean, [(p, max(1, math.ceil(math.log(1 - p / 100) / math.log(stay)))) for p in percents]


def lengths(network, seeds):
    good = True
    for kind in ("bursts", "cuts", "pauses"):
        for i, table in enumerate(network.get(kind, [])):
            for key in ("gap", "length"):
                draws = []
                for seed in range(1, seeds + 1):
                    words = Words(seed, stream(kind, i, 0))
                    first_spell(table["gap"], words)
                    for _ in range(10):
                        length = spell(table["length"], words)
                        gap = spell(table["gap"], words)
                        draws.append(gap if key == "gap" else length)
                mean, wanted = wanted_of(table[key])
                good = spread(draws, f"{kind}[{i + 1}].{key}", mean, wanted) and good
    return good


def main(words):
    if words[:1] == ["words"]:
        seed, number = int(words[1]), int(words[2])
        for place in map(int, words[3:]):
            print(f"{chacha8_block(seed, number, place // 16)[place % 16]:08x}")
        return 0
    if words[:1] == ["shown"]:
        fdstudy = words[4] if len(words) > 4 else os.path.join(ROOT, "crates/fdstudy/out/fdstudy")
        return 0 if shown(words[1], words[2], int(words[3]), fdstudy) else 1
    if len(words) < 2:
        print(__doc__, file=sys.stderr)
        return 2
    with open(words[1], "rb") as file:
        network = tomllib.load(file)
    if words[0] == "outages":
        for outage in outages(network, *map(int, words[2:5])):
            print(*outage)
        return 0
    if words[0] == "lengths":
        return 0 if lengths(network, int(words[2])) else 1
    print(__doc__, file=sys.stderr)
    return 2


if __name__ == "__main__":
    sys.exit(main(sys.argv[1:]))
