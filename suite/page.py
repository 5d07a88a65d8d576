#!/usr/bin/env python3
"""page.py [--from FOLDER] [--to FOLDER] [--pages FOLDER]: what the rows of the suite come to.

Reads frontiers.csv and consensus.csv of the one folder (results/), and writes settings.csv, wishes.csv, theory.csv and a
picture of each network, NETWORK.svg, to the other: to results/ and pictures/ where none is named. There, or in the
folder of --pages, it also puts the tables of README.md and details.md in their places, and with these decisions.csv
beside the others. It prints the table of settings.
"""
import argparse
import csv
import functools
import math
import os
import re
import sys
from collections import Counter

sys.dont_write_bytecode = True
from suite import HOME, LETTERS, WISHES, networks, time_outs, up_to  # noqa: E402

HOUR = 3600
AT_MOST = {"quick": 60.0, "middle": 1.0, "safe": 0.01}  # mistakes of a pair in an hour
WORDS = 2**32
FEW_RUNS = 10  # with mistakes
PAGES = ("README.md", "details.md")


def rows(folder, name):
    with open(os.path.join(folder, name + ".csv"), encoding="ascii", newline="") as file:
        return list(csv.DictReader(file))


def write(folder, name, lines):
    with open(os.path.join(folder, name + ".csv"), "w", encoding="utf-8", newline="") as file:
        csv.writer(file, lineterminator="\n").writerows(lines)


# ---- rates


class Rates:
    """The mistakes of a pair in an hour, of a row, and what they are at most, with 95 % confidence. Where so many pairs
    fail together, they are as few mistakes as hours as long as less than ten runs have one. The time before a suspicion
    may begin counts in twins alone."""

    def __init__(self, row, network, tick_us=None, opening=0, together=1):
        mistakes, runs = int(row["mistakes"]), int(row["runs"])
        tick = (tick_us or int(network.line["tick_us"])) / 1e6
        self.hours = (int(row["pair_ticks"]) - opening * runs * len(network.pairs)) * tick / HOUR
        self.mistakes = mistakes
        self.together = together
        # by how much a run's mistakes vary more than a Poisson number: with the reduction all take over one's mistake
        bunch = network.count - 1 if row.get("watch") == "shared" else 1
        if mistakes and runs > 1:
            square = int(row["mistakes_squared_sum"])
            bunch = max(1.0, (square - mistakes * mistakes / runs) / (runs - 1) / (mistakes / runs))
        if together > 1 and int(row["runs_with_mistakes"]) < FEW_RUNS:
            bunch = max(bunch, together)
        self.rate = mistakes / self.hours
        self.most = bunch * most_of(mistakes / bunch) / self.hours
        self.least = bunch * least_of(mistakes / bunch) / self.hours

    @property
    def hours_apart(self):
        """Hours of what fails apart: of the network, of a machine or of a pair."""
        return self.hours / self.together

    def is_sure(self):
        """Whether it rests on 100 mistakes, or is told by the hour."""
        return self.mistakes >= 100 or self.rate >= 1

    def text(self):
        return number(self.rate) if self.is_sure() else f"< {number(self.most)}"


def rates_of(row, network):
    """Those of a row of frontiers.csv."""
    if not network.laid:
        return Rates(row, network)
    bound, period = int(row["bound"]), int(row["period"])
    if row["detector"] == "freshness":
        opening = period + bound
    else:
        opening = up_to(bound, time_outs(network, period, 0, "full")["check"])
    return Rates(row, network, opening=opening, together=network.together)


def most_of(count):
    """What a Poisson number is at most on the mean, at 95 %, where `count` was seen (by Wilson and Hilferty's form)."""
    if count == 0:
        return 3.0
    more = count + 1
    return more * (1 - 1 / (9 * more) + 1.6449 / (3 * math.sqrt(more))) ** 3


def least_of(count):
    """What a Poisson number is at least on the mean, at 95 %."""
    if count == 0:
        return 0.0
    return count * max(0.0, 1 - 1 / (9 * count) - 1.6449 / (3 * math.sqrt(count))) ** 3


def number(value):
    """Two places that count, with commas."""
    if value == 0:
        return "0"
    places = 1 - math.floor(math.log10(value))
    return f"{round(value, places):,.{max(0, places)}f}"


class Scale:
    """Ticks of a network in milliseconds."""

    def __init__(self, network):
        self.tick = int(network.line["tick_us"]) / 1000

    def text(self, ticks):
        return "" if ticks == "" else f"{round(float(ticks) * self.tick):,}"

    def exact(self, ticks):
        value = f"{float(ticks) * self.tick:,.1f}"
        return value.removesuffix(".0")


# ---- settings by wish


def settings(frontiers, found):
    """For each network, detector, rate of letters and wish the row that detects soonest (by the 99th percentile) of
    those whose mistakes are at most what is wished, at 95 %."""
    chosen = {}
    for name, network in found.items():
        for detector in ("freshness", "timeouts"):
            for letters in LETTERS:
                kind = name, detector, "all", str(letters)
                mine = [it for it in frontiers if (it["network"], it["detector"], it["watch"], it["letters"]) == kind]
                for wish in WISHES:
                    fit = [it for it in mine if rates_of(it, network).most <= AT_MOST[wish] and it["detection_p99"]]
                    if fit:
                        by = min(fit, key=lambda it: (int(it["detection_p99"]), it["at"] != "full"))
                        chosen[name, detector, letters, wish] = by
    return chosen


def why_none(frontiers, network, detector, letters, wish):
    """Where no setting was shown to do it: whether some may do it, which ran for too few hours to be shown. Where none was
    tried it says nothing."""
    kind = network.name, detector, "all", str(letters)
    mine = [it for it in frontiers if (it["network"], it["detector"], it["watch"], it["letters"]) == kind]
    if not mine:
        return ""
    return "not shown" if any(rates_of(it, network).least <= AT_MOST[wish] for it in mine) else "none"


def settings_lines(chosen, found):
    yield ["network", "wish", "detector", "letters", "row", "period_ms", "bound_ms", "p50_ms", "p99_ms", "greatest_ms",
           "mistakes", "pair_hours", "mistakes_an_hour", "at_most_an_hour", "mistaken_ppm"]
    for (name, detector, letters, wish), row in chosen.items():
        rates, scale = rates_of(row, found[name]), Scale(found[name])
        times = [scale.exact(row[it]).replace(",", "") for it in (
            "period", "bound", "detection_p50", "detection_p99", "detection_max")]
        yield [name, wish, detector, letters, row["row"], *times, row["mistakes"], f"{rates.hours:.1f}",
               f"{rates.rate:.3g}", f"{rates.most:.3g}", row["mistaken_ppm"]]


def wishes_lines(chosen, found, frontiers):
    """The settings of each twin, and beside them its network's own one, and what that makes of the twin; of a network
    without a twin its own alone. Times are in milliseconds, detections the median, the 99th percentile and the
    greatest."""
    yield ["network", "wish", "delta", "detected", "mistakes_an_hour", "timeout", "detected_by_time_outs",
           "mistakes_by_time_outs", "p99_by_fewer_letters", "delta_one_by_one", "p99_one_by_one", "mistakes_one_by_one",
           "its_mistakes_in_twin"]
    by_name, have = {it["row"]: it for it in frontiers}, {it.line["over"] for it in found.values()}
    for twin in (it for it in found.values() if it.name not in have):
        scale, network = Scale(twin), found.get(twin.line["over"])
        for wish in WISHES:
            cells = []
            for detector in ("freshness", "timeouts"):
                row = chosen.get((twin.name, detector, LETTERS[0], wish))
                if row is None:
                    cells += [why_none(frontiers, twin, detector, LETTERS[0], wish), "", ""]
                    continue
                cells += [scale.exact(row["bound"]), detected(row, scale), rates_of(row, twin).text()]
            fewer = []
            for letters in LETTERS[1:]:
                row = chosen.get((twin.name, "freshness", letters, wish))
                fewer.append(scale.text(row["detection_p99"]) if row else
                             why_none(frontiers, twin, "freshness", letters, wish))
            cells.append(" ".join(it.replace(" ", "_") for it in fewer if it))
            cells += one_by_one(chosen.get((network.name, "freshness", LETTERS[0], wish)), network, twin, by_name) \
                if network else [""] * 4
            yield [twin.line["over"] or twin.name, wish, *cells]


def settings_table(lines):
    """Of the lines of wishes.csv what the page shows."""
    yield from head_of(["Network, wish", "`delta`", "Detected", "Mistakes", "`timeout`", "Detected", "Mistakes",
                        "`delta`, one by one"])
    for name, wish, *cells in lines[1:]:
        yield row_of([f"{name} {wish}", *cells[:6], cells[7]])


def detected(row, scale):
    return "/".join(scale.text(row[f"detection_{it}"]) or "∞" for it in ("p50", "p99", "max"))


def one_by_one(row, network, twin, by_name):
    """What is found where losses come one by one, and what that makes of the twin."""
    if row is None:
        return ["none", "", "", ""]
    there = by_name.get(f"{twin.name}:freshness:all:{LETTERS[0]}:{row['bears']}") if row["at"] == "full" else None
    scale = Scale(network)
    return [scale.exact(row["bound"]), scale.text(row["detection_p99"]), rates_of(row, network).text(),
            rates_of(there, twin).text() if there else ""]


# ---- closed forms


def words_below(count, modulus):
    """Of all 32-bit words the share whose rest by `modulus` is below `count`."""
    return (WORDS // modulus * count + min(count, WORDS % modulus)) / WORDS


class Link:
    """The letters of a link; cookbook/theory has the closed forms, and where they come from."""

    def __init__(self, link):
        self.least, self.most, loss = link
        self.kept = 1 - words_below(loss, 1000)

    def came(self, ticks):
        """F: the probability that a letter comes within so many ticks of its sending."""
        delays = self.most - self.least + 1
        return self.kept * words_below(min(max(ticks - self.least + 1, 0), delays), delays)


class Freshness(Link):
    """What freshness points make of a link."""

    def __init__(self, link, eta, delta):
        super().__init__(link)
        self.eta, self.delta = eta, delta
        self.heartbeats = max(0, (delta + eta - 1 - self.least) // eta + 1)

    def first_missing(self, count):
        return math.prod(1 - self.came(self.delta - j * self.eta) for j in range(count))

    def one_before(self):
        return self.came(self.delta + self.eta - 1)

    def start(self):
        """A mistake starts at a point, from the second on."""
        return self.one_before() * self.first_missing(self.heartbeats)

    def points(self, end):
        return max(0, (end - 1 - self.delta) // self.eta)

    def mistakes(self, end):
        """The expected number up to a tick."""
        if self.points(end) == 0:
            return 0
        return self.first_missing(self.heartbeats) + (self.points(end) - 1) * self.start()

    def variance(self, end):
        return self.points(end) * self.variance_of_a_point

    @functools.cached_property
    def variance_of_a_point(self):
        square, later = self.start() ** 2, 0
        for apart in range(1, self.heartbeats + 1):
            between = self.one_before() - self.came(self.delta - (apart - 1) * self.eta)
            later += self.first_missing(apart - 1) * between * self.start() - square
        return self.start() - square + 2 * later


class TimeOuts(Link):
    """What time-outs that don't grow make of a link."""

    def __init__(self, link, period, check, time_out):
        super().__init__(link)
        self.period, self.check, self.time_out = period, check, time_out

    def none_by(self, tick, first):
        """By the tick there came none of the letters sent `first` periods after tick 0 and later."""
        return math.prod(1 - self.came(tick - it) for it in range(first * self.period, tick + 1, self.period))

    def mistakes(self, end):
        """The expected number up to a tick: after each letter, and before the first."""
        opening = up_to(self.time_out, self.check)
        letters = [(it, max(0, (end - 1 - at) // self.period + 1)) for it, at in self.starts]
        return (self.none_by(opening, 0) if opening < end else 0) + sum(it * count for it, count in letters)

    @functools.cached_property
    def starts(self):
        """Of each delay the probability that a letter takes it and a mistake starts before another comes, and when it
        starts, counted from the letter's sending."""
        ats = [(delay, up_to(delay + self.time_out, self.check)) for delay in range(self.least, self.most + 1)]
        return [((self.came(delay) - self.came(delay - 1)) * self.none_by(at, 1), at) for delay, at in ats]

    def variance(self, end):
        """That of a Poisson number."""
        return self.mistakes(end)


def crash_ticks(row, network):
    """The ticks at which process 2 crashes in the runs of a row."""
    if not row["crashes"]:
        return [network.file["crash"][0]["at"]]
    first, last, step = (int(it) for it in re.fullmatch(r"(\d+)\.\.=(\d+):(\d+)", row["crashes"]).groups())
    return list(range(first, last + 1, step))


def form_of(row, network, link):
    period, bound = int(row["period"]), int(row["bound"])
    if row["detector"] == "freshness":
        return Freshness(link, period, bound)
    return TimeOuts(link, period, time_outs(network, period, 0, "full")["check"], bound)


def expected(row, network):
    """The mistakes of all runs of a row, and their standard error."""
    crashes, horizon, runs = crash_ticks(row, network), int(row["horizon"]), int(row["runs"])
    kinds = Counter((link, 2 in pair) for pair, link in network.links.items())
    mean = variance = 0.0
    for (link, does_crash), pairs in kinds.items():
        theory = form_of(row, network, link)
        ends = crashes if does_crash else [horizon]
        mean += pairs * runs * sum(map(theory.mistakes, ends)) / len(ends)
        variance += pairs * runs * sum(map(theory.variance, ends)) / len(ends)
    return mean, math.sqrt(variance)


def theory_lines(frontiers, found):
    """Of each row in which all watch all what the closed forms say, and how far it is off."""
    yield ["row", "mistakes_expected", "standard_error", "mistakes", "errors_off", "detection_bound", "detection_max",
           "above_bound", "detection_p50_expected", "detection_p50"]
    for row in frontiers:
        network, forms, median = found[row["network"]], ["", "", row["mistakes"], ""], ""
        if row["watch"] != "all" or network.laid:
            continue
        period = int(row["period"])
        if row["detector"] == "freshness":
            # the next heartbeat would have been sent at the next multiple of the period
            sure = sorted(-it % period + int(row["bound"]) for it in crash_ticks(row, network))
            median = sure[(len(sure) - 1) // 2]
        if "outage" not in network.file:
            mean, error = expected(row, network)
            off = f"{(int(row['mistakes']) - mean) / error:.2f}" if error > 0 else ""
            forms = [f"{mean:.4g}" if mean < 1000 else f"{mean:.0f}", f"{error:.3g}", row["mistakes"], off]
        # rows of an older program have no bound
        longest, bound = row["detection_max"], row.get("detection_bound", "")
        above = int(longest) - int(bound) if longest and bound else ""
        yield [row["row"], *forms, bound, longest, above, median, row["detection_p50"]]


def theory_table(lines):
    """How far the rows are off, where ten mistakes are expected."""
    yield from head_of(["Rows", "How many", "Off by at most 1", "2", "3 standard errors",
                        "Longest detection less its bound, ticks"])
    head, *lines = lines
    found = [dict(zip(head, it)) for it in lines]
    for detector, words in (("freshness", "freshness points"), ("timeouts", "time-outs, just beyond the delays")):
        mine = [it for it in found if f":{detector}:" in it["row"]]
        above = [it["above_bound"] for it in mine if it["above_bound"] != ""]
        mine = mine if detector == "freshness" else [it for it in mine if "-" not in it["row"]]
        off = [abs(float(it["errors_off"])) for it in mine if it["errors_off"] and float(it["mistakes_expected"]) >= 10]
        within = " | ".join(str(sum(it <= errors for it in off)) for errors in (1, 2, 3))
        least_most = f"{min(above)} to {max(above)}" if above else ""
        yield f"{words} | {len(off)} | {within} | {least_most}"


def theory_curve(network, letters, least, most):
    """The bound on the detection and the mistakes of a pair in an hour, of each `delta`."""
    eta, tick = network.period(letters), int(network.line["tick_us"]) / 1e6
    kinds = Counter(network.links.values())
    # elsewhere between two periods nothing changes
    near = range(min(it[0] for it in kinds) - 1, network.slowest[1] + 2)
    deltas = {least, most, *(periods * eta + it for periods in range(most // eta + 1) for it in near)}
    for delta in sorted(it for it in deltas if least <= it <= most):
        start = sum(pairs * Freshness(link, eta, delta).start() for link, pairs in kinds.items()) / sum(kinds.values())
        if start > 0:
            yield (eta + delta - 1) * tick * 1000, start * HOUR / (eta * tick)


# ---- pictures


COLOURS = {10: "#0072b2", 5: "#009e73", 2: "#d55e00", 1: "#a3519b"}
WIDTH, HEIGHT, LEFT, TOP, RIGHT, BOTTOM = 1080, 560, 80, 50, 240, 60


class Axes:
    """Two logarithmic axes."""

    def __init__(self, xs, ys):
        self.x = math.log10(min(xs)) - 0.05, math.log10(max(xs)) + 0.05
        self.y = math.floor(math.log10(min(ys))), math.ceil(math.log10(max(ys)))

    def across(self, x):
        return f"{LEFT + (math.log10(x) - self.x[0]) / (self.x[1] - self.x[0]) * (WIDTH - LEFT - RIGHT):.1f}"

    def down(self, y):
        inside = (math.log10(y) - self.y[0]) / (self.y[1] - self.y[0])
        return f"{HEIGHT - BOTTOM - inside * (HEIGHT - TOP - BOTTOM):.1f}"

    def ticks(self):
        """Of the axis across."""
        decades = range(math.floor(self.x[0]), math.ceil(self.x[1]) + 1)
        every = [digit * 10**it for it in decades for digit in (1, 2, 5)]
        return [it for it in every if self.x[0] <= math.log10(it) <= self.x[1]]

    def frame(self):
        for x in self.ticks():
            at = self.across(x)
            yield f'<path class="grid" d="M{at} {TOP}V{HEIGHT - BOTTOM}"/>'
            label = f"{x:,.0f}" if x >= 1 else f"{x:g}"
            yield f'<text x="{at}" y="{HEIGHT - BOTTOM + 18}" text-anchor="middle">{label}</text>'
        for power in range(self.y[0], self.y[1] + 1):
            at = self.down(10.0**power)
            yield f'<path class="grid" d="M{LEFT} {at}H{WIDTH - RIGHT}"/>'
            label = f"{10**power:,}" if power >= 0 else f"{10.0**power:.{-power}f}"
            yield f'<text x="{LEFT - 8}" y="{at}" dy="4" text-anchor="end">{label}</text>'
        yield f'<rect class="frame" x="{LEFT}" y="{TOP}" width="{WIDTH - LEFT - RIGHT}" ' \
              f'height="{HEIGHT - TOP - BOTTOM}"/>'
        yield f'<text x="{(LEFT + WIDTH - RIGHT) // 2}" y="{HEIGHT - 14}" text-anchor="middle">' \
              "a crash is detected after, 99th percentile (ms)</text>"
        yield f'<text transform="translate(18 {(TOP + HEIGHT - BOTTOM) // 2}) rotate(-90)" text-anchor="middle">' \
              "mistakes of a pair in an hour</text>"


def mark(detector, x, y, colour):
    if detector == "freshness":
        return f'<circle cx="{x}" cy="{y}" r="3.2" fill="{colour}"/>'
    return f'<rect x="{float(x) - 4.5:.1f}" y="{float(y) - 4.5:.1f}" width="9" height="9" fill="none" ' \
           f'stroke="{colour}" stroke-width="1.8"/>'


def drawn(row, network, axes):
    """A row's marks: what was seen, and where that is too little, up to what it is at most."""
    tick, rates, colour = int(network.line["tick_us"]) / 1000, rates_of(row, network), COLOURS[int(row["letters"])]
    median, x, greatest = (int(row[f"detection_{it}"]) * tick for it in ("p50", "p99", "max"))
    y = rates.rate if rates.mistakes else rates.most
    yield f'<path class="line" stroke="{colour}" ' \
          f'd="M{axes.across(max(median, tick))} {axes.down(y)}H{axes.across(greatest)}"/>'
    if not rates.mistakes:
        at, down = float(axes.across(x)), float(axes.down(y))
        inside = colour if row["detector"] == "freshness" else "none"
        yield f'<path fill="{inside}" stroke="{colour}" d="M{at - 5:.1f} {down - 4:.1f}h10l-5 9z"/>'
        return
    if not rates.is_sure():
        yield f'<path class="line" stroke="{colour}" ' \
              f'd="M{axes.across(x)} {axes.down(y)}V{axes.down(rates.most)}m-4 0h8"/>'
    yield mark(row["detector"], axes.across(x), axes.down(y), colour)


def legend():
    """The legend, down the right margin."""
    x, grey = WIDTH - RIGHT + 16, "#555"
    signs = [(f'<rect x="{x}" y="-9" width="18" height="9" fill="{colour}"/>',
              f"{letters} letter{'s' * (letters > 1)} a second") for letters, colour in COLOURS.items()]
    signs += [(mark("freshness", x + 9, -4, grey), "freshness points"),
              (mark("timeouts", x + 9, -4, grey), "time-outs"),
              (f'<path fill="{grey}" d="M{x + 4} -8h10l-5 9z"/>', "none seen: at most (95 %)"),
              (f'<path class="line" stroke="{grey}" d="M{x} -4h18"/>', "median to greatest detection"),
              (f'<path class="line" stroke="{grey}" d="M{x + 9} -12v14m-4 0h8"/>', "up to at most (95 %)"),
              (f'<path class="line closed" stroke="{grey}" d="M{x} -4h18"/>', "closed form, freshness points")]
    for place, (sign, words) in enumerate(signs):
        yield f'<g transform="translate(0 {TOP + 12 + 18 * place})">{sign}<text x="{x + 26}">{words}</text></g>'


def title_of(network):
    title = network.text[2 : network.text.index("\n")].split(";")[0].rstrip(".")
    return title + (", with " + " and ".join(network.laid) if network.laid else "")


def picture(network, frontiers):
    mine = [it for it in frontiers if it["network"] == network.name and it["watch"] == "all" and it["detection_p99"]]
    tick = int(network.line["tick_us"]) / 1000
    lows = [int(it["detection_p50"]) * tick for it in mine]
    rates = [rates_of(it, network) for it in mine]
    curves = {}
    for letters in LETTERS:
        deltas = [int(it["bound"]) for it in mine if it["detector"] == "freshness" and int(it["letters"]) == letters]
        if deltas and "outage" not in network.file and not network.laid:
            curves[letters] = list(theory_curve(network, letters, min(deltas), max(deltas)))
    heights = [it.rate or it.most for it in rates]
    floor = min(heights) / 3
    axes = Axes([max(it, tick) for it in lows] + [int(it["detection_max"]) * tick for it in mine],
                [floor, max(heights + [it.most for it in rates])])
    title = title_of(network)
    yield f'<svg xmlns="http://www.w3.org/2000/svg" viewBox="0 0 {WIDTH} {HEIGHT}" width="{WIDTH}" height="{HEIGHT}" ' \
          'font-family="sans-serif" font-size="13" fill="#222">'
    yield "<style>.line,.grid,.frame{fill:none}.grid{stroke:#ddd}.frame{stroke:#222}" \
          ".closed{stroke-dasharray:5 3}</style>"
    yield f'<rect width="{WIDTH}" height="{HEIGHT}" fill="#fff"/>'
    yield f'<text x="{(LEFT + WIDTH - RIGHT) // 2}" y="28" text-anchor="middle" font-size="17">' \
          f"{title}: detection against mistakes</text>"
    yield from axes.frame()
    lowest = 10.0 ** axes.y[0]
    for letters, curve in curves.items():
        shown = [(x, max(y, lowest)) for x, y in curve if math.log10(x) <= axes.x[1]]
        line = "L".join(f"{axes.across(x)} {axes.down(y)}" for x, y in shown)
        yield f'<path class="line closed" stroke="{COLOURS[letters]}" d="M{line}"/>'
    for row in sorted(mine, key=lambda it: it["detector"], reverse=True):
        yield from drawn(row, network, axes)
    yield from legend()
    yield "</svg>"


# ---- consensus


def decisions_lines(consensus, found):
    """Of each row of consensus.csv by when all have decided, in milliseconds, and how; an empty field is infinite."""
    yield ["row", "p50_ms", "p99_ms", "all_decided_percent", "rounds_p50", "letters", "disagreements"]
    for row in consensus:
        scale, share = Scale(found[row["network"]]), 100 * int(row["all_decided"]) / int(row["runs"])
        yield [row["row"], *decided(row, scale), f"{share:.1f}", row["rounds_p50"], f"{letters_of(row):.0f}",
               row["disagreements"]]


def decided(row, scale):
    return [scale.text(row[f"last_decision_{it}"]).replace(",", "") for it in ("p50", "p99")]


SURE = ("sure", "bursts", "lossy")  # of these links the first that were run over are shown
CRASHES = (("none",), ("first", "worst"), ("two",))


def consensus_table(consensus, found):
    """By when all have decided with the middle setting of freshness points, over each network and its twin. A rack
    differs by its delays alone."""
    kinds = [f"{algorithm}: {crashed}" for algorithm in ("rotating", "vectors") for crashed in ("none", "first", "two")]
    yield from head_of(["Network", *kinds])
    by_name = {it["row"]: it for it in consensus}
    for name in dict.fromkeys(it["network"] for it in consensus if not it["network"].startswith("rack_")):
        cells = []
        for algorithm, crashes in ((algorithm, crashes) for algorithm in ("es", "s") for crashes in CRASHES):
            rows_of = (by_name.get(f"{name}:{algorithm}:freshness:middle:{crash}:{links}")
                       for links in SURE for crash in crashes)
            row = next(filter(None, rows_of), None)
            cells.append("/".join(f"{int(it):,}" if it else "∞" for it in decided(row, Scale(found[name]))) if row else "")
        yield row_of([name, *cells])


def letters_of(row):
    """The letters of the algorithm in a run, on the mean."""
    return (int(row["sent"]) - int(row["detector_letters"])) / int(row["runs"])


def head_of(names):
    """The first two lines of a table without outer bars, of which no first cell may be empty."""
    return " | ".join(names), "|".join(["---"] * len(names))


def row_of(cells):
    """A row of such a table; those that are empty at its end are left out."""
    return " | ".join(cells).rstrip("| ")


def placed(page, name, table):
    """The page with the table in its place."""
    lines = "\n".join(table)
    return re.sub(rf"(<!-- {name} -->\n)(?:.*\|.*\n)*", lambda it: f"{it[1]}{lines}\n", page)


def main():
    words = argparse.ArgumentParser(description=__doc__.partition("\n")[0])
    words.add_argument("--from", dest="home", default=os.path.join(HOME, "results"))
    words.add_argument("--to")
    words.add_argument("--pages", help="the folder of the pages that get the tables, where it isn't this one")
    asked = words.parse_args()
    frontiers = rows(asked.home, "frontiers")
    found = {it.name: it for it in networks(sorted({it["network"] for it in frontiers}))}
    chosen = settings(frontiers, found)
    tables = asked.to or os.path.join(HOME, "results")
    pictures = asked.to or os.path.join(HOME, "pictures")
    for folder in (tables, pictures):
        os.makedirs(folder, exist_ok=True)
    wishes, theory = list(wishes_lines(chosen, found, frontiers)), list(theory_lines(frontiers, found))
    write(tables, "settings", settings_lines(chosen, found))
    write(tables, "wishes", ([it.replace(",", "") for it in line] for line in wishes))
    write(tables, "theory", theory)
    for name, network in found.items():
        with open(os.path.join(pictures, name + ".svg"), "w", encoding="utf-8") as file:
            file.write("\n".join(picture(network, frontiers)) + "\n")
    wished = list(settings_table(wishes))
    print("\n".join(wished))
    if asked.to is None or asked.pages:
        consensus = rows(asked.home, "consensus")
        write(tables, "decisions", decisions_lines(consensus, found))
        fill(asked.pages, {"settings": wished, "theory": theory_table(theory),
                           "consensus": consensus_table(consensus, found)})


def fill(folder, tables):
    """Puts the tables in their places, on whichever page that is."""
    lines = {name: list(table) for name, table in tables.items()}
    for name in PAGES:
        path = os.path.join(folder or HOME, name)
        with open(path, encoding="utf-8") as file:
            page = file.read()
        for table, its in lines.items():
            page = placed(page, table, its)
        with open(path, "w", encoding="utf-8") as file:
            file.write(page)


if __name__ == "__main__":
    main()
