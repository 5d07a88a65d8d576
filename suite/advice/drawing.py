"""The pictures of the page: SVG that stands in it, with the page's colours."""
import math
from html import escape

from .measuring import bins_of, percentile
from .words import ms, number, span

WIDTH, HEIGHT, LEFT, TOP, RIGHT, BOTTOM = 480, 330, 66, 34, 14, 46
BINS, PARTS = 44, 96
NARROW = 6.4  # of a letter, about


class Scale:
    """From values to places; logarithmic, or not."""

    def __init__(self, low, high, begin, end, is_log=True):
        self.low, self.high, self.begin, self.end, self.is_log = low, high, begin, end, is_log

    def at(self, value):
        if self.is_log:
            share = math.log(max(value, 1e-12) / self.low) / math.log(self.high / self.low)
        else:
            share = (value - self.low) / (self.high - self.low)
        return round(self.begin + min(1.0, max(0.0, share)) * (self.end - self.begin), 1)

    def marks(self, most):
        """Round values, at most so many."""
        if not self.is_log:
            step = 10 ** math.floor(math.log10(self.high - self.low))
            steps = [it * step for it in (0.1, 0.2, 0.5, 1, 2, 5)]
            step = next(it for it in steps if (self.high - self.low) / it <= most)
            return [round(step * it, 9) for it in range(math.ceil(self.low / step), math.floor(self.high / step) + 1)]
        decades = range(math.floor(math.log10(self.low)) - 1, math.ceil(math.log10(self.high)) + 1)
        for digits in ((1, 2, 5), (1, 3), (1,)):
            found = [round(digit * 10.0**power, 9) for power in decades for digit in digits]
            found = [it for it in found if self.low <= it <= self.high]
            if len(found) <= most:
                return found
        return found[:: -(-len(found) // most)]


def text(x, y, words, kind="", anchor="middle"):
    return f'<text x="{x}" y="{y}" class="{kind}" text-anchor="{anchor}">{escape(words)}</text>'


def frame(title, described, across, down, across_name, down_name, across_text=None, height=HEIGHT):
    """The begin of a picture, with both axes."""
    yield f'<svg viewBox="0 0 {WIDTH} {height}" role="img" aria-label="{escape(described)}">'
    yield text(LEFT, 18, title, "title", "start")
    if across:
        for value in across.marks(8):
            x = across.at(value)
            yield f'<path class="grid" d="M{x} {TOP}V{height - BOTTOM}"/>'
            yield text(x, height - BOTTOM + 16, (across_text or number)(value))
        yield text((LEFT + WIDTH - RIGHT) / 2, height - 8, across_name)
    for value in down.marks(7):
        y = down.at(value)
        yield f'<path class="grid" d="M{LEFT} {y}H{WIDTH - RIGHT}"/>'
        yield text(LEFT - 6, y + 4, number(value), "", "end")
    middle = (TOP + height - BOTTOM) / 2
    yield f'<text transform="translate(13 {middle}) rotate(-90)" text-anchor="middle">{escape(down_name)}</text>'
    yield f'<rect class="frame" x="{LEFT}" y="{TOP}" width="{WIDTH - LEFT - RIGHT}" height="{height - TOP - BOTTOM}"/>'


# ---- what was measured


def histogram(log):
    """The delays of all logs, with the percentiles."""
    delays = sorted(it for measured in log.measured for it in measured.delays)
    low, high = max(delays[0], 1e-6) * 1000, max(delays[-1], 2e-6) * 1000
    low, high = low / 1.1, max(high * 1.1, low * 1.5)
    across = Scale(low, high, LEFT, WIDTH - RIGHT)
    counts = [0] * BINS
    for it in delays:
        counts[min(BINS - 1, max(0, int(math.log(max(it, 1e-6) * 1000 / low) / math.log(high / low) * BINS)))] += 1
    top = TOP + 36  # room for the names of the lines
    down = Scale(0.7, max(counts) * 1.3, HEIGHT - BOTTOM, top)
    yield from frame("How long letters take", "Histogram of the delays", across, down, "delay one way, ms",
                     "letters (logarithmic)", lambda it: f"{it:g}")
    step = (WIDTH - LEFT - RIGHT) / BINS
    for place, count in enumerate(counts):
        if count:
            y = down.at(count)
            yield f'<rect class="bar" x="{LEFT + place * step + 0.5:.1f}" y="{y}" width="{step - 1:.1f}" ' \
                  f'height="{HEIGHT - BOTTOM - y:.1f}"/>'
    most = log.most * log.tick
    lines = [(percentile(delays, 50), "half"), (percentile(delays, 99), "99 %"), (most, "max of the files")]
    for row, (value, name) in enumerate(sorted(lines)):
        x, y = across.at(value * 1000), TOP + 13 + 13 * row
        yield f'<path class="{"most" if value == most else "mark"}" d="M{x} {y + 3}V{HEIGHT - BOTTOM}"/>'
        words = f"{name}: {ms(value)} ms"
        before = x + 4 + len(words) * NARROW > WIDTH - RIGHT
        yield text(x - 4 if before else x + 4, y, words, "", "end" if before else "start")
    yield "</svg>"


def along(measured, tick, most):
    """The losses along the time of a track, and below the greatest delays."""
    parts = bins_of(measured, PARTS)
    shares = [100 * lost / probes if probes else 0 for probes, lost, _ in parts]
    minutes = measured.seconds / 60
    across = Scale(0, minutes, LEFT, WIDTH - RIGHT, False)
    middle = 150
    down = Scale(0, max(1.0, max(shares)) * 1.05, middle, TOP, False)
    name = measured.track.name
    words = f"Losses and delays along {name if len(name) <= 30 else '..' + name[-28:]}"
    yield f'<svg viewBox="0 0 {WIDTH} {HEIGHT}" role="img" aria-label="{escape(words)}">'
    yield text(LEFT, 18, words, "title", "start")
    for value in down.marks(4):
        yield f'<path class="grid" d="M{LEFT} {down.at(value)}H{WIDTH - RIGHT}"/>'
        yield text(LEFT - 6, down.at(value) + 4, f"{value:g}", "", "end")
    delays = [it[2] * 1000 for it in parts if it[2]]
    low, high = min(delays, default=1) / 1.2, max(max(delays, default=1) * 1.2, most * 1200)
    slow = Scale(low, high, HEIGHT - BOTTOM, middle + 24)
    for value in slow.marks(5):
        yield f'<path class="grid" d="M{LEFT} {slow.at(value)}H{WIDTH - RIGHT}"/>'
        yield text(LEFT - 6, slow.at(value) + 4, f"{value:g}", "", "end")
    step = (WIDTH - LEFT - RIGHT) / PARTS
    for place, share in enumerate(shares):
        x = LEFT + place * step + 0.4
        if share:
            yield f'<rect class="lost" x="{x:.1f}" y="{down.at(share)}" width="{step - 0.8:.1f}" ' \
                  f'height="{middle - down.at(share):.1f}"/>'
        if parts[place][2]:
            yield f'<rect class="bar" x="{x:.1f}" y="{slow.at(parts[place][2] * 1000) - 1.5:.1f}" ' \
                  f'width="{step - 0.8:.1f}" height="3"/>'
    yield f'<path class="most" d="M{LEFT} {slow.at(most * 1000)}H{WIDTH - RIGHT}"/>'
    for top, bottom, words in ((TOP, middle, "lost, %"), (middle + 24, HEIGHT - BOTTOM, "greatest, ms")):
        yield f'<rect class="frame" x="{LEFT}" y="{top}" width="{WIDTH - LEFT - RIGHT}" height="{bottom - top}"/>'
        yield f'<text transform="translate(13 {(top + bottom) / 2}) rotate(-90)" text-anchor="middle">{words}</text>'
    for value in across.marks(8):
        yield text(across.at(value), HEIGHT - BOTTOM + 16, f"{value:g}")
    yield text((LEFT + WIDTH - RIGHT) / 2, HEIGHT - 8, f"minutes (in {PARTS} parts of {span(measured.seconds / PARTS)})")
    yield "</svg>"


# ---- the frontier


class Frontier:
    """The settings of one detector: detection against mistakes, by the log and by both files."""

    def __init__(self, detector, rows, log, colours, answers):
        self.rows = [it for it in rows if it.setting.detector == detector]
        self.detector, self.log, self.colours = detector, log, colours
        self.marked = {}
        for it in answers:
            row = it.best
            if row and row.setting.detector == detector:
                self.marked.setdefault(row.setting, []).append(it.wish.name)
        self.floor = 3 / log.hours
        times = [self.time(it) for it in rows]
        rates = [rate for it in rows for rate in (it.log.rate or it.log.most, it.log.most)]
        files = [each.rate for it in rows for each in (it.replayed, it.fitted) if each and each.rate]
        self.lowest = min([self.floor, *rates, *(it for it in files if it > self.floor / 300)]) / 1.6
        self.across = Scale(min(times) / 1.15, max(times) * 1.15, LEFT, WIDTH - RIGHT)
        self.down = Scale(self.lowest, max(rates + files) * 1.6, HEIGHT - BOTTOM, TOP)

    def time(self, row):
        return max(self.log.tick, row.time(1) * self.log.tick) * 1000

    def lines(self):
        name = "Freshness points" if self.detector == "freshness" else "Time-outs"
        yield from frame(name, f"{name}: detection against mistakes of a pair", self.across, self.down,
                         "a crash is detected after, 99th percentile, ms", "mistakes of a pair in an hour")
        y = self.down.at(self.floor)
        yield f'<rect class="unknown" x="{LEFT}" y="{y}" width="{WIDTH - LEFT - RIGHT}" height="{HEIGHT - BOTTOM - y:.1f}"/>'
        for letters, colour in self.colours.items():
            mine = sorted((it for it in self.rows if it.setting.letters == letters), key=lambda it: it.setting.bound)
            seen = [it for it in mine if it.log.rate]
            if len(seen) > 1:
                points = "L".join(f"{self.across.at(self.time(it))} {self.down.at(it.log.rate)}" for it in seen)
                yield f'<path class="line {colour}" d="M{points}"/>'
            for row in mine:
                yield from self.marks(row, colour)
        yield from self.names()
        yield "</svg>"

    def marks(self, row, colour):
        x, y = self.across.at(self.time(row)), self.down.at(row.log.rate or row.log.most)
        kind = f"{colour} faint" if row.is_swept and row.doubt else colour
        if row.log.rate:
            top = self.down.at(row.log.rate + row.log.error)
            bottom = self.down.at(max(self.lowest, row.log.rate - row.log.error, row.log.rate / 3))
            yield f'<path class="line {kind}" d="M{x} {top}V{bottom}"/><circle class="dot {kind}" cx="{x}" cy="{y}" r="3"/>'
        else:
            yield f'<path class="dot {kind}" d="M{x - 4:.1f} {y - 3:.1f}h8l-4 7z"/>'
        if row.replayed and row.replayed.rate >= self.lowest:
            yield f'<circle class="line {kind}" cx="{x}" cy="{self.down.at(row.replayed.rate)}" r="5.5"/>'
        if row.fitted and row.fitted.rate >= self.lowest:
            at = self.down.at(row.fitted.rate)
            yield f'<path class="line {kind}" d="M{x - 4.5:.1f} {at - 4.5:.1f}l9 9m0 -9l-9 9"/>'

    def names(self):
        """The settings that wishes got, with the wishes' names, each a line lower than the one before."""
        rows = sorted((it for it in self.rows if it.setting in self.marked), key=self.time)
        for place, row in enumerate(rows):
            x, y = self.across.at(self.time(row)), self.down.at(row.log.rate or row.log.most)
            words = ", ".join(self.marked[row.setting])
            left = x + len(words) * NARROW + 12 > WIDTH - RIGHT
            up = TOP + 16 + 14 * place
            yield f'<path class="mark" d="M{x} {y - 8:.1f}V{up + 3}"/><circle class="chosen" cx="{x}" cy="{y}" r="8"/>'
            yield text(x - 5 if left else x + 5, up, words, "strong", "end" if left else "start")


def frontier(detector, rows, log, colours, answers):
    return Frontier(detector, rows, log, colours, answers).lines()
