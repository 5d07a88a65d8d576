"""What the probes have: losses, bursts, stalls, delays, and how long they were sent."""
import math
from dataclasses import dataclass

from .words import ms

HOUR = 3600
SHOWN = (50, 90, 95, 99, 99.9)


def percentile(values, percent):
    """By nearest rank, of sorted values."""
    return values[max(0, math.ceil(round(percent / 100 * len(values), 6)) - 1)]


def runs_of(flags):
    """The runs of what is true: where each begins, and how long it is."""
    found, begin = [], None
    for place, flag in enumerate(flags):
        if flag and begin is None:
            begin = place
        elif not flag and begin is not None:
            found.append((begin, place - begin))
            begin = None
    if begin is not None:
        found.append((begin, len(flags) - begin))
    return found


@dataclass
class Stall:
    """Letters that came together, one behind the other, after nothing had come for a while."""

    at: float  # since the log's begin
    lasts: float
    letters: int


class Measured:
    """A track, measured."""

    def __init__(self, track, one_way):
        self.track, self.one_way = track, one_way
        self.delays = sorted(it for stretch in track.stretches for it in stretch.delays if it is not None)
        self.probes = sum(len(it.delays) for it in track.stretches)
        self.lost = self.probes - len(self.delays)
        self.seconds = sum(len(it.delays) * it.interval for it in track.stretches)
        bursts = [(begin * it.interval, length, it.interval) for it in track.stretches
                  for begin, length in runs_of([delay is None for delay in it.delays])]
        self.bursts = [length for _, length, _ in bursts]
        self.longest_burst = max((length * interval for _, length, interval in bursts), default=0)
        self.stalls, company = [], set()
        if self.delays:
            self.late = percentile(self.delays, 95)
            self.stalls, company = self.found_stalls()
        alone = sorted(delay for number, stretch in enumerate(track.stretches)
                       for place, delay in enumerate(stretch.delays)
                       if delay is not None and (number, place) not in company)
        self.least = percentile(self.delays, 0.1) if self.delays else 0.0
        self.most = percentile(alone or self.delays, 99.9) if self.delays else 0.0

    @property
    def hours(self):
        return self.seconds / HOUR

    @property
    def intervals(self):
        """The intervals of the stretches, rising, each once."""
        return sorted({it.interval for it in self.track.stretches})

    def found_stalls(self):
        """The stalls; and the letters that are late in company: one of two neighbours that are both among the latest in
        20, of which the second came at most half an interval after the first."""
        stalls, company, before = [], set(), 0.0
        for number, stretch in enumerate(self.track.stretches):
            steep = stretch.interval * (0.5 if self.one_way else 0.25)
            late = [it is not None and it > self.late for it in stretch.delays]
            pairs = [late[at] and late[at + 1] and stretch.delays[at] - stretch.delays[at + 1] >= steep
                     for at in range(len(late) - 1)]
            for begin, count in runs_of(pairs):
                company |= {(number, it) for it in range(begin, begin + count + 1)}
                lasts = stretch.delays[begin] * (1 if self.one_way else 2)
                if lasts >= 2 * stretch.interval:
                    stalls.append(Stall(before + begin * stretch.interval, lasts, count + 1))
            before += len(stretch.delays) * stretch.interval
        return stalls, company

    def lost_or_late(self, stretch):
        """Of each probe whether a file that has delays up to `most` takes it as lost."""
        return [it is None or it > self.most for it in stretch.delays]

    def of_letter(self, delay):
        """How long a letter takes: of a round trip half, but what is too much of it whole, as if it were of one way."""
        return delay if self.one_way or delay <= self.most else 2 * delay - self.most

    def longest_silence(self):
        """The longest time that nothing came in time, in seconds."""
        found = [length * it.interval for it in self.track.stretches for _, length in runs_of(self.lost_or_late(it))]
        return max(found, default=0.0)


def tick_of(measured):
    """How long a tick is, in seconds: a tenth of a millisecond where most delays are below 5 of these."""
    typical = max(percentile(it.delays, 90) if it.delays else 0.0 for it in measured)
    return 0.0001 if 0 < typical < 0.005 else 0.001


def bins_of(measured, count):
    """The time of a track cut into so many parts: of each how many probes there were, how many were lost, and the
    greatest delay."""
    parts = [[0, 0, 0.0] for _ in range(count)]
    done, whole = 0.0, measured.seconds
    for stretch in measured.track.stretches:
        for place, delay in enumerate(stretch.delays):
            part = parts[min(count - 1, int((done + place * stretch.interval) / whole * count))]
            part[0] += 1
            if delay is None:
                part[1] += 1
            else:
                part[2] = max(part[2], delay)
        done += len(stretch.delays) * stretch.interval
    return parts


def summary(measured):
    """What a track has, as names with their values."""
    bursts, probes = measured.bursts, measured.probes
    yield "probes", f"{probes:,}"
    yield "sent every", ", ".join(f"{ms(it)} ms" for it in measured.intervals)
    yield "lost", f"{measured.lost:,} ({100 * measured.lost / probes:.2g} %)"
    if bursts:
        yield "in bursts", f"{len(bursts):,}, of {sum(bursts) / len(bursts):.1f} on the mean"
        yield "longest burst", f"{max(bursts):,} in a row, {ms(measured.longest_burst)} ms"
    if measured.delays:
        yield "least delay", f"{ms(measured.delays[0])} ms"
        for it in SHOWN:
            yield f"{it:g} % within", f"{ms(percentile(measured.delays, it))} ms"
        yield "greatest delay", f"{ms(measured.delays[-1])} ms"
    stalls = measured.stalls
    yield "stalls", f"{len(stalls)}, the longest {ms(max(it.lasts for it in stalls))} ms" if stalls else "none"
