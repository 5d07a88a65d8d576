"""Both detectors, counted straight from delays and losses, by the definitions of docs/detectors.md.

Here letters of one pair are sent each `period` ticks, and `delays` has of each how many ticks it takes, or None where it
is lost. The run begins at tick 0 and ends before its horizon; nobody crashes in it. A suspicion is a pair of ticks: the
first at whose end the observer suspects the subject, and the first at whose end it doesn't any more, or the horizon.

Most letters come in time and change nothing. So the letters are put in order once, by how late they are, and a setting
looks only at those that are too late for it.
"""
import math
from bisect import bisect_left
from collections import Counter
from itertools import accumulate

NEVER = math.inf


class Heartbeats:
    """Letters of a run, for freshness points: the first is sent at tick `period`. Bounds are `floor` ticks at least."""

    def __init__(self, delays, period, horizon=None, floor=0):
        self.delays, self.period = delays, period
        self.horizon = (len(delays) + 1) * period if horizon is None else horizon
        taken = [NEVER if it is None else it for it in delays]
        late = [place for place, it in enumerate(taken) if it > floor]
        self.latest = sorted(late, key=taken.__getitem__, reverse=True)
        self.lateness = [-taken[it] for it in self.latest]

    def first_after(self, letter):
        """When the first of this letter and all later ones comes."""
        first = NEVER
        for place in range(letter, len(self.delays)):
            if (place + 1) * self.period >= first:
                break
            if self.delays[place] is not None:
                first = min(first, (place + 1) * self.period + self.delays[place])
        return first

    def later_than(self, ticks):
        """The letters that take more than so many ticks, in order."""
        return sorted(self.latest[: bisect_left(self.lateness, -ticks)])

    def suspicions(self, delta):
        """Letter k is trusted from when it comes until the point of the next one, which is `period` and `delta` ticks
        after its sending. Between these times of trust lie the suspicions."""
        found, late = [], self.later_than(delta)
        begin = len(late)
        while begin:
            # the last run of late letters that isn't done yet
            end = begin - 1
            while begin and late[begin - 1] == late[end] - (end - begin + 1):
                begin -= 1
            found += self.between(late[begin : end + 1], late[end] + 1, delta)
        if not late or late[-1] != len(self.delays) - 1:
            found.insert(0, ((len(self.delays) + 1) * self.period + delta, NEVER))
        found.reverse()
        return [(at, min(until, self.horizon)) for at, until in found if at < self.horizon]

    def between(self, late, after, delta):
        """The suspicions around a run of late letters, from the last to the first; `after` is the next letter."""
        found, trusted = [], self.first_after(after)
        for letter in reversed(late):
            sent, delay = (letter + 1) * self.period, self.delays[letter]
            until = sent + self.period + delta
            if delay is None or sent + delay >= until:
                continue
            if until < trusted:
                found.append((until, trusted))
            trusted = min(trusted, sent + delay)
        first = (late[0] + 1) * self.period + delta
        if first < trusted:
            found.append((first, trusted))
        return found

    def detections(self, delta):
        """A counter: if the subject crashes before it sends the next letter, how many ticks after the last one the
        suspicion begins that lasts; and for how many of the letters so."""
        whole = self.period + delta
        useless = self.later_than(whole - 1)
        found, last, before = Counter(), 0, -2
        for letter in useless:
            last = last + 1 if letter == before + 1 else 1
            before = letter
            found[whole - last * self.period] += 1
        found[whole] += len(self.delays) - len(useless)
        return found


class Alives:
    """Letters of a run, for time-outs: the first is sent at tick 0."""

    def __init__(self, delays, period, horizon=None, letter_first=False, floor=0):
        self.period, self.letter_first = period, letter_first
        self.horizon = len(delays) * period if horizon is None else horizon
        came = [place * period + delay for place, delay in enumerate(delays) if delay is not None]
        self.heard = [0, *sorted(it for it in came if it < self.horizon)]
        silences = [later - at for at, later in zip(self.heard, self.heard[1:])] + [NEVER]
        long = [place for place, it in enumerate(silences) if it >= floor]
        self.longest = sorted(long, key=silences.__getitem__, reverse=True)
        self.lengths = [-silences[it] for it in self.longest]
        self.delays = delays

    def suspicions(self, timeout, check, grow=1):
        """After each silence that is as long as the bound, from the first check on."""
        found, bound = [], timeout
        for place in sorted(self.longest[: bisect_left(self.lengths, -timeout + 1)]):
            at = -(-(self.heard[place] + bound) // check) * check
            until = self.heard[place + 1] if place + 1 < len(self.heard) else NEVER
            if at < self.horizon and at < until:
                found.append((at, min(until, self.horizon)))
            if until < self.horizon and (at < until or at == until and not self.letter_first):
                bound = max(bound, min(bound + grow, self.horizon))
        return found

    def lags(self, check):
        """A counter: if the subject crashes before it sends the next letter, how many ticks after the sending of its
        last one the observer hears of it last; with where that letter's sending lies between two checks."""
        sent = range(0, len(self.delays) * self.period, self.period)
        came = (0 if delay is None else at + delay for at, delay in zip(sent, self.delays))
        return Counter((last - at, at % check) for at, last in zip(sent, accumulate(came, max)))


def detections_of(lags, timeout, check):
    """What `Heartbeats.detections` answers, of time-outs that haven't grown."""
    found = Counter()
    for (lag, rest), count in lags.items():
        found[-(-(rest + lag + timeout) // check) * check - rest] += count
    return found


def detection(found, period, percent):
    """The percentile, by nearest rank, of the ticks from a crash to the suspicion that lasts, where the crash comes at
    each of the `period` ticks after the last letter alike; 0 where it was suspected already."""
    wanted = math.ceil(round(percent / 100 * sum(found.values()) * period, 6))
    low, high = 0, max(0, max(found) - 1)
    while low < high:
        middle = (low + high) // 2
        within = sum(count * min(max(middle - (after - period) + 1, 0), period) for after, count in found.items())
        if within >= wanted:
            high = middle
        else:
            low = middle + 1
    return low
