"""Which rows may be believed, and which setting a wish gets."""
import math
from dataclasses import dataclass

from .words import number, often, span

FEW = 10  # mistakes
ERRORS = 3


@dataclass
class Row:
    """A setting with what the log and the runs of both network files say of it."""

    setting: object
    log: object
    replayed: object
    fitted: object
    is_swept: bool = True  # whether sweeps were wanted

    @property
    def doubt(self):
        """Why a row isn't to be believed; nothing where it is."""
        if self.setting.bears < 0:
            return "its bound lies among the delays, of which the files know two numbers"
        if not self.log.mistakes:
            return "none in the log: at most 3 in its length; beyond what was measured" + self.above
        if self.log.mistakes < FEW:
            return f"{number(self.log.mistakes)} in the log, fewer than {FEW}" + self.above
        if not self.is_swept:
            return "its sweeps were left out"
        if self.replayed is None or self.fitted is None:
            return "no run of the files is long enough for it"
        far = self.told(lambda it: apart(it, self.log) > ERRORS)
        return f"the log says {number(self.log.rate)} an hour, but {far}" if far else ""

    @property
    def above(self):
        """Where the log has few mistakes, and a file more than the log says that they are at most."""
        far = self.told(lambda it: it.rate - ERRORS * it.error > self.log.most)
        return f"; an hour has at most {number(self.log.most)}, but {far}" if far else ""

    def told(self, is_far):
        """Which files say otherwise."""
        files = (("replayed", self.replayed), ("fitted", self.fitted))
        return " and ".join(f"the {name} file says {number(it.rate)}" for name, it in files if it and is_far(it))

    def time(self, place):
        """Ticks of detection by the log: 0 the median, 1 the 99th percentile, 2 the greatest."""
        return self.log.detected[place]


def apart(one, other):
    """How many standard errors two rates are apart."""
    error = math.hypot(one.error, other.error)
    return abs(one.rate - other.rate) / error if error else (0.0 if one.rate == other.rate else math.inf)


@dataclass
class Wish:
    name: str
    hourly: float  # mistakes of a pair, at most; infinite where nothing was said
    detect: float  # seconds within which each crash is detected; infinite where nothing was said

    @property
    def words(self):
        parts = []
        if self.hourly < math.inf:
            parts.append(f"a live machine is suspected by another at most {often(self.hourly)}")
        if self.detect < math.inf:
            parts.append(f"each crash is detected within {span(self.detect)}")
        return " and ".join(parts)


USUAL = [Wish("quick", 60.0, math.inf), Wish("middle", 1.0, math.inf), Wish("safe", 0.01, math.inf)]


@dataclass
class Answer:
    """What a wish gets: `row` is what is shown to do it, `near` what comes nearest where there is none; `other` is the
    answer of the other detector's settings."""

    wish: Wish
    row: object
    near: object
    why: str
    cost: str = ""
    other: object = None

    @property
    def best(self):
        return self.row or self.near


def soonest(rows):
    """By the 99th percentile of the detection; of the same the one with the fewest letters, and freshness points."""
    return min(rows, key=lambda it: (it.time(1), it.setting.letters, it.setting.detector, it.setting.bound), default=None)


def cheapest(rows):
    return min(rows, key=lambda it: (it.setting.letters, it.time(1), it.setting.detector, it.setting.bound), default=None)


def fewest(rows):
    """Of those that make as few that which bears the longest silence."""
    return min(rows, key=lambda it: (it.log.most if it.log.mistakes else 0, -it.setting.bears * it.setting.period,
                                     it.time(1), it.setting.letters, it.setting.detector), default=None)


def answer(rows, wish, log):
    found = answer_of(rows, wish, log)
    others = [it for it in rows if found.best and it.setting.detector != found.best.setting.detector]
    if others:
        found.other = answer_of(others, wish, log)
    return found


def answer_of(rows, wish, log):
    within = [it for it in rows if it.time(2) * log.tick <= wish.detect]
    shown = [it for it in rows if it.log.most <= wish.hourly]
    both = [it for it in within if it in shown]
    if wish.hourly == math.inf and within:
        return Answer(wish, fewest(within), None, "of the settings that detect in time it makes the fewest mistakes, and of "
                      "those that make as few it bears the longest silence")
    if both and wish.detect < math.inf:
        return Answer(wish, cheapest(both), None, "of the settings that do both it needs the fewest letters, and of these "
                      "it detects soonest")
    if both:
        return Answer(wish, soonest(both), None, "of the settings that do it this one detects soonest")
    return unmet(wish, within, shown if within else shown or rows, log)


def unmet(wish, within, shown, log):
    """Of a wish that no setting is shown to meet what comes nearest, and what it'd cost."""
    if not within:
        best = soonest(shown)
        return Answer(wish, None, best, f"no setting of these detects each crash within {span(wish.detect)}",
                      f"it detects within {span(best.time(2) * log.tick)}; its mistakes: {spoken_rate(best)}")
    if shown:
        other, near = soonest(shown), fewest(within)
        return Answer(wish, None, near, f"no setting that detects each crash within {span(wish.detect)} is shown to make so "
                      f"few mistakes: this one's mistakes: {spoken_rate(near)}",
                      f"to make so few costs {name(other.setting, log)}: {span(other.time(2) * log.tick)} for a detection")
    outlasting = [it for it in within if not it.log.mistakes]
    need = 3 / wish.hourly
    if log.hours * 1.0001 < need:
        why = f"the log is {span(log.hours * 3600)} long; it takes {span(need * 3600)} without a mistake to show this"
    else:
        why = "no setting of these is shown to make so few mistakes"
    if outlasting:
        near = soonest(outlasting)
        return Answer(wish, None, near, why, "it outlasts all that the log has: " + spoken_rate(near))
    near = fewest(within)
    return Answer(wish, None, near, why, f"none that detects in time outlasts the log; its mistakes: {spoken_rate(near)}")


def spoken_rate(row):
    """The mistakes of a pair by the log."""
    if not row.log.mistakes:
        return f"none in the log, so at most 3 in its length ({often(row.log.most)}); beyond what was measured"
    return f"{often(row.log.rate)}, at most {often(row.log.most)} (95 %)"


def name(setting, log):
    """A setting for people."""
    milliseconds = setting.bound * log.tick * 1000
    bound = f"{milliseconds:,.1f}".removesuffix(".0")
    if setting.detector == "freshness":
        return f"freshness points with a delta of {bound} ms, {letters(setting)}"
    return f"a time-out of {bound} ms, {letters(setting)}"


def letters(setting):
    return f"{setting.letters:g} letter{'' if setting.letters == 1 else 's'} a second"
