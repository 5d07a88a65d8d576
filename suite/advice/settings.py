"""Which settings are looked at, and what the log says of each, heartbeat by heartbeat."""
import math
from collections import Counter, defaultdict
from dataclasses import dataclass, field

from .counting import Alives, Heartbeats, detection, detections_of
from .measuring import HOUR, percentile, runs_of

MOST = 1_000_000  # ticks of a period or a bound
LONGEST = 10_000_000  # ticks of a run, of a gap and of a record
RUN = 300  # seconds of a run, at least
BLOCKS = (60, 12)  # parts of the log, for errors
DETECTORS = ("freshness", "timeouts")
LADDER = (0, 1, 2, 3, 4, 6, 8, 12, 16, 24, 32, 48, 64, 96, 128, 192, 256, 384, 512, 768, 1024, 1536, 2048, 3072, 4096)
NEAR = 0.1  # by so much the log's interval may be longer than that of the letters, as ping's is by the clocks of kernels
AMONG = (50, 90, 99)  # percentiles of the delay at which bounds among the delays stand


@dataclass(frozen=True)
class Setting:
    """A detector with its numbers, in ticks; `bears` is how many letters lost in a row it bears, -1 where its bound lies
    among the delays."""

    detector: str
    letters: float
    period: int
    bound: int
    check: int
    bears: int

    @property
    def row(self):
        return f"{self.detector}:{self.letters:g}:{self.bound}"

    @property
    def opening(self):
        """The first tick at which a suspicion may begin."""
        if self.detector == "freshness":
            return self.period + self.bound
        return -(-self.bound // self.check) * self.check


@dataclass
class Count:
    """What was counted of a setting: in an hour, of a pair."""

    mistakes: float
    hours: float
    rate: float
    error: float  # of the rate
    most: float  # the rate is at most this, with 95 % confidence
    share: float  # of the time that is in mistakes
    detected: tuple  # ticks: median, 99th percentile, greatest


def most_of(count):
    """What a Poisson number is at most on the mean, at 95 %, where `count` was seen (by Wilson and Hilferty's form)."""
    if count == 0:
        return 3.0
    more = count + 1
    return more * (1 - 1 / (9 * more) + 1.6449 / (3 * math.sqrt(more))) ** 3


def most_rate(mistakes, error, hours):
    """What a rate is at most: mistakes that come in company count as fewer. It is never below 3 in the time."""
    bunch = max(1.0, error * error / mistakes) if mistakes else 1.0
    return max(3.0, bunch * most_of(mistakes / bunch)) / hours


@dataclass
class Part:
    """Every so many-th letter of a stretch, as one run: the letters with their delays in ticks."""

    track: int
    begin: float  # seconds since the track's begin
    weight: float  # one over how many such parts a stretch is cut into
    delays: list


class Rate:
    """The letters of the log that a sender of so many letters a second would have sent."""

    def __init__(self, log, letters, floor=0):
        self.log, self.letters, self.floor = log, letters, floor  # no bound is below so many ticks
        self.period = max(1, round(1 / letters / log.tick))
        self.parts, self.samples = [], {}
        for number, measured in enumerate(log.measured):
            before = 0.0
            for place, stretch in enumerate(measured.track.stretches):
                self.add(number, before, stretch, log.ticks[number][place])
                before += len(stretch.delays) * stretch.interval
        self.seconds = sum(len(it.delays) * it.weight for it in self.parts) * self.period * log.tick

    def add(self, number, before, stretch, delays):
        ratio = self.period * self.log.tick / stretch.interval
        if ratio < 1 - NEAR:
            return
        whole = round(ratio)
        if ratio < 1 or abs(ratio - whole) <= 0.05 * whole:
            chosen = [delays[phase::whole] for phase in range(whole)]
        else:
            whole = int(ratio)
            counts = [int((len(delays) - phase) / ratio) for phase in range(whole)]
            chosen = [[delays[int(phase + it * ratio)] for it in range(counts[phase])] for phase in range(whole)]
        self.parts += [Part(number, before + phase * stretch.interval, 1 / whole, it)
                       for phase, it in enumerate(chosen) if it]

    def longest(self, ticks):
        """How many letters in a row are lost or take longer, at most."""
        return max((length for part in self.parts
                    for _, length in runs_of([it is None or it > ticks for it in part.delays])), default=0)

    def runs(self, setting):
        """The letters as runs: with freshness points a part is one; with time-outs, which grow, one is as long as those
        that are made of the network files."""
        key = setting.detector if setting.detector == "freshness" else self.log.horizon(setting)
        if key not in self.samples:
            self.samples[key] = list(self.cut(setting))
        return self.samples[key]

    def lags(self, setting):
        """How late the observer hears of the subject last, which is the same for all time-outs."""
        key = "lags", self.log.horizon(setting)
        if key not in self.samples:
            self.samples[key] = sum((it.lags(setting.check) for _, _, it in self.runs(setting)), Counter())
        return self.samples[key]

    def cut(self, setting):
        for part in self.parts:
            if setting.detector == "freshness":
                yield part, part.begin, Heartbeats(part.delays, self.period, floor=self.floor)
                continue
            each = max(1, self.log.horizon(setting) // self.period)
            for begin in range(0, len(part.delays), each):
                floor = self.period + self.floor - self.log.least
                letters = Alives(part.delays[begin : begin + each], self.period, floor=floor)
                yield part, part.begin + begin * self.period * self.log.tick, letters


@dataclass
class Log:
    """All tracks, measured, with the ticks in which they are counted, and which share of the pairs each stands for."""

    measured: list
    tick: float
    shares: list
    ticks: list = field(default_factory=list)  # of each stretch of each track the delays in ticks
    longest_run: int = LONGEST

    def __post_init__(self):
        self.ticks = [[[None if it is None else self.up(measured.of_letter(it)) for it in stretch.delays]
                       for stretch in measured.track.stretches] for measured in self.measured]
        self.least = min(self.up(it.least) for it in self.measured)
        self.most = max(self.up(it.most) for it in self.measured)
        self.sorted = sorted(it for track in self.ticks for stretch in track for it in stretch if it is not None)

    def up(self, seconds):
        """Ticks, rounded up; one at least."""
        return max(1, math.ceil(seconds / self.tick - 1e-6))

    @property
    def hours(self):
        """How long the log is; of tracks that stand for unlike shares the time of the least favourable one."""
        return 1 / max(share / it.hours for share, it in zip(self.shares, self.measured))

    def horizon(self, setting):
        """How many ticks a run of a setting has: 300 s, and 20 of its bounds at least, where a file may say so."""
        wanted = max(RUN / self.tick, 20 * setting.bound)
        rounded = round(RUN / self.tick) * 2 ** max(0, math.ceil(math.log2(wanted * self.tick / RUN)))
        return max(1, min(rounded, self.longest_run, LONGEST) // setting.period) * setting.period


def grid(log, rate):
    """The settings of a rate: with bounds among the delays, and with such as bear so many letters lost in a row, up to
    more than any that the log has."""
    period, least, most = rate.period, log.least, log.most
    check = max(1, period // 20)
    longest = rate.longest(most)
    steps = [it for it in LADDER if it < longest] + [longest, longest + max(1, -(-longest // 2))]
    delays = sorted({percentile(log.sorted, it) for it in AMONG})
    far = delays[-1]
    while far * 1.5 < most:
        far = int(far * 1.5)
        delays.append(far)
    bounds = [(it, -1) for it in delays if it < most] + [(most + it * period, it) for it in steps]
    for bound, bears in bounds:
        if bound <= MOST:
            yield Setting("freshness", rate.letters, period, bound, 1, bears)
    for bound, bears in bounds:
        bound = bound + period - least + (1 if bears >= 0 else 0)
        if bound <= MOST:
            yield Setting("timeouts", rate.letters, period, bound, check, bears)


def count(log, rate, setting, is_timed=True):
    """What the log says of a setting, heartbeat by heartbeat; where it isn't timed, without detections."""
    blocks = [[defaultdict(float) for _ in log.measured] for _ in BLOCKS]
    watched, mistaken = [0.0] * len(log.measured), [0.0] * len(log.measured)
    for part, begin, letters in rate.runs(setting):
        if letters.horizon <= setting.opening:
            continue
        watched[part.track] += (letters.horizon - setting.opening) * part.weight * log.tick / HOUR
        found = letters.suspicions(setting.bound) if setting.detector == "freshness" else (
            letters.suspicions(setting.bound, setting.check))
        for at, until in found:
            mistaken[part.track] += (until - at) * part.weight * log.tick / HOUR
            done = (begin + at * log.tick) / log.measured[part.track].seconds
            for parts, into in zip(BLOCKS, blocks):
                into[part.track][int(done * parts)] += part.weight
    if not all(watched):
        return None
    hours = 1 / max(share / it for share, it in zip(log.shares, watched))
    pooled = [sum(share / time * value for share, time, value in zip(log.shares, watched, values))
              for values in ([sum(it.values()) for it in blocks[0]], mistaken)]
    errors = [sum((share / time) ** 2 * variance(into.values(), parts)
                  for share, time, into in zip(log.shares, watched, tracks)) for parts, tracks in zip(BLOCKS, blocks)]
    mistakes, error = pooled[0] * hours, math.sqrt(max(errors)) * hours
    return Count(mistakes, hours, pooled[0], error / hours, most_rate(mistakes, error, hours), pooled[1],
                 detected(rate, setting) if is_timed else ())


def variance(values, parts):
    """Of the sum over so many parts of the log, of which the others have none."""
    whole, squares = sum(values), sum(it * it for it in values)
    return max(0.0, parts / (parts - 1) * (squares - whole * whole / parts))


def detected(rate, setting):
    """How long detections take: the median, the 99th percentile and the greatest, of crashes at each tick alike."""
    if setting.detector == "timeouts":
        found = detections_of(rate.lags(setting), setting.bound, setting.check)
    else:
        found = Counter()
        for _, _, letters in rate.runs(setting):
            found.update(letters.detections(setting.bound))
    return tuple(detection(found, setting.period, it) for it in (50, 99, 100))
