"""Logs, line by line, to the probes that they tell of.

What is read: what `ping -D` of iputils prints, and CSV with a line of names, `sent,delay` or `from,to,sent,delay`. A
track is what is known of one pair of machines, or of one way between them; it has stretches, in each of which probes
were sent at one interval without a pause.
"""
import math
import re
import statistics
from dataclasses import dataclass, field

from .words import Refused, printable

TIME = r"\[(\d+(?:\.\d+)?)\] "
ANSWER = re.compile(TIME + r"\d+ bytes from (.+): icmp_seq=(\d+) .*?time[=<](\d+(?:\.\d+)?) ms(.*)")
SILENCE = re.compile(TIME + r"no answer yet for icmp_seq=(\d+)")
RETURNED = re.compile(TIME + r"From .+? ?:? ?icmp_seq=(\d+) .+")
UNTIMED = re.compile(r"\d+ bytes from .+icmp_seq=\d+|no answer yet for icmp_seq=\d+|From .+icmp_seq=\d+")
SUMMARY = re.compile(r"(\d+) packets transmitted, (\d+) received.*")
IDLE = re.compile(r"\s*|--- .* ---|rtt min/.*|pipe \d+|\^C.*")
KINDS = (["sent", "delay"], ["from", "to", "sent", "delay"])
TURN = 65536  # ping's numbers have 16 bits
LEAST = 20  # probes of a stretch
NICE = [digit * 10**power / 1e6 for power in range(7) for digit in (100, 200, 250, 300, 400, 500, 600, 750, 800)]


@dataclass
class Stretch:
    """Probes at one interval: when the first was sent, and of each its delay one way in seconds, or None."""

    begin: float
    interval: float  # as it is counted
    measured: float  # as it was
    delays: list


@dataclass
class Track:
    """A log's name, or that of a pair in it, with its stretches."""

    name: str
    pair: tuple
    stretches: list = field(default_factory=list)
    duplicates: int = 0
    unordered: int = 0
    pauses: list = field(default_factory=list)  # of the sender, in seconds
    changes: int = 0  # of the interval
    short: int = 0  # probes of stretches that are too short


@dataclass
class Left:
    """A line that was left out."""

    path: str
    line: int
    why: str
    text: str

    def __str__(self):
        return f"{self.path}:{self.line}: {self.why}: {printable(self.text)}"


@dataclass
class Probes:
    """Of one pair the probes by number: when each was sent, where that is known, and its delay, where it came."""

    sent: dict = field(default_factory=dict)
    delay: dict = field(default_factory=dict)
    noted: dict = field(default_factory=dict)  # when it was said that no answer came yet
    duplicates: int = 0
    unordered: int = 0
    last: int = 0  # the number of the line before
    headed: bool = False  # whether ping's first line was there

    def number(self, said):
        """The whole number of which ping prints 16 bits: the one that is next to the last."""
        number = said + TURN * round((self.last - said) / TURN)
        return number if number >= 0 else said

    def answer(self, number, at, taken, is_double):
        if is_double or number in self.delay:
            self.duplicates += 1
            return
        if number < self.last and number not in self.noted:
            self.unordered += 1
        self.sent[number], self.delay[number] = at - taken, taken
        self.last = max(self.last, number)


def lines_of(path):
    try:
        with open(path, "rb") as file:
            text = file.read().decode("utf-8", "replace")
    except OSError as error:
        raise Refused(f"{printable(path, 200)}: {error.strerror}") from None
    return [it.rstrip("\r") for it in text.removeprefix("\ufeff").split("\n")]


def read(paths, one_way):
    """The tracks of all logs, and the lines that were left out."""
    tracks, left = [], []
    for path in dict.fromkeys(paths):
        lines = lines_of(path)
        first = next((it for it in lines if it.strip()), "")
        names = [it.strip().lower() for it in first.split(",")]
        found = csv_tracks(path, lines, names, left) if names in KINDS else ping_tracks(path, lines, left)
        if not any(it.stretches for it in found):
            more = [f"; {it}" for it in left if it.path == path][:1]
            raise Refused(f"{printable(path, 200)}: fewer than {LEAST} probes in a row can be read{''.join(more)}")
        tracks += [it for it in found if it.stretches]
    share = 1.0 if one_way else 0.5
    for track in tracks:
        for stretch in track.stretches:
            stretch.delays = [None if it is None else it * share for it in stretch.delays]
    return joined(tracks), left


def joined(tracks):
    """Several logs of one pair are one track."""
    by_pair = {}
    for track in tracks:
        key = track.pair or track.name
        if key not in by_pair:
            by_pair[key] = track
            continue
        one = by_pair[key]
        one.stretches += track.stretches
        one.pauses += track.pauses
        for name in ("duplicates", "unordered", "changes", "short"):
            setattr(one, name, getattr(one, name) + getattr(track, name))
    return list(by_pair.values())


# ---- what ping prints


def ping_tracks(path, lines, left):
    track, probes = Track(printable(path, 200), ()), Probes()
    for place, line in enumerate(lines, 1):
        if line.startswith("PING "):
            add_probes(track, probes)
            probes = Probes(headed=True)
        elif not took(probes, line) and not IDLE.fullmatch(line):
            why = "no time in front, as ping -D prints it" if UNTIMED.match(line) else "not what ping prints"
            left.append(Left(path, place, why, line))
    add_probes(track, probes)
    return [track]


def took(probes, line):
    """Whether a line tells of a probe."""
    if found := ANSWER.fullmatch(line):
        at, _, said, taken, more = found.groups()
        probes.answer(probes.number(int(said)), float(at), float(taken) / 1000, "(DUP!)" in more)
    elif found := SILENCE.fullmatch(line) or RETURNED.fullmatch(line):
        number = probes.number(int(found[2]))
        if SILENCE.fullmatch(line):
            probes.noted.setdefault(number, float(found[1]))
            probes.last = max(probes.last, number)
        else:
            probes.noted.setdefault(number, None)
    elif found := SUMMARY.fullmatch(line):
        count = int(found[1])
        if probes.last < count < probes.last + TURN:  # what was sent after the last answer
            probes.noted.setdefault(count, None)
    else:
        return False
    return True


def add_probes(track, probes):
    """Adds the stretches of one run of ping."""
    track.duplicates += probes.duplicates
    track.unordered += probes.unordered
    numbers = [*probes.delay, *probes.noted]
    known = sorted(probes.sent.items())
    steps = [(later - at) / (after - number) for (number, at), (after, later) in zip(known, known[1:])]
    if steps:
        interval = statistics.median(steps)
    else:
        told = sorted(it for it in probes.noted.items() if it[1] is not None)
        gaps = [(later - at) / (after - number) for (number, at), (after, later) in zip(told, told[1:])]
        if not gaps:
            track.short += len(set(numbers))
            return
        interval = statistics.median(gaps)
    for number, at in probes.noted.items():
        if at is not None and number not in probes.sent:
            probes.sent[number] = at - interval  # it is said as the next one is sent
    first, last = min(numbers), max(numbers)
    first = min(1, first) if probes.headed else first  # what was lost before the first answer
    sent = filled(probes.sent, first, last, interval)
    add_stretches(track, sent, [probes.delay.get(it) for it in range(first, last + 1)])


def filled(known, first, last, interval):
    """When each probe was sent: those between two known ones are spread evenly."""
    numbers = sorted(known)
    sent = [known[numbers[0]] - interval * (numbers[0] - it) for it in range(first, numbers[0])]
    for number, after in zip(numbers, numbers[1:]):
        step = (known[after] - known[number]) / (after - number)
        sent += [known[number] + step * it for it in range(after - number)]
    sent += [known[numbers[-1]] + interval * it for it in range(last - numbers[-1] + 1)]
    return sent


# ---- CSV


def csv_tracks(path, lines, names, left):
    """The tracks of each pair, in the order of their first lines."""
    pairs, begun = {}, False
    for place, line in enumerate(lines, 1):
        if not line.strip():
            continue
        if not begun:
            begun = True
            continue
        values, why = csv_values(line, len(names))
        if why:
            left.append(Left(path, place, why, line))
            continue
        pairs.setdefault(tuple(values[:-2]), []).append(values[-2:])
    found = []
    for pair, rows in pairs.items():
        track = Track(printable(" to ".join(pair) if pair else path, 200), pair)
        track.unordered = sum(later < at for (at, _), (later, _) in zip(rows, rows[1:]))
        rows.sort(key=lambda it: it[0])
        add_stretches(track, [it[0] for it in rows], [it[1] for it in rows])
        found.append(track)
    return found


def csv_values(line, count):
    """The names, the time of sending and the delay in seconds of a line; or why it has none."""
    *pair, sent, delay = [it.strip() for it in line.split(",")] if "," in line else ["", "", ""]
    if len(pair) + 2 != count or not all(pair):
        return None, f"not {count} fields"
    if len(pair) == 2 and pair[0] == pair[1]:
        return None, "from a machine to itself"
    try:
        at, taken = float(sent), float(delay) / 1000 if delay else None
    except ValueError:
        return None, "not a number"
    if not math.isfinite(at) or taken is not None and not 0 <= taken < 1e6:
        return None, "not a time"
    return [*pair, at, taken], None


# ---- stretches


def add_stretches(track, sent, delays):
    """Cuts probes where the sender paused, or its interval changed."""
    steps = [later - at for at, later in zip(sent, sent[1:])]
    begin = 0
    while begin < len(sent):
        end, why = end_of_stretch(steps, begin)
        count = end - begin
        if count >= LEAST:
            measured = (sent[end - 1] - sent[begin]) / (count - 1)
            interval = nice(statistics.median(steps[begin : end - 1]), measured)
            track.stretches.append(Stretch(sent[begin], interval, measured, delays[begin:end]))
        else:
            track.short += count
        if why == "pause":
            track.pauses.append(steps[end - 1])
        elif why == "change":
            track.changes += 1
        begin = end


def end_of_stretch(steps, begin):
    """The probe before which a stretch ends, and why."""
    usual = statistics.median(steps[begin : begin + 21] or [1.0])
    for place in range(begin, len(steps)):
        step = steps[place]
        if abs(step - usual) <= 0.3 * usual:
            continue
        coming = steps[place : place + 9]
        if len(coming) == 9 and abs(statistics.median(coming) - usual) > 0.3 * usual:
            return place + 1, "change"
        if step > 2.5 * usual and step > 0.05:
            return place + 1, "pause"
    return len(steps) + 1, "end"


def nice(median, mean):
    """The interval that was meant: a round one within 3 in 100, where there is one, else the mean."""
    near = [it for it in NICE if abs(it - median) <= 0.03 * it]
    if near:
        return min(near, key=lambda it: (abs(it - median), it))
    return mean
