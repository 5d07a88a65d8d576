"""Numbers and times, as they are read and written."""
import math
import re

SECONDS = {"ms": 0.001, "s": 1, "sec": 1, "second": 1, "seconds": 1, "min": 60, "minute": 60, "minutes": 60,
           "h": 3600, "hour": 3600, "hours": 3600, "day": 86400, "days": 86400, "d": 86400, "week": 604800,
           "weeks": 604800, "year": 31557600, "years": 31557600}
NUMBER = r"\d+(?:\.\d+)?"


class Refused(Exception):
    """What ends the program, with one line that says why."""


def seconds_of(word):
    """A time, as `1s`, `250ms` or `2min`."""
    found = re.fullmatch(rf"({NUMBER}) ?([a-z]+)", word)
    if not found or found[2] not in SECONDS or float(found[1]) == 0:
        raise Refused(f"{printable(word)}: no time, as 250ms, 1s or 2min")
    return float(found[1]) * SECONDS[found[2]]


def hourly_of(word):
    """A rate, as `1/day`, `60/h` or `1/100h`, in an hour."""
    found = re.fullmatch(rf"({NUMBER}) ?/ ?({NUMBER})? ?([a-z]+)", word)
    if not found or found[3] not in SECONDS or float(found[1]) == 0 or found[2] and float(found[2]) == 0:
        raise Refused(f"{printable(word)}: no rate, as 1/day, 60/h or 1/100h")
    return float(found[1]) * 3600 / (float(found[2] or 1) * SECONDS[found[3]])


def printable(text, most=60):
    """A piece of a file, without what could disturb a terminal."""
    shown = "".join(it if it.isprintable() else f"\\u{{{ord(it):x}}}" for it in text[: most + 1])
    return shown if len(text) <= most else shown[:most] + ".."


def counted(count, one, many=None):
    """`1 burst`, `2 bursts`."""
    return f"{count:,} {one if count == 1 else many or one + 's'}"


def number(value):
    """Two places that count, from 100 on three, with commas."""
    if value == 0:
        return "0"
    places = (2 if abs(value) >= 99.5 else 1) - math.floor(math.log10(abs(value)))
    text = f"{round(value, places):,.{max(0, places)}f}"
    return text.rstrip("0").rstrip(".") if "." in text else text


def ms(seconds):
    """Milliseconds: to the tenth below 100, else whole."""
    value = seconds * 1000
    if value >= 100 or value == round(value):
        return f"{round(value):,}"
    return f"{value:.1f}" if value >= 1 else f"{value:.2f}"


def span(seconds):
    """A time for people: `250 ms`, `1.5 s`, `12 min`, `3.2 h`."""
    if seconds < 1:
        return f"{ms(seconds)} ms"
    for unit, name in ((86400, "days"), (3600, "h"), (60, "min"), (1, "s")):
        if seconds >= {86400: 20, 3600: 1, 60: 2, 1: 1}[unit] * unit:
            return f"{round(seconds / unit, 1):g} {name}"
    return f"{seconds:g} s"


def often(hourly):
    """A rate for people: `12 times an hour`, `once in 3.2 h`."""
    if hourly == 0:
        return "never"
    if hourly <= 1:
        return "once an hour" if hourly == 1 else f"once in {span(3600 / hourly)}"
    return f"{number(hourly)} times an hour"
