"""What is printed, what stands in settings.csv, and the sentences that the page has too."""
import csv
import io

from .judging import FEW, name, spoken_rate
from .measuring import summary
from .words import counted, ms, number, span

SWEPT = ("mistakes", "hours", "an_hour", "error", "p50_ms", "p99_ms", "greatest_ms", "seeds", "horizon", "crashes")


def length_of(log):
    return log.hours * 3600


def trusted(log, one_way):
    """How far the logs can be trusted."""
    length, bursts = length_of(log), sum(len(it.bursts) for it in log.measured)
    letters = sum(len(it.delays) for it in log.measured)
    silence = max(it.longest_silence() for it in log.measured)
    logs = "The log is" if len(log.measured) == 1 else "The logs are, all in all,"
    yield (f"{logs} {span(length)} long. What never happened in that time may still happen up to three times in as long "
           f"(95 % confidence), so no setting can be promised to make fewer than {number(3 / log.hours)} mistakes an hour.")
    if silence:
        yield (f"The longest time in which no letter came in time is {span(silence)}. The fitted bursts are never longer "
               "than that, and nothing here knows of longer ones.")
    if not bursts:
        yield "No letter of it is lost, so it doesn't tell how losses come."
    elif bursts < FEW:
        yield (f"There {'is' if bursts == 1 else 'are'} {counted(bursts, 'burst')} of losses: too few to say how often they "
               "come, or how long they are.")
    if letters < 10_000:
        yield (f"The 99.9th percentile of the delay rests on {counted(max(1, letters // 1000), 'letter')} above it.")
    if not one_way:
        yield ("These are round trips: half of one counts as the delay of a letter. What a late one takes beyond twice the "
               "greatest delay of the files counts whole, as if it had stood still on one way; and one that is lost on "
               "either way counts as a lost letter, which may be up to twice too many.")
    for it in log.measured:
        track = it.track
        if track.pauses:
            yield (f"{track.name}: the sender paused {counted(len(track.pauses), 'time')}, {span(sum(track.pauses))} in all, "
                   "of which nothing is known. A machine that stands still may do so too when it runs for good.")


def assumed(log, plan, one_way):
    """What the numbers assume."""
    if plan.names and any((one, other) not in {it.track.pair for it in log.measured}
                          for one in plan.names for other in plan.names if one != other):
        yield "A log of one way of a pair stands for both ways."
    elif not plan.names:
        yield "A log stands for both ways of its pair" + (
            "; the logs are dealt to the pairs of the files in turn." if len(log.measured) > 1 else
            ", and for all pairs of the files alike.")
    if plan.unheard:
        yield "Pairs that no log tells of have one of another pair: " + ", ".join(map(" to ".join, plan.unheard)) + "."
    if plan.unplayed:
        yield f"The replayed file leaves out {counted(plan.unplayed, 'piece')} of the logs, for which it has no link."
    yield "Pairs lose letters apart from one another: what hits several at once, as a cut line does, isn't in logs of pairs."
    yield "One setting is for all pairs. Nothing is sent again, and no load changes delays or losses."
    yield ("In the network files a delay is uniform between two numbers, and a letter that is later than the greater one is "
           "as lost. The count straight from the log knows each delay.")
    yield (f"A tick is {ms(log.tick)} ms; delays are rounded up to it. Bounds of time-outs grow by one tick after each "
           "mistake, as the detector's least, and runs begin anew each 5 minutes or each 20 time-outs.")
    yield "A crash comes at any time alike, and a detection is counted by the letters of the log before it."
    yield ("For fewer letters a second than the log has, each so many-th of its letters is taken, in every way that there is, "
           "and what is told is the mean: so a setting may have part of a mistake.")


def times(ticks, log):
    return " / ".join("none" if it is None else ms(it * log.tick) for it in ticks)


def answered(found, log):
    """The sentences that answer a wish."""
    row = found.best
    wish = f"{found.wish.name} ({found.wish.words})"
    if row is None:
        yield f"{wish}: no setting of these does it."
        return
    if found.row:
        yield f"{wish}: {name(row.setting, log)}."
        yield f"Why this one: {found.why}. Mistakes of a pair: {spoken_rate(row)}."
    else:
        yield f"{wish}: not shown. {found.why[0].upper()}{found.why[1:]}."
        yield f"The nearest: {name(row.setting, log)}; {found.cost}."
    yield f"Detected after {times(row.log.detected, log)} ms (median, 99th percentile, greatest), by the log."
    if found.row and row.is_swept and row.doubt and row.log.mistakes:
        yield f"The network files don't show it: {row.doubt}."
    yield from otherwise(found, log)


def otherwise(found, log):
    """What the other detector has for the wish."""
    if not found.other or not found.other.best:
        return
    row = found.other.best
    shown = ", which isn't shown to do it" if found.row and not found.other.row else ""
    yield (f"By the other detector: {name(row.setting, log)}{shown}; detected after {times(row.log.detected, log)} ms; "
           f"mistakes: {spoken_rate(row)}.")


def report(log, left, rates_left, answers, one_way):
    """All that is printed."""
    for it in log.measured:
        yield it.track.name
        yield from (f"    {key}: {value}" for key, value in summary(it))
        more = [(it.track.duplicates, "answer that came twice", "answers that came twice"),
                (it.track.unordered, "answer out of order", "answers out of order"),
                (it.track.changes, "change of the interval", "changes of the interval"),
                (it.track.short, "probe in too short a stretch", "probes in too short stretches")]
        yield from (f"    {counted(count, *words)}" for count, *words in more if count)
    if left:
        yield f"{counted(len(left), 'line')} left out"
    yield ""
    yield from trusted(log, one_way)
    yield from rates_left
    for found in answers:
        yield ""
        yield from answered(found, log)


def settings_text(rows, log):
    """settings.csv: a line for each row."""
    out = io.StringIO()
    lines = csv.writer(out, lineterminator="\n")
    lines.writerow(["row", "detector", "letters", "period_ms", "bound_ms", "check_ms", "bears", "log_mistakes", "log_hours",
                    "log_an_hour", "log_error", "log_at_most", "log_mistaken_ppm", "log_p50_ms", "log_p99_ms",
                    "log_greatest_ms", *(f"{kind}_{it}" for kind in ("replayed", "fitted") for it in SWEPT), "believed",
                    "why_not"])
    for row in rows:
        it, mine = row.setting, row.log
        bears = it.bears if it.bears >= 0 else ""
        lines.writerow([it.row, it.detector, f"{it.letters:g}", *(plain(ticks, log) for ticks in (
            it.period, it.bound, it.check if it.detector == "timeouts" else None)), bears, f"{mine.mistakes:.6g}",
            f"{mine.hours:.6g}", f"{mine.rate:.4g}", f"{mine.error:.3g}", f"{mine.most:.4g}", round(1e6 * mine.share),
            *(plain(ticks, log) for ticks in mine.detected), *swept_fields(row.replayed, log),
            *swept_fields(row.fitted, log), "no" if row.doubt else "yes", row.doubt])
    return out.getvalue()


def swept_fields(swept, log):
    if swept is None:
        return [""] * len(SWEPT)
    return [swept.mistakes, f"{swept.hours:.6g}", f"{swept.rate:.4g}", f"{swept.error:.3g}",
            *(plain(ticks, log) for ticks in swept.detected), swept.seeds, swept.horizon, swept.crashes]


def plain(ticks, log):
    """Milliseconds, without commas."""
    if ticks is None:
        return ""
    return f"{ticks * log.tick * 1000:.1f}".removesuffix(".0")
