#!/usr/bin/env python3
"""theory.py: the closed forms of README.md beside what the sweeps of run.sh saw.

Reads the sweeps' rows in out/, prints the page's tables, and writes settings.csv and bounds.csv, which have more rows
and columns, and the lines of the pictures to out/.
"""
import csv
import math

WORDS = 2**32


def words_below(count, modulus):
    """Of all 32-bit words the share whose rest by `modulus` is below `count`."""
    return (WORDS // modulus * count + min(count, WORDS % modulus)) / WORDS


class Letters:
    """Letters of one link: `loss` of 1000 are lost, and each other one takes `least` to `most` ticks."""

    def __init__(self, least, most, loss):
        self.least, self.most, self.kept = least, most, 1 - words_below(loss, 1000)

    def came(self, ticks):
        """F: the probability that a letter comes within so many ticks of its sending."""
        delays = self.most - self.least + 1
        return self.kept * words_below(min(max(ticks - self.least + 1, 0), delays), delays)

    def missing(self, ticks):
        """The probability that it doesn't."""
        return 1 - self.came(ticks)


class Freshness:
    """What an observer with freshness points makes of one subject that doesn't crash."""

    def __init__(self, letters, eta, delta):
        self.letters, self.eta, self.delta = letters, eta, delta
        # from this heartbeat on, counted from the point's own, none can come before the next point
        self.heartbeats = max(0, (delta + eta - 1 - letters.least) // eta + 1)

    def first_missing(self, ticks, count):
        """So many ticks after a point the first `count` heartbeats, from the point's own on, haven't come."""
        return math.prod(self.letters.missing(self.delta + ticks - j * self.eta) for j in range(count))

    def suspected(self, ticks):
        """u: there is suspicion so many ticks after a point, fewer than eta."""
        return self.first_missing(ticks, self.heartbeats)

    def one_before(self):
        """q: the heartbeat before a point's own came by the tick before the point."""
        return self.letters.came(self.delta + self.eta - 1)

    def start(self):
        """A mistake starts at a point, from the second on."""
        return self.one_before() * self.suspected(0)

    def both_start(self, apart):
        """Mistakes start at a point and at the one that lies so many points after it."""
        between = self.one_before() - self.letters.came(self.delta - (apart - 1) * self.eta)
        return self.one_before() * self.first_missing(0, apart - 1) * between * self.suspected(0)

    def points(self, horizon):
        """How many points lie below the horizon."""
        return max(0, (horizon - 1 - self.delta) // self.eta)

    def mistakes(self, horizon):
        """The expected number of mistakes in a run."""
        return self.suspected(0) + (self.points(horizon) - 1) * self.start() if self.points(horizon) else 0

    def mistakes_variance(self, horizon):
        """Its variance, but for what the run's ends change."""
        square = self.start() ** 2
        later = sum(self.both_start(apart) - square for apart in range(1, self.heartbeats + 1))
        return self.points(horizon) * (self.start() - square + 2 * later)

    def mistake_ticks(self, horizon):
        """The expected number of ticks of suspicion in a run."""
        periods, rest = divmod(max(0, horizon - self.eta - self.delta), self.eta)
        each = [self.suspected(ticks) for ticks in range(self.eta)]
        return periods * sum(each) + sum(each[:rest])

    def mistake_ticks_variance(self, horizon):
        """Its variance, but for what the run's ends change."""
        each = [self.suspected(ticks) for ticks in range(self.eta)]
        same = later = 0
        for ticks, u in enumerate(each):
            same += u - u * u + 2 * (1 - u) * sum(each[ticks + 1:])
            later += sum(self.first_missing(ticks, apart) - u for apart in range(1, self.heartbeats))
        return self.points(horizon) * (same + 2 * sum(each) * later)


class TimeOuts:
    """What an observer with a time-out that doesn't grow makes of one subject that doesn't crash.

    `period` is a multiple of `check`, and above most - least, so that no letter overtakes another.
    """

    def __init__(self, letters, period, check, time_out):
        self.letters, self.period, self.check, self.time_out = letters, period, check, time_out

    def too_long(self, heard):
        """The first check at which nothing since `heard` is too long a silence."""
        return -(-(heard + self.time_out) // self.check) * self.check

    def none_by(self, tick, first):
        """By the tick there came none of the letters that are sent `first` periods after tick 0 and later."""
        sent = range(first * self.period, tick + 1, self.period)
        return math.prod(self.letters.missing(tick - it) for it in sent)

    def starts(self):
        """Of each delay the probability that a letter takes so long and a mistake starts before another comes, and when
        it starts, counted from the letter's sending."""
        for delay in range(self.letters.least, self.letters.most + 1):
            at = self.too_long(delay)
            yield (self.letters.came(delay) - self.letters.came(delay - 1)) * self.none_by(at, 1), at

    def start(self):
        """A mistake starts before the next letter comes."""
        return sum(probability for probability, _ in self.starts())

    def opening(self, horizon):
        """A mistake starts before the first letter comes, as everybody counts as heard of at tick 0."""
        at = self.too_long(0)
        return self.none_by(at, 0) if at < horizon else 0

    def mistakes(self, horizon):
        """The expected number of mistakes in a run. The first letter is sent at tick 0."""
        letters = [(it, max(0, (horizon - 1 - at) // self.period + 1)) for it, at in self.starts()]
        return self.opening(horizon) + sum(it * count for it, count in letters)

    def mistakes_growing(self, horizon):
        """The same where the time-out grows by a tick with each mistake, about: for each letter it is as long as it has
        become on the mean."""
        mean, grown, starts = self.opening(horizon), 0, list(self.starts())
        for sent in range(0, horizon, self.period):
            if round(mean) > grown:
                grown = round(mean)
                starts = list(TimeOuts(self.letters, self.period, self.check, self.time_out + grown).starts())
            mean += sum(it for it, at in starts if sent + at < horizon)
        return mean


# ---- the 20 settings


def number(text):
    return int(text) if text.isdigit() else text


def rows(name):
    """The rows of a sweep, with numbers where there are some."""
    with open(f"out/{name}.csv", encoding="ascii", newline="") as file:
        return [{key: number(text) for key, text in row.items()} for row in csv.DictReader(file)]


def freshness_of(row):
    letters = Letters(row["link.min"], row["link.max"], row["link.loss"])
    return Freshness(letters, row["detector.eta"], row["detector.delta"])


def errors_off(seen, expected, error):
    """By how many standard errors what was seen is off."""
    if error:
        return (seen - expected) / error
    return 0.0 if math.isclose(seen, expected) else math.inf


def compared(seen, expected, variance, scale, digits):
    """What is expected, what was seen, its standard error, and by how many of these it is off, as four texts; and the last
    as a number."""
    error = math.sqrt(variance)
    off = errors_off(seen, expected, error)
    return [*(f"{it * scale:.{digits}f}" for it in (expected, seen, error)), f"{off:+.1f}"], off


def print_table(names, lines):
    """A table without outer bars."""
    print(" | ".join(names))
    print("|".join(["---"] * len(names)))
    for line in lines:
        print(" | ".join(line))


def write(name, lines):
    with open(f"out/{name}.csv", "w", encoding="ascii", newline="") as file:
        csv.writer(file, lineterminator="\n").writerows(lines)


def print_settings():
    lines = [["processes", "min", "max", "eta", "loss", "delta", "mistakes", "mistakes_seen", "error", "errors_off",
              "percent_of_time", "percent_seen", "percent_error", "percent_errors_off"]]
    all_off, percent_off = [], []
    for row in rows("two") + rows("three"):
        theory, horizon = freshness_of(row), row["horizon"]
        runs = row["processes"] * (row["processes"] - 1) * row["runs"]
        mistakes, off = compared(
            row["mistakes"], runs * theory.mistakes(horizon), runs * theory.mistakes_variance(horizon), 1, 0)
        time, time_off = compared(
            row["mistake_ticks"], runs * theory.mistake_ticks(horizon), runs * theory.mistake_ticks_variance(horizon),
            100 / row["pair_ticks"], 3)
        setting = ("processes", "link.min", "link.max", "detector.eta", "link.loss", "detector.delta")
        lines.append([*(str(row[it]) for it in setting), *mistakes, *time])
        all_off += [abs(off), abs(time_off)]
        if row["mistakes"] >= 1000:
            percent_off.append(100 * abs(row["mistake_ticks"] / (runs * theory.mistake_ticks(horizon)) - 1))
    write("settings", lines)
    print_table(["`eta`", "`delta`", "Mistakes", "Seen", "Off", "% of time", "Seen", "Off"],
                [[eta, delta, f"{int(mistakes):,}", f"{int(seen):,}", off, time, time_seen, time_off]
                 for _, _, _, eta, loss, delta, mistakes, seen, _, off, time, time_seen, _, time_off in lines[1:]
                 if loss != "0"])
    within = [sum(it <= errors for it in all_off) for errors in (1, 2)]
    print(f"\nOf {len(all_off)} numbers {within[0]} are off by at most one standard error, {within[1]} by at most two,")
    print(f"and the greatest is off by {max(all_off):.1f}.")
    print(f"Where there are 1000 mistakes, the time in them is off by at most {max(percent_off):.1f} %.\n")


def write_settings_lines():
    """Of two processes the closed forms for each delta, a column for each curve: first mistakes in 1000 ticks, then the
    time in mistakes."""
    curves = [(eta, loss) for eta in (4, 30) for loss in (0, 100)]
    with open("out/theory_lines.csv", "w", encoding="ascii", newline="") as file:
        out = csv.writer(file)
        out.writerow(["delta"] + [f"eta {eta} loss {loss}" for eta, loss in curves] * 2)
        for delta in range(1, 41):
            each = [Freshness(Letters(10, 29, loss), eta, delta) for eta, loss in curves]
            shares = [sum(it.suspected(ticks) for ticks in range(it.eta)) / it.eta for it in each]
            out.writerow([delta] + [1000 * it.start() / it.eta for it in each] + [100 * it for it in shares])


# ---- both detectors


LETTERS, PERIOD, CHECK = Letters(100, 400, 10), 1000, 10
OTHERS = 15  # of 16 processes
SHOWN = ("1,199", "1,399", "1,799", "2,199", "2,399", "2,799", "3,199")  # the bounds of the page's table


def freshness_within(bound):
    """Freshness points that detect each crash within `bound` ticks."""
    return Freshness(LETTERS, PERIOD, bound + 1 - PERIOD)


def time_outs_within(bound):
    """Time-outs that do so, where they don't grow."""
    return TimeOuts(LETTERS, PERIOD, CHECK, bound + 2 - CHECK - LETTERS.most)


def recurrence(theory):
    """Seconds from a mistake to the next."""
    return PERIOD / theory.start() / 1000


def in_all_runs(of_a_run, row):
    """The sum over all runs and pairs of a row, where one process of 16 crashes, of what a run up to a tick has."""
    with_crashed, others = 2 * OTHERS, (OTHERS - 1) * OTHERS
    return row["runs"] * (with_crashed * of_a_run(row["crash[1].at"]) + others * of_a_run(row["horizon"]))


def rows_by_bound():
    """The rows of both detectors by their bounds on the detection time."""
    points = {PERIOD + row["detector.delta"] - 1: row for row in rows("points")}
    time_outs = {row["detector.timeout"] + LETTERS.most + CHECK - 2: row for row in rows("short") + rows("long")}
    return points, time_outs


def print_comparison():
    points, time_outs = rows_by_bound()
    points_off, time_outs_off, lines = [], [], []
    for bound in sorted(points):
        first, seen = freshness_within(bound), points[bound]
        mistakes = in_all_runs(first.mistakes, seen)
        points_off.append(errors_off(seen["mistakes"], mistakes, math.sqrt(in_all_runs(first.mistakes_variance, seen))))
        cells = [f"{bound:,}", f"{recurrence(first):,.1f}", f"{mistakes:,.0f}", f"{seen['mistakes']:,}"]
        second, seen = time_outs_within(bound), time_outs[bound]
        growing = in_all_runs(second.mistakes_growing, seen)
        time_outs_off.append(errors_off(seen["mistakes"], growing, math.sqrt(growing)))
        cells += [f"{recurrence(second):,.1f}", f"{in_all_runs(second.mistakes, seen):,.0f}"]
        cells += [f"{growing:,.0f}", f"{seen['mistakes']:,}"]
        lines.append(cells)
    write("bounds", [["bound", "points_apart_s", "points_mistakes", "points_seen", "time_outs_apart_s",
                      "time_outs_mistakes", "growing_mistakes", "time_outs_seen"],
                     *([it.replace(",", "") for it in line] for line in lines)])
    print_table(["Bound", "Points: s apart", "mistakes", "seen", "Time-outs: s apart", "mistakes", "growing", "seen"],
                [it for it in lines if it[0] in SHOWN])
    worst = [max(map(abs, it)) for it in (points_off, time_outs_off)]
    print(f"\nOf {len(points)} bounds freshness points are off by at most {worst[0]:.1f} standard errors,")
    print(f"and time-outs that grow by at most {worst[1]:.1f} of a Poisson number's.")


def print_detections():
    points, time_outs = rows_by_bound()
    for name, by_bound in (("freshness points", points), ("time-outs", time_outs)):
        above = [row["detection_max"] - bound for bound, row in by_bound.items()]
        print(f"The longest detection of {name} less the bound: {min(above)} to {max(above)} ticks.")


def write_comparison_lines():
    """The recurrence of both detectors for each bound."""
    with open("out/comparison_lines.csv", "w", encoding="ascii", newline="") as file:
        out = csv.writer(file)
        out.writerow(["bound", "freshness points", "time-outs"])
        for bound in range(PERIOD, 3501, 5):
            out.writerow([bound / 1000, recurrence(freshness_within(bound)), recurrence(time_outs_within(bound))])


print_settings()
write_settings_lines()
print_comparison()
print_detections()
write_comparison_lines()
