"""The scenario and the network files: which link of a run stands for which track, and what each loses."""
import itertools
from dataclasses import dataclass

from .measuring import runs_of
from .settings import LONGEST
from .words import Refused

USUAL = 5  # processes, where one log stands for all pairs
MOST_PROCESSES = 16
MOST_VALUES = 100_000
MOST_DRAWN = 50_000  # outages of a run
WIDTH = 118


@dataclass
class Plan:
    """How many processes a run has, and for each link its track and which of the track's pieces it plays."""

    processes: int
    links: dict
    pieces: dict  # of each link; a piece is `lasts` and its outages
    names: list  # of the machines, where the logs have such
    unheard: list  # links of which the logs say nothing, and which have another one's track
    unplayed: int = 0  # pieces that no link plays

    def shares(self, tracks):
        """Which share of the links each track has."""
        of = list(self.links.values())
        return [of.count(it) / len(of) for it in range(tracks)]


def plan_of(measured, tick):
    pieces = [pieces_of(it, tick) for it in measured]
    names = list(dict.fromkeys(name for it in measured for name in it.track.pair))
    named = all(it.track.pair for it in measured) and len(names) <= MOST_PROCESSES
    unheard = []
    if named:
        processes, links = len(names), named_links(measured, names, unheard)
    else:
        processes = processes_for(len(measured), max(len(it) for it in pieces))
        pairs = [(s, r) for s in range(1, processes + 1) for r in range(1, processes + 1) if s != r]
        # a single track's pieces go by senders, so that each table has whole rows of links
        links = {pair: place % len(measured) for place, pair in enumerate(pairs)}
    plan = Plan(processes, links, {}, names if named else [], unheard)
    played = [set() for _ in measured]
    turns = [itertools.count() for _ in measured]
    for (sender, receiver), track in links.items():
        turn = sender - 1 if len(measured) == 1 and not named and len(pieces[0]) <= processes else next(turns[track])
        piece = turn % len(pieces[track])
        played[track].add(piece)
        plan.pieces[sender, receiver] = pieces[track][piece]
    plan.unplayed = sum(len(of) - len(some) for of, some in zip(pieces, played))
    return plan


def named_links(measured, names, unheard):
    """Each pair has its own track, else that of the other way, else one of all in turn."""
    tracks = {it.track.pair: place for place, it in enumerate(measured)}
    links, turns = {}, itertools.cycle(range(len(measured)))
    for s, one in enumerate(names, 1):
        for r, other in enumerate(names, 1):
            if s == r:
                continue
            track = tracks.get((one, other), tracks.get((other, one)))
            if track is None:
                unheard.append((one, other))
                track = next(turns)
            links[s, r] = track
    return links


def processes_for(tracks, pieces):
    """The fewest of four or more of which every track, and of one track every piece, has as many links."""
    if tracks == 1:
        return USUAL if pieces == 1 else next((it for it in range(4, MOST_PROCESSES + 1) if it % pieces == 0), USUAL)
    even = [it for it in range(4, MOST_PROCESSES + 1) if it * (it - 1) % tracks == 0]
    enough = [it for it in range(4, MOST_PROCESSES + 1) if it * (it - 1) >= tracks]
    if not enough:
        raise Refused(f"{tracks} pairs are too many: at most {MOST_PROCESSES * (MOST_PROCESSES - 1)}")
    return USUAL if USUAL in even else (even or enough)[0]


def pieces_of(measured, tick):
    """The track's record in as few pieces of like length as a file may have, each with how long it lasts and its
    outages, in ticks."""
    spans, begin = [], 0.0
    for stretch in measured.track.stretches:
        for place, length in runs_of(measured.lost_or_late(stretch)):
            at = begin + place * stretch.interval
            spans.append((round(at / tick), round((at + length * stretch.interval) / tick)))
        begin += len(stretch.delays) * stretch.interval
    whole = max(1, round(begin / tick))
    count = -(-whole // LONGEST)
    edges = [whole * it // count for it in range(count + 1)]
    return [(until - since, [(max(at, since) - since, min(end, until) - since) for at, end in spans
                             if at < until and end > since]) for since, until in zip(edges, edges[1:])]


def spells_of(measured, tick):
    """The gaps and the lengths of the bursts, in ticks: each stretch is taken as a circle, so that its share of losses
    stays; one without losses makes the next gap longer."""
    gaps, lengths, carried = [], [], 0
    for stretch in measured.track.stretches:
        step = stretch.interval / tick
        bursts, count = runs_of(measured.lost_or_late(stretch)), len(stretch.delays)
        if not bursts or bursts == [(0, count)]:
            carried += 0 if bursts else round(count * step)
            continue
        if len(bursts) > 1 and bursts[0][0] == 0 and sum(bursts[-1]) == count:
            begin, length = bursts.pop()
            bursts[0] = (begin - count, bursts[0][1] + length)
        ends = [begin + length for begin, length in bursts]
        between = [begin - end for (begin, _), end in zip(bursts[1:], ends)] + [bursts[0][0] + count - ends[-1]]
        lengths += [round(it * step) for _, it in bursts]
        gaps += [max(1, round(it * step)) for it in between]
        gaps[-1] += carried
        carried = 0
    if gaps:
        gaps[-1] += carried
    return [thinned([min(LONGEST, max(1, it)) for it in values]) for values in (gaps, lengths)]


def thinned(values):
    """At most as many as a file may have, evenly taken from the sorted ones."""
    if len(values) <= MOST_VALUES:
        return values
    values = sorted(values)
    return [values[len(values) * it // MOST_VALUES] for it in range(MOST_VALUES)]


def longest_run(plan, measured):
    """How many ticks a run may have, so that no more outages are drawn than a run bears."""
    often = sum(len(outages) / lasts for lasts, outages in plan.pieces.values())
    return LONGEST if often == 0 else min(LONGEST, int(MOST_DRAWN / often))


# ---- texts


def array(values):
    """An array in lines of a page's width."""
    lines, line = [], ""
    for value in values:
        if len(line) + len(value) > WIDTH - 6:
            lines.append(line)
            line = ""
        line += value + ", "
    if not lines:
        return f"[{line.removesuffix(', ')}]"
    return "[\n    " + "\n    ".join(it.rstrip() for it in [*lines, line]) + "\n]"


def chosen_links(plan, key):
    """For each group of links that `key` takes as one: senders, receivers and one link of them; a group that isn't all
    pairs between two sets has a table for each link."""
    groups = {}
    for link in plan.links:
        groups.setdefault(key(link), []).append(link)
    for links in groups.values():
        senders, receivers = (sorted({it[side] for it in links}) for side in (0, 1))
        whole = {(s, r) for s in senders for r in receivers if s != r}
        everybody = list(range(1, plan.processes + 1))
        if whole == set(links):
            yield (spoken(senders, everybody), spoken(receivers, everybody), links[0])
        else:
            for s, r in sorted(links):
                yield f"[{s}]", f"[{r}]", (s, r)


def spoken(processes, everybody):
    return '"all"' if processes == everybody else f"[{', '.join(map(str, processes))}]"


def links_text(plan, log):
    for senders, receivers, link in chosen_links(plan, lambda it: plan.links[it]):
        measured = log.measured[plan.links[link]]
        yield f"\n[[links]]\nfrom = {senders}\nto = {receivers}\nmin = {log.up(measured.least)}\n" \
              f"max = {max(log.up(measured.least), log.up(measured.most))}\n"


def replayed_text(plan, log):
    yield from links_text(plan, log)
    for senders, receivers, link in chosen_links(plan, lambda it: id(plan.pieces[it])):
        lasts, outages = plan.pieces[link]
        if outages:
            listed = array([f"[{begin}, {end}]" for begin, end in outages])
            yield f"\n[[replays]]\nfrom = {senders}\nto = {receivers}\nlasts = {lasts}\noutages = {listed}\n"


def fitted_text(plan, log):
    yield from links_text(plan, log)
    spells = [spells_of(it, log.tick) for it in log.measured]
    for senders, receivers, link in chosen_links(plan, lambda it: plan.links[it]):
        gaps, lengths = spells[plan.links[link]]
        if gaps:
            yield f"\n[[bursts]]\nfrom = {senders}\nto = {receivers}\ngap = {{ values = {array(map(str, gaps))} }}\n" \
                  f"length = {{ values = {array(map(str, lengths))} }}\n"


def scenario_text(plan, log, horizon, detector=""):
    """The scenario under the network files; without a detector a study has to add one."""
    return (f"version = 2\nprocesses = {plan.processes}\nhorizon = {horizon}\nlookahead = {log.least}\nseed = 1\n"
            f"limit = 100000000\nalgorithm = \"none\"\n{detector}\n[link]\nmin = {log.least}\nmax = {log.most}\nloss = 0\n"
            "\n[[crash]]\nprocess = 1\nat = 10000000\n")


def detector_text(setting):
    if setting.detector == "freshness":
        return f'\n[detector]\nkind = "freshness"\neta = {setting.period}\ndelta = {setting.bound}\n'
    return f"\n[detector]\nperiod = {setting.period}\ncheck = {setting.check}\ntimeout = {setting.bound}\n"
