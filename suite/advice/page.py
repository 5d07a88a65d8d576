"""page.html: one file without scripts or anything from outside, light or dark as the reader's system is."""
from html import escape

from . import drawing
from .judging import FEW, name, soonest, spoken_rate
from .measuring import summary
from .telling import assumed, length_of, otherwise, times, trusted
from .words import counted, number, often, printable, span

COLOURS = ("c1", "c2", "c3", "c4", "c5", "c6")
DETECTORS = ("With a time-out a machine is suspected when nothing has come from it for so long; that is looked at 20 times "
             "from one letter to the next. With freshness points letters have numbers and are sent at fixed times, and each "
             "has to be there delta after its time; else the machine is suspected until this letter or a later one comes. "
             "That takes clocks that agree, which a time-out doesn't.")
TRACKS = 6  # of which the losses are drawn
LINES = 20  # that were left out
STYLE = """
:root { color-scheme: light dark; --back: #fff; --card: #f5f6f8; --ink: #1d2129; --soft: #5a6270; --rule: #d9dde3;
  --c1: #0067a8; --c2: #00795a; --c3: #c04a00; --c4: #8f3f8a; --c5: #7a6400; --c6: #44546a; --lost: #c0282d;
  --bar: #7c93ad; --good: #00795a; --bad: #b3500a; }
@media (prefers-color-scheme: dark) { :root { --back: #14171c; --card: #1e232b; --ink: #e6e9ee; --soft: #a3adba;
  --rule: #39414d; --c1: #62b5f5; --c2: #43cfa0; --c3: #ff9d62; --c4: #dba0d8; --c5: #d9c25a; --c6: #a9b8cc;
  --lost: #ff7b7b; --bar: #7f97b3; --good: #43cfa0; --bad: #ffab6b; } }
* { box-sizing: border-box; }
body { margin: 0; background: var(--back); color: var(--ink); font: 16px/1.5 system-ui, sans-serif; }
main { max-width: 70rem; margin: 0 auto; padding: 1.5rem 1.25rem 4rem; }
h1 { font-size: 1.7rem; line-height: 1.2; margin: 0.5rem 0; }
h2 { font-size: 1.25rem; margin: 2.5rem 0 0.75rem; padding-top: 1rem; border-top: 1px solid var(--rule); }
h3 { font-size: 1.05rem; margin: 0 0 0.4rem; }
p, ul { margin: 0.5rem 0; max-width: 50rem; overflow-wrap: anywhere; }
li { margin: 0.3rem 0; }
.soft, .note { color: var(--soft); }
.cards { display: grid; grid-template-columns: repeat(auto-fit, minmax(min(100%, 19rem), 1fr)); gap: 1rem; }
.card { background: var(--card); border-radius: 0.5rem; border-left: 0.3rem solid var(--bad); padding: 0.9rem 1rem; }
.card.shown { border-left-color: var(--good); }
.card p { font-size: 0.93rem; }
.cards + .note { margin-top: 1rem; }
.card .big { font-size: 1.15rem; font-weight: 600; }
.tag { font-size: 0.8rem; font-weight: 600; color: var(--bad); }
.shown .tag { color: var(--good); }
.figures { display: grid; grid-template-columns: repeat(auto-fit, minmax(min(100%, 28rem), 1fr)); gap: 1.25rem; }
figure { margin: 0; min-width: 0; }
svg { display: block; width: 100%; height: auto; font: 12px system-ui, sans-serif; }
svg text { fill: var(--ink); }
svg .title, svg .strong { font-weight: 600; }
svg .title { font-size: 13.5px; }
.grid { stroke: var(--rule); fill: none; }
.frame { stroke: var(--soft); fill: none; }
.bar { fill: var(--bar); }
.lost { fill: var(--lost); }
.mark { stroke: var(--soft); fill: none; stroke-dasharray: 3 3; }
.most { stroke: var(--lost); fill: none; stroke-dasharray: 5 3; }
.unknown { fill: var(--soft); fill-opacity: 0.13; }
.chosen { fill: none; stroke: var(--ink); stroke-width: 2; }
.line { fill: none; stroke-width: 1.4; }
.faint { opacity: 0.55; }
.c1 { stroke: var(--c1); --own: var(--c1); } .c2 { stroke: var(--c2); --own: var(--c2); }
.c3 { stroke: var(--c3); --own: var(--c3); } .c4 { stroke: var(--c4); --own: var(--c4); }
.c5 { stroke: var(--c5); --own: var(--c5); } .c6 { stroke: var(--c6); --own: var(--c6); }
.dot { fill: var(--own); stroke: none; }
.legend { display: flex; flex-wrap: wrap; gap: 0.3rem 1.2rem; padding: 0; list-style: none; font-size: 0.88rem; }
.legend li { display: flex; align-items: center; gap: 0.4rem; margin: 0; }
.legend svg { width: 22px; height: 16px; flex: none; }
.facts { display: grid; grid-template-columns: repeat(auto-fill, minmax(min(100%, 10.5rem), 1fr)); gap: 0.6rem 1rem;
  margin: 0.5rem 0; }
.facts dt { color: var(--soft); font-size: 0.85rem; }
.facts dd { margin: 0; font-variant-numeric: tabular-nums; }
.wide { overflow-x: auto; margin: 0.75rem 0; }
table { border-collapse: collapse; font-size: 0.88rem; }
p.over { font-size: 0.88rem; margin: 1rem 0 0; }
p.over + .wide { margin-top: 0.25rem; }
th, td { text-align: right; padding: 0.25rem 0.7rem; border-bottom: 1px solid var(--rule); vertical-align: top; }
th { font-weight: 600; white-space: nowrap; }
td { font-variant-numeric: tabular-nums; white-space: nowrap; }
th:first-child, td:first-child, .words { text-align: left; }
td.words { white-space: normal; min-width: 16rem; }
@media (max-width: 40rem) { th, td { white-space: normal; padding: 0.25rem 0.2rem; } table { font-size: 0.78rem; }
  .less { display: none; } td.words { min-width: 4.5rem; } ul { padding-left: 1.25rem; } ul.legend { padding: 0; } }
pre { background: var(--card); border-radius: 0.5rem; padding: 0.75rem 1rem; overflow-x: auto; font-size: 0.85rem; }
summary { cursor: pointer; font-weight: 600; }
"""


def table(heads, rows, caption, words=(), less=()):
    """A table; the columns of `words` are text, and those of `less` are left out in narrow windows."""
    kinds = [' class="words"' if place in words else ' class="less"' if place in less else "" for place in range(len(heads))]
    yield f'<p class="soft over">{escape(caption)}</p>'
    yield f'<div class="wide" role="region" aria-label="{escape(caption)}" tabindex="0"><table>'
    yield "<thead><tr>" + "".join(f'<th scope="col"{kind}>{escape(it)}</th>' for it, kind in zip(heads, kinds))
    yield "</tr></thead><tbody>"
    for row in rows:
        yield "<tr>" + "".join(f"<td{kind}>{escape(str(it))}</td>" for it, kind in zip(row, kinds)) + "</tr>"
    yield "</tbody></table></div>"


def listed(sentences):
    return ["<ul>", *(f"<li>{escape(it)}</li>" for it in sentences), "</ul>"]


def text(log, plan, rows, answers, left, without, one_way):
    names = ", ".join(it.track.name for it in log.measured)
    lines = ["<!doctype html>", '<html lang="en"><head><meta charset="utf-8">',
             '<meta name="viewport" content="width=device-width, initial-scale=1">',
             f"<title>Which time-out, and how sure: {escape(printable(names, 80))}</title>", f"<style>{STYLE}</style></head>",
             "<body><main>"]
    lines += opening(log, names)
    lines += answer_cards(answers, log)
    lines += measured_section(log, left)
    lines += ["<h2>How far it can be trusted</h2>", *listed([*trusted(log, one_way), *without])]
    lines += frontier_section(log, rows, answers)
    lines += tables_section(log, rows, answers)
    lines += ["<h2>What is assumed</h2>", *listed(assumed(log, plan, one_way))]
    lines += onward(log, answers, rows)
    return "\n".join([*lines, "</main></body></html>", ""])


def opening(log, names):
    probes = sum(it.probes for it in log.measured)
    lost = sum(it.lost for it in log.measured)
    yield "<h1>Which time-out, and how sure</h1>"
    yield f'<p class="soft">From {escape(printable(names, 200))}: {counted(probes, "probe")} in {span(length_of(log))}, ' \
          f"{number(100 * lost / probes)} % of them lost.</p>"


def answer_cards(answers, log):
    yield '<h2>What was wished, and what does it</h2><div class="cards">'
    for it in answers:
        row = it.best
        shown = " shown" if it.row else ""
        yield f'<article class="card{shown}"><h3>{escape(it.wish.name)}</h3><p class="soft">{escape(it.wish.words)}</p>'
        yield f'<p class="tag">{"Shown by the log" if it.row else "Not shown" + (": the nearest" if row else "")}</p>'
        if row is None:
            yield f"<p>{escape(it.why)}.</p></article>"
            continue
        yield f'<p class="big">{escape(name(row.setting, log))}</p>'
        yield f"<p>Detected after {times(row.log.detected, log)} ms (median, 99th percentile, greatest), by the log.</p>"
        if it.row:
            yield f"<p>Mistakes of a pair: {escape(spoken_rate(row))}.</p>"
            yield f'<p class="note">Why this one: {escape(it.why)}.</p>'
        else:
            yield f"<p>{escape(it.why[0].upper() + it.why[1:])}.</p><p>{escape(it.cost[0].upper() + it.cost[1:])}.</p>" \
                if it.cost else f"<p>{escape(it.why[0].upper() + it.why[1:])}.</p>"
        if it.row and row.is_swept and row.doubt and row.log.mistakes:
            yield f'<p class="note">The network files don\'t show it: {escape(row.doubt)}.</p>'
        yield from (f"<p>{escape(words)}</p>" for words in otherwise(it, log))
        yield "</article>"
    yield "</div>"
    yield f'<p class="note">{escape(DETECTORS)}</p>'


def measured_section(log, left):
    yield "<h2>What was measured</h2>"
    facts = [dict(summary(it)) for it in log.measured]
    heads = list(dict.fromkeys(key for it in facts for key in it))
    if len(facts) == 1:
        yield '<dl class="facts">'
        yield from (f"<div><dt>{escape(key)}</dt><dd>{escape(it)}</dd></div>" for key, it in facts[0].items())
        yield '</dl><p class="note">Delays are of one way.</p>'
    else:
        yield from table(["Log", *heads], [[it.track.name, *(fact.get(key, "") for key in heads)]
                                           for it, fact in zip(log.measured, facts)], "Delays are of one way")
    yield '<div class="figures"><figure>'
    yield from drawing.histogram(log)
    yield "</figure>"
    for it in log.measured[:TRACKS]:
        yield "<figure>"
        yield from drawing.along(it, log.tick, max(it.most, log.tick))
        yield "</figure>"
    yield '</div><p class="note">The red broken line is the greatest delay of the network files: what is later counts ' \
          "there as lost.</p>"
    if left:
        yield f"<details><summary>{counted(len(left), 'line')} left out</summary>"
        more = [f"and {len(left) - LINES} more"] if len(left) > LINES else []
        yield from listed([*map(str, left[:LINES]), *more])
        yield "</details>"


def colours_of(rows):
    letters = sorted({it.setting.letters for it in rows}, reverse=True)
    return {it: COLOURS[place % len(COLOURS)] for place, it in enumerate(letters)}


def legend(colours, is_swept):
    signs = [(f'<path class="line {colour}" d="M1 8H21"/><circle class="dot {colour}" cx="11" cy="8" r="3"/>',
              f"{letters:g} letter{'' if letters == 1 else 's'} a second") for letters, colour in colours.items()]
    signs += [('<path class="line c6" d="M11 1V15"/><circle class="dot c6" cx="11" cy="8" r="3"/>',
               "straight from the log, with its standard error"),
              ('<path class="dot c6" d="M7 5h8l-4 7z"/>', "none in the log: at most (95 %)"),
              *([('<circle class="line c6" cx="11" cy="8" r="5.5"/>', "replayed file"),
                 ('<path class="line c6" d="M6.5 3.5l9 9m0 -9l-9 9"/>', "fitted file")] if is_swept else []),
              ('<circle class="chosen" cx="11" cy="8" r="6.5"/>', "what a wish got"),
              ('<rect class="unknown" width="22" height="16"/>', "rarer than the log can promise")]
    yield '<ul class="legend">'
    yield from (f'<li><svg viewBox="0 0 22 16" aria-hidden="true">{sign}</svg>{escape(words)}</li>' for sign, words in signs)
    yield "</ul>"


def frontier_section(log, rows, answers):
    colours, is_swept = colours_of(rows), any(it.is_swept for it in rows)
    yield "<h2>What detection costs</h2>"
    yield "<p>Each mark is a setting: the further left, the sooner a crash is detected; the further down, the rarer a live " \
          "machine is suspected." + (" The count straight from the log and both network files should stand together. Faint "
                                     "marks aren't to be believed as rows of the files; the table says why."
                                     if is_swept else "") + "</p>"
    yield '<div class="figures">'
    for detector in ("freshness", "timeouts"):
        yield "<figure>"
        yield from drawing.frontier(detector, rows, log, colours, answers)
        yield "</figure>"
    yield "</div>"
    yield from legend(colours, is_swept)


def setting_cells(row, log):
    it = row.setting
    bound = f"{it.bound * log.tick * 1000:,.1f}".removesuffix(".0")
    return [f"{it.letters:g}", bound, "among the delays" if it.bears < 0 else f"{it.bears}"]


def tables_section(log, rows, answers):
    yield "<h2>Settings</h2>"
    for detector, words, key in (("freshness", "freshness points", "delta, ms"), ("timeouts", "time-outs", "timeout, ms")):
        mine = [it for it in rows if it.setting.detector == detector]
        lines = []
        for wish in (it.wish for it in answers):
            for letters in colours_of(rows):
                of = [it for it in mine if it.setting.letters == letters and it.time(2) * log.tick <= wish.detect]
                best = soonest([it for it in of if it.log.most <= wish.hourly])
                row = best or soonest([it for it in of if not it.log.mistakes])
                if row:
                    lines.append([wish.name, f"{letters:g}", setting_cells(row, log)[1], times(row.log.detected, log),
                                  number(row.log.mistakes), number(row.log.most), "shown" if best else
                                  "not shown, but it outlasts the log"])
        yield from table(["Wish", "Letters a second", key, "Detected after, ms", "Mistakes in the log", "An hour, at most",
                          "By the log"], lines, f"For each wish and rate of letters the soonest setting of {words}; "
                         "detection is the median, the 99th percentile and the greatest", (6,), (4,))
    yield f"<details><summary>All {len(rows)} settings</summary>"
    for detector, words, key in (("freshness", "Freshness points", "delta, ms"), ("timeouts", "Time-outs", "timeout, ms")):
        mine = [it for it in rows if it.setting.detector == detector]
        yield from table(["Letters a second", key, "Bears lost", "Detected after, ms", "In the log", "An hour", "± error",
                          "At most", "Replayed", "Fitted", "Believed"],
                         [[*setting_cells(it, log), times(it.log.detected, log), number(it.log.mistakes),
                           number(it.log.rate), number(it.log.error), number(it.log.most), swept_cell(it.replayed),
                           swept_cell(it.fitted), "no: " + it.doubt if it.doubt else "yes"] for it in mine],
                         f"{words}: mistakes of a pair in an hour, by the log and by both files", (10,))
    yield "</details>"
    yield f'<p class="note">A row is believed where the log has {FEW} mistakes or more, the bound lies beyond the delays, and ' \
          "both files agree with the log within 3 standard errors. Where a row isn't, the count straight from the log " \
          "stands by itself, with what it is at most.</p>"


def swept_cell(swept):
    return "" if swept is None else f"{number(swept.rate)} ± {number(swept.error)}"


def onward(log, answers, rows):
    row = next((it.best for it in answers if it.best), rows[0])
    key = "delta" if row.setting.detector == "freshness" else "timeout"
    bound, period = row.setting.bound, row.setting.period
    values = f"{max(1, bound - period // 2)},{bound},{bound + period}"
    yield "<h2>To go on</h2>"
    yield "<p>The folder has a scenario with the first setting above, and both network files. From the root of fdbench's " \
          "repository, with this folder as advice:</p>"
    commands = [f"./fdstudy sweep advice/scenario.toml --network advice/{kind}.network.toml --seeds 1..=20 "
                f"--vary detector.{key}={values} --columns detector.{key},pair_ticks,mistakes,mistakes_error"
                for kind in ("replayed", "fitted")]
    yield "<pre>" + escape("\n".join(commands)) + "</pre>"
    yield '<p class="note">A sweep counts all pairs of the scenario. ' \
          f"At best this log can promise a mistake {escape(often(3 / log.hours))}; once in 100 h takes a log of 300 h.</p>"
