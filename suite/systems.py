#!/usr/bin/env python3
"""systems.py [--from FOLDER] [--to FOLDER] [--pages FOLDER]: what the defaults of systems of today come to.

Reads defaults.csv and frontiers.csv of the one folder (results/), and writes systems.csv and the picture systems.svg to
the other: to this folder and to pictures/ where none is named. There, or in the folder of --pages, it also puts the
table of README.md in its place.
"""
import argparse
import os
import sys

sys.dont_write_bytecode = True
import page  # noqa: E402
from page import COLOURS, HEIGHT, LEFT, RIGHT, TOP, WIDTH, Axes, Rates, mark, rates_of  # noqa: E402
from suite import COARSE, HOME, networks, systems, up_to  # noqa: E402

SHOWN = ("region_5", "region_5_bursts", "continents_5_bursts")  # in the page's table
DRAWN = "region_5_bursts"


def rates(row, network):
    return Rates(row, network, COARSE, up_to(int(row["bound"]), int(row["check"])), network.together)


def milliseconds(row):
    return [row[f"detection_{it}"] for it in ("p50", "p99", "max")]


def lines(defaults, found):
    yield ["network", "system", "version", "period_ms", "check_ms", "timeout_ms", "p50_ms", "p99_ms", "greatest_ms",
           "undetected", "mistakes", "pair_hours", "hours_apart", "mistakes_an_hour", "at_most_an_hour", "row", "where",
           "looked_up", "not_simulated"]
    known = {it["name"]: it for it in systems()}
    for row in defaults:
        system, seen = known[row["system"]], rates(row, found[row["network"]])
        yield [row["network"], row["system"], system["version"], row["period"], row["check"], row["bound"],
               *milliseconds(row), row["undetected"], row["mistakes"], f"{seen.hours:.1f}", f"{seen.hours_apart:.1f}",
               f"{seen.rate:.3g}", f"{seen.most:.3g}", row["row"], system["where"], system["seen"],
               system["missing"]]


def table(defaults, found):
    """Detection in seconds, and mistakes of a pair in an hour."""
    yield from page.head_of(["System", "Says it is alive, looks, waits: s", "Detected after, s",
                             *(f"Mistakes, {it}" for it in SHOWN)])
    by_name = {(it["network"], it["system"]): it for it in defaults}
    for system in systems():
        mine = [by_name[it, system["name"]] for it in SHOWN if (it, system["name"]) in by_name]
        if not mine:
            continue
        waits = ", ".join(f"{system[it] / 1000:g}" for it in ("period", "check", "timeout"))
        took = "/".join(f"{int(it) / 1000:.3g}" if it else "∞" for it in milliseconds(mine[min(1, len(mine) - 1)]))
        cells = [rates(it, found[it["network"]]).text() for it in mine]
        yield page.row_of([titled(system), waits, took, *cells])


def titled(system):
    """The name, and the version where that is a number that isn't in the name."""
    name, version = system["name"], system["version"]
    return f"{name} {version}" if version[0].isdigit() and version not in name else name


def place_of(row, network, axes):
    seen = rates(row, network)
    return float(axes.across(int(row["detection_p99"]))), float(axes.down(seen.rate or seen.most))


def named(row, network, axes, taken):
    """A system's mark and its name, where no other mark or name stands, as near as can be."""
    x, y = place_of(row, network, axes)
    seen = rates(row, network)
    if seen.mistakes and not seen.is_sure():
        yield f'<path class="line" stroke="#222" d="M{x:.1f} {y:.1f}V{axes.down(seen.most)}m-4 0h8"/>'
    if seen.mistakes:
        yield f'<path fill="#222" d="M{x:.1f} {y - 6:.1f}l6 6l-6 6l-6 -6z"/>'
    else:
        yield f'<path fill="#222" d="M{x - 5:.1f} {y - 4:.1f}h10l-5 9z"/>'
    wide = 7 * len(row["system"])
    right = x + 10 + wide < WIDTH - RIGHT
    at = x + 10 if right else x - 10 - wide
    tries = [y + 4 + 15 * step for step in sorted(range(-12, 13), key=abs)]
    down = next(it for it in tries if not any(abs(it - its) < 14 and at < end and begin < at + wide
                                              for begin, end, its in taken))
    taken.append((at, at + wide, down))
    if down != y + 4:
        yield f'<path class="line" stroke="#999" d="M{x:.1f} {y:.1f}L{x + (8 if right else -8):.1f} {down - 4:.1f}"/>'
    anchor = "start" if right else "end"
    yield f'<text x="{x + (10 if right else -10):.1f}" y="{down:.1f}" text-anchor="{anchor}">{row["system"]}</text>'


def legend():
    x, grey = WIDTH - RIGHT + 16, "#555"
    signs = [(f'<path fill="#222" d="M{x + 9} -10l6 6l-6 6l-6 -6z"/>', "a system's defaults"),
             (f'<path fill="#222" d="M{x + 4} -8h10l-5 9z"/>', "none seen: at most (95 %)"),
             (f'<path class="line" stroke="#222" d="M{x + 9} -12v14m-4 0h8"/>', "up to at most (95 %)")]
    signs += [(mark("freshness", x + 9, -4, colour), f"freshness, {letters} a second")
              for letters, colour in COLOURS.items()]
    signs += [(mark("timeouts", x + 9, -4, grey), "time-outs"),
              (f'<path fill="{grey}" d="M{x + 4} -8h10l-5 9z"/>', "settings: none seen")]
    for place, (sign, words) in enumerate(signs):
        yield f'<g transform="translate(0 {TOP + 12 + 18 * place})">{sign}<text x="{x + 26}">{words}</text></g>'


def picture(defaults, frontiers, found):
    """The systems over the frontiers of one network."""
    network = found[DRAWN]
    tick = int(network.line["tick_us"]) / 1000
    mine = [it for it in defaults if it["network"] == DRAWN and it["detection_p99"]]
    settings = [it for it in frontiers if it["network"] == DRAWN and it["detection_p99"]]
    seen = [rates(it, network) for it in mine] + [rates_of(it, network) for it in settings]
    heights = [it.rate or it.most for it in seen]
    axes = Axes([int(it["detection_p99"]) for it in mine] + [int(it["detection_p99"]) * tick for it in settings],
                [min(heights), max(heights)])
    yield f'<svg xmlns="http://www.w3.org/2000/svg" viewBox="0 0 {WIDTH} {HEIGHT}" width="{WIDTH}" height="{HEIGHT}" ' \
          'font-family="sans-serif" font-size="13" fill="#222">'
    yield "<style>.line,.grid,.frame{fill:none}.grid{stroke:#ddd}.frame{stroke:#222}</style>"
    yield f'<rect width="{WIDTH}" height="{HEIGHT}" fill="#fff"/>'
    yield f'<text x="{(LEFT + WIDTH - RIGHT) // 2}" y="28" text-anchor="middle" font-size="17">' \
          "Defaults of systems over the frontiers of one region, with bursts and pauses</text>"
    yield from axes.frame()
    for row in sorted(settings, key=lambda it: it["detector"], reverse=True):
        seen, colour = rates_of(row, network), COLOURS[int(row["letters"])]
        x, y = axes.across(int(row["detection_p99"]) * tick), axes.down(seen.rate or seen.most)
        if seen.mistakes:
            yield mark(row["detector"], x, y, colour)
        else:
            inside = colour if row["detector"] == "freshness" else "none"
            yield f'<path fill="{inside}" stroke="{colour}" d="M{float(x) - 5:.1f} {float(y) - 4:.1f}h10l-5 9z"/>'
    marks = [place_of(it, network, axes) for it in mine]
    marks += [(float(axes.across(int(it["detection_p99"]) * tick)),
               float(axes.down(rates_of(it, network).rate or rates_of(it, network).most))) for it in settings]
    taken = [(x - 6, x + 6, y + 4) for x, y in marks]
    for row in sorted(mine, key=lambda it: -int(it["detection_p99"])):
        yield from named(row, network, axes, taken)
    yield from legend()
    yield "</svg>"


def main():
    words = argparse.ArgumentParser(description=__doc__.partition("\n")[0])
    words.add_argument("--from", dest="home", default=os.path.join(HOME, "results"))
    words.add_argument("--to")
    words.add_argument("--pages", help="the folder of the pages that get the table, where it isn't this one")
    asked = words.parse_args()
    defaults, frontiers = page.rows(asked.home, "defaults"), page.rows(asked.home, "frontiers")
    found = {it.name: it for it in networks(sorted({it["network"] for it in defaults}))}
    page.write(asked.to or HOME, "systems", lines(defaults, found))
    if DRAWN in found:
        path = os.path.join(asked.to or os.path.join(HOME, "pictures"), "systems.svg")
        with open(path, "w", encoding="utf-8") as file:
            file.write("\n".join(picture(defaults, frontiers, found)) + "\n")
    if asked.to is None or asked.pages:
        page.fill(asked.pages, {"systems": table(defaults, found)})


if __name__ == "__main__":
    main()
