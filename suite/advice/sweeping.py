"""The settings by fdstudy, over the network files: each is one call, with seeds of its own that no other row has."""
import concurrent.futures
import csv
import io
import os
import subprocess
import sys
import zlib
from dataclasses import dataclass

from .fitting import scenario_text
from .measuring import HOUR
from .words import Refused

KINDS = ("replayed", "fitted")
PHASES, FEW_PHASES = 10, 5  # crash ticks, spread over a period
COLUMNS = ("layer,runs,limited,pair_ticks,mistakes,mistaken_ppm,mistakes_error,detections,undetected,detection_p50,"
           "detection_p99,detection_max")


@dataclass
class Swept:
    """What the runs of a row came to: in an hour, of a pair."""

    mistakes: int
    hours: float
    rate: float
    error: float
    detected: tuple  # ticks: median, 99th percentile, greatest
    seeds: str
    horizon: int
    crashes: str


@dataclass
class Point:
    """One setting over one network file: the words of its call."""

    kind: str
    setting: object
    horizon: int
    runs: int
    crashes: str
    seeds: str
    processes: int

    @property
    def pairs(self):
        return self.processes * (self.processes - 1)

    @property
    def cost(self):
        checks = self.setting.period / self.setting.check if self.setting.detector == "timeouts" else 1
        return self.runs * self.horizon / self.setting.period * self.processes * (self.processes + checks)

    def axes(self):
        setting = self.setting
        if setting.detector == "freshness":
            keys = {"kind": "freshness", "eta": setting.period, "delta": setting.bound}
        else:
            keys = {"kind": "timeout", "period": setting.period, "check": setting.check, "timeout": setting.bound}
        tied = ",".join(f"detector.{it}" for it in keys) + "=" + ":".join(str(it) for it in keys.values())
        return ["--seeds", self.seeds, "--vary", f"horizon={self.horizon}", "--vary", tied,
                "--deal", f"crash[1].at={self.crashes}"]


def point_of(kind, setting, log, plan, pair_hours):
    """The call of a setting; None where no run is long enough for it."""
    horizon, period = log.horizon(setting), setting.period
    pairs = plan.processes * (plan.processes - 1)
    phases = min(PHASES if pair_hours >= 10 else FEW_PHASES, period)
    # the last letter before the crash is out, and what follows is long enough to detect it
    tail = (-(-(setting.bound + log.most) // period) + 3) * period
    begin = horizon - tail + 1
    if begin <= setting.opening + period:
        return None
    step = period // phases
    crashes = f"{begin}..={begin + (phases - 1) * step}:{step}"
    wanted = pair_hours * HOUR / (pairs * horizon * log.tick)
    runs = phases * max(1, round(wanted / phases))
    first = (zlib.crc32(f"{kind}:{setting.row}".encode()) << 20) + 1
    return Point(kind, setting, horizon, runs, crashes, f"{first}..={first + runs - 1}", plan.processes)


def swept(point, log, plan, fdstudy, folder):
    network = os.path.join(folder, f"{point.kind}.network.toml")
    words = [fdstudy, "sweep", "-", "--network", network, *point.axes(), "--columns", COLUMNS, "--threads", "1"]
    ran = subprocess.run(words, input=scenario_text(plan, log, point.horizon), capture_output=True, text=True)
    if ran.returncode:
        said = ran.stderr.strip().splitlines()
        raise Refused(f"{fdstudy}: status {ran.returncode} of {point.kind} {point.setting.row}: {''.join(said[-1:])}")
    row = next(it for it in csv.DictReader(io.StringIO(ran.stdout)) if it["layer"] == "1")
    watched = int(row["pair_ticks"]) - point.runs * point.pairs * point.setting.opening
    hours = watched * log.tick / HOUR
    detected = tuple(int(row[it]) if row[it] else None for it in ("detection_p50", "detection_p99", "detection_max"))
    return Swept(int(row["mistakes"]), hours, int(row["mistakes"]) / hours, int(row["mistakes_error"]) / hours, detected,
                 point.seeds, point.horizon, point.crashes)


def make_ready(fdstudy):
    """The repository's program is proved and built first, where it has to be; it says by itself how far that is."""
    crates = os.path.join(os.path.dirname(os.path.realpath(fdstudy)), "crates", "fdstudy")
    if os.path.isdir(crates) and not os.path.exists(os.path.join(crates, "out", "fdstudy")):
        print("advise: fdstudy is proved and built first, which takes a good while; --no-sweeps answers without it",
              file=sys.stderr, flush=True)
    try:
        status = subprocess.run([fdstudy, "--help"], stdout=subprocess.DEVNULL).returncode
    except OSError as error:
        raise Refused(f"{fdstudy}: {error.strerror}") from None
    if status:
        raise Refused(f"{fdstudy}: status {status} of --help")


def sweep(settings, log, plan, asked, folder):
    """What both network files say of each setting: by kind and setting; the costliest are run first."""
    make_ready(asked.fdstudy)
    points = [point_of(kind, it, log, plan, asked.hours) for kind in KINDS for it in settings]
    points = sorted((it for it in points if it), key=lambda it: -it.cost)
    found, told = {}, sys.stderr.isatty()
    with concurrent.futures.ThreadPoolExecutor(asked.jobs) as pool:
        started = {pool.submit(swept, it, log, plan, asked.fdstudy, folder): it for it in points}
        try:
            for it in concurrent.futures.as_completed(started):
                point = started[it]
                found[point.kind, point.setting] = it.result()
                if told:
                    print(f"\r{len(found)} of {len(points)} sweeps ", end="", file=sys.stderr, flush=True)
        finally:
            pool.shutdown(cancel_futures=True)
            if told:
                print("\r" + " " * 40 + "\r", end="", file=sys.stderr, flush=True)
    return found
