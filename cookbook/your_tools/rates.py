#!/usr/bin/env python3
"""rates.py FILE: of each point of a study the mistakes for each hour that a pair is watched, and the mean detection."""
import csv
import sys

HOUR = 3_600_000  # ticks of 1 ms

with open(sys.argv[1], encoding="ascii", newline="") as file:
    print(f"{'period':>6} {'timeout':>7} {'mistakes an hour':>16} {'mean detection':>14}")
    for row in csv.DictReader(file):
        hours, mistakes, found = (int(row[name]) for name in ("pair_ticks", "mistakes", "detections"))
        rate = f"{mistakes / hours * HOUR:.2f}" if mistakes else f"below {3 / hours * HOUR:.2f}"
        mean = f"{int(row['detection_sum']) / found:.1f}" if found else "none"
        print(f"{row['detector.period']:>6} {row['detector.timeout']:>7} {rate:>16} {mean:>14}")
