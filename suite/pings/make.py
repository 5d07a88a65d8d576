#!/usr/bin/env python3
"""make.py [--seconds N] [--to FILE]: the log of this folder, from iputils' ping between two network namespaces.

As root, with iproute2 and iputils-ping (Debian). It makes the namespaces `pings_a` and `pings_b` with a tun device each,
runs a relay between the two, and in `pings_a`

    ping -D -O -i 0.1 -c 3000 10.0.0.2

whose output is the log, as ping printed it. Where the kernel has netem, a qdisc could do what the relay does; the one
on which this log was made hasn't, so the relay has netem's models, for each direction by itself:

- a packet takes a log-normal time, with a median of 8 ms and 0.35 for the deviation of its logarithm;
- on the way there packets are lost by Gilbert's and Elliott's model: in the good state none, in the bad one all; before
  each packet the state goes from good to bad with 0.006, and from bad to good with 0.25, so that bursts have 4 packets on
  the mean;
- from 95 s to 95.8 s, and from 210 s to 211.6 s, the relay stands still: what came meanwhile goes out at the end.

Packets may overtake each other. What the relay draws is the same each time, but not when the machine lets it run: the
log is a measurement, and comes out otherwise when it is made again. This one is the quietest of six that were made on a
machine with much other work; in the others the machine stood still now and then, ping and the relay with it.
"""
import argparse
import ctypes
import fcntl
import heapq
import math
import os
import random
import select
import struct
import subprocess
import sys
import time

SIDES = [("pings_a", "10.0.0.1"), ("pings_b", "10.0.0.2")]
MEDIAN, DEVIATION = 0.008, 0.35
TO_BAD, TO_GOOD = 0.006, 0.25
STALLS = [(95.0, 95.8), (210.0, 211.6)]
TUNSETIFF, IFF_TUN, IFF_NO_PI, CLONE_NEWNET = 0x400454CA, 0x0001, 0x1000, 0x40000000


def ip(*words):
    subprocess.run(["ip", *words], check=True)


def opened(namespace, address):
    """A tun device in a namespace, with its address."""
    with open(f"/run/netns/{namespace}", "rb") as place:
        if ctypes.CDLL(None, use_errno=True).setns(place.fileno(), CLONE_NEWNET):
            raise OSError(ctypes.get_errno(), f"setns {namespace}")
    device = os.open("/dev/net/tun", os.O_RDWR | os.O_NONBLOCK)
    fcntl.ioctl(device, TUNSETIFF, struct.pack("16sH22x", b"tun0", IFF_TUN | IFF_NO_PI))
    ip("link", "set", "tun0", "up")
    ip("address", "add", f"{address}/24", "dev", "tun0")
    return device


class Way:
    """One direction: whether a packet is lost, and how long it takes."""

    def __init__(self, seed, loses):
        self.draws, self.loses, self.bad = random.Random(seed), loses, False

    def delay(self):
        turn = self.draws.random()
        self.bad = turn >= TO_GOOD if self.bad else turn < TO_BAD
        taken = MEDIAN * math.exp(self.draws.gauss(0, DEVIATION))
        return None if self.loses and self.bad else taken


def held(since, due):
    """When a packet goes out, by the stalls."""
    for begin, end in STALLS:
        if begin <= since < end or begin <= due < end:
            return max(due, end)
    return due


def relay(devices, ways, ping):
    """Hands packets from one device to the other until ping has ended."""
    began, pending, count = time.monotonic(), [], 0
    while ping.poll() is None:
        now = time.monotonic() - began
        wait = min(0.1, max(0.0, pending[0][0] - now)) if pending else 0.1
        ready, _, _ = select.select(devices, [], [], wait)
        now = time.monotonic() - began
        for device in ready:
            packet, side = os.read(device, 65536), devices.index(device)
            if packet[0] >> 4 != 4:  # what a device says of itself, over IPv6
                continue
            taken = ways[side].delay()
            if taken is not None:
                count += 1
                heapq.heappush(pending, (held(now, now + taken), count, devices[1 - side], packet))
        while pending and pending[0][0] <= time.monotonic() - began:
            _, _, device, packet = heapq.heappop(pending)
            os.write(device, packet)


def main():
    words = argparse.ArgumentParser(description=__doc__, formatter_class=argparse.RawDescriptionHelpFormatter)
    words.add_argument("--seconds", type=int, default=300)
    words.add_argument("--to", default=os.path.join(os.path.dirname(os.path.abspath(__file__)), "ping.log"))
    asked = words.parse_args()
    order = ["ping", "-D", "-O", "-i", "0.1", "-c", str(10 * asked.seconds), SIDES[1][1]]
    for namespace, _ in SIDES:
        ip("netns", "add", namespace)
    try:
        devices = [opened(*side) for side in SIDES]
        os.sched_setscheduler(0, os.SCHED_FIFO, os.sched_param(10))  # other work on the machine delays no packet
        with open(asked.to, "wb") as log:
            ping = subprocess.Popen(["ip", "netns", "exec", SIDES[0][0], *order], stdout=log)
            relay(devices, [Way(1, True), Way(2, False)], ping)
    finally:
        for namespace, _ in SIDES:
            ip("netns", "delete", namespace)
    return ping.returncode


if __name__ == "__main__":
    sys.exit(main())
