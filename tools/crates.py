"""The crates of this repository, on which others each depends, and the arguments with which the checker is called for one.

A library is built of its statements alone, as the gate builds it: the crates above need no more, and load it quickly.
It goes into the crate's out/rlib/, with a sum of all that it was made from. `rt` makes its own there, with proofs, where a
command of its needs them.
"""
import hashlib
import os
import re
import subprocess

ROOT = os.path.dirname(os.path.dirname(os.path.abspath(__file__)))
SOURCES = ("src", "specs", "proofs")
# seconds that the proof of a crate takes of which edits/costs.txt has no row: those are small
OTHER_COST = 15


class Crates:
    """The crates of crates.txt, by name, each after those on which it depends."""

    def __init__(self):
        self.kit = os.path.dirname(subprocess.run(["rt", "doc"], capture_output=True, text=True, check=True).stdout.strip())
        with open(os.path.join(ROOT, "crates.txt"), encoding="utf-8") as lines:
            rows = [line.partition("#")[0].partition(":") for line in lines]
        named = {head.split()[0]: re.findall(r"[\w/-]+", below) for head, _, below in rows if head.strip()}
        self.own = {name: [it for it in words if it in named] for name, words in named.items()}
        self.of_kit = {name: ["std", *(it for it in words if it not in named)] for name, words in named.items()}
        with open(os.path.join(ROOT, "edits", "costs.txt"), encoding="utf-8") as lines:
            costs = [line.partition("#")[0].split() for line in lines]
        self.costs = {row[0]: int(row[1]) for row in costs if row}

    def home(self, name):
        return os.path.join(ROOT, "crates", name)

    def is_program(self, name):
        return os.path.isfile(os.path.join(self.home(name), "src", "main.rt"))

    def below(self, name):
        """The crates below one, lowest first."""
        found = []
        for it in self.own[name]:
            found += [lower for lower in [*self.below(it), it] if lower not in found]
        return found

    def files(self, name):
        """The paths of a crate's sources."""
        for part in SOURCES:
            for at, _, names in sorted(os.walk(os.path.join(self.home(name), part))):
                yield from (os.path.join(at, it) for it in sorted(names))

    def seconds(self, name):
        """How many seconds of processor time its proof takes, as far as edits/costs.txt has it: a measure of the work."""
        return self.costs.get(name, OTHER_COST)

    def sums(self, names):
        """Of each crate the sum of all that it is made from: its sources, the crates below and the toolchain. Lowest first."""
        found = {}
        with open(os.path.join(self.kit, "WHAT"), "rb") as file:
            toolchain = file.read()
        for name in names:
            total = hashlib.sha256(toolchain)
            total.update(repr([self.of_kit[name], [found[it] for it in self.own[name]]]).encode())
            for path in self.files(name):
                with open(path, "rb") as file:
                    total.update(repr((os.path.relpath(path, ROOT), file.read())).encode())
            found[name] = total.hexdigest()
        return found

    def made(self, name):
        """Where what is built of a crate goes, and the file that keeps its sum."""
        out = os.path.join(self.home(name), "out")
        if self.is_program(name):
            return os.path.join(out, name), os.path.join(out, name + ".sum")
        return os.path.join(out, "rlib", name + ".rlib"), os.path.join(out, "rlib", "sum")

    def is_built(self, name, total):
        """Whether what is built of a crate was made from what has this sum."""
        made, kept = self.made(name)
        if not (os.path.exists(made) and os.path.isfile(kept)):
            return False
        with open(kept, encoding="ascii") as file:
            return file.read() == total

    def words(self, name, jobs):
        """The checker's arguments for a crate, in whose folder it has to run."""
        words = ["--crate-name", name, "src/main.rt" if self.is_program(name) else "src/lib.rt"]
        for it in self.of_kit[name]:
            words += ["--extern", f"{it}={self.kit}/rlibs/{it}.rlib"]
        words += ["-L", f"dependency={self.kit}/rlibs"]
        for it in self.own[name]:
            words += ["--extern", f"{it}={self.made(it)[0]}"]
        for it in self.below(name):
            words += ["-L", "dependency=" + os.path.dirname(self.made(it)[0])]
        words += ["--antt-project", f"{self.kit}/rattle/logic/antt-project.json", "--logic-built", f"{self.kit}/logic_built"]
        return [*words, "--jobs", str(jobs), "--links", f"{name}="]

    def rattle(self, *words):
        return [os.path.join(self.kit, "bin", "rattle"), *words]
