#!/usr/bin/env python3
"""Compares the completions of completions/ with the help texts of both programs.

    bench/completions.py [--try]

Of each program, and of each of its commands, the help names the commands, the options and the columns of a study. The
functions for bash are called as bash calls them and have to offer just these; of the files for zsh and fish it is read
what they offer of each command, and where a shell is on the path its own check of the syntax is made (zsh -n, fish -n).
With --try the help texts come from the sources before any proof (rt try), in some minutes; else from ./fdbench and
./fdstudy. It prints what differs, and ends with status 1 where something does.
"""
import argparse
import os
import re
import shutil
import subprocess
import sys
import tempfile

ROOT = os.path.dirname(os.path.dirname(os.path.abspath(__file__)))
COMPLETIONS = os.path.join(ROOT, "completions")
VALUES = {"--print": "trace report both", "--as": "suspicions letters", "--each": "point run"}


def help_of(program, *words):
    ran = subprocess.run([os.path.join(ROOT, program), *words, "--help"], capture_output=True, text=True, check=True)
    return ran.stdout


def tried_help(program, *commands):
    """The help texts of a program and of so many of its commands, by one build before any proof."""
    with tempfile.TemporaryDirectory() as folder:
        for at, command in enumerate([[], *([it] for it in commands)]):
            for name, text in ((f"case{at}", ""), (f"case{at}.args", "\n".join([*command, "--help"]) + "\n")):
                with open(os.path.join(folder, name), "w", encoding="ascii") as file:
                    file.write(text)
        ran = subprocess.run(["rt", "try", "--cases", folder], cwd=os.path.join(ROOT, "crates", program), text=True,
                             stdin=subprocess.DEVNULL, capture_output=True)
    texts = re.split(r"(?m)^== case\d+\n", ran.stdout)[1:]
    if len(texts) != len(commands) + 1:
        sys.exit(ran.stdout + ran.stderr)
    return texts


def commands_in(text):
    """The commands that a program's help lists."""
    block = re.search(r"(?ms)^Commands:\n(.*?)^\S", text)[1]
    return set(re.findall(r"(?m)^  (\w+)", block))


def options_in(text):
    """The options that a command's help lists, and the columns where it lists some."""
    options = set(re.findall(r"(?m)^ +(?:-\w, )?(--[\w-]+)", text[text.index("Options:"):]))
    columns = re.findall(r"(?m)^ {2,}(\w+) {2,}\S.*\[[\w ]+\]$", text)
    return options, set(columns)


def read(name):
    with open(os.path.join(COMPLETIONS, name), encoding="utf-8") as file:
        return file.read()


def offered_by_bash(program, *words):
    """What bash offers for the last word."""
    line = " ".join(f"'{it}'" for it in (program, *words))
    script = f"source completions/{program}.bash; COMP_WORDS=({line}); COMP_CWORD={len(words)}; _{program}"
    ran = subprocess.run(["bash", "-c", script + '; printf "%s\\n" "${COMPREPLY[@]}"'], cwd=ROOT, capture_output=True,
                         text=True, check=True)
    return set(ran.stdout.split())


def offered_by_zsh(program, command):
    text = read("_" + program)
    arrays = {name: set(re.findall(r"(?m)^ +['\"]\*?(--[\w-]+)\[", body)) for name, body in
              re.findall(r"(?ms)^    (\w+)=\(\n(.*?)^    \)", text)}
    used = re.search(rf"(?m)^ +{command}\) _arguments (.*) ;;$", text)
    return set().union(*(arrays[it] for it in re.findall(r"\$(\w+)", used[1]))) if used else set()


def offered_by_fish(program, command):
    text = read(program + ".fish")
    of = re.findall(r"(?m)^complete -c \w+ -n '__fish_seen_subcommand_from ([\w ]+)' -l (\w+)", text)
    return {"--help"} | {"--" + option for commands, option in of if command in commands.split()}


def offered_before_commands(program, shell):
    """The options that a file for zsh or fish offers of the program itself."""
    if shell == "zsh":
        return set(re.findall(r"'(--[\w-]+)\[", re.search(r"(?m)^ +_arguments -C (.*)$", read("_" + program))[1]))
    of = re.findall(rf"(?m)^complete -c {program} (?:-n __fish_use_subcommand )?-l (\w+)", read(program + ".fish"))
    return {"--" + option for option in of}


def listed(program, shell):
    """The columns that a file for zsh or fish lists."""
    text = read("_" + program if shell == "zsh" else program + ".fish")
    found = re.search(r"(?ms)^    columns=\((.*?)\)" if shell == "zsh" else r"(?ms)^set -g fdstudy_columns (.*?)^complete", text)
    return set(re.findall(r"\w+", found[1])) if found else set()


class Faults:
    def __init__(self):
        self.compared = self.count = 0

    def compare(self, what, wanted, found):
        self.compared += 1
        if wanted != found:
            self.count += 1
            print(f"{what}: lacks {sorted(wanted - found)}, and has {sorted(found - wanted)} too much")


def main():
    parser = argparse.ArgumentParser(description=__doc__, formatter_class=argparse.RawDescriptionHelpFormatter)
    parser.add_argument("--try", action="store_true", dest="tries")
    tries, faults = parser.parse_args().tries, Faults()
    for program, known in (("fdbench", "check list run compare"), ("fdstudy", "check letters draw show sweep")):
        texts = dict(zip(["", *known.split()], tried_help(program, *known.split()))) if tries else {"": help_of(program)}
        commands = commands_in(texts[""])
        faults.compare(f"commands of {program}", commands, {*known.split(), "help"})
        options, _ = options_in(texts[""])
        faults.compare(f"bash, {program}", commands | options, offered_by_bash(program, ""))
        faults.compare(f"zsh, options of {program}", options, offered_before_commands(program, "zsh"))
        faults.compare(f"fish, options of {program}", options, offered_before_commands(program, "fish"))
        zsh = set(re.findall(r"(?m)^        '([a-z]+):", read("_" + program)))
        fish = set(re.findall(r"(?m)use_subcommand -a (\w+)", read(program + ".fish")))
        faults.compare(f"zsh, {program}", commands, zsh)
        faults.compare(f"fish, {program}", commands, fish)
        for command in sorted(commands - {"help"}):
            options, columns = options_in(texts[command] if tries else help_of(program, command))
            faults.compare(f"bash, {program} {command}", options, offered_by_bash(program, command, "-"))
            faults.compare(f"zsh, {program} {command}", options, offered_by_zsh(program, command))
            faults.compare(f"fish, {program} {command}", options, offered_by_fish(program, command))
            for option in sorted(options & {*VALUES}):
                faults.compare(f"bash, {option}", set(VALUES[option].split()), offered_by_bash(program, command, option, ""))
            if command == "sweep":
                faults.compare("bash, columns", columns, offered_by_bash(program, command, "--columns", ""))
                faults.compare("zsh, columns", columns, listed(program, "zsh"))
                faults.compare("fish, columns", columns, listed(program, "fish"))
        for shell, name in (("bash", program + ".bash"), ("zsh", "_" + program), ("fish", program + ".fish")):
            if shutil.which(shell):
                ran = subprocess.run([shell, "-n", os.path.join(COMPLETIONS, name)], capture_output=True)
                faults.compare(f"{shell} -n completions/{name}", {0}, {ran.returncode})
    print(f"{faults.compared} compared, {faults.count} differ")
    return 1 if faults.count else 0


if __name__ == "__main__":
    sys.exit(main())
