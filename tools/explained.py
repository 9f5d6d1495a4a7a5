#!/usr/bin/env python3
"""Sees that `./explain` explains every rule, every line on standard error and every status: tools/explained.py.

The rules are those of `fsc_base`, the lines and statuses those of the tables that `fsc_ending` is proved against. What has no explanation is
printed, and the status is 1 where there is some."""

import os
import re
import subprocess
import sys

TOP = os.path.dirname(os.path.dirname(os.path.abspath(__file__)))
LINES = ("stop_text", "storage_text", "link_line", "bad_unit_line", "note_of", "marks_line", "live_line")


def text(*path):
    with open(os.path.join(TOP, "crates", *path), encoding="utf-8") as page:
        return page.read()


def rules():
    """The names of all rules."""
    return re.findall(r"^    ([KLM]\d\d),$", text("fsc_base", "src", "rule.rt"), re.M)


def tables():
    """The equations of the tables of endings."""
    folder = os.path.join(TOP, "crates", "fsc_ending", "specs")
    return "\n".join(text("fsc_ending", "specs", name) for name in sorted(os.listdir(folder)) if name.endswith(".antt"))


def lines(equations):
    """The first words of each line."""
    found = re.findall(rf'^(?:{"|".join(LINES)}) [^=]*= [^"\n]*codes "([^"]*)"', equations, re.M)
    return sorted({words.strip() for words in found if words.strip()})


def statuses(equations):
    """Each exit status but that of a program which exits."""
    return sorted(set(re.findall(r"^status_of [^=]*= (\d+)$", equations, re.M)))


def main():
    equations = tables()
    wanted = [*rules(), *lines(equations), *statuses(equations)]
    lacking = [word for word in wanted if subprocess.run([os.path.join(TOP, "explain"), word], capture_output=True, check=False).returncode]
    for word in lacking:
        print(f"{word} has no explanation")
    print(f"{len(wanted) - len(lacking)} of {len(wanted)} rules, lines and statuses are explained")
    sys.exit(bool(lacking))


if __name__ == "__main__":
    main()
