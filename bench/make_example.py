#!/usr/bin/env python3
"""Makes the example of two units with `make -j`, runs it, and shows that a change compiles one unit alone.

usage: bench/make_example.py PROGRAM, where PROGRAM is the built fsc. Ends with 1 where something is not as it should be.
"""
import os
import shutil
import subprocess
import sys
import tempfile

HERE = os.path.dirname(os.path.abspath(__file__))
UNITS = os.path.join(HERE, "..", "examples", "units")


def make(program, folder, *words, given=""):
    """The lines that make prints, and what its commands print."""
    done = subprocess.run(["make", "-j4", f"FSC={program}", *words], cwd=folder, input=given, capture_output=True, text=True)
    if done.returncode != 0:
        sys.exit(f"make {' '.join(words)} ended with {done.returncode}:\n{done.stdout}{done.stderr}")
    return done.stdout.splitlines()


def commands(lines, word):
    return sum(f" {word} " in line for line in lines)


def check(what, found, wanted):
    print(f"{what}: {found}")
    if found != wanted:
        sys.exit(f"wanted: {wanted}")


def main(program):
    with tempfile.TemporaryDirectory() as room:
        folder = os.path.join(room, "units")
        shutil.copytree(UNITS, folder)
        lines = make(program, folder)
        check("units compiled, images linked", (commands(lines, "compile"), commands(lines, "link")), (2, 1))
        check("the run prints", make(program, folder, "run", given="to be or not to be\n")[-1], "6 words, the longest has 3 letters")
        os.utime(os.path.join(folder, "words.c"))
        lines = make(program, folder)
        check("after a change of one unit", (commands(lines, "compile"), commands(lines, "link")), (1, 1))
        check("with no change", make(program, folder)[-1].endswith("is up to date."), True)


if __name__ == "__main__":
    main(os.path.abspath(sys.argv[1]))
