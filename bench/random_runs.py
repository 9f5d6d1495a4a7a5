#!/usr/bin/env python3
"""Runs random programs in every way that there is, and compares.

    bench/random_runs.py PROGRAM [FIRST [COUNT]] [--reference COMMAND]

PROGRAM is the built `fsc`; FIRST is the first seed, 1 without it, and COUNT how many there are, 1,000 without it. Each second program is
wild (`random_program.py`). For each, `go` and `mean` have to write the same, end with the same status and leave the same line; a tame
one has to write and end as `gcc -m32` makes it, where that is installed. COMMAND, where it is given, is run with the file's name behind
it: a reference that writes the output, and, on standard error, the line of the end where there is one and then `methods M, ..`; `go` has
to agree with it. A program that differs is kept in a folder whose name is printed, and the status is 1.
"""
import argparse
import os
import shlex
import shutil
import subprocess
import sys
import tempfile

from random_program import program

GCC = ["gcc", "-m32", "-std=c90", "-funsigned-char", "-fwrapv", "-fno-strict-aliasing", "-O0", "-w"]


def said(command):
    """What a command writes, the lines on its standard error, and its status."""
    ended = subprocess.run(command, stdin=subprocess.DEVNULL, capture_output=True, check=False)
    return ended.stdout, ended.stderr.decode("latin-1").splitlines(), ended.returncode


def marked(lines):
    """The number in the line of the marks, and the other lines."""
    marks = [line.split()[1].rstrip(",") for line in lines if line.startswith("methods ")]
    return marks, [line for line in lines if not line.startswith("methods ")]


def differences(options, source, is_wild):
    """What differs between the ways to run a program, a text for each."""
    output, lines, status = said([options.program, "go", "--stats", source])
    marks, lines = marked(lines)
    if status in (122, 123) and lines:
        yield f"go: {lines[:1]}"
        return
    follows = said([options.program, "mean", source])
    if follows != (output, lines, status):
        yield f"mean: {follows[1]} {follows[2]} beside {lines} {status}"
    if not is_wild and options.has_gcc:
        made = source + ".gcc"
        said([*GCC, source, "-o", made])
        wanted, _, ended = said([made])
        if (wanted, ended) != (output, status):
            yield f"gcc: status {ended} beside {status} {lines}"
    if options.reference:
        wanted, its_lines, ended = said([*shlex.split(options.reference), source])
        its_marks, its_lines = marked(its_lines)
        if (wanted, its_lines, ended, its_marks) != (output, lines, status, marks):
            yield f"reference: {its_lines} {ended} methods {its_marks} beside {lines} {status} methods {marks}"


def main():
    parser = argparse.ArgumentParser()
    parser.add_argument("program")
    parser.add_argument("first", nargs="?", type=int, default=1)
    parser.add_argument("count", nargs="?", type=int, default=1000)
    parser.add_argument("--reference")
    options = parser.parse_args()
    options.program = os.path.abspath(options.program)
    options.has_gcc = shutil.which("gcc") is not None and said([*GCC, "-xc", "-fsyntax-only", "/dev/null"])[2] == 0
    folder = tempfile.mkdtemp(prefix="fsc-random-")
    bad = stopped = 0
    for seed in range(options.first, options.first + options.count):
        is_wild = seed % 2 == 0
        source = os.path.join(folder, f"seed{seed}.c")
        with open(source, "w", encoding="ascii") as page:
            page.write(program(seed, is_wild))
        found = list(differences(options, source, is_wild))
        stopped += is_wild
        bad += bool(found)
        if found:
            print(f"seed {seed}: {'; '.join(found)}", flush=True)
        for name in (source, source + ".gcc"):
            if os.path.exists(name) and (not found or name != source):
                os.unlink(name)
    print(f"{options.count - bad} of {options.count} programs ({stopped} of them wild) run alike in all ways" + (f"; the others are kept in {folder}" if bad else ""))
    if not bad:
        os.rmdir(folder)
    sys.exit(bad > 0)


if __name__ == "__main__":
    main()
