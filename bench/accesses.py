#!/usr/bin/env python3
"""Counts the instructions that statements with an access take in an image: bench/accesses.py PROGRAM, where PROGRAM is the built `fsc`.

Each statement stands 50 times and 150 times in a program of its own. Printed are the instructions that one takes, and how many marks it makes:
an access that goes through its object's own layout makes none, each other makes one.
"""
import os
import subprocess
import sys
import tempfile

from programs import instructions

HEAD = """struct pair { char *name; int number; }; struct bits { unsigned low : 3, high : 5; };
int numbers[4]; char text[8]; short halves[4]; char *names[4]; struct pair pairs[2]; struct bits field; union { int whole; char part[4]; } both;
int main(void) { int v = 0; int *p = numbers; char *q = text; short *h = halves; char **n = names; struct pair *s = pairs;
p[0] = 1; q[0] = 1; h[0] = 1; n[0] = text; s->number = 1; both.whole = 7;
"""

STATEMENTS = (
    ("a local, no access", "v = 7;"),
    ("an int is read", "v = *p;"),
    ("an int is written", "*p = 7;"),
    ("an element of an array is read", "v = numbers[2];"),
    ("a char is read", "v = *q;"),
    ("a char is written", "*q = 7;"),
    ("a short is read", "v = *h;"),
    ("a short is written", "*h = 7;"),
    ("a pointer is read", "q = *n;"),
    ("a pointer is written", "*n = q;"),
    ("a number in a struct with a pointer is read", "v = s->number;"),
    ("a number in a struct with a pointer is written", "s->number = 7;"),
    ("a bit-field is read", "v = field.high;"),
    ("a bit-field is written", "field.high = 7;"),
    ("an int is read from an array of char", "v = *(int *)q;"),
    ("an int is written into an array of char", "*(int *)q = 7;"),
    ("a char is read from an array of int", "v = *(char *)p;"),
    ("a char is written into an array of int", "*(char *)p = 7;"),
    ("an int is read across two words of an array of char", "v = *(int *)(q + 1);"),
    ("an int is written across two words of an array of char", "*(int *)(q + 1) = 7;"),
)


def counted(fsc, folder, statement, times):
    """The instructions and the marks of a program in which a statement stands so many times."""
    source, image = os.path.join(folder, "t.c"), os.path.join(folder, "image")
    with open(source, "w", encoding="ascii") as page:
        page.write(HEAD + (statement + "\n") * times + "return 0; }\n")
    subprocess.run([fsc, "build", "-o", image, source], check=True)
    ran = subprocess.run([fsc, "run", "--stats", image], capture_output=True, check=True)
    return instructions(fsc, image), int(ran.stderr.split()[1])


def main():
    if len(sys.argv) != 2:
        sys.exit(__doc__)
    fsc = os.path.abspath(sys.argv[1])
    print("| Statement | | Instructions | Marks |\n|---|---|---|---|")
    with tempfile.TemporaryDirectory() as folder:
        for what, statement in STATEMENTS:
            few, many = (counted(fsc, folder, statement, times) for times in (50, 150))
            print(f"| {what} | `{statement}` | {(many[0] - few[0]) / 100:.0f} | {(many[1] - few[1]) / 100:.0f} |", flush=True)


if __name__ == "__main__":
    main()
