#!/usr/bin/env python3
"""Measures the front end: how fast `fsc go` preprocesses, parses and checks large C texts, beside `gcc`.

    bench/text.py PROGRAM

PROGRAM is the built `fsc`. Each text is made once and at half its size, so that growth shows: twice the text should take
at most 2.2 times the time. Behind each stands one more function, which uses a name that is not declared: so all of it is checked
and `fsc` ends there with the rule; one text breaks the bound on depth before. In the same run `gcc` reads the same text without that
function: `gcc -E -P`, which writes its output to nowhere, and `gcc -m32 -std=c90 -fsyntax-only`, which does what the whole front
end does.
"""
import os
import resource
import subprocess
import sys
import tempfile
import time

RUNS = 3
# what the checker refuses behind a whole text
BROKEN = "int last_function(void) { return no_such_name; }\n"
REJECTED = 123


def plain(size):
    """Plain C of just under 2^20 tokens at size 1: functions of 36 tokens and about 145 bytes each."""
    lines = []
    for k in range(int(29_100 * size)):
        lines.append(
            f"int function_{k}(int first, int second)\n"
            f"{{\n    int sum = first * 3 + second;\n    if (sum > {k}) return sum - 1;\n"
            f"    return first ^ second;\n}}\n\n"
        )
    return "".join(lines), int(29_100 * size) * 36


def skipped(size):
    """16 MB at size 1, nearly all of it comments and groups that are skipped."""
    part = (
        "/* " + "a comment that says nothing in particular, line after line. " * 16 + "*/\n"
        "#if 0\n" + "    old_code(that, was, switched->off) + 1;\n" * 24 + "#endif\nint x;\n"
    )
    count = int(16_000_000 * size) // len(part)
    return part * count, count * 3


def macros(size):
    """20,000 macros at size 1, each used once."""
    count = int(20_000 * size)
    lines = [f"#define MACRO_{k}(a, b) ((a) + MAX_{k % 7} * (b))\n" for k in range(count)]
    lines += [f"#define MAX_{k} {k}\n" for k in range(7)]
    lines += [f"int value_{k} = MACRO_{k}({k}, 3);\n" for k in range(count)]
    return "".join(lines), count * 15


def chain(size):
    """2,000 macros at size 1, each of which expands to the one before; and as many calls, one inside the other."""
    count = int(2_000 * size)
    lines = ["#define A0 1\n"] + [f"#define A{k} A{k - 1}\n" for k in range(1, count)]
    lines += ["#define F(x) x+1\n", f"int a = A{count - 1};\n"]
    lines += ["int b = ", "F(" * count, "0", ")" * count, ";\n"]
    return "".join(lines), count * 2 + 11


def unit(size):
    """Plain C of just under 2^20 tokens at size 1: functions, structures and globals, 75 tokens for each function."""
    count = int(13_900 * size)
    lines = []
    for k in range(count):
        lines.append(
            f"struct record_{k} {{ int first; char name[8]; struct record_{k} *next; }};\n"
            f"struct record_{k} list_{k}[4];\n"
            f"static int limit_{k} = {k};\n"
            f"int function_{k}(struct record_{k} *at, int least)\n"
            f"{{\n    while (at && at->first < least) at = at->next;\n"
            f"    return at ? at->name[least & 7] : limit_{k};\n}}\n\n"
        )
    return "".join(lines), count * 75


def statements(size):
    """One function of 20,000 statements at size 1."""
    count = int(5_000 * size)
    lines = ["int table[256];\nint function(int first, int *at)\n{\n    int sum = 0;\n"]
    for k in range(count):
        lines.append(
            f"    sum = sum * 31 + table[{k & 255}];\n    if (sum > {k}) sum -= first << {k % 31};\n"
            f"    at[{k}] = sum ? first : table[sum & 255] + {k};\n    table[{k & 255}]++;\n"
        )
    return "".join(lines) + "    return sum;\n}\n", count * 47


def seconds(command, status):
    """The least time of some runs of a command, which has to end with that status."""
    best = None
    for _ in range(RUNS):
        begun = time.monotonic()
        ended = subprocess.run(command, stdout=subprocess.DEVNULL, stderr=subprocess.PIPE)
        took = time.monotonic() - begun
        if ended.returncode != status:
            sys.exit(f"{command} ended with {ended.returncode}: {ended.stderr[:200]!r}")
        best = took if best is None else min(best, took)
    return best


def most_memory():
    """The most memory that any command had so far, in MB."""
    return resource.getrusage(resource.RUSAGE_CHILDREN).ru_maxrss // 1000


def main():
    if len(sys.argv) != 2:
        sys.exit(__doc__)
    with tempfile.TemporaryDirectory() as folder:
        for make in (plain, skipped, macros, chain, unit, statements):
            before = None
            for size in (0.5, 1):
                text, tokens = make(size)
                path = os.path.join(folder, "text.c")
                with open(path, "w") as file:
                    file.write(text)
                broken = os.path.join(folder, "broken.c")
                with open(broken, "w") as file:
                    file.write(text + BROKEN)
                ours = seconds([sys.argv[1], "go", broken], REJECTED)
                gcc = seconds(["gcc", "-E", "-P", "-ftrack-macro-expansion=0", path], 0)
                whole = seconds(["gcc", "-m32", "-std=c90", "-fsyntax-only", path], 0)
                growth = "" if before is None else f", {ours / before:.2f} times the half"
                before = ours
                print(
                    f"{make.__name__:8} {len(text) / 1e6:6.2f} MB {tokens:8} tokens: {ours:6.3f} s,"
                    f" {len(text) / ours / 1e6:6.1f} MB/s, {tokens / ours / 1e6:5.2f} M tokens/s;"
                    f" gcc -E {gcc:6.3f} s, ratio {gcc / ours:.2f}; gcc -fsyntax-only {whole:6.3f} s, ratio {whole / ours:.2f};"
                    f" {most_memory()} MB{growth}",
                    flush=True,
                )


if __name__ == "__main__":
    main()
