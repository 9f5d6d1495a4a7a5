#!/usr/bin/env python3
"""Measures the calls of memory: nanoseconds for each read and write of each width under each layout, and for each make
with its drop, and how they grow from blocks of 16 bytes to blocks of 16 MB.

    bench/memory.py PROGRAM [CALLS]

PROGRAM is the built `memory_bench`; it makes CALLS accesses of each kind, 10^7 where nothing is said, and a tenth as many
makes and drops. Of large blocks fewer are made, as many as their virtual addresses allow. `4+1` is a whole word that
straddles two. A make clears the cell, so that its time grows with the block; the last lines give it for each byte too.
"""
import subprocess
import sys


def name_of(size):
    """A size in bytes, in the largest unit that divides it."""
    for unit, factor in (("MB", 1 << 20), ("KB", 1 << 10)):
        if size % factor == 0:
            return f"{size // factor} {unit}"
    return f"{size} B"


def main():
    if len(sys.argv) not in (2, 3):
        sys.exit(__doc__)
    command = [sys.argv[1], sys.argv[2] if len(sys.argv) == 3 else "10000000"]
    rows = {}
    for line in subprocess.run(command, capture_output=True, check=True, text=True).stdout.splitlines():
        call, layout, width, size, done, took = line.split()[:6]
        rows.setdefault((call, layout, width), {})[int(size)] = int(took) / int(done)
    sizes = sorted(next(iter(rows.values())))
    print(f"{'nanoseconds a call':24}" + "".join(f"{name_of(size):>12}" for size in sizes) + f"{'growth':>10}")
    for key, times in sorted(rows.items()):
        cells = "".join(f"{times[size]:12.1f}" for size in sizes)
        print(f"{' '.join(key):24}{cells}{times[sizes[-1]] / times[sizes[0]]:10.2f}")
    made = next(times for key, times in rows.items() if key[0] == "make+drop")
    print(f"{'make+drop, a byte':24}" + "".join(f"{made[size] / size:12.3f}" for size in sizes))


if __name__ == "__main__":
    main()
