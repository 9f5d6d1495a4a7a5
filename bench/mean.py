#!/usr/bin/env python3
"""Measures `fsc mean`: how many steps of the meaning it takes a second, and whether its time is linear in the cost.

    bench/mean.py PROGRAM

PROGRAM is the built `fsc`. Each text loops for ever, so that the bound on the cost ends it: `fsc` then ends with status 115. The time
is the processor time beyond what the same text takes at a cost of 1, the least of three turns; at twice the cost it should be at
most 2.2 times as long.
"""
import os
import sys
import tempfile

from run import least_ended

COST_USED = 115

TEXTS = {
    "arithmetic": "int main(void){int i=0,s=1;for(;;){s=s*31+i;i++;}}",
    "memory": "int t[256];int main(void){int i=0;for(;;){t[i&255]=t[(i+7)&255]+i;i++;}}",
    "bytes": "char t[256];int main(void){int i=0;for(;;){t[i&255]=t[(i+7)&255]+i;i++;}}",
    "calls": "int f(int x){return x+1;}int main(void){int i=0;for(;;)i=f(i);}",
    "blocks": "#include <stdlib.h>\nint main(void){for(;;){int*p=malloc(16);*p=1;free(p);}}",
}


def main():
    if len(sys.argv) != 2:
        sys.exit(__doc__)
    with tempfile.TemporaryDirectory() as folder:
        for name, text in TEXTS.items():
            path = os.path.join(folder, name + ".c")
            with open(path, "w") as file:
                file.write(text)

            def seconds(cost):
                return least_ended(3, [sys.argv[1], "mean", "--cost", str(cost), path], COST_USED)[0]

            start = seconds(1)
            before = None
            for cost in (20_000_000, 40_000_000):
                took = max(seconds(cost) - start, 0.001)
                growth = "" if before is None else f", {took / before:.2f} times the half"
                before = took
                print(f"{name}: cost {cost}, {took:.2f} s, {cost / took / 1e6:.1f} million a second{growth}", flush=True)


if __name__ == "__main__":
    main()
