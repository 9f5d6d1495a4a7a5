#!/usr/bin/env python3
"""Measures how fast `fsc build` and `fsc compile` are, beside `gcc -O0 -c` and, where it is installed, `tcc -c`.

    bench/compile.py PROGRAM

PROGRAM is the built `fsc`. The texts are the generated program of `demo` with that many functions, and plain C; each also at half its
size, so that growth shows: twice the text should take at most 2.2 times the time.
"""
import os
import shutil
import sys
import tempfile

from run import measure
from text import plain, statements


def demo(count):
    """The text of `demo`."""
    lines = ["#include <stdio.h>", "int s;"]
    lines += [f"int f{k}(int x){{int a[4];int i;for(i=0;i<4;i++)a[i]=x+i;return a[x&3];}}" for k in range(1, count + 1)]
    lines += ["int main(void){"] + [f"s=s+f{k}({k});" for k in range(1, count + 1)] + ['printf("%d\\n",s);', "return 0;}"]
    return "\n".join(lines) + "\n"


def main():
    if len(sys.argv) != 2:
        sys.exit(__doc__)
    fsc, tcc = sys.argv[1], shutil.which("tcc")
    texts = [
        ("demo", lambda size: demo(int(2000 * size))),
        ("plain", lambda size: plain(size / 8)[0] + "int main(void){return 0;}\n"),
        ("statements", lambda size: statements(size)[0] + "int main(void){return 0;}\n"),
    ]
    with tempfile.TemporaryDirectory() as folder:
        path, out = os.path.join(folder, "text.c"), os.path.join(folder, "out")
        for name, make in texts:
            before = None
            for size in (0.5, 1):
                text = make(size)
                with open(path, "w") as file:
                    file.write(text)
                build, memory = measure([fsc, "build", "-o", out, path])
                unit = measure([fsc, "compile", "-o", out, path])[0]
                gcc = measure(["gcc", "-O0", "-w", "-std=c90", "-c", "-o", out, path])[0]
                line = f"{name:10} {len(text) / 1e6:5.2f} MB: build {build:.2f} s, compile {unit:.2f} s, {memory // 1000} MB; gcc -O0 {gcc:.2f} s, ratio {gcc / build:.2f}"
                if tcc:
                    other = measure([tcc, "-c", "-o", out, path])[0]
                    line += f"; tcc {other:.2f} s, ratio {other / build:.2f}"
                if before is not None:
                    line += f"; {build / before:.2f} times the half"
                before = build
                print(line, flush=True)


if __name__ == "__main__":
    main()
