#!/usr/bin/env python3
"""Runs each program of `bench/programs` by `fsc go`, by `fsc mean` and as gcc compiles it, compares what they print, and measures.

    bench/programs.py PROGRAM [TURNS]

PROGRAM is the built `fsc`. Printed are, for each file, the processor time of `fsc go`, of compiling and running with `gcc -O0
-fsanitize=address` where that is installed, and of running what `gcc -O0` made under valgrind where that is; the instructions that the image
runs, to a thousandth, and how many times as many as those of `gcc -O0` for RV32IM, over `bare.c`, where `riscv64-unknown-elf-gcc` and picolibc
are installed; and whether `link` of the compiled unit writes the bytes of `build`.
"""
import os
import shutil
import subprocess
import sys
import tempfile

from run import least

HERE = os.path.dirname(os.path.abspath(__file__))
PICOLIBC = "/usr/lib/picolibc/riscv64-unknown-elf"


def said(command, **more):
    """What a command prints, and its status."""
    ended = subprocess.run(command, capture_output=True, check=False, **more)
    return ended.stdout, ended.returncode


def instructions(fsc, image):
    """The least bound at which the image comes to its end, to a thousandth, by halving."""
    low, high = 1, 1
    while said([fsc, "run", "--steps", str(high), image])[1] == 122:
        low, high = high + 1, high * 8
    while high - low > low // 1000:
        middle = (low + high) // 2
        if said([fsc, "run", "--steps", str(middle), image])[1] == 122:
            low = middle + 1
        else:
            high = middle
    return high


def instructions_of_gcc(fsc, folder, source, wanted):
    """The instructions of what `gcc -O0` makes for RV32IM, or None where it isn't installed."""
    made, compiler = os.path.join(folder, "bare"), shutil.which("riscv64-unknown-elf-gcc")
    if not compiler or not os.path.isdir(PICOLIBC):
        return None
    words = [compiler, "-O0", "-w", "-std=gnu90", "-march=rv32im", "-mabi=ilp32", "-isystem", f"{PICOLIBC}/include", "-nostdlib", "-static"]
    words += ["-o", made, source, os.path.join(HERE, "bare.c"), f"-L{PICOLIBC}/lib/rv32im/ilp32", "-lc", "-lgcc"]
    if said(words)[1] != 0 or said([fsc, "run", made]) != wanted:
        return None
    return instructions(fsc, made)


def built_so(fsc, folder, source):
    """The image of a source, and whether linking its unit writes the same bytes."""
    image, unit, other = (os.path.join(folder, name) for name in ("image", "unit", "other"))
    for command in (["build", "-o", image, source], ["compile", "-o", unit, source], ["link", "-o", other, unit]):
        if said([fsc, *command])[1] != 0:
            sys.exit(f"{command} failed")
    with open(image, "rb") as one, open(other, "rb") as two:
        return image, one.read() == two.read()


def main():
    if not 2 <= len(sys.argv) <= 3:
        sys.exit(__doc__)
    fsc = os.path.abspath(sys.argv[1])
    turns = int(sys.argv[2]) if len(sys.argv) == 3 else 3
    valgrind = shutil.which("valgrind")
    bad = 0
    for name in sorted(os.listdir(os.path.join(HERE, "programs"))):
        source = os.path.join(HERE, "programs", name)
        with tempfile.TemporaryDirectory() as folder:
            native, checked = os.path.join(folder, "native"), os.path.join(folder, "checked")
            subprocess.run(["gcc", "-O0", "-w", "-std=c90", "-o", native, source], check=True)
            wanted = said([native])
            ours, meant = said([fsc, "go", source]), said([fsc, "mean", source])
            image, is_linked = built_so(fsc, folder, source)
            well = ours == wanted == meant and is_linked
            bad += not well
            line = f"{name:10} {'ok' if well else 'DIFFERS'}: fsc go {least(turns, [fsc, 'go', source])[0]:.2f} s"
            count, bare = instructions(fsc, image), instructions_of_gcc(fsc, folder, source, wanted)
            line += f", {count / 1e6:.1f} million instructions"
            line += f", {count / bare:.1f} times those of gcc -O0" if bare else ""
            line += f"; mean {least(1, [fsc, 'mean', source])[0]:.2f} s"
            shell = f"gcc -O0 -w -std=c90 -fsanitize=address -o {checked} {source} && ASAN_OPTIONS=detect_leaks=0 {checked}"
            if said(["sh", "-c", shell]) == wanted:
                line += f"; address sanitizer {least(turns, ['sh', '-c', shell])[0]:.2f} s"
            if valgrind:
                line += f"; valgrind {least(1, [valgrind, '-q', native])[0]:.2f} s"
            print(line, flush=True)
    sys.exit(1 if bad else 0)


if __name__ == "__main__":
    main()
