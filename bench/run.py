#!/usr/bin/env python3
"""Measures `fsc run` and `qemu-riscv32` on the same images, in one run.

    bench/run.py PROGRAM [TURNS]

PROGRAM is the built `fsc`. Each image has five segments, as those of the compiler have: code, data, two parts of a heap of
2^29 bytes, and a stack of 2^29 bytes. Printed are the processor time of each program beyond what an image takes that exits
at once, the least of TURNS turns (3 without the word), the ratio of the two times, and the peak memory of `fsc`. The words of
each image are those that llvm-mc makes of the lines in its comment.
"""
import os
import shutil
import struct
import subprocess
import sys
import tempfile

CODE, DATA, HEAP, STACK = 0x10000, 0x20000, 0x40000000, 0x80000000
REGION = 2**29
PAGE = 4096

# li a0,0; li a7,93; ecall
EXIT = "130500009308d00573000000"

# name, code, number of instructions
IMAGES = [
    # t0 = 50000000 by lui, addi; 1: addi t0,t0,-1; xor t1,t1,t0; add t2,t2,t1; bnez t0,1b; exit 0
    ("arithmetic", "b7f2fa02938202089382f2ff33435300b3836300e39a02fe" + EXIT, 50000000 * 4 + 5),
    # s1 = the heap; s2 = the stack; s3 = 2^20 - 4; t0 = 10000000; a0 = 0;
    # 1: add t1,s1,a0; lw t2,0(t1); add t2,t2,t0; sw t2,0(t1); sw t2,16(s2); lw t3,16(s2); lbu t4,1(t1); sb t4,21(s2);
    # addi a0,a0,68; and a0,a0,s3; addi t0,t0,-1; bnez t0,1b; exit 0
    (
        "memory",
        "b704004037090080b70910009389c9ffb792980093820268130500003383a40083230300b38353002320730023287900032e0901834e1300"
        "a30ad90113054504337535019382f2ffe39a02fc" + EXIT,
        10000000 * 12 + 10,
    ),
    # s1 = the table; t0 = 10000000; 1: andi t1,t0,12; add t1,t1,s1; lw t1,0(t1); jalr t1; addi t0,t0,-1; bnez t0,1b; exit 0;
    # f0: addi a0,a0,1; ret; f1: add a0,a0,t0; ret; f2: xor a0,a0,t1; ret; f3: addi a0,a0,-1; ret
    (
        "calls",
        "b7040200b79298009382026813f3c2003303930003230300e70003009382f2ffe39602fe" + EXIT
        + "13051500678000003305550067800000334565006780000013 05f5ff67800000".replace(" ", ""),
        10000000 * 8 + 6,
    ),
]

# the addresses of f0 to f3
TABLE = struct.pack("<4I", *(CODE + 0x30 + 8 * k for k in range(4)))


def image(code):
    """An ELF32 file. The offset of each segment is its address modulo a page."""
    segments = [
        (CODE, 1, code, len(code)),
        (DATA, 6, TABLE, PAGE),
        (HEAP, 6, b"", PAGE),
        (HEAP + PAGE, 6, b"", REGION - PAGE),
        (STACK, 6, b"", REGION),
    ]
    table, body, start = b"", b"", PAGE
    for address, flags, given, size in segments:
        offset = start if given else 0
        table += struct.pack("<8I", 1, offset, address, address, len(given), size, flags, PAGE)
        body += given + bytes(-len(given) % PAGE)
        start += len(given) + -len(given) % PAGE
    header = b"\x7fELF\x01\x01\x01" + bytes(9) + struct.pack(
        "<HHIIIIIHHHHHH", 2, 243, 1, CODE, 52, 0, 0, 52, 32, len(segments), 0, 0, 0
    )
    return header + table + bytes(PAGE - len(header) - len(table)) + body


def measure(command, wanted=0):
    """Processor seconds, and peak memory in KiB, of a command that has to end with that status and whose output is thrown away."""
    child = subprocess.Popen(command, stdout=subprocess.DEVNULL, stderr=subprocess.DEVNULL, stdin=subprocess.DEVNULL)
    _, status, usage = os.wait4(child.pid, 0)
    if os.waitstatus_to_exitcode(status) != wanted:
        sys.exit(f"{command} ended with {os.waitstatus_to_exitcode(status)}")
    return usage.ru_utime + usage.ru_stime, usage.ru_maxrss


def least_ended(turns, command, wanted):
    """The least time of some turns that end with that status, and the memory then."""
    return min(measure(command, wanted) for _ in range(turns))


def least(turns, command):
    """The least time of some turns, and the memory then."""
    return least_ended(turns, command, 0)


def main():
    if not 2 <= len(sys.argv) <= 3:
        sys.exit(__doc__)
    program = [sys.argv[1], "run"]
    turns = int(sys.argv[2]) if len(sys.argv) == 3 else 3
    qemu = shutil.which("qemu-riscv32") or shutil.which("qemu-riscv32-static")
    with tempfile.TemporaryDirectory() as folder:

        def file_of(name, code):
            path = os.path.join(folder, name)
            with open(path, "wb") as file:
                file.write(image(bytes.fromhex(code)))
            os.chmod(path, 0o755)
            return path

        empty = file_of("empty", EXIT)
        start, memory = least(turns, program + [empty])
        print(f"start: {start:.3f} s, peak {memory} KiB")
        other_start = least(turns, [qemu, empty])[0] if qemu else 0
        for name, code, count in IMAGES:
            path = file_of(name, code)
            seconds, memory = least(turns, program + [path])
            seconds = max(seconds - start, 0.001)
            line = f"{name}: {count} instructions, {seconds:.2f} s, {count / seconds / 1e6:.0f} million a second, peak {memory} KiB"
            if qemu:
                other = max(least(turns, [qemu, path])[0] - other_start, 0.001)
                line += f"; qemu {other:.2f} s: {other / seconds:.3f} of its speed"
            print(line)
    if not qemu:
        print("qemu-riscv32 is not installed: no ratio")


if __name__ == "__main__":
    main()
