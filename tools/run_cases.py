#!/usr/bin/env python3
"""Runs the cases of `worked_cases` on a built program: tools/run_cases.py PROGRAM [FILE..].

FILE is a name in crates/worked_cases/data; without one all are taken that its `args` names. Each case runs in a folder of its own
with real files and streams. A case that wants what those can't do (failing calls, so many bytes a call, an image made of code) is
left out, and what a process doesn't show (the ending's name, the image that was made, the input left) is not compared. A line is
printed for each case that differs, or that takes longer than two seconds, and at the end the count; the status is 1 where one
differs."""

import os
import re
import subprocess
import sys
import tempfile
import time

TOP = os.path.dirname(os.path.dirname(os.path.abspath(__file__)))
DATA = os.path.join(TOP, "crates", "worked_cases", "data")
ESCAPES = re.compile(rb"\\(\\|n|r|t|x[0-9a-fA-F]{2})")
PLAIN = {b"\\": b"\\", b"n": b"\n", b"r": b"\r", b"t": b"\t"}
BEYOND = ("fail", "slow", "image")


def unescaped(text):
    """The bytes that a text with escapes spells."""
    return ESCAPES.sub(lambda it: PLAIN[it[1]] if it[1] in PLAIN else bytes([int(it[1][1:], 16)]), text)


def line_bytes(line):
    """The bytes that a line of bytes stands for."""
    kind, rest = line[:1], line[2:]
    if kind == b"|":
        return rest + b"\n"
    if kind == b"+":
        return unescaped(rest)
    if kind == b"*":
        count, text = rest.split(b" ", 1)
        return b"".join(unescaped(text.replace(b"\\#", b"%d" % turn).replace(b"\\+", b"%d" % (turn + 1))) for turn in range(int(count)))
    return bytes.fromhex(rest.decode())


class Field:
    """A field of a case: its name, the rest of its line, and the bytes behind it."""

    def __init__(self, name, rest):
        self.name, self.rest, self.bytes = name, rest, b""

    def words(self):
        """The words that it gives, each as bytes: those of its line and its bytes together, parted by single spaces."""
        text = unescaped(self.rest.encode("latin-1")) + self.bytes
        return text.split(b" ") if text else []


def read_cases(name):
    """The cases of a file: of each its name and its fields."""
    cases = []
    with open(os.path.join(DATA, name), "rb") as page:
        for line in page.read().split(b"\n"):
            if not line or line.startswith(b"#"):
                continue
            if line[:2] in (b"| ", b"+ ", b"* ", b"% ") or line in (b"|", b"+"):
                cases[-1][1][-1].bytes += line_bytes(line)
                continue
            field, _, rest = line.decode("latin-1").partition(" ")
            if field == "case":
                cases.append((rest, []))
            else:
                cases[-1][1].append(Field(field, rest))
    return cases


def contents(folder, name):
    """What a file of the folder holds, or None."""
    path = os.path.join(folder, name)
    if not os.path.isfile(path):
        return None
    with open(path, "rb") as page:
        return page.read()


def status_of(fields):
    """The exit status that has to come, or None where the case doesn't say it."""
    for field in fields:
        if field.name == "status":
            return int(field.rest)
    ending = next((field.rest for field in fields if field.name == "ending"), "")
    return int(ending.split()[1]) if ending.startswith("Exited ") else None


def differences(folder, fields, ran):
    """What differs between what a case says and what came, a text for each."""
    notes = b"".join(field.rest.encode("latin-1") + b"\n" for field in fields if field.name == "note")
    notes += b"".join(field.bytes for field in fields if field.name == "notes")
    output = b"".join(field.bytes for field in fields if field.name == "output")
    status = status_of(fields)
    if status not in (None, ran.returncode):
        yield f"status {ran.returncode}, not {status}"
    if ran.stdout != output:
        yield f"output {ran.stdout[:100]!r}, not {output[:100]!r}"
    if ran.stderr != notes:
        yield f"notes {ran.stderr[:200]!r}, not {notes[:200]!r}"
    for field in fields:
        if field.name == "wrote" and contents(folder, field.rest) != field.bytes:
            yield f"file {field.rest}"
        if field.name == "same":
            one, other = (contents(folder, name) for name in field.rest.split(" "))
            if one is None or one != other:
                yield f"files {field.rest}"


def run_case(program, fields):
    """Runs one case, and gives what differs."""
    with tempfile.TemporaryDirectory() as folder:
        for field in fields:
            if field.name == "file":
                path = os.path.join(folder, field.rest)
                os.makedirs(os.path.dirname(path), exist_ok=True)
                with open(path, "wb") as page:
                    page.write(field.bytes)
        given = b"".join(field.bytes for field in fields if field.name == "input")
        calls = [field for field in fields if field.name == "first"] + [field for field in fields if field.name == "words"]
        for call in calls:
            ran = subprocess.run([program, *call.words()], cwd=folder, input=given, capture_output=True, check=False)
        return list(differences(folder, fields, ran))


def main():
    if len(sys.argv) < 2:
        sys.exit(__doc__)
    program = os.path.abspath(sys.argv[1])
    with open(os.path.join(TOP, "crates", "worked_cases", "args"), encoding="utf-8") as page:
        named = page.read().split("--refused", maxsplit=1)[0].split()
    ran = bad = beyond = 0
    for name in sys.argv[2:] or named:
        for case, fields in read_cases(name):
            if any(field.name in BEYOND for field in fields):
                beyond += 1
                continue
            start = time.monotonic()
            found = run_case(program, fields)
            took = time.monotonic() - start
            ran, bad = ran + 1, bad + bool(found)
            if found or took > 2:
                print(f"{'NO' if found else 'slow'} {name}: {case} ({took:.1f} s): {'; '.join(found)}", flush=True)
    print(f"{ran - bad} cases as they have to be, {bad} not, {beyond} left out")
    sys.exit(bad > 0)


if __name__ == "__main__":
    main()
