#!/usr/bin/env python3
"""Checks one crate over the libraries that `rt ci` runs on this machine have kept: tools/over_kept.py NAME [FLAGS].

Call it at the top of a checkout, with flags as `rt check` takes them (`--jobs 1`, `--only FUNCTION`). It keeps its work in the
crate's out/, so that a second call checks what changed; it proves no library, and says which ones are not kept. What it passes
is not kept for `rt ci`, which is the gate. With the flag `--take` it checks nothing, and takes the crate's own program from what
was kept. It stands on the inside of the kit's `rt` (rattle-kit-13f)."""

import importlib.machinery
import importlib.util
import os
import shutil
import sys

KIT = "/opt/rattle/bin"


def commands():
    """Gives the kit's `rt` as a module."""
    sys.path.insert(0, KIT)
    loader = importlib.machinery.SourceFileLoader("rt_main", f"{KIT}/rt")
    module = importlib.util.module_from_spec(importlib.util.spec_from_loader("rt_main", loader))
    loader.exec_module(module)
    return module


def lacking(kept, crate):
    """Gives each library below the crate what was kept of it, and returns the names of those of which nothing was."""
    names = []
    for library in crate.below():
        # (a file that is there already counts as damage, for which the kept one would be removed)
        shutil.rmtree(f"{library.folder}/out/rlib", ignore_errors=True)
        os.makedirs(f"{library.folder}/out", exist_ok=True)
        if not kept.give(library, False, kept.key(library)):
            names.append(library.name)
        kept.is_built(library)
    return names


def main(name, flags):
    rt = commands()
    # (as under rt ci: a crate loads the statements of the libraries below it)
    rt.Crate.cuts_libraries = rt.rtlib.Crate.cuts_libraries = True
    rt.rtlib.guarded()
    rt.Crate.allowed = rt.handles_of(os.getcwd())
    crate = next(it for it in rt.crates_of(os.getcwd()) if it.name == name)
    kept = rt.Kept([*crate.below(), crate])
    names = lacking(kept, crate)
    if flags == ["--take"] and not names and not kept.give(crate, False, kept.key(crate)):
        names = [name]
    if names:
        print("not kept:", *names)
        return 3
    if flags == ["--take"]:
        return 0
    return rt.rtlib.Crate.check(crate, flags or ["--jobs", "2"])


if __name__ == "__main__":
    sys.exit(main(sys.argv[1], sys.argv[2:]))
