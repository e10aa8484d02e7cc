"""Builds libraries of this repository side by side, for the tools that need them."""
import copy
import itertools
import shutil
import sys
import tempfile
import threading

from kit import rt, rtlib

asked = threading.local()  # whether the library that is built keeps the work of its check


def work(library):
    """About how long a library's check takes, in lines: those of its code, contracts and proofs, and what each begins with.
    Of the libraries that can be built those are built first that have the most of it above them."""
    lines = 200
    for path in rtlib.files_of(library.folder):
        if path.endswith((".rt", ".antt")):
            with open(path, "rb") as file:
                lines += file.read().count(b"\n")
    return lines


def can_cut():
    """Whether this kit builds libraries that hold their statements alone, and lets its caller say which keep their work."""
    return hasattr(rtlib, "libraries_keep") and "--statements" in rtlib.help_of("build")


def build(library, given, jobs, numbers, total):
    """Builds a library where those below it are built; whether that is well, and whether it was built now. Its number is the
    next of these."""
    below = [given[it.name, "proof"] for it in library.below()]
    if not all(is_well for is_well, _ in below):
        return False, False
    if any(is_new for _, is_new in below):
        # what it holds fits only the libraries over which it was built
        shutil.rmtree(f"{library.folder}/out/rlib", ignore_errors=True)
    if library.is_built():
        next(numbers)
        return True, False
    library = copy.copy(library)
    # Over a check of this crate that kept its work only what changed is proved. With nothing kept the library holds its
    # statements alone: those above it load half as much, and it takes a tenth of the disk.
    asked.keeps = library.has_kept() or not can_cut()
    flags = ["--jobs", str(jobs), *([] if asked.keeps else ["--statements"])]
    with tempfile.TemporaryFile("w+", errors="replace") as library.out:
        is_well = library.build_rlib(flags, anew=False) == 0
        library.out.seek(0)
        said = "" if is_well else library.out.read()
    told = f"build: {library.name} is proved and built, {next(numbers)} of {total}" if is_well else f"build: {library.name} is NOT PROVED"
    print(f"{said}{told}", file=sys.stderr, flush=True)
    return is_well, True


def build_all(libraries):
    """Proves and builds those of the libraries that aren't built, each once those below it are; whether all are there. They
    are given lowest first, with all that they stand on."""
    tasks, numbers, total = {}, itertools.count(1), len(libraries)
    for it in libraries:
        waits = [(low.name, "proof") for low in it.below()]
        task = lambda given, jobs, it=it: build(it, given, jobs, numbers, total)
        tasks[it.name, "proof"] = waits, work(it), rt.need(it), task
    rtlib.libraries_keep = lambda: asked.keeps
    return all(is_well for is_well, _ in rt.in_lanes(tasks).values())
