"""Makes the calls of the system that a program makes over a folder fail, one at a time, by tools/fail.c.

    python3 tools/failing.py PROGRAM TABLE

Each call of `CALLS` is made to fail in turn with each error of `ERRORS`, up to a run in which none did. Such a run ends
as if none had failed; or with status 1, one line on standard error and nothing on standard output; or it says what it
lost: each file that is missing or has other counts stands, or a folder above it, in a note on standard error, as does an
ignore file where a file is counted that it drops. Each such note ends in the system's words for the error. A call that
was interrupted is made again, so that nothing is lost.
One loss is silent by the rules: a file without extension whose head can't be read has no language and leaves no note.
"""
import errno
import json
import os
import subprocess
import sys
import tempfile
from concurrent.futures import ThreadPoolExecutor

TOP = os.path.dirname(os.path.dirname(os.path.abspath(__file__)))
MOST_RUNS = 2_000  # of one call and error
SECONDS = 20  # of one run
CALLS = ("statx", "open", "openat", "getdents64", "read", "realpath")
ERRORS = (errno.EIO, errno.EINTR, errno.ENOTCONN)

FILES = {
    "top/a.c": "x;\n// y\n",
    "top/b.h": "int x;\n",
    "top/.gitignore": "*.out.c\n",
    "top/z.out.c": "x;\n",
    "top/sub/.ignore": "*.rs\n",
    "top/sub/c.c": "x;\n" * 30_000,  # more than one buffer
    "top/sub/d.rs": "fn d() {}\n",
    "top/sub/deep/e.py": "# e\ne = 1\n",
    "top/.git/info/exclude": "f.c\n",
    "top/f.c": "x;\n",
    "top/tool": "#!/bin/sh\n# x\n",
    ".tokeignore": "g.c\n",
    "top/g.c": "x;\n",
}
# what has its language by its head alone
BY_HEAD = {"top/tool"}


def make(at):
    """Writes the files, in a repository of their own."""
    for name, text in FILES.items():
        os.makedirs(os.path.dirname(f"{at}/{name}"), exist_ok=True)
        with open(f"{at}/{name}", "w", encoding="utf-8") as file:
            file.write(text)


def library(room):
    """The library that makes calls fail."""
    made = f"{room}/fail.so"
    subprocess.run(["cc", "-O2", "-shared", "-fPIC", "-o", made, f"{TOP}/tools/fail.c", "-ldl"], check=True)
    return made


def run(words, at, more, told):
    """Runs the program: its status, what it wrote, and whether a call was made to fail."""
    if os.path.exists(told):
        os.remove(told)
    known = {"PATH": os.environ.get("PATH", ""), "HOME": at, "FAIL_TOLD": told}
    ran = subprocess.run(words, cwd=at, env={**known, **more}, stdin=subprocess.DEVNULL, stdout=subprocess.PIPE,
                         stderr=subprocess.PIPE, timeout=SECONDS, check=False)
    return (ran.returncode, ran.stdout.decode(), ran.stderr.decode()), os.path.exists(told)


def reports(document):
    """The counts of each file, by its name."""
    return {it["name"]: it["stats"] for key, one in document.items() if key != "Total" for it in one["reports"]}


def is_told(name, lines):
    """Whether a line names a file, or a folder above it."""
    parts = name.split("/")
    places = ["/".join(parts[:count]) for count in range(1, len(parts) + 1)]
    return any(place in line.replace("'", " ").replace(":", " ").split() for line in lines for place in places)


def fault(got, want, error):
    """What is wrong with the end of a run of which a call failed with this error, or None."""
    if got == want:
        return None
    status, out, told = got
    if error == errno.EINTR:
        return f"is interrupted and ends with {status}, {out!r}, {told!r}"
    if status == 1 and not out and told.startswith("Error: ") and told.count("\n") == 1:
        return None
    if status != 0:
        return f"ends with status {status}, {out!r}, {told!r}"
    before, after = reports(json.loads(want[1])), reports(json.loads(out))
    lost = [name for name in before if after.get(name) != before[name]]
    silent = [name for name in lost if name not in BY_HEAD and not is_told(name, told.splitlines())]
    if silent:
        return f"loses {silent} and says {told!r}"
    if set(after) - set(before) and not told:
        return f"counts {sorted(set(after) - set(before))} and says nothing"
    if not all(line.endswith(f": {os.strerror(error)} (os error {error})") for line in told.splitlines()):
        return f"says {told!r}, without the system's words"
    return None


def fail_each(words, at, room, call, error):
    """Why the program fails where a call fails with an error, or None; and how many calls failed in turn."""
    want, _ = run(words, at, {}, f"{room}/told")
    assert want[0] == 0 and not want[2], want
    preloaded = {"LD_PRELOAD": f"{room}/fail.so", "FAIL_CALL": call, "FAIL_WITH": str(error)}

    def one(number):
        got, failed = run(words, at, {**preloaded, "FAIL_AT": str(number)}, f"{room}/told-{number}")
        return number, fault(got, want, error), failed

    processors = len(os.sched_getaffinity(0))
    faults = []
    with ThreadPoolExecutor(processors) as pool:
        for begun in range(1, MOST_RUNS, 4 * processors):
            for number, why, failed in pool.map(one, range(begun, begun + 4 * processors)):
                if not failed:
                    return faults, number - 1
                if why:
                    faults.append(f"where {call} {number} fails by {errno.errorcode[error]} it {why}")
    return faults + [f"makes more than {MOST_RUNS} calls of {call}"], MOST_RUNS


def sweep(program, table, room):
    """What is wrong, over all calls and errors; and how many calls failed in turn, by name."""
    at = f"{room}/at"
    make(at)
    library(room)
    faults, counts = [], {}
    for call in CALLS:
        for error in ERRORS:
            wrong, counts[call] = fail_each([program, "--table", table, "-o", "json", "top"], at, room, call, error)
            faults += wrong
    return faults, counts


def main():
    with tempfile.TemporaryDirectory(prefix="failing-") as room:
        faults, counts = sweep(os.path.abspath(sys.argv[1]), os.path.abspath(sys.argv[2]), room)
    for why in faults:
        print(why)
    print(f"{counts}: {len(faults)} wrong")
    return 1 if faults else 0


if __name__ == "__main__":
    sys.exit(main())
