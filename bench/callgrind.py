"""The instructions that the program of the crate `bench` takes to count a text, by `valgrind --tool=callgrind`, which nothing else on
the machine changes."""
import subprocess
import sys

READING = "tokei_count::"
CALLERS = ("bench::", "bench_count::", "tokei_bench_count::")  # the last two were its names up to 2026-11-27


def reading_cost(path):
    """The instructions of all calls from the program into the crate that counts, by what callgrind wrote."""
    names, caller, callee, cost = {}, "", "", 0
    with open(path, encoding="utf-8", errors="replace") as lines:
        for line in lines:
            word, _, rest = line.rstrip("\n").partition("=")
            if word in ("fn", "cfn"):
                number, _, name = rest.partition(" ")
                name = names.setdefault(number, name)
                caller, callee = (name, "") if word == "fn" else (caller, name)
            elif word == "calls":
                spent = int(next(lines).split()[-1])
                cost += spent if caller.startswith(CALLERS) and callee.startswith(READING) else 0
    return cost


def cost_of(command, key, text, room):
    """What the calls of `parse_from_slice` take of the program that the command runs: one for the whole of the text, one for
    its first half."""
    words = ["valgrind", "--tool=callgrind", f"--callgrind-out-file={room}/out", *command, key, "without-plain"]
    ran = subprocess.run(words, input=text, stdout=subprocess.DEVNULL, stderr=subprocess.PIPE, check=False)
    if ran.returncode != 0:
        sys.exit(f"{command[0]} fails at a text of {key}:\n{ran.stderr.decode('utf-8', 'replace')}")
    return reading_cost(f"{room}/out")
