"""What tools ask of the crates: their lines in crates.txt, their sources, and programs that are built where they have changed."""
import os
import subprocess
import sys

TOP = os.path.dirname(os.path.dirname(os.path.abspath(__file__)))


def sources(folder):
    """The files that a crate is made of."""
    for part in ("src", "specs", "proofs"):
        for at, _, files in os.walk(f"{folder}/{part}"):
            yield from (f"{at}/{name}" for name in files)


def crates():
    """Name and libraries of each crate of crates.txt."""
    with open(f"{TOP}/crates.txt", encoding="utf-8") as file:
        lines = [line.split("#")[0].strip() for line in file]
    return {line.split(":")[0].split()[0]: line.partition(":")[2].split() for line in lines if line}


def below(name, listed):
    """The crate and those of this repository that it stands on."""
    found = {name}
    for other in listed[name]:
        if other in listed:
            found |= below(other, listed)
    return found


def is_older(made, name, listed):
    """Whether a file isn't there, or is older than a source of the crate or of one that it stands on."""
    newest = max(os.path.getmtime(it) for crate in below(name, listed) for it in sources(f"{TOP}/crates/{crate}"))
    return not os.path.isfile(made) or os.path.getmtime(made) < newest


def built(name):
    """The program of a crate, built by tools/build where it isn't there or something has changed since; None where that fails."""
    program = f"{TOP}/crates/{name}/out/{name}"
    if not is_older(program, name, crates()):
        return program
    print(f"{os.path.basename(sys.argv[0])}: builds {name}", file=sys.stderr, flush=True)
    ran = subprocess.run([f"{TOP}/tools/build", name], stdin=subprocess.DEVNULL, check=False)
    return None if ran.returncode else program
