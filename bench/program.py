"""The program that measures calls in memory, the crate `bench`; its first word says what it measures."""
import os
import sys

TOP = os.path.dirname(os.path.dirname(os.path.abspath(__file__)))
sys.path.insert(0, f"{TOP}/tools")
from programs import built

CRATE = f"{TOP}/crates/bench"
PROGRAM = f"{CRATE}/out/bench"


def build():
    """Proves and builds the program, with the libraries below it, where it isn't there or a source has changed since."""
    if built("bench") is None:
        sys.exit("the crate bench can't be built: run rt check in its folder")
