"""The kit's own rt as a module, for tools that check or build crates as its commands do."""
import importlib.machinery
import importlib.util
import os
import shutil
import sys


def loaded():
    """The rt that the path has."""
    found = shutil.which("rt") or sys.exit("there is no rt on the path")
    loader = importlib.machinery.SourceFileLoader("rt", os.path.realpath(found))
    made = importlib.util.module_from_spec(importlib.util.spec_from_loader("rt", loader))
    loader.exec_module(made)
    return made


sys.dont_write_bytecode = True
rt = loaded()
rtlib = rt.rtlib
