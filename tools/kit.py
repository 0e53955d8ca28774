"""The kit's own rt as a module, so that a tool here tries an edit as `rt ci` does and takes a crate for what rt takes it for."""

import importlib.machinery
import importlib.util
import os
import shutil
import sys

sys.dont_write_bytecode = True
ROOT = os.path.dirname(os.path.dirname(os.path.realpath(__file__)))


def load():
    path = shutil.which("rt") or sys.exit("rt is not on the PATH; it comes with the Rattle kit")
    loader = importlib.machinery.SourceFileLoader("rt", os.path.realpath(path))
    made = importlib.util.module_from_spec(importlib.util.spec_from_loader("rt", loader))
    sys.modules["rt"] = made
    loader.exec_module(made)
    # (its first call sets a signal's handler, which only the main thread may)
    made.rtlib.guarded()
    return made


rt = load()


def crates():
    """Returns the crates by name, in the order of crates.txt."""
    known = {}
    for folder in rt.rtlib.listed(ROOT):
        if folder not in known:
            known[folder] = rt.rtlib.Crate(folder, ROOT, known)
    return {known[it].name: known[it] for it in rt.rtlib.listed(ROOT)}
