"""rt as a module, for scripts that ask more of it than its commands do."""
import importlib.machinery
import importlib.util
import os
import shutil
import sys


def as_it_is():
    """The toolchain's rt."""
    loader = importlib.machinery.SourceFileLoader("rt", os.path.realpath(shutil.which("rt")))
    sys.path.insert(0, os.path.dirname(loader.path))
    made = importlib.util.module_from_spec(importlib.util.spec_from_loader("rt", loader))
    loader.exec_module(made)
    return made


def with_crates():
    """rt, where its functions on a crate are asked: it knows this repository's crates and the words to check them by."""
    made = as_it_is()
    made.rtlib.Crate = made.Crate
    # its first call sets a signal's handler, which the main thread alone may
    made.rtlib.guarded()
    return made
