"""What the scripts of this repository use of `rt` beside its commands: the functions of the file that the command runs."""

import importlib.machinery
import importlib.util
import os
import shutil
import sys


def load():
    """Returns rt as a module, with what it keeps shared among the checkouts of this machine, as its own commands have it."""
    file = os.path.realpath(shutil.which("rt") or sys.exit("there is no rt to be run"))
    loader = importlib.machinery.SourceFileLoader("rt", file)
    made = importlib.util.module_from_spec(importlib.util.spec_from_loader("rt", loader))
    loader.exec_module(made)
    made.rtlib.guarded()
    made.share_work(False)
    return made


def crates_of(rt):
    """Returns the crates of the checkout, lowest first."""
    return sorted(rt.rtlib.crates_below(os.getcwd()), key=lambda it: len(it.below()))


def build_libraries(crates):
    """Builds the libraries below these crates, unless each stands as `rt ci` left it: with no stamp, for which rt's commands build it again."""
    below = list(dict.fromkeys(it for crate in crates for it in crate.below()))
    if all(os.path.isdir(it.rlib) and not os.path.exists(f"{it.folder}/out/rlib/stamp") for it in below):
        return
    for it in below:
        if it.build_rlib(["--jobs", "2"], anew=False):
            sys.exit(f"the library {it.name} was not built")
