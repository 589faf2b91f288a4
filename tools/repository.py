"""Files of this repository, and programs that are built of it."""
import functools
import os
import pathlib
import re

HERE = pathlib.Path(__file__).resolve().parent.parent
SHIPPED = HERE / "dist/x86_64-linux"
PROGRAMS = ["denial"]
BUILT = re.compile(r"out|target|\.git|\.dist-.*|__pycache__")


@functools.cache
def files():
    """Returns the files of the repository, without those that are built, as paths below it."""
    found = []
    for folder, below, names in os.walk(HERE):
        below[:] = sorted(it for it in below if not BUILT.fullmatch(it))
        found += [str((pathlib.Path(folder) / name).relative_to(HERE)) for name in sorted(names)]
    return found


def documents():
    """Returns the documents of the repository."""
    return [name for name in files() if name.endswith(".md")]


def program(name):
    """Returns the path of a program: the one that was built here, or else that of dist/."""
    built = HERE / "crates" / name / "out" / name
    return built if built.exists() else SHIPPED / name
