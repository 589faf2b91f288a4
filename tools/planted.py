"""Reads planted bugs: crates/CRATE/must-fail/*.edit and planted/CRATE/*.edit.

An edit has a line `file: PATH`, with the path in the folder of its crate. Then it has pairs of
lines `old: TEXT` and `new: TEXT`. An old text occurs once in the file. Later pairs apply to what
the earlier ones made.
"""
from repository import HERE


def edits(crate="*", name="*"):
    """Returns the edits of a crate or of all, with a name or with any."""
    folders = f"crates/{crate}/must-fail", f"planted/{crate}"
    return sorted(it for folder in folders for it in HERE.glob(f"{folder}/{name}.edit"))


def crate_of(edit):
    """Returns the crate of an edit."""
    return (edit.parent.parent if edit.parent.name == "must-fail" else edit.parent).name


def lines_of(edit):
    """Yields the lines of an edit: the word in front, and the text after it."""
    for line in edit.read_text(encoding="utf-8").splitlines():
        word, _, text = line.partition(": ")
        yield word.removesuffix(":"), text
