"""Reads the names and numbers of types, as IANA's registry has them: `types` of this folder."""
import pathlib

FILE = pathlib.Path(__file__).resolve().parent / "types"


def numbers():
    """Returns the number of each name."""
    rows = [line.split() for line in FILE.read_text().splitlines() if line and line[0] != "#"]
    return {name: int(number) for name, number in rows}
