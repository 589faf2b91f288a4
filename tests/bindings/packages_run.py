"""What the tests of all packages need: the installed library, the table of calls, and commands."""
import os
import pathlib
import re
import shutil
import subprocess

HERE = pathlib.Path(__file__).resolve().parent
ROOT = HERE.parents[1]
# Variables of the caller that would change what is tested.
PERSONAL = re.compile(
    r"PYTHON\w*|PIP_\w*|VIRTUAL_ENV|CARGO\w*|RUST\w*FLAGS|GO[A-Z0-9]*|CGO_\w*|PKG_CONFIG\w*"
    r"|LD_LIBRARY_PATH|DENIAL_\w*|DEB_\w*|DH_\w*|C?FLAGS"
)
# A function of the header.
FUNCTION = re.compile(r"^(?:static inline )?(?:const )?\w+ \*?denial_(\w+)\(", re.MULTILINE)
LINES = 25


class Missing(Exception):
    """A tool that is missing, and where it is."""


class Failed(Exception):
    """What is wrong with a package."""


def need(**tools):
    """Raises `Missing` for tools that are missing: their names, each with Debian's package."""
    lost = [name for name in tools if not shutil.which(name.replace("_", "-"))]
    if lost:
        lines = [f"{it.replace('_', '-')} (Debian's package {tools[it]})" for it in lost]
        raise Missing(f"{' and '.join(lines)} missing")


def expect(what, said, wanted):
    """Raises `Failed` if a result is not the one that is wanted."""
    if said != wanted:
        raise Failed(f"{what}: {said!r}, not {wanted!r}")


def calls_of(header):
    """Returns the functions of the header, as the table names them.

    `denial_text` of the header stands for `denial_find_text`, and functions that replace a null
    pointer for those that take none.
    """
    names = set(FUNCTION.findall(header)) - {"octets", "find_text"}
    return sorted(name for name in names if not name.endswith("_or_null"))


class Work:
    """A folder for the tests, with the installed library and the table of calls."""

    def __init__(self, folder):
        self.folder = folder
        self.prefix, self.cases = folder / "prefix", folder / "cases"
        self.run([ROOT / "tools/install", self.prefix])
        values = (ROOT / "crates/worked_chains/stdout").read_text(encoding="utf-8")
        self.cases.write_text(self.run([HERE / "cases"], given=values), encoding="ascii")
        calls = [line.split()[0] for line in self.cases.read_text(encoding="ascii").splitlines()]
        self.count = len(calls)
        header = (self.prefix / "include/denial.h").read_text(encoding="utf-8")
        expect("calls of the table", sorted(set(calls)), calls_of(header))
        number = int(re.search(r"^#define DENIAL_VERSION (\d+)$", header, re.MULTILINE)[1])
        self.version = f"{number // 10000}.{number // 100 % 100}.{number % 100}"

    def place(self, name):
        """Makes an empty folder, and returns its path."""
        (self.folder / name).mkdir(parents=True)
        return self.folder / name

    def run(self, words, given=None, cwd=None, **variables):
        """Runs a command without variables of the caller, and returns its output."""
        kept = {name: it for name, it in os.environ.items() if not PERSONAL.fullmatch(name)}
        run = subprocess.run(
            [str(word) for word in words],
            input=given,
            stdin=subprocess.DEVNULL if given is None else None,
            cwd=cwd or self.folder,
            env={**kept, **{name: str(it) for name, it in variables.items()}},
            capture_output=True,
            text=True,
            errors="replace",
        )
        if run.returncode:
            said = "\n".join((run.stdout + run.stderr).splitlines()[-LINES:])
            shown = " ".join(map(str, words))
            raise Failed(f"status {run.returncode} of `{shown}`:\n{said}")
        self.warnings = run.stderr
        return run.stdout

    def check_count(self, printed):
        """Checks that a language has made all calls of the table."""
        found = re.search(r"^cases: (\d+)$", printed, re.MULTILINE)
        expect("calls of the table", found and int(found[1]), self.count)
