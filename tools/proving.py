"""Copies some crates with those below them, and proves them: for tools/dist and planted/try."""
import os
import pathlib
import shutil
import subprocess
import sys
import threading

from repository import HERE


class Failed(Exception):
    """Why there is no result."""


def output(*words, cwd=None):
    """Returns what a command prints, without the end of its line."""
    run = subprocess.run(words, cwd=cwd, check=True, capture_output=True, text=True)
    return run.stdout.strip()


def kit():
    """Returns the folder of the toolchain."""
    if not shutil.which("rt"):
        raise Failed("rt is missing; it is the toolchain's command")
    return pathlib.Path(output("rt", "doc")).parent


def lines_of(tops):
    """Returns the lines of crates.txt of some crates and of those below them, by name."""
    every = {}
    for line in (HERE / "crates.txt").read_text().splitlines():
        words = line.partition("#")[0].split()
        if words:
            every[words[0].rstrip(":")] = words
    found = {}

    def visit(name):
        if name in every and name not in found:
            found[name] = " ".join(every[name])
            for word in every[name][1:]:
                visit(word)

    for top in tops:
        visit(top)
    return found


def copy_crates(root, lines):
    """Copies the crates, without their planted bugs and their kept work."""
    (root / "crates").mkdir()
    left_out = shutil.ignore_patterns("out", "must-fail")
    for name in lines:
        shutil.copytree(HERE / "crates" / name, root / "crates" / name, ignore=left_out)
    (root / "crates.txt").write_text("".join(f"{line}\n" for line in lines.values()))
    shutil.copy(HERE / "HANDLES", root)


def report_begun(root, names, is_over):
    """Reports when the proof of each crate begins: then it gets a folder out/."""
    waiting = set(names)
    while waiting and not is_over.wait(0.5):
        for name in sorted(waiting):
            if (root / "crates" / name / "out").is_dir():
                waiting.remove(name)
                print(f"proving {name}", file=sys.stderr, flush=True)


def proved_in(line):
    """Returns the crate that a line of `rt ci` reports as proved, and whether now, or None."""
    words = line.split()
    if words[:1] != ["rt:"]:
        return None
    is_kept = words[2:4] == ["is", "kept:"]
    return (words[1], not is_kept) if is_kept or words[2:] == ["proved"] else None


def prove(root, names):
    """Proves the crates of the copy by `rt ci`, builds its programs, and reports progress."""
    is_over = threading.Event()
    reporter = threading.Thread(target=report_begun, args=(root, names, is_over))
    reporter.start()
    said, done = [], 0
    outputs = {"stdout": subprocess.PIPE, "stderr": subprocess.STDOUT}
    run = subprocess.Popen(["rt", "ci"], cwd=root, text=True, errors="replace", **outputs)
    try:
        for line in run.stdout:
            said.append(line)
            if found := proved_in(line):
                done += 1
                kept = "" if found[1] else " (by an earlier run on this machine)"
                progress = f"proved {found[0]}{kept}, {done} of {len(names)}"
                print(progress, file=sys.stderr, flush=True)
    finally:
        is_over.set()
        run.wait()
        reporter.join()
    if run.returncode:
        raise Failed("".join(said[-60:]) + "the proof failed")


def rattle(command, root, crate, *options):
    """Returns the command that checks or builds a crate at the root.

    It takes the crates below from what `rt ci` proved there.
    """
    home, lines = kit(), lines_of([crate])
    head, _, below = lines[crate].partition(":")
    is_library = (root / "crates" / crate / "src/lib.rt").exists()
    file = "src/lib.rt" if is_library else "src/main.rt"
    words = [home / "bin/rattle", command, "--crate-name", crate, file]
    words += ["--extern", f"std={home}/rlibs/std.rlib"]
    for kind in head.split()[1:]:
        words += ["--crate-type", kind]
    words += ["-L", f"dependency={home}/rlibs"]
    for name in lines:
        if name != crate:
            words += ["-L", f"dependency={root}/crates/{name}/out/rlib"]
    for name in below.split():
        folder = root / "crates" / name / "out/rlib" if name in lines else home / "rlibs"
        words += ["--extern", f"{name}={folder}/{name}.rlib"]
    words += ["--antt-project", home / "rattle/logic/antt-project.json"]
    words += ["--logic-built", home / "logic_built", "--links", f"{crate}="]
    return [*words, "--jobs", str(os.cpu_count() or 1), *options]
