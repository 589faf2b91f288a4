"""Builds, installs and tests the packages for Python, Rust and Go."""
import hashlib
import importlib.util
import os
import pathlib
import re
import shutil
import sys

from packages_run import HERE, ROOT, Failed, Missing, expect, need

BINDINGS = ROOT / "bindings"
DEBIAN_PYTHON = pathlib.Path("/usr/lib/python3/dist-packages")


def find_dnspython():
    """Returns the folder of dnspython: that of this Python, or else Debian's."""
    found = importlib.util.find_spec("dns")
    places = list(found.submodule_search_locations) if found else []
    place = next((it for it in [*places, DEBIAN_PYTHON / "dns"] if os.path.isdir(it)), None)
    if place is None:
        raise Missing("dnspython (Debian's package python3-dnspython) missing")
    return place


def sum_of(path):
    """Returns the sum of a file."""
    return hashlib.sha256(path.read_bytes()).hexdigest()


def make_wheel(work, place, python):
    """Makes the wheel from the checkout and from the source archive; both have the same octets."""
    backend = BINDINGS / "python/backend"
    code = f"import denial_backend; print(denial_backend.build_sdist({str(place)!r}))"
    flags = {"PYTHONPATH": backend, "PYTHONDONTWRITEBYTECODE": 1}
    archive = place / work.run([python, "-c", code], **flags).strip()
    pip = [python, "-m", "pip", "--isolated", "wheel", "--no-index", "--no-deps", "--no-cache-dir"]
    for source, folder in (BINDINGS / "python", "checkout"), (archive, "archive"):
        work.run([*pip, "--wheel-dir", place / folder, source], PYTHONDONTWRITEBYTECODE=1)
    wheels = [*(place / "checkout").iterdir(), *(place / "archive").iterdir()]
    expect("wheels", len(wheels), 2)
    expect("wheels", wheels[0].name, wheels[1].name)
    expect("sums of wheels", sum_of(wheels[0]), sum_of(wheels[1]))
    return wheels[0]


def install_wheel(work, wheel, python):
    """Installs the wheel, and returns the folder of the package, which has the library of dist/."""
    pip = [python, "-m", "pip", "--isolated", "install", "--no-index", "--no-cache-dir"]
    work.run([*pip, wheel])
    said = work.run([python, "-c", "import denial; print(denial.__path__[0])"])
    installed = pathlib.Path(said.strip())
    is_there = installed.is_relative_to(python.parents[1])
    expect(f"whether {installed} is in the environment", is_there, True)
    library, built = installed / "libdenial.so.0", ROOT / "dist/x86_64-linux/libdenial.so"
    expect("the sum of the library", sum_of(library), sum_of(built))
    expect("the version", re.match(r"denial-([^-]+)-", wheel.name)[1], work.version)
    return installed


def of_python(work):
    """Tests the wheel in a new virtual environment, and returns what was tested."""
    if not importlib.util.find_spec("venv") or not importlib.util.find_spec("ensurepip"):
        raise Missing("venv (Debian's package python3-venv) missing")
    dnspython, place = find_dnspython(), work.place("python")
    work.run([sys.executable, "-m", "venv", place / "venv"])
    python = place / "venv/bin/python"
    wheel = make_wheel(work, place, python)
    installed = install_wheel(work, wheel, python)
    (installed.parent / "dns").symlink_to(dnspython)
    shutil.copytree(BINDINGS / "python/tests", place / "test/tests")
    shutil.copy(BINDINGS / "python/README.md", place / "test")
    tests = ["-W", "error", "-m", "unittest", "discover", "-s", "tests"]
    work.check_count(work.run([python, *tests], cwd=place / "test", DENIAL_CASES=work.cases))
    ran = re.search(r"^Ran (\d+) tests", work.warnings, re.MULTILINE)
    expect("skipped tests", "skipped" in work.warnings, False)
    program = os.environ.get("DENIAL", work.prefix / "bin/denial")
    zones = [sys.executable, HERE / "zones", installed / "libdenial.so.0"]
    said = work.run(zones, DENIAL=program).splitlines()[-1]
    return f"{wheel.name}: {work.count} calls, {ran[1]} tests, {said}"


BARE = """[package]
name = "bare"
version = "0.1.0"
edition = "2021"

[dependencies]
denial = { path = "../crates/denial", default-features = false }

[profile.release]
panic = "abort"

[workspace]
"""


def run_bare(cargo, place, flags):
    """Runs a program without the standard library, over the crate without features."""
    (place / "bare/src").mkdir(parents=True)
    (place / "bare/Cargo.toml").write_text(BARE, encoding="ascii")
    shutil.copy(HERE / "bare.rs", place / "bare/src/main.rs")
    cargo("run", "--release", folder=place / "bare", **flags)


def of_rust(work):
    """Tests the crates outside of the checkout, and returns what was tested."""
    need(cargo="cargo", cc="gcc", pkg_config="pkg-config")
    place, library = work.place("rust"), work.prefix / "lib"
    shutil.copytree(BINDINGS / "rust", place / "crates", ignore=shutil.ignore_patterns("target"))
    flags = {"CARGO_HOME": place / "home", "CARGO_TARGET_DIR": place / "target"}
    flags.update(CARGO_NET_OFFLINE="true", RUSTFLAGS="-D warnings", DENIAL_CASES=work.cases)
    nowhere = {**flags, "PKG_CONFIG": "false"}
    by_variable = {**nowhere, "DENIAL_LIB_DIR": library}

    def cargo(*words, folder=place / "crates", **variables):
        return work.run(["cargo", words[0], "--offline", *words[1:]], cwd=folder, **variables)

    all_tests, cases = ["test", "--", "--nocapture"], ["--test", "cases", "--", "--nocapture"]
    work.check_count(cargo(*all_tests, **by_variable))
    bare = ["build", "--package", "denial", "--no-default-features"]
    cargo(*bare, "--features", "alloc", **by_variable)
    run_bare(cargo, place, by_variable)
    cargo("doc", "--no-deps", **by_variable, RUSTDOCFLAGS="-D warnings")
    clippy = "clippy" if shutil.which("cargo-clippy") else "no clippy, which is missing"
    if clippy == "clippy":
        cargo("clippy", "--all-targets", "--", "-D", "warnings", **by_variable)
    # The shared library, by the variable and by pkg-config.
    shared = {"LD_LIBRARY_PATH": library, "DENIAL_LINK": "shared"}
    work.check_count(cargo("test", *cases, **by_variable, **shared))
    shared = {"LD_LIBRARY_PATH": library, "PKG_CONFIG_PATH": library / "pkgconfig"}
    work.check_count(cargo("test", *cases, **flags, **shared))
    # That of dist/, from a checkout.
    (place / "checkout/bindings").mkdir(parents=True)
    (place / "checkout/dist").symlink_to(ROOT / "dist")
    (place / "crates").rename(place / "checkout/bindings/rust")
    work.check_count(cargo("test", *cases, folder=place / "checkout/bindings/rust", **nowhere))
    return f"denial and denial-sys {crate_version(place)}: {work.count} calls, doc, {clippy}"


def crate_version(place):
    """Returns the version that cargo has written for both crates."""
    lock = (place / "checkout/bindings/rust/Cargo.lock").read_text(encoding="utf-8")
    versions = set(re.findall(r'name = "denial(?:-sys)?"\nversion = "([^"]+)"', lock))
    if len(versions) != 1:
        raise Failed(f"the crates have the versions {versions}")
    return versions.pop()


PROGRAM = """package main

import "hidrezsol.example/denial"

func main() { print(denial.Version(), " ", denial.NameError.String()) }
"""
MODULE = """module user.example/program

go 1.19

require hidrezsol.example/denial v0.0.0

replace hidrezsol.example/denial => ../denial
"""


def of_go(work):
    """Tests the package, and a program that imports it; returns what was tested."""
    need(go="golang-go", gcc="gcc", pkg_config="pkg-config")
    place = work.place("go")
    shutil.copytree(BINDINGS / "go", place / "denial")
    flags = {"GOPROXY": "off", "GOSUMDB": "off", "GOTOOLCHAIN": "local", "GOENV": "off"}
    flags.update(GOCACHE=place / "cache", GOPATH=place / "path", GOFLAGS="-buildvcs=false")
    flags.update(PKG_CONFIG_PATH=work.prefix / "lib/pkgconfig", LD_LIBRARY_PATH=work.prefix / "lib")
    flags.update(DENIAL_CASES=work.cases, CGO_ENABLED=1)

    def go(*words, folder=place / "denial"):
        return work.run(["go", *words], cwd=folder, **flags)

    if shutil.which("gofmt"):
        expect("what gofmt changes", work.run(["gofmt", "-l", "."], cwd=place / "denial"), "")
    go("vet", "./...")
    printed = go("test", "-count=1", "-v", "./...")
    work.check_count(printed)
    tests = len(re.findall(r"^--- PASS", printed, re.MULTILINE))
    expect("skipped tests", "--- SKIP" in printed, False)
    user = work.place("go/user")
    (user / "main.go").write_text(PROGRAM, encoding="ascii")
    (user / "go.mod").write_text(MODULE, encoding="ascii")
    go("run", ".", folder=user)
    parts = [int(part) for part in work.version.split(".")]
    number = parts[0] * 10000 + parts[1] * 100 + parts[2]
    expect("what a program prints", work.warnings, f"{number} name error")
    return f"hidrezsol.example/denial: {work.count} calls, {tests} tests, imported by a program"
