"""Builds, installs and tests the Debian packages."""
import hashlib
import os
import sys

from packages_run import ROOT, Failed, expect, need

PACKAGES = ["denial", "libdenial-dev", "libdenial0"]
# Where the packages have the files of dist/.
PLACES = {
    "denial.h": "usr/include/denial.h",
    "MADE-OF": "usr/share/doc/denial/MADE-OF",
    "x86_64-linux/denial": "usr/bin/denial",
    "x86_64-linux/libdenial.a": "usr/lib/x86_64-linux-gnu/libdenial.a",
    "x86_64-linux/libdenial.so": "usr/lib/x86_64-linux-gnu/libdenial.so.0",
}
# An installed C library of Debian 12, so that dpkg checks all other dependencies.
STATUS = """Package: libc6
Status: install ok installed
Maintainer: nobody
Architecture: amd64
Multi-Arch: same
Version: 2.36-9
Description: the C library
"""


def install(work, place, files):
    """Installs packages into an empty root, whose C library is taken as installed."""
    root = work.place(f"{place.name}/root")
    database = work.place(f"{place.name}/root/var/lib/dpkg")
    (database / "status").write_text(STATUS, encoding="ascii")
    for folder in ("info", "updates"):
        (database / folder).mkdir()
    path = f"{os.environ['PATH']}:/usr/sbin:/sbin"
    options = [f"--root={root}", "--force-not-root", "--force-script-chrootless"]
    work.run(["fakeroot", "dpkg", *options, f"--log={place}/log", "--install", *files], PATH=path)
    said = work.run(["dpkg-query", f"--admindir={database}", "--show", *PACKAGES])
    expect("installed", {line.split("\t")[1] for line in said.splitlines()}, {f"{work.version}-1"})
    return root


def check_sums(root):
    """Checks that the installed files are those of dist/, octet for octet."""
    for line in (ROOT / "dist/SHA256SUMS").read_text(encoding="ascii").splitlines():
        wanted, name = line.split("  ", 1)
        if name not in PLACES:
            raise Failed(f"no package has dist/{name}")
        said = hashlib.sha256((root / PLACES[name]).read_bytes()).hexdigest()
        expect(f"the sum of {PLACES[name]}", said, wanted)


def check_programs(work, place, root):
    """Runs the installed programs, and one that is built over the installed library."""
    wanted = (ROOT / "examples/small.nsec").read_text(encoding="ascii")
    zone = ROOT / "examples/small.zone"
    said = work.run([root / "usr/bin/denial", "nsec", "example.net.", zone])
    expect("the chain of examples/small.zone", said, wanted)
    said = work.run([root / "usr/bin/denial", "--version"])
    expect("the version of denial", said, f"denial {work.version}\n")
    libraries = root / "usr/lib/x86_64-linux-gnu"
    flags = {"PKG_CONFIG_SYSROOT_DIR": root, "PKG_CONFIG_LIBDIR": libraries / "pkgconfig"}
    found = work.run(["pkg-config", "--cflags", "--libs", "denial"], **flags).split()
    source = root / "usr/share/doc/libdenial-dev/examples/chain.c"
    for name, linked in ("shared", found), ("static", [*found[:-1], libraries / "libdenial.a"]):
        words = ["gcc", "-Wall", "-Wextra", "-Werror", "-o", place / name, source, *linked]
        work.run([word for word in words if word != "-ldenial" or name == "shared"])
        said = work.run([place / name], LD_LIBRARY_PATH=libraries if name == "shared" else "")
        expect(f"the chain of {name} chain.c", said, wanted)
    return libraries


def of_debian(work):
    """Tests the packages in an empty root, and returns what was tested."""
    need(dpkg_buildpackage="dpkg-dev", dh="debhelper", lintian="lintian", fakeroot="fakeroot")
    need(gcc="gcc", pkg_config="pkg-config")
    place = work.place("debian")
    work.run([ROOT / "packaging/deb", place / "built"])
    files = sorted((place / "built").glob("*.deb"))
    expect("packages", [it.name.split("_")[0] for it in files], PACKAGES)
    changes = next((place / "built").glob("*.changes"))
    root_option = ["--allow-root"] if os.geteuid() == 0 else []
    said = work.run(["lintian", *root_option, "--fail-on", "error,warning", changes])
    expect("remarks of lintian", said, "")
    root = install(work, place, files)
    check_sums(root)
    libraries = check_programs(work, place, root)
    # The module for Python calls the installed library.
    flags = {"PYTHONPATH": ROOT / "bindings/python", "PYTHONDONTWRITEBYTECODE": 1}
    flags.update(LD_LIBRARY_PATH=libraries, DENIAL_CASES=work.cases)
    cases = ROOT / "bindings/python/tests/test_cases.py"
    work.check_count(work.run([sys.executable, cases], **flags))
    names = " ".join(it.name for it in files)
    return f"{names}: {work.count} calls, lintian, octets of dist/"
