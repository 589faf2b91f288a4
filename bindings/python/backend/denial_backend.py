"""Builds the wheel and the source archive of the package `denial` (PEP 517).

pip calls this module, as pyproject.toml says. It needs only Python's standard library, so a build
works offline and downloads nothing. setuptools is not used: Python 3.12 and later do not install
it, and it makes no wheel with a ready library and its `manylinux` tag without further code.

The library is that of dist/ in a checkout, or the one in a source archive. The version is
DENIAL_VERSION of dist/denial.h, or that of the source archive. The tag is the least glibc that the
library needs, by the versions of symbols in it, but at least 2.17, the oldest that wheels are
commonly built for.
"""
import ast
import base64
import hashlib
import io
import pathlib
import re
import tarfile
import zipfile

HERE = pathlib.Path(__file__).resolve().parent.parent
CHECKOUT = HERE.parent.parent
DIST = CHECKOUT / "dist"
BUILT = "x86_64-linux/libdenial.so"
LIBRARY = "denial/libdenial.so.0"
LEAST_GLIBC = 2, 17
GLIBC = re.compile(rb"\0GLIBC_(\d+)\.(\d+)(?=\0)")
VALUE = re.compile(r'^([\w-]+) = ("[^"\n]*"|\[[^]]*\])$', re.MULTILINE)
# What a source archive holds, besides the library, the license and PKG-INFO.
SOURCES = ["pyproject.toml", "README.md", "backend/*.py", "denial/*.py", "denial/py.typed"]
SOURCES += ["tests/*.py"]


def in_archive():
    """Says whether this is an unpacked source archive."""
    return (HERE / "PKG-INFO").exists()


def project():
    """Returns the values of the table `project`, whose texts and lists Python reads as well."""
    text = (HERE / "pyproject.toml").read_text(encoding="utf-8").partition("[project]\n")[2]
    return {key: ast.literal_eval(value) for key, value in VALUE.findall(text)}


def version():
    """Returns the version of the library."""
    if in_archive():
        head = (HERE / "PKG-INFO").read_text(encoding="utf-8")
        return re.search(r"^Version: (\S+)$", head, re.MULTILINE)[1]
    header = (DIST / "denial.h").read_text(encoding="utf-8")
    number = int(re.search(r"^#define DENIAL_VERSION (\d+)$", header, re.MULTILINE)[1])
    return f"{number // 10000}.{number // 100 % 100}.{number % 100}"


def library():
    """Returns the octets of the shared library, and checks those of dist/ by their sum."""
    if in_archive():
        return (HERE / LIBRARY).read_bytes()
    octets = (DIST / BUILT).read_bytes()
    line = f"{hashlib.sha256(octets).hexdigest()}  {BUILT}"
    if line not in (DIST / "SHA256SUMS").read_text(encoding="utf-8").splitlines():
        raise RuntimeError(f"dist/{BUILT} is not what dist/SHA256SUMS says")
    return octets


def tag():
    """Returns the tag of the wheel."""
    needed = [tuple(map(int, found)) for found in GLIBC.findall(library())]
    major, minor = max([LEAST_GLIBC, *needed])
    return f"py3-none-manylinux_{major}_{minor}_x86_64"


def license_text():
    """Returns the octets of the license."""
    return ((HERE if in_archive() else CHECKOUT) / "LICENSE").read_bytes()


def metadata():
    """Returns the core metadata, with the page README.md."""
    values = project()
    lines = [
        "Metadata-Version: 2.4",
        f"Name: {values['name']}",
        f"Version: {version()}",
        f"Summary: {values['description']}",
        f"Keywords: {','.join(values['keywords'])}",
        f"License-Expression: {values['license']}",
        *[f"License-File: {it}" for it in values["license-files"]],
        *[f"Classifier: {it}" for it in values["classifiers"]],
        f"Requires-Python: {values['requires-python']}",
        "Description-Content-Type: text/markdown",
    ]
    page = (HERE / values["readme"]).read_text(encoding="utf-8")
    return "".join(f"{line}\n" for line in lines) + f"\n{page}"


def files_of_wheel():
    """Returns the files of the wheel, without the list of them."""
    modules = [*sorted((HERE / "denial").glob("*.py")), HERE / "denial/py.typed"]
    files = {f"denial/{it.name}": it.read_bytes() for it in modules}
    files[LIBRARY] = library()
    wheel = f"Wheel-Version: 1.0\nGenerator: denial_backend\nRoot-Is-Purelib: false\nTag: {tag()}\n"
    info = f"denial-{version()}.dist-info"
    files[f"{info}/METADATA"] = metadata().encode()
    files[f"{info}/WHEEL"] = wheel.encode()
    files[f"{info}/licenses/LICENSE"] = license_text()
    return files, f"{info}/RECORD"


def row_of(name, octets):
    """Returns the row of a file in the list of a wheel."""
    digest = base64.urlsafe_b64encode(hashlib.sha256(octets).digest()).rstrip(b"=").decode()
    return f"{name},sha256={digest},{len(octets)}\n"


def build_wheel(wheel_directory, config_settings=None, metadata_directory=None):
    """Writes the wheel to a folder, and returns its name. The same files give the same octets."""
    files, record = files_of_wheel()
    rows = "".join(row_of(name, octets) for name, octets in files.items())
    files[record] = f"{rows}{record},,\n".encode()
    name = f"denial-{version()}-{tag()}.whl"
    with zipfile.ZipFile(pathlib.Path(wheel_directory) / name, "w", zipfile.ZIP_DEFLATED) as wheel:
        for file, octets in files.items():
            entry = zipfile.ZipInfo(file)
            entry.external_attr = 0o100644 << 16
            entry.compress_type = zipfile.ZIP_DEFLATED
            wheel.writestr(entry, octets)
    return name


def build_sdist(sdist_directory, config_settings=None):
    """Writes the source archive, with the library, to a folder, and returns its name."""
    top = f"denial-{version()}"
    found = [path for pattern in SOURCES for path in sorted(HERE.glob(pattern))]
    files = {str(path.relative_to(HERE)): path.read_bytes() for path in found}
    files |= {LIBRARY: library(), "LICENSE": license_text(), "PKG-INFO": metadata().encode()}
    with tarfile.open(pathlib.Path(sdist_directory) / f"{top}.tar.gz", "w:gz") as archive:
        for file, octets in files.items():
            entry = tarfile.TarInfo(f"{top}/{file}")
            entry.size = len(octets)
            archive.addfile(entry, io.BytesIO(octets))
    return f"{top}.tar.gz"
