"""Builds the wheel of the package, for pip and other front ends (PEP 517). It needs nothing but Python and binutils.

The wheel has each file of dilforec/, the shared object, which link.py makes, and the documents. It is for any Python 3
on Linux with glibc on x86-64, and its bytes depend on nothing but the files that go into it.
"""
from __future__ import annotations

import ast
import base64
import hashlib
import os
import pathlib
import platform
import re
import subprocess
import sys
import tempfile
import zipfile
from collections.abc import Iterator
from typing import Any, NoReturn

import link

HERE = pathlib.Path(__file__).resolve().parent
TOP = HERE.parents[1]

# The oldest glibc that `manylinux_2_17` promises to run on, and the libraries that it may ask for.
OLDEST = (2, 17)
COMMON = {"libc.so.6", "libm.so.6", "libpthread.so.0", "libdl.so.2", "librt.so.1", "libgcc_s.so.1"}

# Wheels are zip files, whose times begin here.
EPOCH = (1980, 1, 1, 0, 0, 0)


def refuse(sentence: str) -> NoReturn:
    """Ends the build with a sentence, which front ends print as it is."""
    sys.exit(f"dilforec: {sentence}")


def check_platform() -> None:
    """Refuses a machine that the shared object can't be made for."""
    found = platform.system(), platform.machine(), sys.maxsize > 2**32, platform.libc_ver()[0]
    if found != ("Linux", "x86_64", True, "glibc"):
        refuse("it is for Linux with glibc on x86-64, and a 64-bit Python; "
               f"this is {platform.system()} on {platform.machine()}, {platform.libc_ver()[0] or 'another C library'}")


def project() -> dict[str, dict[str, Any]]:
    """The tables [project] and [project.*] of pyproject.toml.

    Python has a reader of TOML since 3.11 only, so this takes what is written there: texts and lists of texts.
    """
    tables: dict[str, dict[str, Any]] = {}
    text = (HERE / "pyproject.toml").read_text(encoding="utf-8")
    for name, body in re.findall(r"^\[(project[\w.-]*)\]\n(.*?)(?=^\[|\Z)", text, re.MULTILINE | re.DOTALL):
        entries = re.findall(r"^([\w-]+) = (\[.*?\]|\".*?\")$", body, re.MULTILINE | re.DOTALL)
        tables[name] = {key: ast.literal_eval(value) for key, value in entries}
    return tables


def version() -> str:
    """The version, which the package says of itself."""
    found = re.search(r'^__version__ = "(.*)"$', (HERE / "dilforec/__init__.py").read_text(encoding="utf-8"), re.MULTILINE)
    return found[1] if found else refuse("dilforec/__init__.py has no __version__")


def metadata() -> str:
    """The wheel's METADATA."""
    tables = project()
    of = tables["project"]
    lines = [
        "Metadata-Version: 2.1",
        f"Name: {of['name']}",
        f"Version: {version()}",
        f"Summary: {of['description']}",
        f"Home-page: {tables['project.urls']['Homepage']}",
        f"License: {tables['project.license']['text']}",
        *(f"Classifier: {it}" for it in of["classifiers"]),
        f"Requires-Python: {of['requires-python']}",
        *(f"Requires-Dist: {it}" for it in of["dependencies"]),
    ]
    for extra, wanted in tables.get("project.optional-dependencies", {}).items():
        lines += [f"Provides-Extra: {extra}", *(f'Requires-Dist: {it}; extra == "{extra}"' for it in wanted)]
    return "\n".join(lines) + "\n"


def entry_points() -> str:
    """The wheel's entry_points.txt: the commands of [project.scripts]."""
    scripts = project().get("project.scripts", {})
    return "[console_scripts]\n" + "".join(f"{name} = {call}\n" for name, call in scripts.items()) if scripts else ""


def tag(shared: bytes) -> str:
    """The wheel's tag: manylinux_2_17 if the shared object asks for no newer symbol and no other library."""
    asked = [(int(major), int(minor)) for major, minor in re.findall(rb"GLIBC_(\d+)\.(\d+)", shared)]
    libraries = {it.decode() for it in re.findall(rb"\0(lib[\w.+-]+\.so\.\d+)(?=\0)", shared)} - {link.SONAME}
    fits = bool(asked) and max(asked) <= OLDEST and libraries <= COMMON
    return f"py3-none-{'manylinux_2_17' if fits else 'linux'}_x86_64"


def shared_object() -> bytes:
    """The shared object, stripped."""
    with tempfile.TemporaryDirectory() as folder:
        made = link.shared(pathlib.Path(folder, link.SHARED.name))
        subprocess.run([os.environ.get("STRIP", "strip"), "--strip-unneeded", made], check=True)
        return made.read_bytes()


def sources() -> Iterator[tuple[str, bytes]]:
    """Each file of the package, and the documents, with their names in the wheel."""
    for path in sorted((HERE / "dilforec").rglob("*")):
        name = path.relative_to(HERE)
        if path.is_file() and path != link.SHARED and not any(it.startswith((".", "__pycache__")) for it in name.parts):
            yield name.as_posix(), path.read_bytes()
    documents = f"dilforec-{version()}.data/data/share/doc/dilforec"
    measured = [TOP / "bench/MEASURED-ALL.md", *sorted((TOP / "bench").glob("*.svg"))]
    for path in [TOP / "README.md", TOP / "CHANGELOG.md", *sorted((TOP / "docs").glob("*.*")), *measured]:
        yield f"{documents}/{path.relative_to(TOP).as_posix()}", path.read_bytes()


def write(wheel: pathlib.Path, files: dict[str, bytes], record: str) -> None:
    """Writes the wheel and, as its last file, the record of the others."""
    def line(name: str, content: bytes) -> str:
        digest = base64.urlsafe_b64encode(hashlib.sha256(content).digest()).rstrip(b"=").decode()
        return f"{name},sha256={digest},{len(content)}\n"

    listed = "".join(line(name, content) for name, content in files.items()) + f"{record},,\n"
    with zipfile.ZipFile(wheel, "w", zipfile.ZIP_DEFLATED) as packed:
        for name, content in {**files, record: listed.encode()}.items():
            entry = zipfile.ZipInfo(name, EPOCH)
            entry.compress_type, entry.create_system, entry.external_attr = zipfile.ZIP_DEFLATED, 3, 0o100644 << 16
            packed.writestr(entry, content)


def about(tags: str) -> dict[str, bytes]:
    """The files about a wheel, but its record."""
    info = f"dilforec-{version()}.dist-info"
    files = {
        f"{info}/METADATA": metadata().encode(),
        f"{info}/WHEEL": f"Wheel-Version: 1.0\nGenerator: dilforec\nRoot-Is-Purelib: false\nTag: {tags}\n".encode(),
    }
    if entry_points():
        files[f"{info}/entry_points.txt"] = entry_points().encode()
    return files


def build_wheel(wheel_directory: str, config_settings: object = None, metadata_directory: object = None) -> str:
    """Makes the wheel, and returns its name."""
    check_platform()
    try:
        shared = shared_object()
    except link.NotBuilt as error:
        refuse(str(error))
    except (OSError, subprocess.CalledProcessError) as error:
        refuse(f"the shared object couldn't be linked: {error}")
    tags = tag(shared)
    files = {**dict(sources()), f"dilforec/{link.SHARED.name}": shared, **about(tags)}
    name = f"dilforec-{version()}-{tags}.whl"
    write(pathlib.Path(wheel_directory, name), files, f"dilforec-{version()}.dist-info/RECORD")
    return name


def build_editable(wheel_directory: str, config_settings: object = None, metadata_directory: object = None) -> str:
    """Makes a wheel that has the package used from this folder (PEP 660), and returns its name."""
    check_platform()
    if not link.SHARED.exists():
        try:
            link.shared(link.SHARED)
        except link.NotBuilt as error:
            refuse(str(error))
    tags = "py3-none-any"
    files = {"__editable__.dilforec.pth": f"{HERE}\n".encode(), **about(tags)}
    name = f"dilforec-{version()}-{tags}.whl"
    write(pathlib.Path(wheel_directory, name), files, f"dilforec-{version()}.dist-info/RECORD")
    return name


def build_sdist(sdist_directory: str, config_settings: object = None) -> NoReturn:
    """Refuses: what the package is built of is the whole repository, and proved before it is built."""
    refuse("there is no source distribution, since the library is proved and built in its repository; make a wheel")
