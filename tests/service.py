#!/usr/bin/env python3
"""Tests the service of the Python package: its store, HTTP, the page in a browser, and 50 rounds of kill -9.

    python3 tests/service.py

Link the package's shared object first, by `make`. A Chromium, uvicorn, httptools, uvloop, hypothesis and gunicorn that
aren't there are installed by apt-get, if this runs as root on a machine that has it, unless DILFOREC_INSTALL is 0; else
what needs them is skipped, and counted. The last line is 'N passed, M failed'.
"""
from __future__ import annotations

import concurrent.futures
import importlib.util
import os
import pathlib
import re
import shutil
import subprocess
import sys
import tempfile

from counts import Counts
from debian import install
from processes import Tests, run_tests

counts = Counts("service")
HERE = pathlib.Path(__file__).resolve().parent
PACKAGE = HERE.parent / "bindings/python"
TESTS = PACKAGE / "tests"
DEBIAN = pathlib.Path("/usr/lib/python3/dist-packages")
# What the service needs to serve, as Debian's packages and as their modules and those of what they need.
PACKAGES = ("python3-uvicorn", "python3-httptools", "python3-uvloop")
MODULES = ("uvicorn", "httptools", "uvloop", "asgiref", "click", "h11", "typing_extensions.py")
# Debian's packages that are of Python alone, so that they do for each version, and their modules.
HYPOTHESIS = "python3-hypothesis", ("hypothesis", "attr", "sortedcontainers", "exceptiongroup")
BROWSERS = ("chromium", "chromium-browser", "google-chrome")
# How long a file of tests may take. The longest takes a minute or two on a machine that has nothing else to do.
SECONDS = 600


def serves(python: str, folder: str) -> bool:
    """Whether a Python can serve, maybe by Debian's modules, which are linked into a folder of modules for it.

    Httptools and uvloop are partly in C, so Debian's are for one version of Python.
    """
    def there(paths: str) -> bool:
        asked = [python, "-c", "import httptools, uvicorn, uvicorn.protocols.http.httptools_impl"]
        return subprocess.run(asked, env={**os.environ, "PYTHONPATH": paths}, capture_output=True).returncode == 0

    if there(os.environ.get("PYTHONPATH", "")):
        return True
    if not all((DEBIAN / module).exists() for module in MODULES[:3]):
        install(counts, *PACKAGES)
    for module in MODULES:
        if (DEBIAN / module).exists():
            os.symlink(DEBIAN / module, os.path.join(folder, module))
    return there(folder)


def add_modules(folder: str, package: str, modules: tuple[str, ...]) -> None:
    """Puts a package's modules into a folder, if this Python lacks the first of them."""
    if importlib.util.find_spec(modules[0]):
        return
    if not (DEBIAN / modules[0]).is_dir():
        install(counts, package)
    for module in modules:
        if (DEBIAN / module).is_dir() and not importlib.util.find_spec(module):
            os.symlink(DEBIAN / module, os.path.join(folder, module))


def run(test: pathlib.Path, paths: list[str]) -> tuple[str, Tests]:
    """The tests of a file, and its name."""
    environment = {**os.environ, "PYTHONPATH": os.pathsep.join(paths), "PYTHONDONTWRITEBYTECODE": "1"}
    return test.name, run_tests(sys.executable, test, env=environment, seconds=SECONDS)


def main() -> int:
    if not any(map(shutil.which, BROWSERS)):
        install(counts, "chromium")
    if not shutil.which("gunicorn"):
        install(counts, "gunicorn")
    with tempfile.TemporaryDirectory() as folder, concurrent.futures.ThreadPoolExecutor(4) as pool:
        # The environment's package comes first, such as one that is installed.
        given = [path for path in [os.environ.get("PYTHONPATH", "")] if path]
        paths = [*given, str(PACKAGE), str(TESTS), folder]
        serves(sys.executable, folder)
        add_modules(folder, *HYPOTHESIS)
        # The largest first, so that none of them goes on alone at the end.
        tests = sorted(TESTS.glob("test_service_*.py"), key=lambda test: test.stat().st_size, reverse=True)
        for name, done in pool.map(lambda test: run(test, paths), tests):
            counts.add(name, done.passed, done.failed, done.said)
            for line in re.findall(r"^\d+ rounds: .*", done.said, re.MULTILINE):
                counts.say(line)
            if done.skipped:
                counts.skip(name, "the machine lacks what they need", done.skipped)
    return counts.end()


if __name__ == "__main__":
    sys.exit(main())
