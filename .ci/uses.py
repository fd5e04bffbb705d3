"""What a user does with an installation: runs scripts, reads help and pages, links programs, imports the package."""
from __future__ import annotations

import http.client
import json
import os
import pathlib
import pty
import re
import shutil
import subprocess
import sys
import tempfile
import zipfile
from collections.abc import Mapping
from pathlib import Path

from trials import PLAIN, ROOT, VERSION, Place, attempt, check, is_in_page, run, said, skip

sys.path.append(str(ROOT / "tests"))
import service  # noqa: E402

CC = os.environ.get("CC", "cc")
BACKEND = ROOT / "bindings/python"
EXAMPLES = sorted((BACKEND / "examples").glob("*.py"))


# ---- the program

def examples(place: Place) -> None:
    """Each example gives the replies that are stored beside it."""
    scripts = [path for path in sorted((place.pages / "examples").glob("*.jsonl")) if ".replies." not in path.name]
    check("examples are there", len(scripts) > 3, scripts)
    for path in scripts:
        done = place.fts("run", stdin=path.open())
        replies = path.with_suffix(".replies.jsonl").read_text(encoding="utf-8")
        check(path.name, done.returncode == 0 and not done.stderr and done.stdout == replies, said(done))


def byte_order_mark(place: Place, folder: Path) -> None:
    """A script that begins with a byte order mark is refused, and the command of docs/SCRIPT.md removes it."""
    script = folder / "SCRIPT"
    script.write_bytes(b"\xef\xbb\xbf" + (place.pages / "examples/catalogue.jsonl").read_bytes())
    done = place.fts("run", stdin=script.open())
    check("a byte order mark is refused", done.stdout.startswith('{"error":"BadJson","line":1}\n'), said(done))
    page = (place.pages / "docs/SCRIPT.md").read_text(encoding="utf-8")
    command = re.search(r"^    (sed .* < SCRIPT \| fts run)$", page, re.MULTILINE)
    assert command
    done = place.shell(command[1], cwd=folder)
    replies = (place.pages / "examples/catalogue.replies.jsonl").read_text(encoding="utf-8")
    check("and is removed as docs/SCRIPT.md says", done.stdout == replies, said(done))


def on_terminal(program: Path) -> tuple[str, str]:
    """What `fts run` writes to standard output and standard error if it reads one line from a terminal."""
    controller, terminal = pty.openpty()
    with subprocess.Popen([program, "run"], stdin=terminal, stdout=subprocess.PIPE, stderr=subprocess.PIPE) as running:
        os.close(terminal)
        os.write(controller, b'{"commit":true}\n\x04')
        out, error = running.communicate(timeout=60)
    os.close(controller)
    return out.decode(), error.decode()


def at_terminal(place: Place) -> None:
    """A run says what it waits for on a terminal, and there alone; `fts` without words is a fault of them."""
    out, error = on_terminal(place.program)
    named = all(it in error for it in ("script", "Ctrl-D", "fts run --help"))
    check("a run on a terminal says what it waits for", named and error.count("\n") == 1, error)
    check("and goes on to answer", out == '{"error":"NoSchema","line":1}\n', out)
    done = place.fts("run", input="")
    check("a run in a pipe says nothing", done.returncode == 0 and not said(done), said(done))
    done = place.fts()
    refused = done.returncode == 2 and not done.stdout and "fts run --help" in done.stderr
    check("fts alone is a fault of its arguments", refused, said(done))


def help_of_run(place: Place) -> None:
    """The help of `fts run` ends with a script, which runs as written, and with documents, which are there."""
    told = place.fts("run", "--help").stdout
    script = re.search(r"^  fts run <<'END'\n(.*?)^  END\n", told, re.MULTILINE | re.DOTALL)
    good = check("the help of run has a script of four lines", script and len(script[1].splitlines()) == 4, told)
    if script and good:
        done = place.shell(re.sub("^  ", "", script[0], flags=re.MULTILINE))
        check("which runs as written", done.returncode == 0 and done.stdout.endswith('{"count":1}\n'), said(done))
    named = re.findall(r"docs/\w+\.md", told)
    check("it names documents that are there", named and all((place.pages / it).is_file() for it in named), named)


# ---- pages and completions

def options(text: str) -> set[str]:
    return set(re.findall(r"(?<![\w-])--[a-z][a-z-]*", text))


def pages(place: Place) -> None:
    """Manual pages and completions have the options of `--help`, and name files that are there."""
    wanted = options(place.fts("--help").stdout) | options(place.fts("run", "--help").stdout)
    manual, library = place.manual("fts.1").replace("\\-", "-"), place.manual("dilforec.3")
    for name, text in [
        ("fts(1)", manual), ("the completion for bash", place.bash.read_text()),
        ("the completion for zsh", place.zsh.read_text()),
    ]:
        check(f"{name} has the options of --help", wanted and options(text) == wanted, options(text) ^ wanted)
    exported = re.findall(r"^(?!static )\w[\w *]*?\b(dilforec_\w+\()", place.header.read_text(), re.MULTILINE)
    check("dilforec(3) has each function", exported and all(it in library for it in exported), exported)
    named = re.findall(r"^\.I (/\S+)$", manual + library, re.MULTILINE)
    lost = [it for it in named if not (place.root / it[1:]).exists()]
    check("manual pages name files that are there", named and not lost, lost)
    if not shutil.which("man"):
        return skip("manual pages without errors", "man isn't there")
    for page in sorted((place.prefix / "share/man").glob("*/*")):
        done = run("man", "--warnings", "-l", page, env={**PLAIN, "MANPAGER": "cat"})
        check(f"{page.name} has no error", done.returncode == 0 and not done.stderr, done.stderr)


COMPLETES = """source %s
COMP_WORDS=(%s) COMP_CWORD=%d
_fts fts '%s' '%s'
echo "${COMPREPLY[@]}"
"""


def completions(place: Place) -> None:
    for words, wanted in [
        (["fts", "r"], "run"), (["fts", "run", "--w"], "--workers"), (["fts", "run", "--merge", "p"], "policy"),
        (["fts", "run", "--merge", "=", "o"], "off"),
    ]:
        given = place.bash, " ".join(words), len(words) - 1, words[-1], words[-2]
        done = run("bash", "-c", COMPLETES % given)
        check(f"bash completes {' '.join(words)}", done.stdout.split() == [wanted], said(done))
    if not shutil.which("zsh"):
        return skip("zsh's completion", "zsh isn't there")
    done = run("zsh", "-n", place.zsh)
    check("zsh reads its completion", done.returncode == 0, said(done))


# ---- the library

def in_c(place: Place, folder: Path) -> None:
    """The example in C by pkg-config, over the shared object and over the archive."""
    if not shutil.which("pkg-config") or not shutil.which(CC):
        return skip("C by pkg-config", f"pkg-config or {CC} isn't there")
    asking = {
        **PLAIN, "PKG_CONFIG_LIBDIR": str(place.libraries / "pkgconfig"), "PKG_CONFIG_SYSROOT_DIR": str(place.root),
        "PKG_CONFIG_ALLOW_SYSTEM_CFLAGS": "1", "PKG_CONFIG_ALLOW_SYSTEM_LIBS": "1",
    }
    asked = run("pkg-config", "--cflags", "--libs", "dilforec", env=asking)
    kinds: dict[str, list[str]] = {"shared": [], "static": ["-static"]}
    for kind, more in kinds.items():
        name, program = f"C by pkg-config, {kind}", folder / f"books-{kind}"
        source = ROOT / "bindings/c/example.c"
        built = run(CC, "-Wall", "-Wextra", *more, "-o", program, source, *asked.stdout.split())
        if check(f"{name}: links", built.returncode == 0 and not built.stderr, said(asked) + said(built)):
            loading = {"LD_LIBRARY_PATH": str(place.libraries)} if kind == "shared" else {}
            done = run(program, env={**PLAIN, **loading})
            needs = b"libdilforec.so.0\0" in program.read_bytes()
            check(f"{name}: runs", is_in_page(done.stdout) and needs == (kind == "shared"), said(done))


def in_cmake(place: Place, folder: Path) -> None:
    """The same by a project of CMake."""
    if not shutil.which("cmake"):
        return skip("CMake", "it isn't there")
    words: list[str | Path] = ["cmake", "-S", ROOT / "packaging/trial", f"-DCMAKE_PREFIX_PATH={place.prefix}",
             f"-DSOURCE={ROOT / 'bindings/c/example.c'}"]
    built = [run(*words, "-B", folder / "cmake"), run("cmake", "--build", folder / "cmake")]
    if check("CMake: links", not any(it.returncode for it in built), "".join(map(said, built))):
        for kind in "shared", "static":
            done = run(folder / "cmake" / kind)
            check(f"CMake, {kind}: runs", is_in_page(done.stdout), said(done))
    done = run(*words, "-B", folder / "cmake-later", "-DWANTED=99.0")
    check("CMake: another version is refused", done.returncode and f"version: {VERSION}" in done.stderr, said(done))


# ---- the Python package

BUILD = "import sys; sys.path.insert(0, sys.argv[1]); import backend; print(backend.build_wheel(sys.argv[2]))"


def with_wheel(folder: Path) -> None:
    """The wheel in a plain environment of this Python and of another one, and the package from its folder."""
    made = wheel(folder)
    attempt(refusals, folder)
    if not made:
        return
    this, other = pythons()
    own, name = environment(this, folder / "this")
    in_python(own, name, str(made), "the wheel")
    shown(own, name)
    in_python(own, name, str(BACKEND), "bindings/python")
    in_python(own, name, f"-e {BACKEND}", "bindings/python, to be edited")
    if other:
        in_python(*environment(other, folder / "other"), str(made), "the wheel")
    else:
        skip("the wheel in another Python", "there is none")


def wheel(folder: Path) -> Path | None:
    """The wheel, made twice."""
    made = []
    for name in "first", "second":
        (folder / name).mkdir()
        done = run(sys.executable, "-c", BUILD, BACKEND, folder / name)
        if not check(f"a wheel, the {name} time", done.returncode == 0, said(done)):
            return None
        made.append(folder / name / done.stdout.strip())
    check("the same bytes", made[0].read_bytes() == made[1].read_bytes())
    with zipfile.ZipFile(made[0]) as packed:
        names, about = set(packed.namelist()), packed.read(f"dilforec-{VERSION}.dist-info/METADATA").decode()
        asked = re.findall(rb"GLIBC_(\d+)\.(\d+)", packed.read("dilforec/libdilforec.so"))
    kind = "manylinux_2_17" if max((int(major), int(minor)) for major, minor in asked) <= (2, 17) else "linux"
    check(f"for {kind}", made[0].name == f"dilforec-{VERSION}-py3-none-{kind}_x86_64.whl", made[0].name)
    wanted = {path.relative_to(BACKEND).as_posix() for path in (BACKEND / "dilforec").rglob("*")
              if path.is_file() and "__pycache__" not in path.parts}
    check("with all files of the package", wanted <= names, wanted - names)
    check("and its extras", all(f"Provides-Extra: {it}\n" in about for it in ("service", "cluster")), about)
    return made[0]


def refusals(folder: Path) -> None:
    """What the backend doesn't do, it says in a sentence."""
    begin = f"import sys, platform; sys.path.insert(0, {str(BACKEND)!r}); import backend\n"
    asked: list[tuple[str, str, str, dict[str, str]]] = [
        ("an sdist", "backend.build_sdist('.')", "dilforec: there is no source distribution", {}),
        ("another machine", "platform.machine = lambda: 'aarch64'; backend.build_wheel('.')",
         "dilforec: it is for Linux with glibc", {}),
        ("no archive", "backend.build_wheel('.')", "isn't there: run `make`",
         {"DILFOREC_CRATE_ARCHIVE": str(folder / "none.a")}),
    ]
    for name, code, wanted, more in asked:
        done = run(sys.executable, "-c", begin + code, cwd=folder, env={**PLAIN, **more})
        told = wanted in done.stderr and done.stderr.count("\n") == 1
        check(f"{name} is refused with a sentence", done.returncode == 1 and told, said(done))


def pythons() -> tuple[str, str | None]:
    """The Python that runs this, and the oldest other one that serves, if there is one."""
    for minor in range(9, 20):
        own = shutil.which(f"python3.{minor}")
        others = pathlib.Path.home().glob(f".pyenv/versions/3.{minor}.*/bin/python")
        paths = [*([own] if own else []), *map(str, others)]
        for path in paths:
            if minor != sys.version_info.minor and run(path, "-c", "import ensurepip, venv, ctypes").returncode == 0:
                return sys.executable, path
    return sys.executable, None


def environment(python: str, folder: Path) -> tuple[Path, str]:
    """A plain environment of a Python: its own Python, and how it calls itself."""
    done = run(python, "-m", "venv", folder)
    own = folder / "bin/python"
    name = run(own, "--version").stdout.strip() if done.returncode == 0 else str(python)
    check(f"{name}: a plain environment", done.returncode == 0, said(done))
    return own, name


def in_python(own: Path, name: str, made: str, package: str) -> None:
    """Installs a package by pip into an environment, in place of what is there, and runs the examples."""
    done = run(own, "-m", "pip", "install", "--no-index", "--force-reinstall", *made.split())
    if check(f"{name}: pip install of {package}", done.returncode == 0, said(done)):
        run_examples(own, name, own.parents[1], PLAIN)
        serves(own, f"{name}: {package}", PLAIN)
        helps(own.parent / "dilforec", f"{name}: {package}", PLAIN)


def helps(command: Path, name: str, variables: Mapping[str, str]) -> None:
    """The command has the options of its manual page."""
    manual = (ROOT / "packaging/dilforec.1.in").read_text(encoding="utf-8").replace("\\-", "-")
    told = [run(command, each, "--help", env=variables) for each in ("serve", "load", "compact")]
    wanted = set().union(*(options(each.stdout) for each in told)) - {"--help"}
    same = not any(each.returncode for each in told) and options(manual) == wanted
    check(f"{name}: the options of dilforec(1)", same, options(manual) ^ wanted or "".join(map(said, told)))


def run_examples(python: str | Path, name: str, folder: Path, variables: Mapping[str, str]) -> None:
    """Runs the examples in Python; what the first one prints is in docs/EMBEDDING.md."""
    for path in EXAMPLES:
        done = run(python, path, cwd=folder, env=variables)
        good = done.returncode == 0 and (path.name != "books.py" or is_in_page(done.stdout))
        check(f"{name}: {path.name}", good, said(done))


def serves(python: str | Path, name: str, variables: Mapping[str, str]) -> None:
    """The service of an installed package takes a document, finds it, and stops at SIGTERM."""
    with tempfile.TemporaryDirectory() as folder:
        modules = pathlib.Path(folder, "modules")
        modules.mkdir()
        if not service.serves(str(python), str(modules)):
            return skip(f"{name}: the service", "uvicorn or httptools isn't there for it")
        paths = os.pathsep.join(filter(None, [variables.get("PYTHONPATH"), str(modules)]))
        variables = {**variables, "PYTHONPATH": paths}
        pathlib.Path(folder, "schema.json").write_text('[{"name":"title","kind":"text","default":true}]')
        words = [python, "-m", "dilforec", "serve", "--schema", "schema.json", "--journal", "journal",
                 "--listen", "127.0.0.1:0"]
        with subprocess.Popen(words, cwd=folder, env=variables, text=True, stdout=subprocess.PIPE,
                              stderr=subprocess.PIPE) as served:
            assert served.stdout
            ready = served.stdout.readline()
            try:
                port = re.search(r":(\d+)/", ready)
                assert port, ready
                told = answers(int(port[1]))
            finally:
                served.terminate()
                said_last = served.communicate(timeout=60)
        check(f"{name}: the service", told == (201, 1) and served.returncode == 0, f"{ready}{told} {said_last}")


def answers(port: int) -> tuple[int, int]:
    """The status of a posted document, and how many are found."""
    asked = http.client.HTTPConnection("127.0.0.1", port, timeout=30)
    asked.request("POST", "/documents", '{"title":"Programming Pearls"}', {"Content-Type": "application/json"})
    posted = asked.getresponse()
    posted.read()
    asked.request("GET", "/search?q=pearls")
    return posted.status, json.load(asked.getresponse())["count"]


def shown(own: Path, name: str) -> None:
    """What pip shows of the package in an environment, and what pydoc does."""
    told = run(own, "-m", "pip", "show", "dilforec").stdout
    lines = dict(re.findall(r"^([\w-]+): *(.*)$", told, re.MULTILINE))
    filled = all(lines.get(it) for it in ("Summary", "Home-page", "License"))
    check(f"{name}: pip show", filled and lines.get("Version") == VERSION, told)
    in_pydoc(own, name, own.parents[1] / "share/doc/dilforec", PLAIN)


def in_pydoc(python: str | Path, name: str, documents: Path, variables: Mapping[str, str]) -> None:
    """pydoc tells the version, and names documents that are there."""
    told = run(python, "-m", "pydoc", "dilforec", cwd=documents, env=variables).stdout
    named = re.findall(r"docs/\w+\.md", told)
    there = named and all((documents / it).is_file() for it in named)
    versioned = re.search(rf"^VERSION\n +{re.escape(VERSION)}$", told, re.MULTILINE)
    check(f"{name}: pydoc names documents that are there", there and versioned, told)


def with_debian_python(place: Place) -> None:
    """The package for Python as Debian unpacks it, in Debian's Python."""
    python = "/usr/bin/python3"
    if not pathlib.Path(python).is_file():
        return skip("python3-dilforec", f"there is no {python}")
    variables = {**PLAIN, "PYTHONPATH": str(place.prefix / "lib/python3/dist-packages")}
    run_examples(python, "python3-dilforec", place.root, variables)
    serves(python, "python3-dilforec", variables)
    helps(place.prefix / "bin/dilforec", "python3-dilforec", variables)
    in_pydoc(python, "python3-dilforec", place.pages, variables)
