#!/usr/bin/env python3
"""Tests the pages: README.md, docs/, bench/MEASURED-ALL.md, CONTRIBUTING.md and CHANGELOG.md.

    python3 tests/pages.py [PROGRAM]

PROGRAM is `fts`; without it, that of $FTS, or crates/fts/out/fts. What needs the Python package or the archive is skipped, and counted,
unless bindings/build.sh has linked them. It takes some seconds, and proves and measures nothing. It looks at these:

- Links: each leads to a file that is there, and to a heading of it. Addresses of the web aren't asked.
- Names: each path of the repository and each crate that a page names in code is there, and each name in the code of the pages about the
  sources occurs in these.
- Files: ARCHITECTURE names each file that a search goes through once.
- Commands: each block of command lines in README, DATA, EMBEDDING, SCALE and SERVICE runs, in a folder of its own, with
  stand-ins for what reaches other machines; except the lines that `ELSEWHERE` lists, with the reason. Blocks of Python
  compile. Commands of a script are commands. Queries of QUERIES.md are what that page says.
- The tutorial: its blocks run one after the other, the service too, and print what the page says that they print.
- Definitions: docs/DEFINITIONS.md is what tests/definitions.py writes. PROOFS.md counts what must be read as tests/reading.py does, and a kit
  that it doesn't name is printed, and counted as skipped. CONTRIBUTING.md has the table of tests/try_crate.py.
- Numbers: what was measured is in docs/MEASURED.md, its appendix bench/MEASURED-ALL.md and the table of README.md, which is MEASURED's.
  Elsewhere no page has a number before ns, µs, ms or their words, nor one of these tables with a fraction and three digits or more. A part that
  was measured over 50 commits ago is printed, and counted as skipped.
- Versions: each place that has the version has that of the file VERSION.
- Sentences: none has over 35 words; a word of code counts as one. Each page of docs/, and the appendix, says at its head for whom it is.
- README.md has 110 lines at most.

The last lines are 'N skipped', if any, and 'N passed, M failed'.
"""
from __future__ import annotations

import functools
import json
import os
import pathlib
import re
import shlex
import shutil
import stat
import subprocess
import sys
import tempfile
import textwrap
import time
import urllib.error
import urllib.request
from typing import Callable, Iterator, NamedTuple

import definitions
import reading
import service
import try_crate
from counts import Counts
from debian import install
from processes import completed

ROOT = pathlib.Path(__file__).resolve().parents[1]
DOCS = ROOT / "docs"
MEASURED = DOCS / "MEASURED.md"
APPENDIX = ROOT / "bench/MEASURED-ALL.md"
# A part of these that was measured more commits ago is old.
OLD = 50
TUTORIAL = DOCS / "TUTORIAL.md"
PAGES = [ROOT / "README.md", *sorted(DOCS.glob("*.md")), APPENDIX, ROOT / "CONTRIBUTING.md", ROOT / "CHANGELOG.md"]
WITH_COMMANDS = [ROOT / "README.md", *(DOCS / f"{name}.md" for name in ("DATA", "EMBEDDING", "SCALE", "SERVICE"))]
PACKAGE = ROOT / "bindings/python"
ARCHIVE = ROOT / "bindings/out/libdilforec.a"
MOST_LINES = 110
MOST_WORDS = 35

# Each place that has the version, and how.
VERSIONS = {
    "bindings/c/dilforec.h": r'^#define DILFOREC_VERSION "(.*)"$',
    "bindings/python/dilforec/__init__.py": r'^__version__ = "(.*)"$',
    "bindings/rust/Cargo.toml": r'^version = "(.*)"$',
    "crates/fts_cli/src/parser.rt": r'^const VERSION: &str = "(.*)";$',
    "crates/tests_cli/src/lines.rt": r'"fts (\d[\d.]*)\\n"',
    "CHANGELOG.md": r"^## ([\d.]+) \(\d{4}-\d\d-\d\d\)$",
    "docs/EMBEDDING.md": r"^    find_package\(dilforec (\d+\.\d+) REQUIRED\)$",
    "packaging/trial/CMakeLists.txt": r"^set\(WANTED (\d+\.\d+) ",
}

# Pages whose names in code are names of the sources, but for these, which are the kit's and Python's.
ABOUT_SOURCES = [DOCS / f"{name}.md" for name in ("ARCHITECTURE", "DECISIONS", "EMBEDDING", "PROOFS")]
OF_OTHERS = {"conflicts_with", "k_smallest", "kmerge", "logic", "plant", "pydoc", "rattle"}

# The crates that a search goes through below the index, and their files that it doesn't go through.
OF_SEARCHES = {
    "fts_collect": (), "fts_cursor": (), "fts_sets": (), "fts_postings": (), "fts_parts": (),
    "fts_positions": ("position_copier", "position_lists"),
}

# Command lines that don't run here, each by how it begins or by a word in it, and why.
ELSEWHERE = {
    r"^(sudo )?make\b": "it proves for minutes; .ci/install.py calls each target with what is built",
    r"^(pip install|python3 -m venv)\b": "it needs an environment of its own or a network; .ci/install.py and tests/cluster.py do it",
    r"^bindings/(build|examples)\.sh$": "bindings/test.py builds and runs what they do",
    r"^bindings/test\.py$|^python3 (tests|bench|examples/sharded)/(?!sharded\.py)": "it is a step of the gate, or takes minutes",
    r"pkg-config": ".ci/install.py compiles with what was installed",
    r"^(python3 -m dilforec (serve|load)|curl|split|echo .* \|$)": "tests/service.py asks a service by these lines",
    r"^(dask-|python3 logs\.py)": "tests/cluster.py runs the page's example",
    r"^socat\b": "it waits for clients",
    r"^apt-cache\b": "its list is another one on each machine",
}

# Programs in front of the PATH, in place of another machine, a build or another Python.
STAND_INS = {
    "python3": f'exec {shlex.quote(sys.executable)} "$@"',
    "rt": '[ "$1" = try ] && [ "$2" = -- ] && shift 2 && exec fts "$@"',
    "pv": 'exec cat "$@"',
    "ssh": 'shift; exec "$@"',
    "srun": 'while [ "${1#-}" != "$1" ]; do shift; done; exec "$@"',
    "salloc": 'while [ "${1#-}" != "$1" ]; do shift; done; exec "$@"',
    "parallel": """exec python3 -c '
import subprocess, sys
at = sys.argv.index(":::")
for path in sys.argv[at + 1:]:
    command = sys.argv[at - 1].replace("{.}", path.rpartition(".")[0]).replace("{}", path)
    subprocess.run(command, shell=True, check=True)' "$@\"""",
    "sbatch": """exec python3 -c '
import os, re, subprocess, sys
first, last = map(int, re.findall("[0-9]+", next(word for word in sys.argv if word.startswith("--array"))))
for number in range(first, last + 1):
    os.environ["SLURM_ARRAY_TASK_ID"] = str(number)
    subprocess.run(sys.argv[-1], shell=True, check=True)' "$@\"""",
}

COMMANDS = re.compile(r"\($|\(?(?:apt-cache|cd|echo|exec|grep-dctrl|mkfifo|[a-z0-9./_-]+/[a-z_]+\.(?:sh|py)|cc|cp|curl|dask-\w+|fts|make|openssl|parallel|pip|"
                      r"python3|rt|salloc|sbatch|sed|socat|split|sudo|while)\b")
SCRIPT = re.compile(r'\{"(?:schema|add|delete|delete_all|commit|rollback|merge|search)":')
FRACTION = re.compile(r"(?<![\w.,-])\d[\d,]*\.\d+(?![\w.])")
TIMED = re.compile(r"\d (?:ns|µs|ms|(?:nano|micro|milli)seconds?)\b")

counts = Counts("pages", quiet=True)
check, skip = counts.check, counts.skip


def named(page: pathlib.Path) -> str:
    return str(page.relative_to(ROOT))


def without_code(text: str) -> str:
    """A page without its blocks and words of code."""
    text = re.sub(r"^```.*?^```", "", text, flags=re.MULTILINE | re.DOTALL)
    text = re.sub(r"^ {4}.*\n", "\n", text, flags=re.MULTILINE)
    return re.sub(r"`[^`\n]*`", "`", text)


class Block(NamedTuple):
    """Lines of code of a page, and the number of the first."""
    page: pathlib.Path
    number: int
    lines: list[str]

    @property
    def name(self) -> str:
        return f"{named(self.page)}:{self.number}: {self.lines[0]}"

    @property
    def text(self) -> str:
        return "\n".join(self.lines) + "\n"


@functools.cache
def blocks(page: pathlib.Path) -> list[Block]:
    """The blocks of code of a page, which are indented by four."""
    found: list[Block] = []
    lines = page.read_text("utf-8").splitlines()
    # In a list, a block is indented by two more.
    for number, line in enumerate(lines, 1):
        if line.startswith("    "):
            if found and found[-1].number + len(found[-1].lines) == number:
                found[-1].lines.append(line[4:])
            else:
                found.append(Block(page, number, [line[4:]]))
        elif not line and found and found[-1].number + len(found[-1].lines) == number and lines[number:number + 1] and lines[number].startswith("    "):
            found[-1].lines.append("")
    return found


# Links and names


@functools.cache
def anchors(page: pathlib.Path) -> set[str]:
    """The names of a page's headings, as GitHub makes them."""
    found: dict[str, int] = {}
    names = set()
    code = False
    for line in page.read_text("utf-8").splitlines():
        code ^= line.startswith("```")
        heading = re.match(r"#+ (.*)", line)
        if heading and not code:
            words = re.sub(r"\[([^\]]*)\]\([^)]*\)", r"\1", heading[1]).lower()
            name = re.sub(r"[^\w\- ]", "", words).replace(" ", "-")
            names.add(f"{name}-{found[name]}" if name in found else name)
            found[name] = found.get(name, 0) + 1
    return names


def links() -> None:
    for page in PAGES:
        for target in re.findall(r"\]\(([^)\s]+)\)", without_code(page.read_text("utf-8"))):
            if re.match(r"[a-z]+:", target):
                continue
            path, _, anchor = target.partition("#")
            leads = (page.parent / path).resolve() if path else page
            there = leads.exists() and (ROOT in leads.parents or leads == ROOT)
            check(f"{named(page)}: {target}", there and (not anchor or anchor in anchors(leads)), "leads nowhere")


def names() -> None:
    """Paths and crates in code."""
    crates = {path.name for path in (ROOT / "crates").iterdir()}
    old = named(ROOT / "CHANGELOG.md")
    for page in PAGES:
        text = page.read_text("utf-8")
        for word in sorted(set(re.findall(r"\b(?:crates|bench|tests|bindings|examples|docs|packaging)/[\w./-]*\w", text))):
            if "/out/" not in f"{word}/" and word.isascii():
                there = any((folder / word).exists() for folder in (ROOT, page.parent))
                check(f"{named(page)}: {word}", there, "isn't there")
        for word in sorted(set(re.findall(r"(?:`|\*\*)((?:fts|tests|cases|testing)_\w+)\b", text))):
            known = word in crates or word == "fts_" or named(page) == old
            check(f"{named(page)}: {word}", known, "is no crate")


def sources() -> set[str]:
    """Each word of the sources."""
    words: set[str] = set()
    crates = (f"crates/*/{folder}/**/*.{kind}" for folder in ("src", "specs", "proofs") for kind in ("rt", "antt"))
    for form in (*crates, "bindings/**/*.py", "bindings/**/*.h", "bindings/rust/*.rs", "bindings/rust/src/*.rs", "bench/*.py", "tests/*.py"):
        for path in ROOT.glob(form):
            words.update(re.findall(r"\w+", path.read_text("utf-8")))
    return words | set(re.findall(r"\w+", (ROOT / "crates.txt").read_text("utf-8")))


def words_of_code() -> None:
    there = sources() | OF_OTHERS
    for page in ABOUT_SOURCES:
        text = re.sub(r"^ {4}.*\n", "\n", page.read_text("utf-8"), flags=re.MULTILINE)
        for code in sorted(set(re.findall(r"`([^`\n]+)`", text))):
            unknown = [word for word in re.findall(r"\b[A-Za-z_]\w+", code) if word not in there and not re.fullmatch("[0-9a-f]{16}", word)]
            check(f"{named(page)}: `{code}`", not unknown, f"{', '.join(unknown)} isn't in the sources")


# Commands


def program() -> pathlib.Path:
    given = sys.argv[1] if len(sys.argv) > 1 else os.environ.get("FTS", str(ROOT / "crates/fts/out/fts"))
    return pathlib.Path(given).resolve()


def why_elsewhere(line: str) -> str:
    return next((why for form, why in ELSEWHERE.items() if re.search(form, line)), "")


class Place(NamedTuple):
    """A folder in which commands run, with what they find."""
    folder: pathlib.Path
    environment: dict[str, str]

    def run(self, script: str) -> subprocess.CompletedProcess[str]:
        return self.completed("bash", "-e", "-o", "pipefail", "-c", script)

    def completed(self, *words: str, **settings: str) -> subprocess.CompletedProcess[str]:
        """A command that has ended; one that takes longer than a minute is ended, and has failed."""
        done: subprocess.CompletedProcess[str] = completed(
            *words, seconds=60, cwd=self.folder, env=self.environment, text=True, **settings)
        return done

    def replies(self, script: str) -> list[str]:
        """What `fts run` replies to a script."""
        done = self.completed("fts", "run", input=script)
        assert done.returncode == 0, done.stderr
        return done.stdout.splitlines()


def placed(folder: pathlib.Path) -> Place:
    """A folder with the repository's own folders, and what the pages say is there."""
    for name in ("crates", "examples", "bindings", "bench", "tests"):
        (folder / name).symlink_to(ROOT / name)
    tools = folder / "tools"
    tools.mkdir()
    (tools / "fts").symlink_to(program())
    for name, body in STAND_INS.items():
        (tools / name).write_text(f"#!/bin/bash\n{body}\n")
        (tools / name).chmod(stat.S_IRWXU)
    shutil.copy(ROOT / "bindings/c/example.c", folder / "program.c")
    (folder / "backup").mkdir()
    # The files that pages give the lines of, each in the block before which it is named.
    for page in (DOCS / "DATA.md", DOCS / "SCALE.md"):
        for block in blocks(page):
            if SCRIPT.match(block.lines[0]) and '{"schema"' in block.lines[0]:
                (folder / "script.jsonl").write_text(block.text)
    (folder / "books.jsonl").write_text(next(block for block in blocks(DOCS / "DATA.md")).text)
    paths = os.pathsep.join(filter(None, [os.environ.get("PYTHONPATH", ""), str(PACKAGE)]))
    environment = {**os.environ, "PATH": f"{tools}{os.pathsep}{os.environ['PATH']}", "PYTHONPATH": paths, "PYTHONDONTWRITEBYTECODE": "1"}
    return Place(folder, environment)


def told(block: Block) -> str:
    """The block after this one, which has what it prints."""
    some = blocks(block.page)
    return some[some.index(block) + 1].text


# What some commands print, or leave in a file; of the others the status alone is looked at.
def prints_catalogue(block: Block, place: Place, out: str) -> bool:
    return out == (ROOT / "examples/catalogue.replies.jsonl").read_text("utf-8")


def prints_next(block: Block, place: Place, out: str) -> bool:
    return out == told(block)


def leaves_replies(block: Block, place: Place, out: str) -> bool:
    found = (place.folder / "replies.jsonl").read_text("utf-8")
    return bool(found) and '"error"' not in found


EXPECTED: dict[str, Callable[[Block, Place, str], bool]] = {
    r"rt try -- run < ../../examples/catalogue": prints_catalogue,
    r"jq -c .* books.jsonl\n(.*\n)*\) \| fts run$": prints_next,
    r"> replies.jsonl": leaves_replies,
}


def linked() -> bool:
    """Whether the package is linked that this Python finds: one of the environment, or the repository's."""
    folders = [*filter(None, os.environ.get("PYTHONPATH", "").split(os.pathsep)), str(PACKAGE)]
    package = next(path for folder in folders if (path := pathlib.Path(folder, "dilforec")).is_dir())
    return (package / "libdilforec.so").exists()


def lacks(script: str, place: Place) -> str:
    """Why a script can't run on this machine, if so."""
    tools = {"jq": "jq", "cc": "cc", "openssl": "openssl"}
    missing = [tool for word, tool in tools.items() if re.search(rf"(^|[ (]){word} ", script, re.MULTILINE) and not shutil.which(tool)]
    if missing:
        return f"there is no {missing[0]}"
    # The example of SERVICE.md in Python leaves a journal.
    if ("-m dilforec" in script or "books.journal" in script) and not (place.folder / "books.journal").exists():
        return "the package isn't linked (bindings/build.sh)"
    return "there is no archive (bindings/build.sh)" if re.search(r"^cc ", script) and not ARCHIVE.exists() else ""


def commands(place: Place) -> None:
    for page in WITH_COMMANDS:
        for block in blocks(page):
            if not COMMANDS.match(block.lines[0]):
                continue
            lines = block.lines if block.lines[0].startswith("(") else [it for it in block.lines if not why_elsewhere(it.strip())]
            if why_elsewhere(block.lines[0]) and block.lines[0].endswith("|"):
                lines = []
            script = "\n".join(lines).strip()
            if not script:
                continue
            # The ones in the background end before their files are looked at.
            done = None if (why := lacks(script, place)) else place.run(script + ("\nwait" if re.search(r" &$", script, re.MULTILINE) else ""))
            if not done:
                skip(block.name, why)
            elif check(block.name, done.returncode == 0, done.stdout + done.stderr):
                for form, expected in EXPECTED.items():
                    if re.search(form, script, re.MULTILINE):
                        check(f"{block.name}: what it prints", expected(block, place, done.stdout), done.stdout)
                        break


def files_of_searches() -> None:
    """ARCHITECTURE.md's table of the files that a search goes through names each file of these crates once."""
    named_files = []
    crate = ""
    for row in re.findall(r"^\|([^|]*)\|([^|]*)\|[^|]*\|$", (DOCS / "ARCHITECTURE.md").read_text("utf-8"), re.MULTILINE):
        crate = re.sub("[`, ]", "", row[0]).replace("searches/", "") or crate
        named_files += [(crate, name) for name in re.findall(r"`(\w+)`", row[1])]
    for each in OF_SEARCHES:
        there = {path.stem for path in (ROOT / "crates" / each / "src").rglob("*.rt")} - {"lib", *OF_SEARCHES[each]}
        found = sorted(name for crate, name in named_files if crate == each and name not in OF_SEARCHES[each])
        check(f"docs/ARCHITECTURE.md: the files of {each}", found == sorted(there), f"names {found}, and there are {sorted(there)}")


def unlisted() -> None:
    """Each block of the pages with commands is of a kind that is known: commands, JSON, Python, or what `OTHERS` lists."""
    for page in [*WITH_COMMANDS, TUTORIAL]:
        printed = {prints(block) for block in blocks(page)}
        for block in blocks(page):
            known = block.text in printed or COMMANDS.match(block.lines[0]) or is_json(block) or is_python(block) or OTHERS.match(block.lines[0].strip())
            check(f"{block.name}: a kind of block that tests/pages.py knows", bool(known))


# Rattle, Rust, C, what programs print, and files of cargo and CMake: how each begins.
OTHERS = re.compile(r"let |use dilforec::|dilforec_\w+ |C:$|\[dependencies\]|find_package")


def counted() -> None:
    """What PROOFS.md counts is what tests/reading.py counts, and its kit the one that is there."""
    proofs = (DOCS / "PROOFS.md").read_text("utf-8").replace("\n", " ")
    sums = reading.summed().told.partition(";")[0]
    check("docs/PROOFS.md: what must be read", sums in proofs, f"isn't {sums}")
    if shutil.which("rt"):
        kit = subprocess.run(["rt", "version"], capture_output=True, text=True).stdout.strip()
        if kit not in proofs:
            skip("docs/PROOFS.md: the kit", f"it wasn't tried with {kit}")
    contributing = (ROOT / "CONTRIBUTING.md").read_text("utf-8")
    check("CONTRIBUTING.md: the table of crates", try_crate.table() in contributing, "isn't that of tests/try_crate.py --table")


def quoted() -> None:
    """README's lines of Rattle are those of a program that the gate proves."""
    source = textwrap.dedent((ROOT / "crates/example_index/src/main.rt").read_text("utf-8")).replace("\n    ", "\n")
    block = next(block for block in blocks(ROOT / "README.md") if block.lines[0].strip().startswith("let "))
    check(block.name, textwrap.dedent(block.text) in source, "isn't in crates/example_index")


def is_json(block: Block) -> bool:
    try:
        return all(isinstance(json.loads(line), (dict, list)) for line in block.lines)
    except ValueError:
        return False


def is_python(block: Block) -> bool:
    return bool(re.match(r"\s*(import|from|with|for) ", block.lines[0]))


def prints(block: Block) -> str | None:
    """What a page says that a block prints: the block after the line "prints" that follows it."""
    after = block.page.read_text("utf-8").splitlines()[block.number - 1 + len(block.lines):]
    between = "\n".join(after).strip().partition("\n\n")[0]
    return told(block) if between.startswith("prints") else None


def served(place: Place, script: str) -> subprocess.Popen[str]:
    """A service that a block starts, once it answers or has ended."""
    words = ["bash", "-c", f"exec {script}"]
    started = subprocess.Popen(words, cwd=place.folder, env=place.environment, stdout=subprocess.DEVNULL, stderr=subprocess.PIPE, text=True)
    while started.poll() is None:
        try:
            urllib.request.urlopen("http://127.0.0.1:8090/readyz", timeout=10)
            break
        except (urllib.error.URLError, ConnectionError):
            time.sleep(0.1)
    return started


# What the tutorial's lines need, by a word in them.
NEEDED = {"grep-dctrl": "grep-dctrl"}


def tutorial(place: Place) -> None:
    """Runs the tutorial's blocks in a folder, with the list of packages that ships."""
    folder = place.folder / "tutorial"
    folder.mkdir()
    (folder / "examples").symlink_to(ROOT / "examples")
    modules = folder / "modules"
    modules.mkdir()
    has_package = linked()
    serves = has_package and service.serves(sys.executable, str(modules))
    if not shutil.which("grep-dctrl"):
        install(counts, "dctrl-tools")
    paths = os.pathsep.join([place.environment["PYTHONPATH"], str(modules)])
    place = Place(folder, {**place.environment, "PYTHONPATH": paths})
    running: subprocess.Popen[str] | None = None
    for block in blocks(TUTORIAL):
        script = block.text
        of_package = is_python(block) or "-m dilforec load" in script
        of_service = "-m dilforec serve" in script or "curl" in script
        if not COMMANDS.match(block.lines[0]) and not is_python(block) or script.startswith("apt-cache"):
            continue
        if of_package and not has_package:
            skip(block.name, "the package isn't linked (bindings/build.sh)")
        elif of_service and not serves:
            skip(block.name, "the package isn't linked, or uvicorn isn't there")
        elif lacking := next((tool for word, tool in NEEDED.items() if word in script and not shutil.which(tool)), ""):
            skip(block.name, f"there is no {lacking}")
        elif "-m dilforec serve" in script:
            running = served(place, script)
            ended = running.poll() is not None
            check(block.name, not ended, running.communicate()[1] if ended else "")
        else:
            words = [sys.executable, "-c", script] if is_python(block) else ["bash", "-e", "-o", "pipefail", "-c", script]
            done = place.completed(*words)
            wanted = prints(block)
            check(block.name, done.returncode == 0 and wanted in (None, done.stdout), done.stdout + done.stderr)
    if running:
        running.terminate()
        check(f"{named(TUTORIAL)}: the service ends", running.wait(60) == 0)


def python(place: Place) -> None:
    """Blocks of Python compile; the first ones of README, EMBEDDING and SERVICE run."""
    for page in PAGES:
        for block in filter(is_python, blocks(page)):
            try:
                compile(textwrap.dedent(block.text), block.name, "exec")
                check(block.name, True)
            except SyntaxError as error:
                check(block.name, False, error)
    wanted = {
        ROOT / "README.md": "1986 Programming Pearls\n",
        DOCS / "EMBEDDING.md": "1994 Managing Gigabytes\n1986 Programming Pearls\n",
        DOCS / "SERVICE.md": "(1,) 1 (Hit(id=1, value=1986,",
    }
    for page, printed in wanted.items():
        block = next(filter(is_python, blocks(page)))
        if not linked():
            skip(block.name, "the package isn't linked (bindings/build.sh)")
            continue
        done = place.completed(sys.executable, "-c", "import dilforec\n" + block.text)
        check(f"{block.name}: what it prints", done.returncode == 0 and done.stdout.startswith(printed), done.stdout + done.stderr)


def scripts(place: Place) -> None:
    """What looks like a command of a script is one."""
    for page in PAGES:
        for block in filter(is_json, blocks(page)):
            lines = [line for line in block.lines if SCRIPT.match(line) and not re.match(r'\{"(commit|rollback|merge)":[\[\d]', line)]
            for line, reply in zip(lines, place.replies("".join(f"{line}\n" for line in lines))):
                check(f"{block.name}: {line}", not re.search(r'"(BadJson|BadCommand)"', reply), reply)


def queries(place: Place) -> None:
    """Queries that QUERIES.md explains are queries, and those that it says aren't are refused so."""
    text = (DOCS / "QUERIES.md").read_text("utf-8")
    rows = re.findall(r"^\| ((?:`[^`]+`(?:, )?)+) \| (?:with|all)", text, re.MULTILINE)
    good = [query for row in rows for query in re.findall(r"`([^`]+)`", row)]
    sentence = re.search(r"So `title:AND` is a query, but ([^.]*?)\s+aren't\.", text)
    assert sentence and len(good) > 10
    bad = re.findall(r"`([^`]+)`", sentence[1])
    negative = re.search(r"`([^`]+)` is refused as `AllNegative`", text)
    assert negative and bad
    wanted = [*((query, '{"count"') for query in [*good, "title:AND"]), *((query, '{"error":"Syntax"') for query in bad),
              (negative[1], '{"error":"AllNegative"')]
    schema = [{"name": "title", "kind": "text", "default": True}, {"name": "tag", "kind": "keyword", "default": True},
              {"name": "price", "kind": "u64"}, {"name": "temp", "kind": "i64"}]
    lines = [{"schema": schema}, *({"search": {"query": query}} for query, _ in wanted)]
    replies = place.replies("".join(json.dumps(line) + "\n" for line in lines))
    for (query, begins), reply in zip(wanted, replies[1:]):
        check(f"docs/QUERIES.md: {query}", reply.startswith(begins), reply)


# Definitions, numbers, lines


def same_definitions() -> None:
    there = definitions.PAGE.read_text("utf-8")
    check("docs/DEFINITIONS.md", there == definitions.page(there), "isn't what tests/definitions.py writes")


def tables(page: pathlib.Path) -> list[str]:
    """The tables of a page."""
    return re.findall(r"(?:^\|.*\n)+", page.read_text("utf-8"), re.MULTILINE)


def measured() -> set[str]:
    """The numbers in the tables of MEASURED.md and its appendix that have a fraction and three digits or more."""
    rows = "".join(table for page in (MEASURED, APPENDIX) for table in tables(page))
    return {number for number in FRACTION.findall(rows) if len(re.sub(r"\D", "", number).lstrip("0")) >= 3}


def numbers() -> None:
    there = measured()
    first = tables(MEASURED)[0]
    check("README.md: its table", first in tables(ROOT / "README.md"), "isn't the first one of docs/MEASURED.md")
    for page in PAGES:
        if page in (MEASURED, APPENDIX, ROOT / "CONTRIBUTING.md", ROOT / "CHANGELOG.md"):
            continue
        lines = page.read_text("utf-8").replace(first, "\n" * first.count("\n")).splitlines()
        bad = [f"{number}: {line}" for number, line in enumerate(lines, 1) if TIMED.search(line) or there & set(FRACTION.findall(line))]
        check(f"{named(page)}: numbers that belong into docs/MEASURED.md alone", not bad, "\n".join(bad))


def ages() -> None:
    """How many commits ago each part was measured, if this is a clone that has them all."""
    for path in sorted((ROOT / "bench/measured").glob("*.json")):
        commit = str(json.loads(path.read_text("utf-8"))["commit"]).split()[0]
        counted = subprocess.run(["git", "-C", ROOT, "rev-list", "--count", f"{commit}..HEAD"], capture_output=True, text=True)
        if counted.returncode:
            skip(f"{named(APPENDIX)}: {path.stem}", f"git doesn't know the commit {commit}")
        elif int(counted.stdout) > OLD:
            skip(f"{named(APPENDIX)}: {path.stem}", f"it was measured {counted.stdout.strip()} commits ago")


def versions() -> None:
    version = (ROOT / "VERSION").read_text("utf-8").strip()
    for name, form in VERSIONS.items():
        found = re.search(form, (ROOT / name).read_text("utf-8"), re.MULTILINE)
        # CMake is asked for the first two numbers, which have to agree.
        wanted = version.rpartition(".")[0] if r"\.\d+)" in form else version
        check(f"{name}: the version", found is not None and found[1] == wanted, f"isn't {wanted}")


def paragraphs(text: str) -> Iterator[tuple[int, str]]:
    """The paragraphs and the items of lists of a page, each with the number of its first line."""
    begun: tuple[int, list[str]] = (0, [])
    in_code = False
    for number, line in enumerate(text.splitlines(), 1):
        in_code ^= line.startswith("```")
        apart = in_code or not line.strip() or re.match(r"```| {4}|[|#<!]", line)
        item = re.match(r" *(?:-|\d+\.) (.*)", line)
        if (apart or item) and begun[1]:
            yield begun[0], " ".join(begun[1])
            begun = (0, [])
        if not apart:
            begun = (begun[0] or number, [*begun[1], item[1] if item else line.strip()])
    if begun[1]:
        yield begun[0], " ".join(begun[1])


def sentences() -> None:
    for page in PAGES:
        long = []
        for number, told in paragraphs(page.read_text("utf-8")):
            plain = re.sub(r"`[^`]*`", "CODE", re.sub(r"\[([^\]]*)\]\([^)]*\)", r"\1", told)).replace("**", "")
            for sentence in re.split(r"(?<=[.!?])[\"')]*\s+(?=[\"'(]*[A-Z0-9])", plain):
                if sum(bool(re.search(r"\w", word)) for word in sentence.split()) > MOST_WORDS:
                    long.append(f"{number}: {sentence}")
        check(f"{named(page)}: sentences of {MOST_WORDS} words at most", not long, "\n".join(long))


def heads() -> None:
    """A page of docs/, and the appendix, says under its title whom it is for."""
    for page in [*DOCS.glob("*.md"), APPENDIX]:
        head = next((told for _, told in paragraphs(page.read_text("utf-8"))), "")
        check(f"{named(page)}: its head", head.startswith("For "), f"doesn't say for whom it is: {head}")


def length() -> None:
    lines = len((ROOT / "README.md").read_text("utf-8").splitlines())
    check("README.md", lines <= MOST_LINES, f"has {lines} lines, and {MOST_LINES} at most")


def running() -> Iterator[Callable[[Place], None]]:
    yield from (python, commands, scripts, queries, tutorial)


def main() -> int:
    links()
    names()
    words_of_code()
    files_of_searches()
    unlisted()
    quoted()
    counted()
    same_definitions()
    numbers()
    ages()
    versions()
    sentences()
    heads()
    length()
    if program().exists():
        with tempfile.TemporaryDirectory() as folder:
            place = placed(pathlib.Path(folder))
            for test in running():
                test(place)
    else:
        check("commands", False, f"{program()} isn't there: build it first, or name it")
    return counts.end()


if __name__ == "__main__":
    sys.exit(main())
