#!/usr/bin/env python3
"""Tries the edits. Each makes one body wrong, and the function that edits.txt names for it must refuse it.

    python3 .ci/edits.py [CRATE..]
    rt ci | tee SAID; python3 .ci/edits.py --said SAID

An edit of .ci/edits/CRATE/ is applied to a copy of its crate. The prover then checks one function, with what that
calls, over the libraries below. The edit is refused if this function isn't proved and its first error is the goal of
its row, which is false under the edit. Before that a control proves all functions that the crate's rows name, without an
edit; the edits are tried over what the control leaves, so that what they call is proved once. Crates go side by side, as
many as the kit's lanes hold.

A check costs more to begin than to end. So edits that each change the body of their row's own function alone are tried
some at a time, in one copy: no function is checked against the body of another. An edit that isn't refused there as its
row says is tried again by itself, and this try counts.

`rt ci` tries the edits of must-fail/ itself, in crates that it proves in less than a minute. With --said, what it
printed of them is compared with their rows, and the others are tried over the libraries that it has just built.
Without --said, all edits of these crates are tried here, over libraries that are proved first if they have changed.

An edit is bad if it can't be applied, if the prover can't read it, or if it brings a function without a contract. A
caller knows nothing of such a function, so the right result would be refused as well. The last line is 'N passed, M
failed'.
"""
from __future__ import annotations

import argparse
import dataclasses
import pathlib
import re
import resource
import shutil
import signal
import sys
import tempfile
from collections.abc import Callable, Iterable
from typing import Any

import kit

HERE = pathlib.Path(__file__).resolve().parent
CRATES = kit.ROOT / "crates"
TABLE = HERE / "edits.txt"

# What `rt ci` prints of an edit that is refused.
SAID = re.compile(r"must-fail (\w+/[\w.-]+)\.edit: refused, as it must be(?:: (?:note: )?)?(.*)")

# The line that opens a function's body, and the words that begin an item.
OPENING = re.compile(r"^ *\{$", re.M)
ITEM = re.compile(r"\b(?:fn|struct|enum|impl|trait|use|mod|const|static)\b")

# A line of a check about a place, and one about a name that a proof file cites and the edit took away.
PLACED = re.compile(r"(?:note: )?\S+:\d+:\d+:")
LOST_NAME = re.compile(r"(?:note: )?(?:\./)?proofs/.*(?:has no field|is not in scope|has no `|was not admitted)")

# The prover begins another line with these words if the name before them is long.
SECOND_LINE = re.compile(r"\n +(?=has no field\b)")

# The most memory that a check of one function was seen to take, in bytes.
MEMORY = 2_400_000_000

# The most edits that are tried by one check.
TOGETHER = 12


@dataclasses.dataclass(frozen=True)
class Edit:
    """A wrong body: its name as in the table, its file, and the function and the goal of its row."""

    name: str
    path: pathlib.Path
    function: str = ""
    goal: str = ""

    @property
    def crate(self) -> str:
        """The crate that the edit changes."""
        return self.name.split("/")[0]


class NotRefused(Exception):
    """Why an edit doesn't count as refused, and maybe lines that show it."""


def rows() -> dict[str, tuple[str, str]]:
    """The function and the goal of each row of the table, by the name of its edit."""
    _, _, table = TABLE.read_text(encoding="utf-8").partition("\n\n")
    return {name: (function, goal) for name, function, goal in re.findall(r"^(\S+) (\S+): (\S+)$", table, re.M)}


def edits_in(paths: Iterable[pathlib.Path], crate_at: int) -> list[Edit]:
    """The edits of these files, each with its row; the crate is this part of a path."""
    table, named = rows(), {f"{path.parts[crate_at]}/{path.stem}": path for path in paths}
    return [Edit(name, path, *table.get(name, ())) for name, path in sorted(named.items())]


def refused_by(crate: str, line: str) -> tuple[str, str]:
    """The function, without its module, and the goal that a line of a check names."""
    goal = re.search(r"error: `([^`]+)|\(`([^`]+)", line)
    proof = re.match(r"(?:\./)?proofs/(?:\S+/)?([^/\s]+)/\w+\.antt:", line)
    source = re.match(r"(?:\./)?(src/\S+\.rt):(\d+):", line)
    function = proof[1] if proof else "?"
    if source:
        # The line is the function's first, maybe an attribute, or one of its body.
        text, number = (CRATES / crate / source[1]).read_text(encoding="utf-8").split("\n"), int(source[2]) - 1
        while text[number].lstrip().startswith("#["):
            number += 1
        function = (re.findall(r"\bfn (\w+)", "\n".join(text[: number + 1])) or ["?"])[-1]
    return function, (goal[1] or goal[2]) if goal else "?"


def compare(edit: Edit, said: dict[str, str]) -> None:
    """Raises NotRefused unless `rt ci` said of an edit what its row says."""
    if edit.name not in said:
        raise NotRefused("isn't refused, as far as rt ci says")
    function, goal = refused_by(edit.crate, said[edit.name])
    if (function, goal) != (edit.function.split("::")[-1], edit.goal):
        raise NotRefused(f"is refused by {function}: {goal}, and its row says {edit.function}: {edit.goal}")


def without_contract(text: str) -> list[str]:
    """The functions that an edit brings without an `ensures`."""
    lines = text.splitlines()
    known = {name for line in lines if line.startswith("old:") for name in re.findall(r"\bfn (\w+)", line)}
    brought = [part for line in lines if line.startswith("new:") for part in re.split(r"\bfn (?=\w)", line)[1:]]
    names = [re.findall(r"^\w+", part)[0] for part in brought if "ensures" not in part]
    return [name for name in names if name not in known]


def is_inside(edit: Edit, folder: str) -> bool:
    """Whether an edit changes the body of its row's function and nothing else of the crate in this folder."""
    path = ""
    for line in edit.path.read_text(encoding="utf-8").splitlines():
        key, _, text = line.partition(": ")
        if key == "file":
            path = text.strip()
        elif key == "old":
            before, found, _ = pathlib.Path(folder, path).read_text(encoding="utf-8").partition(text)
            name, _, head = before.rpartition("fn ")[2].partition("(")
            if not found or name.split("<")[0] != edit.function.split("::")[-1] or not OPENING.search(head):
                return False
        elif key == "new" and ITEM.search(text):
            return False
    return True


def together(edits: list[Edit], folder: str) -> list[list[Edit]]:
    """The edits in groups that are each tried by one check: different functions, whose bodies alone are changed."""
    groups: list[list[Edit]] = []
    shared: list[list[Edit]] = []
    for edit in edits:
        if not edit.function or not is_inside(edit, folder):
            groups.append([edit])
            continue
        name = edit.function.split("::")[-1]
        for group in shared:
            if len(group) < TOGETHER and all(name != other.function.split("::")[-1] for other in group):
                group.append(edit)
                break
        else:
            shared.append([edit])
    return groups + shared


def not_proved(lines: list[str]) -> list[str]:
    """The functions that a check, which printed these lines, doesn't prove, but for those that only call such a one."""
    return re.findall(r"^fn (\S+): (?:not proved|no proof)\b(?!: it calls)", "\n".join(lines), re.M)


def judge(edit: Edit, status: int, lines: list[str], is_unread: Callable[[str], bool]) -> None:
    """Raises NotRefused unless a check of an edit's function says what the edit's row says."""
    if status == 0:
        raise NotRefused(f"isn't refused: {edit.function} is proved with it")
    if status != 1 or not any(line.startswith("only=") for line in lines[-1:]):
        raise NotRefused(f"is bad, since it doesn't reach the prover (status {status})", *lines[:6])
    unread = [line for line in lines if is_unread(line)]
    if unread:
        raise NotRefused("is bad, since the prover can't read it", *unread[:3])
    failed = not_proved(lines)
    if not any(name.endswith(f"::{edit.function}") for name in failed):
        raise NotRefused(f"is refused by {', '.join(failed) or 'no function'}, and its row says {edit.function}")
    placed = [line for line in lines if PLACED.match(line)]
    errors = [line for line in placed if ": error" in line or line.startswith("note: ")] or placed
    first = next((line for line in errors if not LOST_NAME.match(line)), "")
    _, goal = refused_by(edit.crate, first.removeprefix("note: "))
    if goal != edit.goal:
        raise NotRefused(f"is refused by {edit.function}: {goal}, and its row says {edit.goal}", first)


class Trials:
    """The edits of one crate, which are tried over what its control leaves in a folder."""

    def __init__(self, crate: Any, edits: list[Edit], room: str) -> None:
        self.rt = kit.module("rt")
        self.crate = crate
        self.edits = edits
        self.untried = {edit.name for edit in edits}
        self.proved = pathlib.Path(room, crate.name)
        self.functions = sorted({edit.function for edit in edits if edit.function})

    def check(
        self, texts: dict[str, str], functions: list[str], folder: pathlib.Path, jobs: int
    ) -> tuple[int, list[str]]:
        """The status and the lines of a check of these functions, with these texts in place of the crate's own."""
        flags = ["--jobs", str(jobs), *(word for function in functions for word in ("--only", function))]
        ran = self.rt.checked(self.crate, texts, flags, str(folder))
        if ran.returncode == -signal.SIGKILL:
            # Most likely the machine ran out of memory.
            ran = self.rt.checked(self.crate, texts, flags, str(folder))
        return ran.returncode, SECOND_LINE.sub(" ", ran.stdout).splitlines()

    def control(self, jobs: int) -> bool:
        """Whether the functions of the rows are proved without an edit."""
        self.proved.mkdir()
        if not self.functions:
            return True
        status, lines = self.check({}, self.functions, self.proved, jobs)
        if status:
            failed = ", ".join(not_proved(lines)) or "what is tried"
            say(f"{self.crate.name}: without an edit {failed} isn't proved (status {status})", *lines[:9])
        else:
            say(f"{self.crate.name}: without an edit {', '.join(self.functions)}: proved")
        return status == 0

    def attempt(self, edits: list[Edit], is_sound: bool) -> list[bool]:
        """Whether each of these edits is refused as its row says."""
        try:
            refused = self.refused_together(edits) if is_sound and len(edits) > 1 else set()
            return [edit.name in refused or self.attempt_alone(edit, is_sound) for edit in edits]
        finally:
            self.untried -= {edit.name for edit in edits}
            if not self.untried:
                shutil.rmtree(self.proved, ignore_errors=True)

    def attempt_alone(self, edit: Edit, is_sound: bool) -> bool:
        """Whether an edit is refused as its row says, and says so."""
        try:
            if not is_sound:
                raise NotRefused("isn't tried, since its crate's control isn't proved")
            self.refuse(edit)
            self.say_refused(edit)
            return True
        except NotRefused as error:
            say(f"{edit.name} {error.args[0]}", *error.args[1:])
        except OSError as error:
            say(f"{edit.name} isn't tried: {error}")
        return False

    def refused_together(self, edits: list[Edit]) -> set[str]:
        """The names of those of these edits that one check of a copy with all of them refuses as their rows say."""
        refused: set[str] = set()
        texts, why = self.rt.edited("\n".join(edit.path.read_text(encoding="utf-8") for edit in edits), self.crate.folder)
        if why:
            return refused
        status, lines = self.check_edited(texts, [edit.function for edit in edits])
        say(f"{len(edits)} of {self.crate.name} are tried together")
        for edit in edits:
            name = edit.function.split("::")[-1]
            mine = [line for line in lines if not PLACED.match(line) or self.is_about(name, line)]
            try:
                self.judge(edit, texts, status, mine)
            except NotRefused:
                continue
            self.say_refused(edit)
            refused.add(edit.name)
        return refused

    def refuse(self, edit: Edit) -> None:
        """Raises NotRefused unless the function of an edit's row refuses the edit, by the goal of the row."""
        texts, why = self.rt.read_edit(str(edit.path), self.crate.folder)
        if why:
            raise NotRefused(f"is bad: {why}")
        if not edit.function:
            raise NotRefused("isn't tried, since it has no row")
        status, lines = self.check_edited(texts, [edit.function])
        self.judge(edit, texts, status, lines)

    def check_edited(self, texts: dict[str, str], functions: list[str]) -> tuple[int, list[str]]:
        """What `check` says of these functions over a copy of what the control left."""
        with tempfile.TemporaryDirectory(prefix=f"{self.crate.name}-", dir=self.proved.parent) as room:
            folder = pathlib.Path(room, "proved")
            shutil.copytree(self.proved, folder)
            return self.check(texts, functions, folder, 1)

    def judge(self, edit: Edit, texts: dict[str, str], status: int, lines: list[str]) -> None:
        """Raises NotRefused unless these lines of a check say what the edit's row says."""
        brought = without_contract(edit.path.read_text(encoding="utf-8"))
        if brought:
            raise NotRefused(f"is bad, since it brings functions without ensures: {', '.join(brought)}")
        judge(edit, status, lines, lambda line: bool(self.rt.unread(line, texts)))

    def is_about(self, name: str, line: str) -> bool:
        """Whether a line of a check about a place is about this function."""
        return refused_by(self.crate.name, line.removeprefix("note: "))[0] == name

    def say_refused(self, edit: Edit) -> None:
        """Says that an edit is refused as its row says."""
        say(f"{edit.name} is refused by {edit.function}: {edit.goal}")


def say(*lines: str) -> None:
    """Prints what came of an edit or a control; lines after the first show it."""
    print(f"edits: {lines[0]}", *lines[1:], sep="\n    ", flush=True)


def build_below(crate: Any, just_proved: bool) -> None:
    """Proves and builds the libraries below a crate, except those that are built.

    The kit marks a library with a sum of its sources. `rt ci` leaves those that it has just built without this mark.

    Raises SystemExit if one isn't proved.
    """
    for library in crate.below():
        made = pathlib.Path(library.rlib)
        if just_proved and made.is_dir() and not made.with_name("stamp").exists():
            continue
        library.out = sys.stderr
        if library.build_rlib(["--jobs", "1"], anew=False):
            sys.exit(f"edits: {library.name}, which {crate.name} stands on, isn't proved")


def try_here(edits: list[Edit], just_proved: bool) -> list[bool]:
    """Of each control and each edit, whether it proves its function, or is refused as its row says."""
    rt = kit.module("rt")
    all_crates = kit.crates(rt.rtlib)
    # Its first call sets a signal's handler, which only the main thread may.
    rt.rtlib.guarded()
    crates = [all_crates[name] for name in dict.fromkeys(edit.crate for edit in edits)]
    held = rt.rtlib.lock(list({it.name: it for crate in crates for it in (*crate.below(), crate)}.values()))
    tasks: dict[tuple[str, ...], Any] = {}
    with tempfile.TemporaryDirectory(prefix="edits-") as room:
        for crate in crates:
            build_below(crate, just_proved)
            trials = Trials(crate, [edit for edit in edits if edit.crate == crate.name], room)
            # The kit names tasks so: what a crate's edits begin with, and its edits, which wait for that.
            first = crate.name, "seed"
            tasks[first] = [], crate.count(rb"\n"), MEMORY, lambda _, jobs, it=trials: [it.control(jobs)]
            for group in together(trials.edits, crate.folder):
                call = lambda given, _, it=trials, group=group, first=first: it.attempt(group, given[first][0])
                tasks[crate.name, "edits", group[0].name] = [first], len(group), MEMORY, call
        given = rt.in_lanes(tasks)
    del held
    return [good for results in given.values() for good in results]


def compare_all(edits: list[Edit], file: str) -> list[bool]:
    """Whether `rt ci`, which printed what is in a file, said of each edit what its row says."""
    said = dict(SAID.findall(pathlib.Path(file).read_text(encoding="utf-8", errors="replace")))
    results = []
    for edit in edits:
        try:
            compare(edit, said)
            results.append(True)
        except NotRefused as error:
            say(f"{edit.name} {error}")
            results.append(False)
    return results


def main() -> int:
    """Tries the edits that the command line names, and returns its status."""
    parser = argparse.ArgumentParser(description="Tries wrong bodies, which contracts must refuse.")
    parser.add_argument("--said", metavar="FILE", help="what `rt ci` printed, which tried the edits of must-fail/")
    parser.add_argument("crates", metavar="CRATE", nargs="*", help="a crate whose edits are tried; without any, all")
    words = parser.parse_args()

    of_gate = edits_in(CRATES.glob("*/must-fail/*.edit"), -3)
    ours = edits_in((HERE / "edits").glob("*/*.edit"), -2)
    lost = sorted(rows().keys() - {edit.name for edit in of_gate + ours})
    for name in lost:
        say(f"{name} has a row, and there is no such edit")
    results = [False for _ in lost]
    if words.crates:
        of_gate, ours = ([edit for edit in edits if edit.crate in words.crates] for edits in (of_gate, ours))
    if words.said:
        results += compare_all(of_gate, words.said)
    else:
        ours = sorted(of_gate + ours, key=lambda edit: edit.name)
    results += try_here(ours, just_proved=bool(words.said))
    used = resource.getrusage(resource.RUSAGE_CHILDREN)
    say(f"{len(ours)} tried here, in {(used.ru_utime + used.ru_stime) / 60:.1f} minutes of a processor")
    print(f"{sum(results)} passed, {len(results) - sum(results)} failed")
    return 0 if all(results) else 1


if __name__ == "__main__":
    sys.exit(main())
