"""The command: files of documents that are loaded, cut off, and gone on with."""
from __future__ import annotations

import csv
import json
import os
import pathlib
import pty
import signal
import subprocess
import sys
import unittest
from collections.abc import Sequence
from typing import Any

import dilforec
from dilforec.service import Store
from service_tools import SCHEMA, Stored

# The command with transactions of ten documents, which ends at a commit of a number: before it is written, or after.
CUT = """
import os, signal, sys
from dilforec.service import _command, _load, _store
_load._MOST_DOCUMENTS = 10
commit, when = int(sys.argv[1]), sys.argv[2]
class Store(_store.Store):
    def transaction(self):
        if self.commits + 1 == commit and when == "before":
            os.kill(os.getpid(), signal.SIGKILL)
        return super().transaction()
_load.Store = Store
write = _load._Notes.write
def noted(self, loading):
    if loading.commit == commit + 1 and when == "after":
        os.kill(os.getpid(), signal.SIGKILL)
    write(self, loading)
_load._Notes.write = noted
sys.exit(_command.main(sys.argv[3:]))
"""


class Loads(Stored):
    def setUp(self) -> None:
        super().setUp()
        self.schema = self.folder / "schema.json"
        self.schema.write_text(json.dumps(SCHEMA))
        self.options = ("--schema", self.schema, "--journal", self.journal)

    def run_command(
        self, *words: object, program: Sequence[str] = ("-m", "dilforec"), status: int = 0, **more: Any,
    ) -> str:
        done: subprocess.CompletedProcess[str] = subprocess.run(
            [sys.executable, *program, *map(str, words)], capture_output=True, text=True, timeout=60, **more)
        self.assertEqual(done.returncode, status, done.stderr)
        return done.stdout + done.stderr

    def stored(self) -> list[dict[str, Any]]:
        with Store([dilforec.Field(**field) for field in SCHEMA], self.journal) as store:
            return list(self.all(store).values())

    def lines(self, name: str, count: int, start: int = 0) -> pathlib.Path:
        path = self.folder / name
        numbers = range(start, start + count)
        path.write_text("".join(f'{{"title":"book {number}","year":{number}}}\n' for number in numbers))
        return path

    def test_lines(self) -> None:
        """JSON lines, of several files; blank lines are passed over, and the journal knows its fields the next time."""
        first, second = self.lines("a.jsonl", 25), self.lines("b.jsonl", 5, 25)
        second.write_text("\ufeff\n" + second.read_text() + "\n\n")
        told = self.run_command("load", first, second, *self.options)
        self.assertIn("30 documents were added, and there are 30", told)
        self.assertEqual([document["year"] for document in self.stored()], list(range(30)))
        self.run_command("load", self.lines("c.jsonl", 1, 30), "--journal", self.journal)
        self.assertEqual(self.stored()[-1], {"title": "book 30", "year": 30})
        self.assertEqual(sorted(path.name for path in self.folder.iterdir()),
                         ["a.jsonl", "b.jsonl", "c.jsonl", "journal", "schema.json"])

    def test_csv(self) -> None:
        """CSV, whose first line has the fields: quoted cells with line ends, empty cells, numbers."""
        path = self.folder / "books.csv"
        with path.open("w", newline="") as file:
            rows = csv.writer(file)
            rows.writerows([["year", "title", "day"], [1986, 'Pearls, "programming"\nand more', ""],
                            ["", "Gigabytes", "mon"], [1994]])
        self.run_command("load", path, *self.options)
        self.assertEqual(self.stored(), [
            {"title": 'Pearls, "programming"\nand more', "year": 1986}, {"title": "Gigabytes", "day": "mon"},
            {"year": 1994}])
        for text, words in [
            ("year,name\n1,x\n", "no field 'name'"), ("year\n1\nlate\n", "line 3: invalid literal"),
            ("year\n1,2\n", "line 2: it has 2 cells"),
            ("title\n\"a\nb\"\n\"unended\n", "line 4"),
        ]:
            path.write_text(text)
            self.assertIn(words, self.run_command("load", path, *self.options, status=2))
            (self.folder / "journal.loading").unlink(missing_ok=True)

    def test_refused(self) -> None:
        """A line that is refused is named, what comes before its transaction is there, and then the load goes on."""
        path = self.lines("a.jsonl", 35)
        good = path.read_text()
        path.write_text(good.replace('"year":17}', '"year":"late"}'))
        cut = ("-c", CUT, "0", "never")
        told = self.run_command("load", path, *self.options, program=cut, status=2)
        self.assertIn("line 18: 'year' is a u64 field, and can't be 'late'; what comes before line 11 is loaded", told)
        self.assertEqual(len(self.stored()), 10)
        self.assertIn("was cut off", self.run_command("load", self.lines("b.jsonl", 1), *self.options, status=2))
        # Others may change the journal before it goes on.
        with Store([dilforec.Field(**field) for field in SCHEMA], self.journal) as store:
            store.add({"title": "another"})
        path.write_text(good)
        self.assertIn("going on at line 11", self.run_command("load", path, *self.options))
        self.assertEqual(sorted(document.get("year", -1) for document in self.stored()), list(range(-1, 35)))

    def test_cut_off(self) -> None:
        """Ended before a transaction is written and after, in each file: the next load has each line once."""
        files = [self.lines("a.jsonl", 25), self.lines("b.jsonl", 25, 25)]
        for when in "before", "after":
            # The last transaction is followed by no other.
            for commit in range(1, 7 if when == "before" else 6):
                with self.subTest(when=when, commit=commit):
                    self.journal.unlink(missing_ok=True)
                    self.run_command("load", *files, *self.options, program=("-c", CUT, str(commit), when),
                                     status=-signal.SIGKILL)
                    self.run_command("load", *files, *self.options, program=("-c", CUT, "0", "never"))
                    self.assertEqual([document["year"] for document in self.stored()], list(range(50)))

    def test_others(self) -> None:
        """Others that change the journal after a crash aren't taken for the load's own transaction."""
        files, cut = [self.lines("a.jsonl", 30)], ("-c", CUT, "2", "before")
        self.run_command("load", *files, *self.options, program=cut, status=-signal.SIGKILL)
        with Store([dilforec.Field(**field) for field in SCHEMA], self.journal) as store:
            store.add({"title": "another"})
        self.run_command("load", *files, *self.options, program=("-c", CUT, "0", "never"))
        self.assertEqual(sorted(document.get("year", -1) for document in self.stored()), list(range(-1, 30)))

    def test_terminal(self) -> None:
        """On a terminal there is a bar; elsewhere there is none. An interrupt says so, and the next load goes on."""
        path, cut = self.lines("a.jsonl", 2000), ("-c", CUT, "0", "never")
        self.assertNotIn("%", self.run_command("load", path, *self.options, program=cut))
        self.journal.unlink()
        controller, terminal = pty.openpty()
        words = [sys.executable, *cut, "load", *map(str, (path, *self.options))]
        with subprocess.Popen(words, stdout=subprocess.DEVNULL, stderr=terminal) as loading:
            os.close(terminal)
            told = b""
            while b"%" not in told:
                told += os.read(controller, 1 << 16)
            loading.send_signal(signal.SIGINT)
            while True:
                try:
                    told += os.read(controller, 1 << 16)
                except OSError:
                    break
            self.assertIn(loading.wait(30), (0, 130))
        os.close(controller)
        self.assertRegex(told.decode(), r"\[[#.]{30}\] +[0-9]+%, [0-9,]+ documents, [0-9]+ s left")
        if loading.returncode:
            self.run_command("load", path, *self.options, program=cut)
        self.assertEqual([document["year"] for document in self.stored()], list(range(2000)))


if __name__ == "__main__":
    unittest.main()
