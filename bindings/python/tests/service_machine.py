"""A store beside a model of it, by random operations. It needs hypothesis; test_service_model.py runs it."""
from __future__ import annotations

import os
import pathlib
import random
import shutil
import tempfile
from collections.abc import Iterable, Iterator
from typing import Any, Optional

from hypothesis import HealthCheck, settings
from hypothesis import strategies as draw
from hypothesis.stateful import RuleBasedStateMachine, initialize, invariant, precondition, rule

import dilforec
from dilforec.service import (
    KeyTaken, NoSuchDocument, NotWritten, OutcomeUnknown, Stopped, Store, TransactionRefused, VersionChanged,
    version_of,
)
from dilforec.service._transaction import Transaction
from service_tools import Failing

Document = dict[str, Any]
# The name of an operation, and what it is given.
Operation = tuple[Any, ...]
# Operations of transactions that wait together, and one's with the versions that it asks for.
Group = list[list[Operation]]
Asked = tuple[list[Operation], list[Optional[str]]]

# How many runs there are; if the environment says it, they are others each time.
EXAMPLES = int(os.environ.get("DILFOREC_EXAMPLES", "60"))
TITLE, KEY, YEAR = dilforec.text("title", default=True), dilforec.keyword("key"), dilforec.u64("year")
NOTE = dilforec.keyword("note")

KEYS = "", "a", "b", 'c "\\', "ä d"
TITLES: tuple[str | list[str] | None, ...] = None, "rust", "moss rust", ["rust", "fern"], []
YEARS = None, 0, 1, 2, (1 << 64) - 1
# Years that the index refuses.
WRONG = "late", -1, 1.0, 1 << 64
# How a version is chosen: none, any, the one that the document has before the call, or another one.
VERSIONS = None, None, "*", "has", "other"


def operations(chance: random.Random) -> Iterator[Operation]:
    """An operation of each kind, by its name and what it is given; some documents are refused."""
    year = chance.choice(WRONG if chance.random() < 0.1 else YEARS)
    document = {"key": chance.choice(KEYS), "title": chance.choice(TITLES), "year": year}
    key, id, version = chance.choice(KEYS), chance.randint(1, 6), chance.choice(VERSIONS)
    yield from [("add", document)] * 3
    yield from [("replace", id, document, version), ("put_by_key", key, document, version)]
    yield from [("delete_document", id, version), ("delete_by_key", key, version)]
    yield chance.choice([("delete", "year", chance.randint(0, 2)), ("delete", "id", id), ("delete_all",)])


# Each is drawn by its number, which takes little of what a run may draw.
OPERATIONS = draw.sampled_from([each for seed in range(100) for each in operations(random.Random(seed))])
FAULTS = draw.sampled_from([{"write": 1}, {"sync": 1}, {"sync": 2}, {"sync": 1, "cut": 1}])
GROUPS = draw.lists(draw.lists(OPERATIONS, min_size=1, max_size=3), min_size=1, max_size=4)


def stored(document: Document) -> Document:
    """A document as the index keeps it: without what has no value."""
    return {name: document[name] for name in sorted(document) if document[name] is not None and document[name] != []}


class Model:
    """What a store should have: documents by their numbers, the highest number, and the number of commits."""

    def __init__(self, keyed: bool) -> None:
        self.keyed, self.last_id, self.commits = keyed, 0, 0
        self.documents: dict[int, Document] = {}
        # What the transaction in hand has deleted by a value, and may name all the same.
        self.hidden: dict[int, Document] = {}
        # What it has changed.
        self.changed: set[int] = set()

    def copy(self) -> Model:
        made = Model(self.keyed)
        made.documents, made.last_id, made.commits = dict(self.documents), self.last_id, self.commits
        return made

    def id_of(self, key: object) -> int | None:
        there = {**self.hidden, **self.documents}
        return min((id for id, document in there.items() if document.get("key") == key), default=None)

    def version(self, id: int) -> str | None:
        document = self.documents.get(id) or self.hidden.get(id)
        return version_of({**document, "id": id}) if document is not None else None

    def done(
        self, operations: Iterable[Operation], versions: Iterable[str | None],
    ) -> tuple[int, ...] | type[Exception]:
        """What a transaction answers: its documents' numbers, or the kind of its error, and then nothing is changed."""
        draft = self.copy()
        ids: list[int] = []
        refused = any(
            isinstance(each, dict) and each["year"] is not None
            and not (isinstance(each["year"], int) and 0 <= each["year"] < 1 << 64)
            for operation in operations for each in operation
        )
        try:
            for operation, version in zip(operations, versions):
                getattr(draft, f"do_{operation[0]}")(ids, version, *operation[1:])
        except (NoSuchDocument, VersionChanged, KeyTaken) as error:
            return type(error)
        if refused:
            return TransactionRefused
        self.documents, self.last_id = draft.documents, draft.last_id
        return tuple(ids)

    def check(self, id: int | None, version: str | None) -> None:
        if id is None or not (id in self.documents or id in self.hidden):
            raise NoSuchDocument(0)
        if version not in (None, "*") and (id in self.changed or self.version(id) != version):
            raise VersionChanged(0)

    def put(self, ids: list[int], id: int, document: Document) -> None:
        self.hidden.pop(id, None)
        self.documents[id] = stored(document)
        self.last_id = max(self.last_id, id)
        self.changed.add(id)
        ids.append(id)

    def do_add(self, ids: list[int], _: str | None, document: Document) -> None:
        id = self.id_of(document["key"]) if self.keyed else None
        self.put(ids, id or self.last_id + 1, document)

    def do_replace(self, ids: list[int], version: str | None, id: int, document: Document, _: str | None) -> None:
        self.check(id, version)
        other = self.id_of(document["key"]) if self.keyed else None
        if other is not None and other != id:
            raise KeyTaken("", other)
        self.put(ids, id, document)

    def do_put_by_key(self, ids: list[int], version: str | None, key: str, document: Document, _: str | None) -> None:
        id = self.id_of(key)
        if version is not None:
            self.check(id, version)
        self.put(ids, id or self.last_id + 1, {**document, "key": key})

    def do_delete_document(self, ids: list[int], version: str | None, id: int, _: str | None) -> None:
        self.check(id, version)
        self.remove([id])

    def do_delete_by_key(self, ids: list[int], version: str | None, key: str, _: str | None) -> None:
        id = self.id_of(key)
        self.check(id, version)
        assert id is not None
        self.remove([id])

    def do_delete(self, ids: list[int], _: str | None, field: str, value: int) -> None:
        if field == "id":
            self.remove([value])
        else:
            self.hide([id for id, document in self.documents.items() if document.get(field) == value])

    def do_delete_all(self, ids: list[int], _: str | None) -> None:
        self.hide(list(self.documents))

    def remove(self, ids: Iterable[int]) -> None:
        for id in ids:
            self.changed.add(id)
            self.documents.pop(id, None)
            self.hidden.pop(id, None)

    def hide(self, ids: Iterable[int]) -> None:
        for id in ids:
            self.hidden[id] = self.documents.pop(id)


class Machine(RuleBasedStateMachine):
    """Steps of a store on a disk that fails now and then, each compared with the model."""

    @initialize(keyed=draw.booleans())
    def begin(self, keyed: bool) -> None:
        self.folder = pathlib.Path(tempfile.mkdtemp())
        self.journal, self.disk = self.folder / "journal", Failing()
        self.fields, self.model = [TITLE, KEY, YEAR], Model(keyed)
        self.open()
        self.do([[("add", {"key": key, "title": "rust", "year": 1})] for key in KEYS])

    def teardown(self) -> None:
        if hasattr(self, "store"):
            self.store.close()
            shutil.rmtree(self.folder)

    def open(self) -> None:
        key = "key" if self.model.keyed else None
        self.disk.fails, self.disk.after = {}, {}
        self.store = Store(self.fields, self.journal, key=key, disk=self.disk)

    @rule(group=GROUPS)
    def change(self, group: Group) -> None:
        """Transactions that wait together."""
        self.do(group)

    @rule(group=GROUPS)
    def change_more(self, group: Group) -> None:
        """The same: most steps are such ones."""
        self.do(group)

    @rule(group=GROUPS, fault=FAULTS)
    def change_with_fault(self, group: Group, fault: dict[str, int]) -> None:
        """Transactions whose first write or sync fails, and maybe its cutting back."""
        self.do(group, fault)

    def do(self, group: Group, fault: dict[str, int] | None = None) -> None:
        group = [[each for each in operations if self.model.keyed or "by_key" not in each[0]] for operations in group]
        wait: list[Transaction] = []
        asked: list[Asked] = []
        for operations in filter(None, group):
            versions = [self.version(operation) for operation in operations]
            transaction = self.store.new_transaction()
            for operation, version in zip(operations, versions):
                self.ask(transaction, operation, version)
            wait.append(transaction)
            asked.append((operations, versions))
        self.disk.fails = dict(fault or {})
        self.store.do(*wait)
        self.disk.fails = {}
        commits = set()
        for transaction, (operations, versions) in zip(wait, asked):
            if isinstance(transaction.error, (NotWritten, OutcomeUnknown, Stopped)):
                assert fault
                continue
            came = self.model.done(operations, versions)
            answered = type(transaction.error) if transaction.error else transaction.ids
            assert came == answered, (came, transaction.error)
            if not transaction.error:
                commits.add(transaction.commit)
        self.model.commits += len(commits)
        assert not commits or max(commits) == self.model.commits
        if not self.store.writable:
            self.restart_unknown(wait, asked)

    def restart_unknown(self, wait: list[Transaction], asked: list[Asked]) -> None:
        """After an unknown outcome the transactions are there after a restart, all those of one sync, or none."""
        self.store.close()
        unknown = [each for transaction, each in zip(wait, asked) if isinstance(transaction.error, OutcomeUnknown)]
        self.open()
        if self.store.commits > self.model.commits:
            for operations, versions in unknown:
                assert isinstance(self.model.done(operations, versions), tuple)
            self.model.commits += 1

    def version(self, operation: Operation) -> str | None:
        """The version that an operation asks for."""
        if operation[0] not in ("replace", "put_by_key", "delete_document", "delete_by_key"):
            return None
        chosen: str | None = operation[-1]
        if chosen not in ("has", "other"):
            return chosen
        id = self.model.id_of(operation[1]) if "by_key" in operation[0] else operation[1]
        return self.model.version(id) or "0" * 32 if chosen == "has" else "0" * 32

    def ask(self, transaction: Transaction, operation: Operation, version: str | None) -> None:
        name, *given = operation
        if name in ("replace", "put_by_key", "delete_document", "delete_by_key"):
            if name == "put_by_key":
                given[1] = {**given[1], "key": given[0]}
            getattr(transaction, name)(*given[:-1], version=version)
        else:
            getattr(transaction, name)(*given)

    @rule(fault=draw.sampled_from([None, None, ("write", 0), ("sync", 0), ("sync", 1), ("rename", 0)]))
    def compact(self, fault: tuple[str, int] | None) -> None:
        if fault:
            self.disk.fails, self.disk.after = {fault[0]: 1}, {fault[0]: fault[1]}
        try:
            self.store.compact()
            assert not fault
        except NotWritten:
            assert fault
        self.disk.fails, self.disk.after = {}, {}
        assert [path.name for path in self.folder.iterdir()] == ["journal"]

    @rule(default=draw.booleans(), drops=draw.booleans())
    def change_schema(self, default: bool, drops: bool) -> None:
        """A field comes and goes, with its values; a mark changes."""
        key = dilforec.keyword("key", default)
        if drops and NOTE in self.fields:
            self.store.compact(schema=[TITLE, key, YEAR], drop=["note"])
        else:
            self.store.compact(schema=[NOTE, TITLE, key, YEAR] if drops or NOTE in self.fields else [TITLE, key, YEAR])
        self.fields = self.store.fields

    @rule(tail=draw.sampled_from([None, None, b"", b"\0" * 9, b'{"add":{"id":99}}\n', b'{"commit":tr']))
    def restart(self, tail: bytes | None) -> None:
        """It is closed, or its process dies, in the middle of a write maybe; and it is opened again."""
        if tail is None:
            self.store.close()
        else:
            whole = self.journal.read_bytes()
            self.store.close()
            self.journal.write_bytes(whole + tail)
        self.open()

    @precondition(lambda self: hasattr(self, "store"))
    @invariant()
    def is_the_same(self) -> None:
        there = {document["id"]: document for document in self.store.documents(limit=10_000)}
        assert there == {id: {**has, "id": id} for id, has in self.model.documents.items()}
        assert (len(self.store), self.store.commits) == (len(there), self.model.commits)
        found = self.store.search("rust", groups=["year"], top=dilforec.Top("year", 3, "falling"))
        rust = [each for each in there.values() if "rust" in str(each.get("title"))]
        assert found.count == len(rust)
        dated = sorted((-each["year"], each["id"]) for each in rust if "year" in each)
        assert [(-hit.value, hit.id) for hit in found.hits] == dated[:3]
        assert sum(found.groups["year"].values()) == len(dated)
        if self.model.keyed:
            for key in "a", "b":
                id = self.model.id_of(key)
                assert self.store.get_by_key(key) == (there[id] if id else None)


Machine.TestCase.settings = settings(
    max_examples=EXAMPLES, stateful_step_count=25, deadline=None, derandomize="DILFOREC_EXAMPLES" not in os.environ,
    database=None, suppress_health_check=list(HealthCheck), print_blob=True,
)
