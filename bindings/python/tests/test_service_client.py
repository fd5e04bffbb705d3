"""The client beside a store, what keys, versions and pages answer over HTTP, and the description of all of it."""
from __future__ import annotations

import json
import pathlib
import random
import re
import subprocess
import sys
import threading
import time
import unittest
from collections.abc import Callable
from typing import Any

import dilforec
from dilforec import Top
from dilforec.service import (
    Client, ClientTransaction, NotAllowed, OutcomeUnknown, Store, Transaction, TransactionRefused, Unavailable,
    version_of,
)
from service_tools import SCHEMA, Served, Server

FIELDS = [dilforec.Field(**field) for field in SCHEMA]


class Clients(Served):
    def client(self, server: Server, **more: Any) -> Client:
        client = Client(f"http://127.0.0.1:{server.port}", timeout=30, **more)
        self.addCleanup(client.close)
        return client

    def outcome(self, call: Callable[[], object]) -> object:
        """What a call gives, or the exception that it raises, with all that it says."""
        try:
            return call()
        except Exception as error:
            return type(error).__name__, [str(each) for each in error.args if not isinstance(each, Exception)][:1]

    def test_like_a_store(self) -> None:
        """Random calls give on a client what they give on a store: results, exceptions, numbers."""
        server = self.serve("--key", "day")
        client, chance = self.client(server), random.Random(7)

        def documents() -> dict[str, Any]:
            document: dict[str, Any] = {
                "title": chance.choice(["Rust book", "old book", "é"]), "day": f"d{chance.randrange(12)}",
                "year": chance.randrange(3),
            }
            refused: list[dict[str, Any]] = [{"title": "no day"}, {"day": "d1", "year": -1}, {"day": "d1", "none": 1}]
            return chance.choice([document] * 6 + refused)

        with Store(FIELDS, self.folder / "other", key="day") as store:
            for _ in range(300):
                id, day, document = chance.randrange(1, 30), f"d{chance.randrange(12)}", documents()
                there = store.get_by_key(day)
                version = chance.choice([None, "*", "0" * 32, version_of(there) if there else None])
                query = chance.choice(["book", "*", "year:>0", "rust OR", "é AND (", "none:1", "+old -rust"])
                top = chance.choice([None, Top("year", 3, "falling"), Top("year", 2), Top("title", 1)])
                kind = chance.randrange(9)
                calls: list[Callable[[Client | Store], object]] = [
                    lambda it: it.add(document), lambda it: it.replace(id, document, version=version and "*"),
                    lambda it: it.delete(id), lambda it: it.put_by_key(day, {**document, "day": day}, version=version),
                    lambda it: it.delete_by_key(day, version=version), lambda it: it.get(id),
                    lambda it: it.get_by_key(day),
                    lambda it: it.documents(id, 3),
                    lambda it: it.search(query, top=top, fields=["year"], after=(1, id) if top else None),
                ]
                call = calls[kind]
                mine, wanted = self.outcome(lambda: call(client)), self.outcome(lambda: call(store))
                if isinstance(wanted, tuple) and isinstance(wanted[0], str):
                    assert isinstance(mine, tuple), (kind, mine, wanted)
                    self.assertEqual(mine[0], wanted[0], (kind, mine, wanted))
                else:
                    self.assertEqual(mine, wanted, kind)
            self.assertEqual((len(client), client.commits, client.key), (len(store), store.commits, "day"))
            self.assertEqual((client.fields, client.writable), (FIELDS, True))
            self.assertEqual(client.search("*", groups=["day"]).groups["day"],
                             store.search("*", groups=["day"]).groups["day"])
            with client.transaction() as ours, store.transaction() as theirs:
                both: tuple[ClientTransaction | Transaction, ...] = ours, theirs
                for each in both:
                    each.delete_all()
                    each.add({"day": "x"})
                    each.command({"add": {"day": "y"}})
            self.assertEqual(ours.done, theirs.done)
            self.assertEqual(client.documents(), store.documents())

    def test_errors(self) -> None:
        """What isn't a store's own: tokens, a transaction's place, a service that isn't there or goes."""
        token = self.folder / "token"
        token.write_text("abcdefghijklmnop")
        server = self.serve("--token-file", token)
        with self.assertRaises(NotAllowed):
            self.client(server).add({})
        client = self.client(server, token="abcdefghijklmnop")
        with self.assertRaises(TransactionRefused) as caught, client.transaction() as transaction:
            transaction.add({})
            transaction.add({"year": "late"})
        self.assertEqual((caught.exception.number, type(caught.exception.refusal)), (2, dilforec.WrongKind))
        with self.assertRaises(ValueError), client.transaction():
            pass
        with self.assertRaises(dilforec.Syntax) as refused:
            client.search("я AND")
        self.assertEqual(refused.exception.at, len("я "))
        for url in "localhost:8090", "ftp://localhost", "":
            with self.assertRaises(ValueError):
                Client(url)
        client.add({})
        self.assertEqual(len(client), 1)
        server.stop(9)
        with self.assertRaises(Unavailable):
            len(client)
        with self.assertRaises(Unavailable):
            client.add({})

    def test_broken(self) -> None:
        """A change whose connection breaks before the answer may have been done; one that is idle is opened again."""
        server = self.serve("--idle", 1, slow_syncs=True)
        client = self.client(server)
        client.add({})
        time.sleep(3)
        self.assertEqual(client.add({}), 2)
        thread = threading.Timer(0.2, lambda: server.stop(9))
        thread.start()
        with self.assertRaises(OutcomeUnknown):
            client.add({})
        thread.join()

    def test_threads(self) -> None:
        """Many threads use one client, each with a connection of its own meanwhile."""
        client, found = self.client(self.serve()), []

        def work(number: int) -> None:
            for place in range(10):
                found.append(client.add({"title": f"by {number} {place}"}))
                self.assertIsNotNone(client.get(found[-1]))

        threads = [threading.Thread(target=work, args=(number,)) for number in range(8)]
        for thread in threads:
            thread.start()
        for thread in threads:
            thread.join()
        self.assertEqual(sorted(found), list(range(1, 81)))


class Keys(Served):
    def test_keys(self) -> None:
        """Documents by their keys: a post replaces, and GET, PUT and DELETE have a path of the key."""
        server = self.serve("--key", "day")
        ask = server.ask
        self.assertEqual(ask("POST", "/documents", [{"day": "a/b", "year": 1}, {"day": "é"}])[1]["ids"], [1, 2])
        self.assertEqual(ask("POST", "/documents", {"day": "a/b", "year": 2})[1]["ids"], [1])
        self.assertEqual(ask("GET", "/documents/key/a%2Fb"), (200, {"id": 1, "day": "a/b", "year": 2}))
        self.assertEqual(ask("GET", "/documents/key/a/b")[1]["year"], 2)
        self.assertEqual(ask("GET", "/documents/key/%C3%A9"), (200, {"id": 2, "day": "é"}))
        self.assertEqual(ask("PUT", "/documents/key/new", {"year": 3})[1]["ids"], [3])
        self.assertEqual(ask("PUT", "/documents/key/new", {"day": "new", "year": 4})[1]["ids"], [3])
        self.assertEqual(ask("DELETE", "/documents/key/a%2Fb"), (200, {"ids": [], "commit": 5}))
        refused: list[tuple[str, str, object, int, str]] = [
            ("GET", "/documents/key/a%2Fb", None, 404, "NoSuchDocument"),
            ("DELETE", "/documents/key/none", None, 404, "NoSuchDocument"),
            ("PUT", "/documents/key/new", {"day": "old"}, 400, "BadKey"),
            ("PUT", "/documents/key/new", {"id": 3}, 400, "BadKey"),
            ("POST", "/documents", {"year": 1}, 400, "BadCommand"),
            ("POST", "/documents", [{"day": "x"}, {"day": 1}], 400, "WrongKind"),
            ("PUT", "/documents/2", {"day": "new"}, 409, "KeyTaken"), ("GET", "/documents/key/", None, 404, "NotFound"),
            ("POST", "/documents/key/x", {}, 405, "MethodNotAllowed"),
        ]
        for method, path, body, status, name in refused:
            with self.subTest(method=method, path=path, body=body):
                got, told = ask(method, path, body)
                self.assertEqual((got, told["error"]), (status, name), told)
        self.assertEqual(ask("GET", "/status")[1]["key"], "day")
        server = self.serve("--key", "year", journal=self.folder / "numbers")
        server.ask("PUT", "/documents/key/7", {"title": "x"})
        self.assertEqual(server.ask("GET", "/documents/key/7")[1], {"id": 1, "title": "x", "year": 7})
        self.assertEqual(server.ask("GET", "/documents/key/seven")[0], 404)
        self.assertEqual(self.serve(journal=self.folder / "none").ask("GET", "/documents/key/7")[1]["error"], "NoKey")
        self.assertIn("title", self.refused("serve", "--schema", self.schema, "--journal", self.folder / "text",
                                            "--key", "title"))

    def test_versions(self) -> None:
        """A change may say which version it is of; a reader who has what is there gets a 304."""
        server = self.serve("--key", "day")
        ask = server.ask
        ask("POST", "/documents", {"day": "a", "year": 1})
        for path in "/documents/1", "/documents/key/a":
            document = ask("GET", path)[1]
            tag = server.headers["ETag"]
            self.assertEqual(tag, f'"{version_of(document)}"')
            self.assertEqual(ask("GET", path, If_None_Match=f'"x", W/{tag}'), (304, ""))
            self.assertEqual(ask("GET", path, If_None_Match='"x"')[0], 200)
            changed = {**document, "year": document["year"] + 1}
            del changed["id"]
            self.assertEqual(ask("PUT", path, changed, If_Match=tag)[0], 200)
            for given, status in (tag, 412), ('"x"', 412), (f"W/{tag}", 412), ("*", 200), (f"{tag}, {tag}", 400):
                got, told = ask("PUT", path, {**changed, "year": changed["year"] + (given == "*")}, If_Match=given)
                name = {412: "VersionChanged", 400: "BadMatch"}.get(status)
                self.assertEqual((got, told.get("error")), (status, name))
            self.assertEqual(ask("DELETE", path, If_Match=tag)[0], 412)
            self.assertEqual(ask("PUT", path, changed, If_None_Match="*")[1]["error"], "BadMatch")
        self.assertEqual(ask("POST", "/documents", {"day": "b"}, If_Match=tag)[1]["error"], "BadMatch")
        self.assertEqual(ask("PUT", "/documents/key/none", {}, If_Match="*")[0], 404)
        ask("GET", "/documents/1")
        self.assertEqual(ask("DELETE", "/documents/1", If_Match=server.headers["ETag"])[0], 200)

    def test_unchanged_searches(self) -> None:
        """An answer to a search is of a commit and an address: until the next commit it is a 304."""
        server = self.serve()
        for path in "/search?q=x", "/documents?after=0":
            server.ask("POST", "/documents", {"title": "x"})
            first = server.ask("GET", path)[1]
            tag = server.headers["ETag"]
            self.assertIn("no-cache", server.headers["Cache-Control"])
            self.assertEqual(server.ask("GET", path, If_None_Match=tag), (304, ""))
            self.assertEqual(server.headers["ETag"], tag)
            server.ask("POST", "/documents", {"title": "x"})
            status, then = server.ask("GET", path, If_None_Match=tag)
            self.assertEqual(status, 200)
            self.assertNotEqual(then, first)
        tag = server.headers["ETag"]
        server.stop(15)
        # Another process may have another journal.
        self.assertEqual(self.serve().ask("GET", path, If_None_Match=tag)[0], 200)

    def test_pages(self) -> None:
        """Each hit is reached once, a page after another, among equal values too."""
        server = self.serve()
        server.ask("POST", "/documents", [{"title": "x", "year": place % 4} for place in range(50)])
        for top in "year,7,rising", "year,7,falling", "id,9,falling", None:
            found, after = [], ""
            while True:
                asked = f"/search?q=x{f'&top={top}' if top else ''}{after}"
                status, told = server.ask("GET", asked)
                self.assertEqual((status, told["count"]), (200, 50))
                if not told["hits"]:
                    break
                found += [(hit["value"], hit["id"]) for hit in told["hits"]]
                after = f"&after={found[-1][0]},{found[-1][1]}"
            self.assertEqual(len(set(found)), 50)
            wanted = sorted(found, key=lambda hit: (hit[0] if top and "rising" in top else -hit[0], hit[1]))
            self.assertEqual(found, wanted)
        for after in "x", "1", "1,2,3", "1,-2", "1,x":
            self.assertEqual(server.ask("GET", f"/search?after={after}")[1]["error"], "BadParameter")

    def test_schemas(self) -> None:
        """A compaction with another schema: by the command, and while it serves."""
        server = self.serve()
        server.ask("POST", "/documents", {"title": "kept", "day": "gone", "year": 1})
        wanted = [*SCHEMA[::2], {"name": "isbn", "kind": "keyword"}]
        status, told = server.ask("POST", "/compact", {"schema": wanted})
        self.assertEqual((status, told["error"]), (400, "BadSchema"))
        wrong: tuple[object, ...] = (
            {"drop": ["day"]}, {"schema": 5}, {"schema": wanted, "more": 1}, [], {"schema": wanted, "drop": "day"},
        )
        for body in wrong:
            self.assertEqual(server.ask("POST", "/compact", body)[1]["error"], "BadSchema")
        self.assertEqual(server.ask("POST", "/compact", {"schema": wanted, "drop": ["day"]})[0], 200)
        self.assertEqual([field["name"] for field in server.ask("GET", "/status")[1]["schema"]],
                         ["title", "year", "isbn"])
        self.assertEqual(server.ask("POST", "/documents", {"isbn": "978"})[0], 201)
        self.assertEqual(server.ask("GET", "/documents/1")[1], {"id": 1, "title": "kept", "year": 1})
        server.stop(15)
        self.schema.write_text(json.dumps([*wanted, {"name": "more", "kind": "u64"}]))
        compact = [sys.executable, "-m", "dilforec", "compact", "--journal", str(self.journal)]
        self.assertIn("--drop needs", self.refused(*compact[3:], "--drop", "day"))
        done = subprocess.run([*compact, "--schema", self.schema], capture_output=True, text=True)
        self.assertEqual((done.returncode, "2 documents" in done.stdout), (0, True), done.stderr)
        self.assertEqual(self.serve().ask("POST", "/documents", {"more": 1})[1]["ids"], [3])


class Described(Served):
    """/openapi.json, which what is answered has to fit."""

    def fits(self, value: object, schema: dict[str, Any]) -> bool:
        """Whether a value is one of a schema, of those parts of JSON Schema that the description uses."""
        if "$ref" in schema:
            return self.fits(value, self.schemas[schema["$ref"].rpartition("/")[2]])
        if "anyOf" in schema:
            return any(self.fits(value, each) for each in schema["anyOf"])
        if "const" in schema or "enum" in schema:
            return value in schema.get("enum", [schema.get("const")])
        kinds = {"string": str, "integer": int, "array": list, "object": dict, "boolean": bool, "null": type(None)}
        names = schema.get("type", [])
        names = [names] if isinstance(names, str) else names
        if names and not any(type(value) is kinds[name] for name in names):
            return False
        if isinstance(value, int) and not schema.get("minimum", value) <= value <= schema.get("maximum", value):
            return False
        if isinstance(value, list):
            parts = schema.get("prefixItems")
            return all(self.fits(each, part) for each, part in zip(value,
                                                                   parts or [schema.get("items", {})] * len(value)))
        if isinstance(value, dict):
            members, others = schema.get("properties", {}), schema.get("additionalProperties", {})
            return set(schema.get("required", [])) <= set(value) and all(
                self.fits(each, members.get(name, others)) if name in members or others is not False else False
                for name, each in value.items())
        return True

    def asked(
        self, server: Server, method: str, template: str, body: object = None, query: str = "", **headers: str,
    ) -> None:
        """Asks, and compares the answer with the description."""
        path = template.replace("{id}", "1").replace("{key}", "mon")
        status, told = server.ask(method.upper(), path + query, body, **headers)
        described = self.paths[template][method]["responses"]
        self.assertIn(str(status), described, (method, template, told))
        content = described[str(status)].get("content")
        type = server.headers.get("Content-Type", "").partition(";")[0]
        if content is None:
            self.assertEqual(told, "")
        else:
            self.assertIn(type, content, (method, template, status))
            if type == "application/json":
                self.assertTrue(self.fits(told, content[type]["schema"]), (method, template, status, told))
        self.tried.add((template, method, status))

    def test_answers(self) -> None:
        """Each path, each method, and what each refuses is as it is described, and nothing else is there."""
        token = self.folder / "token"
        token.write_text("abcdefghijklmnop")
        server = self.serve("--key", "day", "--token-file", token, "--read-token-file",
                            self.written("only-for-reading"),
                            "--body", 1000, "--answer", 3000)
        right, reads = {"Authorization": "Bearer abcdefghijklmnop"}, {"Authorization": "Bearer only-for-reading"}
        described = server.ask("GET", "/openapi.json", **reads)[1]
        self.assertTrue(described["openapi"].startswith("3.1"))
        self.paths, self.schemas = described["paths"], described["components"]["schemas"]
        self.tried: set[tuple[str, str, int]] = set()
        server.ask("POST", "/documents", [{"day": "mon", "title": ["a", "b"], "year": 5}, {"day": "tue"}], **right)
        bodies = {"/documents": {"day": "wed"}, "/documents/{id}": {"day": "mon"}, "/documents/key/{key}": {"year": 1},
                  "/transaction": [{"add": {"day": "x"}}, {"delete": {"day": "x"}}], "/compact": None}
        order = sorted((method == "delete", path,
                        method) for path in self.paths for method in self.paths[path] if method != "parameters")
        for _, path, method in order:
            body = bodies.get(path) if method in ("post", "put") else None
            tokens: list[dict[str, str]] = [
                {}, reads, {"Authorization": "Bearer x"}, {**right, "Host": "elsewhere"},
                {**right, "Origin": "http://elsewhere"},
            ]
            for headers in tokens:
                self.asked(server, method, path, body, **headers)
            self.asked(server, method, path, body, "?none=1", **right)
            self.asked(server, method, path, body, "?" + "a" * 70_000, **right)
            if method in ("post", "put"):
                self.asked(server, method, path, b"x" * 5000, **right)
                self.asked(server, method, path, b"{}", **right, Content_Type="text/plain")
                self.asked(server, method, path, b"nonsense", **right)
            if method in ("put", "delete"):
                self.asked(server, method, path, body, **right, If_Match='"x"')
            self.asked(server, method, path, body, **right)
            if method == "get":
                tag = server.headers.get("ETag")
                self.assertEqual(tag is not None, "304" in self.paths[path]["get"]["responses"], path)
                if tag:
                    self.asked(server, method, path, **right, If_None_Match=tag)
            if method == "delete":
                self.asked(server, method, path, **right)
                server.ask("PUT", "/documents/key/mon", {"year": 1}, **right)
        whole = "?q=a+b&groups=day,year:2&top=year,3,rising&fields=title&after=0,0"
        for query in whole, "?q=rust+OR", "?groups=title", "?top=x":
            self.asked(server, "get", "/search", query=query, **right)
        statuses = {status for _, _, status in self.tried}
        self.assertLessEqual({200, 201, 304, 400, 401, 403, 404, 412, 413, 414, 415, 421}, statuses)
        for path in self.paths:
            for method in "get", "post", "put", "delete", "patch":
                if method not in self.paths[path]:
                    told = server.ask(method.upper(), path.replace("{id}", "1").replace("{key}", "mon"), {}, **right)
                    self.assertEqual(told[0], 405, (method, path))

    def written(self, token: str) -> pathlib.Path:
        path = self.folder / token
        path.write_text(token)
        return path

    def test_parameters(self) -> None:
        """The parameters of a search that are described are taken, and no others."""
        server = self.serve()
        for path, values in [
            ("/search", {"q": "x", "groups": "day", "top": "year,1,rising", "after": "1,2", "fields": "day"}),
            ("/documents", {"after": "1", "limit": "2"}),
        ]:
            described = server.ask("GET", "/openapi.json")[1]["paths"][path]["get"]["parameters"]
            self.assertEqual({each["name"] for each in described if each["in"] == "query"}, set(values))
            for name, value in values.items():
                self.assertEqual(server.ask("GET", f"{path}?{name}={value}")[0], 200, name)
        page = (pathlib.Path(__file__).resolve().parents[3] / "docs/SERVICE.md").read_text("utf-8")
        for path in server.ask("GET", "/openapi.json")[1]["paths"]:
            self.assertIn(path.replace("{id}", "7").replace("{key}", "978-"), page)

    def test_metrics(self) -> None:
        """Seconds are told as a histogram, whose parts add up."""
        server = self.serve()
        for _ in range(5):
            server.ask("GET", "/search")
            server.ask("POST", "/documents", {})
        text = server.ask("GET", "/metrics")[1]
        for name in "searches", "transactions":
            parts = [int(count) for count in re.findall(rf'^dilforec_{name}_seconds_bucket{{le="[^"]+"}} ([0-9]+)$',
                                                        text, re.MULTILINE)]
            self.assertEqual((parts, parts[-1]), (sorted(parts), 5))
            self.assertIn(f"\ndilforec_{name}_seconds_count 5\n", text)
            self.assertRegex(text, rf"\ndilforec_{name}_seconds_sum [0-9.]+\n")


if __name__ == "__main__":
    unittest.main()
