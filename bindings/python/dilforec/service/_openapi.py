"""What the service answers, as OpenAPI 3.1 describes it, for the schema of a store."""
from __future__ import annotations

from collections.abc import Sequence
from typing import Any, Dict, Optional

import dilforec
from dilforec.service import _parameters as parameters
from dilforec.values import Field

Json = Dict[str, Any]

_NUMBER: Json = {"type": "integer", "minimum": 0}
_KINDS: "dict[str, Json]" = {
    "text": {"anyOf": [{"type": "string"}, {"type": "array", "items": {"type": "string"}}, {"type": "null"}]},
    "keyword": {"type": ["string", "null"]},
    "u64": {"type": ["integer", "null"], "minimum": 0, "maximum": (1 << 64) - 1},
    "i64": {"type": ["integer", "null"], "minimum": -(1 << 63), "maximum": (1 << 63) - 1},
}
_ERRORS = {
    400: "The request is wrong; the message says what.",
    401: "The token is missing or wrong.",
    403: "This origin or this token may not do it.",
    404: "There is no such path or document.",
    405: "The path takes other methods.",
    408: "The head or the body took too long.",
    409: "Another document has the key, or the journal is being compacted already.",
    412: "The document has another version than If-Match says.",
    413: "The body is over the limit.",
    414: "The address is too long.",
    415: "The body's type isn't JSON.",
    421: "The header Host isn't one of the service's.",
    431: "The head is over the limit.",
    500: "The service failed.",
    501: "There is no such method, or no such coding of the body.",
    503: "The disk or memory refused, or the service isn't ready.",
}
# What each answer may be, what one to a change may be beside, and to one of a document.
_ALWAYS = (400, 401, 403, 405, 408, 414, 421, 431, 500, 501, 503)
_OF_BODY = (413, 415)


def described(fields: "Sequence[Field]", key: Optional[str]) -> Json:
    """The description of a service over a store of some fields, and a key, if it has one."""
    return {
        "openapi": "3.1.0",
        "info": {"title": "Dilforec", "version": dilforec.__version__, "description": "A full-text index over HTTP."},
        "security": [{}, {"token": []}],
        "paths": {
            **_paths_of_documents(), **(_paths_of_keys() if key else {}), **_paths_of_searches(), **_paths_about(),
        },
        "components": {
            "securitySchemes": {"token": {"type": "http", "scheme": "bearer"}},
            "schemas": {**_schemas(), "Document": _document(fields), "StoredDocument": _stored(fields)},
        },
    }


# Paths


def _paths_of_documents() -> Json:
    page = [_query("after", _NUMBER, "the number of the last document of the page before"),
            _query("limit", _between(1, parameters.MOST_HITS), "how many documents a page has")]
    return {
        "/documents": {
            "get": _operation("The documents with the next numbers", "Documents", page, tagged=True),
            "post": _operation("Adds documents", "Done", body=_one_or_more("Document"), status=201),
        },
        "/documents/{id}": {
            "parameters": [_path("id", _NUMBER)],
            "get": _operation("The document of a number", "StoredDocument", more=(404,), tagged=True),
            **_changes_of_one(),
        },
        "/transaction": {
            "post": _operation("Does lines of a script: add, delete, delete_all", "Done", body=_one_or_more("Command"),
                               status=201),
        },
    }


def _paths_of_keys() -> Json:
    return {"/documents/key/{key}": {
        "parameters": [_path("key", {"type": "string"})],
        "get": _operation("The document of a key", "StoredDocument", more=(404,), tagged=True),
        **_changes_of_one(),
    }}


def _changes_of_one() -> Json:
    match = [_header("If-Match", "the tag of the version that the document has to have, or *")]
    return {
        "put": _operation("Puts a document in its place", "Done", match, body={"$ref": _ref("Document")},
                          more=(404, 409, 412)),
        "delete": _operation("Deletes the document", "Done", match, more=(404, 412, 415)),
    }


def _paths_of_searches() -> Json:
    asked = [
        _query("q", {"type": "string"}, "a query; without it all documents"),
        _query("groups", {"type": "string"}, "a field whose values are counted, and how many, as shelf:10", True),
        _query("top", {"type": "string"}, "the first hits by a number field, as year,10,falling"),
        _query("after", {"type": "string"}, "the value and the id of the last hit of the page before, as 1986,7"),
        _query("fields", {"type": "string"}, "the fields of the hits' documents, with commas between them", True),
    ]
    return {"/search": {"get": _operation("Searches the last commit", "Answer", asked, tagged=True)}}


def _paths_about() -> Json:
    other = _object({"schema": _list_of("Field")}, {"drop": {"type": "array", "items": {"type": "string"}}})
    return {
        "/status": {"get": _operation("How large the store is, and its schema", "Status")},
        "/metrics": {"get": _operation("What the service counts, for Prometheus", None, type="text/plain")},
        "/compact": {"post": _operation("Writes the journal anew", "Sizes", body=other, more=(409,), needs=False)},
        "/openapi.json": {"get": _operation("This description", None)},
        "/healthz": {"get": _operation("Whether the service runs", "Health")},
        "/readyz": {"get": _operation("Whether it answers", "Readiness", also={503: "Readiness"})},
        "/": {"get": _operation("The page", None, type="text/html")},
    }


def _operation(
    summary: str, answer: Optional[str], parameters: "Sequence[Json]" = (), *, body: Optional[Json] = None,
    status: int = 200, more: "Sequence[int]" = (), tagged: bool = False, type: str = "application/json",
    needs: bool = True, also: "Optional[dict[int, str]]" = None,
) -> Json:
    """An operation. `answer` names the schema of its answer; `more` has statuses beside those that each one has."""
    content = {type: {"schema": {"$ref": _ref(answer)} if answer else {}}}
    responses: Json = {str(status): {"description": "It is done.", "content": content}}
    if tagged:
        asked = [*parameters, _header("If-None-Match", "the tag of an answer that is there already")]
        responses["304"] = {"description": "The answer with that tag is still right."}
    else:
        asked = list(parameters)
    errors = sorted({*_ALWAYS, *more, *(_OF_BODY if body else ())})
    told = {number: "Error" for number in errors} | (also or {})
    for number, name in told.items():
        content = {"application/json": {"schema": {"$ref": _ref(name)}}}
        responses[str(number)] = {"description": _ERRORS[number], "content": content}
    made: Json = {"summary": summary, "parameters": asked, "responses": responses}
    if body:
        lines = {"application/x-ndjson": {"schema": {"type": "string"}}} if "anyOf" in body else {}
        made["requestBody"] = {"required": needs, "content": {"application/json": {"schema": body}, **lines}}
    return made


def _query(name: str, schema: Json, description: str, again: bool = False) -> Json:
    given = {"type": "array", "items": schema} if again else schema
    return {"name": name, "in": "query", "schema": given, "description": description}


def _path(name: str, schema: Json) -> Json:
    return {"name": name, "in": "path", "required": True, "schema": schema}


def _header(name: str, description: str) -> Json:
    return {"name": name, "in": "header", "schema": {"type": "string"}, "description": description}


# Schemas


def _ref(name: str) -> str:
    return f"#/components/schemas/{name}"


def _between(least: int, most: int) -> Json:
    return {"type": "integer", "minimum": least, "maximum": most}


def _list_of(name: str) -> Json:
    return {"type": "array", "items": {"$ref": _ref(name)}}


def _one_or_more(name: str) -> Json:
    return {"anyOf": [{"$ref": _ref(name)}, _list_of(name)]}


def _object(required: "dict[str, Json]", optional: "Optional[dict[str, Json]]" = None) -> Json:
    """An object of these members, and no others."""
    members = {**required, **(optional or {})}
    return {"type": "object", "properties": members, "required": list(required), "additionalProperties": False}


def _document(fields: "Sequence[Field]") -> Json:
    return _object({}, {**{field.name: _KINDS[field.kind] for field in fields}, "id": _NUMBER})


def _stored(fields: "Sequence[Field]") -> Json:
    return _object({"id": _NUMBER}, {field.name: _KINDS[field.kind] for field in fields})


def _schemas() -> Json:
    text, yes = {"type": "string"}, {"type": "boolean"}
    group = {"type": "array", "prefixItems": [{"type": ["string", "integer"]}, _NUMBER], "minItems": 2, "maxItems": 2}
    return {
        "Error": _object(
            {"error": text, "message": text}, {"at": _NUMBER, "key": {"type": ["string", "integer"]}, "id": _NUMBER},
        ),
        "Done": _object({"ids": {"type": "array", "items": _NUMBER}, "commit": _NUMBER}),
        "Documents": _object({"documents": _list_of("StoredDocument")}),
        "Command": {"anyOf": [
            _object({"add": {"$ref": _ref("Document")}}), _object({"delete_all": {"const": True}}),
            _object({"delete": {"type": "object", "minProperties": 1, "maxProperties": 1}}),
        ]},
        "Answer": _object({
            "count": _NUMBER, "groups": {"type": "object", "additionalProperties": {"type": "array", "items": group}},
            "hits": _list_of("Hit"), "commit": _NUMBER,
        }),
        "Hit": _object({"id": _NUMBER, "value": {"type": "integer"}, "document": {"$ref": _ref("Document")}}),
        "Field": _object({"name": text, "kind": {"enum": list(_KINDS)}}, {"default": yes}),
        "Status": _object({
            "documents": _NUMBER, "segments": _NUMBER, "commit": _NUMBER, "writable": yes, "journal_bytes": _NUMBER,
            "resident_bytes": _NUMBER, "schema": _list_of("Field"), "key": {"type": ["string", "null"]},
        }),
        "Sizes": _object({"before": _NUMBER, "after": _NUMBER}),
        "Health": _object({"healthy": yes}),
        "Readiness": _object({"ready": yes, "documents": _NUMBER}, {"writable": yes}),
    }
