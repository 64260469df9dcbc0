"""The inputs with which each allocation is refused in turn: small traces, each with requests to edit it."""

import json
import os

TOP = os.path.dirname(os.path.dirname(os.path.dirname(os.path.realpath(__file__))))
DATA = f"{TOP}/crates/conformance/data"


def op(number, kind, **members):
    return {"id": number, "t": 0, "op": kind, **members}


def new(number, to, fields=()):
    return op(number, "new", to=to, fields=list(fields))


def remove(number):
    return {"edit": "remove", "id": number}


def insert(after, it):
    return {"edit": "insert", "after": after, "op": it}


def request(base, session, *edits):
    return {"base": base, "session": session, "edits": list(edits)}


def new_cyclic():
    yield op(1, "new_cyclic", to=0, fields=["me"])
    yield op(2, "drop", h=0)


def leak_after_edit():
    """Operation 8 breaks a cycle; a checkpoint comes after that, at which what leaks without it is all that differs."""
    yield from (new(1, 0, [None]), new(2, 1, [None]))
    yield from (op(3, "clone", **{"from": 0}, to=2), op(4, "clone", **{"from": 1}, to=3))
    yield from (op(5, "set", h=0, i=0, **{"from": 3}), op(6, "set", h=1, i=0, **{"from": 2}))
    yield from (op(7, "null", to=4), op(8, "set", h=0, i=0, **{"from": 4}), op(9, "drop", h=4))
    yield from (op(10, "drop", h=0), op(11, "drop", h=1))
    for number in range(12, 76, 2):
        yield from (new(number, 9), op(number + 1, "drop", h=9))


def two_sessions():
    yield new(1, 0)


def fields_of_64():
    yield from (new(1, 0, [None] * 64), new(2, 1), op(3, "set", h=0, i=63, **{"from": 1}))
    yield from (op(4, "clone", **{"from": 0}, to=2), op(5, "make_mut", h=2), op(6, "drop", h=2))


CLONE = insert(1, op(2, "clone", **{"from": 0}, to=1))
WEAK = insert(1, op(3, "downgrade", **{"from": 0}, to=2))
TRACES = {
    "new_cyclic": (new_cyclic, [request(0, 0, remove(2))]),
    "leak_after_edit": (leak_after_edit, [request(0, 0, remove(8)), request(1, 0, insert(7, op(8, "set", h=0, i=0, **{"from": 4})))]),
    "two_sessions": (two_sessions, [request(0, 0, CLONE), request(0, 1, WEAK), request(1, 1, WEAK)]),
    "fields_of_64": (fields_of_64, [request(0, 0, remove(5))]),
}


def lines(values):
    return b"".join(json.dumps(it, separators=(",", ":")).encode() + b"\n" for it in values)


def input_of(name, command):
    """The trace of this name, with what the command wants after it; or a case of conformance, as it is."""
    if name not in TRACES:
        with open(f"{DATA}/{name}", "rb") as file:
            return file.read()
    trace, requests = TRACES[name]
    if command in ("replay", "explain", "picture"):
        return lines(trace())
    return lines(trace()) + b"--\n" + lines(requests[:1] if command == "whatif" else requests)
