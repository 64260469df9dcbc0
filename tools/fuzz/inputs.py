"""Inputs to try: random traces with requests, and samples whose lines and bytes are changed at random."""

import glob
import json
import os

from heap import WANTED, Heap, has_fields, is_slot, step, value_at
from reading import MEMBERS

TOP = os.path.dirname(os.path.dirname(os.path.dirname(os.path.realpath(__file__))))
KINDS = list(MEMBERS)
# What leads far: a trace of these alone makes objects, names them from one another, and lets them go.
COMMON = ["new", "new", "clone", "drop", "downgrade", "upgrade", "set", "take", "get", "make_mut", "try_unwrap", "cell_swap", "cell_new"]
STRANGE = [b"", b"--", b"{", b"[]", b"null", b" \t\r", b"\xff", b'{"id":1}', b"[" * 128, b'"\\ud800"', b"{}" * 2, b"01", b"1e999", b" " * 4097]
# Members that the reader ignores, as recorders write them.
IGNORED = [("at", "src/main.rs:12"), ("at", 'a "quoted" \u00e9\n'), ("z", True), ("z", None), ("n", -1.5), ("o", {"a": [1, {}]}), ("x" * 70, "y" * 200)]


def samples():
    """The inputs that the repository has, by the bytes that they are."""
    files = glob.glob(f"{TOP}/examples/*/*.jsonl") + glob.glob(f"{TOP}/crates/conformance/data/*")
    texts = []
    for file in sorted(files):
        if os.path.basename(file) != "index" and os.path.getsize(file) < 20_000:
            with open(file, "rb") as it:
                texts.append(it.read())
    return texts


class Inputs:
    """Makes inputs by a source of random numbers."""

    def __init__(self, chosen):
        self.chosen = chosen
        self.samples = samples()

    def one(self):
        """An input, for whatever command."""
        turn = self.chosen.randrange(10)
        if turn < 6:
            return self.random_input()
        if turn < 8:
            return self.changed(self.chosen.choice(self.samples))
        return self.changed(self.random_input())

    def random_input(self):
        """A trace, mostly with requests after it."""
        length = self.chosen.choice([0, 1, 3, 8, 8, 20, 20, 60, 140])
        heap, lines = Heap(), []
        for number in range(1, length + 1):
            op = self.op(number, heap)
            step(heap, op)
            lines.append(self.line(op))
        if self.chosen.randrange(4):
            lines += ["--", *self.requests(length, heap)]
        return "".join(line + "\n" for line in lines).encode()

    def op(self, number, heap):
        """An operation that can mostly be done in a heap."""
        chosen = self.chosen
        kind = chosen.choice(COMMON) if chosen.randrange(3) else chosen.choice(KINDS)
        op = {"id": number, "t": chosen.choice([0, 0, 0, 1, 2]), "op": kind}
        used = set()
        for name in MEMBERS[kind]:
            if name == "fields":
                op[name] = [self.element(kind, heap, used) for _ in range(chosen.choice([0, 1, 1, 2, 2, 3]))]
            elif name == "i":
                op[name] = self.field(heap, op["h"])
            elif name == "c":
                op[name] = self.cell(heap, kind == "cell_new")
            elif name != "to?" or chosen.randrange(2):
                name = name.rstrip("?")
                op[name] = self.handle(heap, kind, name, used)
        return op

    def handle(self, heap, kind, name, used):
        """A handle that the operation can do with, mostly; one that it does not have yet."""
        if name == "to":
            fit = [it for it in range(12) if it not in heap.handles]
        else:
            wanted = WANTED.get((kind, name), is_slot)
            fit = [it for it, held in heap.handles.items() if it not in used and wanted(held)]
        handle = self.chosen.choice(fit) if fit and self.chosen.randrange(12) else self.chosen.randrange(12)
        used.add(handle)
        return handle

    def element(self, kind, heap, used):
        turn = self.chosen.randrange(6)
        if turn == 0 and kind == "new_cyclic":
            return "me"
        return None if turn == 1 else self.handle(heap, kind, "fields", used)

    def field(self, heap, handle):
        has = handle in heap.handles and has_fields(heap.handles[handle])
        fields = len(value_at(heap, handle)) if has else 0
        return self.chosen.randrange(fields) if fields and self.chosen.randrange(12) else self.chosen.randrange(4)

    def cell(self, heap, is_new):
        fit = [it for it in range(4) if (it in heap.cells) != is_new]
        return self.chosen.choice(fit) if fit and self.chosen.randrange(12) else self.chosen.randrange(4)

    def line(self, value):
        """A value as one of the usual writers has it."""
        chosen = self.chosen
        if "op" in value and chosen.randrange(6) == 0:
            members = [*value.items(), chosen.choice(IGNORED)]
            chosen.shuffle(members)
            value = dict(members)
        separators = chosen.choice([(",", ":"), (",", ":"), (", ", ": "), (" , ", " : ")])
        return json.dumps(value, separators=separators, ensure_ascii=chosen.randrange(2) == 0)

    def requests(self, length, heap):
        version = 0
        for _ in range(self.chosen.choice([0, 1, 1, 2, 5, 12])):
            edits = [self.edit(length, heap) for _ in range(self.chosen.choice([0, 1, 1, 1, 2, 3]))]
            base = version if self.chosen.randrange(8) else self.chosen.randrange(4)
            yield self.line({"base": base, "session": self.chosen.randrange(16), "edits": edits})
            version += self.chosen.randrange(6) > 0

    def edit(self, length, heap):
        chosen, fresh = self.chosen, self.chosen.choice([length + 1, length + 2, 900, 901])
        kind = chosen.choice(["insert", "insert", "remove", "change"])
        place = chosen.randrange(length + 2)
        if kind == "remove":
            return {"edit": kind, "id": max(place, 1)}
        number = place if kind == "change" and chosen.randrange(3) else fresh
        name = "after" if kind == "insert" else "id"
        return {"edit": kind, name: place if kind == "insert" else max(place, 1), "op": self.op(max(number, 1), heap)}

    def changed(self, data):
        """An input of which some lines, then some bytes are others."""
        lines = data.split(b"\n")
        for _ in range(self.chosen.choice([0, 1, 1, 2, 4])):
            at = self.chosen.randrange(len(lines))
            turn = self.chosen.randrange(5)
            if turn == 0:
                lines.insert(at, self.chosen.choice(STRANGE))
            elif turn == 1:
                lines.insert(at, self.chosen.choice(lines))
            elif turn == 2 and len(lines) > 1:
                del lines[at]
            else:
                other = self.chosen.randrange(len(lines))
                lines[at], lines[other] = lines[other], lines[at]
        return self.with_other_bytes(b"\n".join(lines))

    def with_other_bytes(self, data):
        data = bytearray(data)
        for _ in range(self.chosen.choice([0, 0, 1, 1, 2, 5])):
            at = self.chosen.randrange(len(data) + 1)
            turn = self.chosen.randrange(4)
            byte = self.chosen.choice(b'0123456789"{}[],:\\ \nnulltruefalse-.eE\x00\x80\xc3')
            if turn == 0 or at == len(data):
                data.insert(at, byte)
            elif turn == 1:
                del data[at : at + self.chosen.choice([1, 1, 5])]
            else:
                data[at] = byte
        return bytes(data)
