"""The report of a trace, and what the commands that edit one have to write, by the plain model."""

import json

from heap import Heap, step
from reading import read

MOST_EDITS = 64
MOST_REQUESTS = 1_000_000


class Replay:
    """A trace with its outcomes and the heap after it."""

    def __init__(self, ops):
        self.heap = Heap()
        self.ops, self.outcomes = [], []
        for op in ops:
            self.go_on(op)

    def go_on(self, op):
        """One operation more."""
        self.ops.append(op)
        self.outcomes.append(step(self.heap, op))

    def lines(self):
        """The report."""
        return [*map(outcome_line, self.ops, self.outcomes), *self.life_lines(), *self.leak_lines(), self.total_line()]

    def made(self):
        """The objects that were made, rising, each with what ended its value, by which operation, and which freed its allocation."""
        lives = {}
        for op, outcome in zip(self.ops, self.outcomes):
            if len(outcome) == 2:
                continue
            answer, number, _, events = outcome
            if answer in ("made", "cloned", "moved"):
                lives[number] = [None, None, None]
            for event, number in events:
                if event == "freed":
                    lives[number][2] = op["id"]
                else:
                    lives[number][:2] = event, op["id"]
        return sorted(lives.items())

    def life_lines(self):
        for number, (event, ended, freed) in self.made():
            how = f"{event} {ended}" if event else "alive"
            yield f"object {number} {how}" + (f" freed {freed}" if freed else "")

    def leaked(self):
        """The objects that are alive and that no root reaches, rising."""
        reached, coming = set(), []
        for held in self.heap.handles.values():
            coming += [held] if isinstance(held, tuple) else held.fields
        coming += self.heap.cells.values()
        while coming:
            slot = coming.pop()
            if slot[0] == "strong" and slot[1] not in reached:
                reached.add(slot[1])
                coming += self.heap.objects[slot[1]]
        return [number for number in sorted(self.heap.objects) if self.heap.is_alive(number) and number not in reached]

    def husks(self):
        return [number for number in sorted(self.heap.objects) if not self.heap.is_alive(number)]

    def leak_lines(self):
        for number in self.leaked():
            holders = (
                f" {holder}.{at}"
                for holder in sorted(self.heap.objects)
                for at, slot in enumerate(self.heap.objects[holder] or [])
                if slot == ("strong", number)
            )
            yield f"leak {number} held by" + "".join(holders)
        for number in self.husks():
            yield f"husk {number} weak {self.heap.counts(number)[1]}"

    def total_line(self):
        skipped = sum(len(outcome) == 2 for outcome in self.outcomes)
        made = self.made()
        alive = sum(life[0] is None for _, life in made)
        return (
            f"total {len(self.ops)} ops {skipped} skipped {len(made)} objects {alive} alive "
            f"{len(self.leaked())} leaks {len(self.husks())} husks"
        )


def outcome_line(op, outcome):
    start = f"{op['id']} {op['op']} "
    if len(outcome) == 2:
        return start + f"skipped {outcome[0]} {outcome[1]}"
    answer, number, counts, events = outcome
    counted = f" #{number} {counts[0]}/{counts[1]}" if number else ""
    return start + answer + counted + "".join(f" {event} #{it}" for event, it in events)


class Refused(Exception):
    """Why a batch isn't made, and at which edit."""


def edited(ops, edits):
    """The operations after a batch, or Refused."""
    if not edits:
        raise Refused("EmptyBatch", 0)
    if len(edits) > MOST_EDITS:
        raise Refused("TooManyEdits", 0)
    ops = list(ops)
    for at, (kind, place, op) in enumerate(edits):
        ids = [it["id"] for it in ops]
        if place not in ids and not (kind == "insert" and place == 0):
            raise Refused("NoSuchOp", at)
        where = ids.index(place) if place else -1
        if op and op["id"] in ids and not (kind == "change" and op["id"] == place):
            raise Refused("IdTaken", at)
        if kind == "insert":
            ops.insert(where + 1, op)
        elif kind == "remove":
            del ops[where]
        else:
            ops[where] = op
    return ops


def text_of(lines):
    return "".join(line + "\n" for line in lines).encode()


def replay(data):
    return 0, text_of(Replay(read(data, 0)[0]).lines())


def whatif(data):
    ops, requests = read(data, 1)
    try:
        ops = edited(ops, requests[0][2] if requests else [])
    except Refused as refused:
        return 1, text_of([f"refused {refused.args[0]} {refused.args[1]}"])
    written = [json.dumps(op, separators=(",", ":"), sort_keys=True) for op in ops]
    return 0, text_of([*written, "--", *Replay(ops).lines()])


def script(data):
    ops, requests = read(data, MOST_REQUESTS)
    version, lines = 0, []
    for base, _, edits in requests:
        if base != version:
            lines.append(f"stale {version}")
            continue
        try:
            ops = edited(ops, edits)
        except Refused as refused:
            lines.append(f"refused {refused.args[0]} {refused.args[1]}")
            continue
        version += 1
        lines.append(f"accepted {version}")
    return 0, text_of([*lines, *Replay(ops).lines()])
