"""The replay of a trace, by the table of docs/FORMATS.md, word by word: counts are counted afresh from all slots each time that they are asked."""

from reading import MEMBERS

NOTHING, DANGLING = ("nothing",), ("dangling",)


def strong(number):
    return ("strong", number)


def weak(number):
    return ("weak", number)


def named(slot):
    """The object that a slot names, if any."""
    return slot[1] if len(slot) == 2 else None


class Bare:
    """A value that was moved out of its allocation."""

    def __init__(self, fields):
        self.fields = fields


class Skipped(Exception):
    """Why an operation can't be done, and the number of what is against it."""


class Heap:
    """What stands: handles, cells, objects (None where one is a husk), scopes (the handle made last first), and what is still to be dropped."""

    def __init__(self):
        self.handles, self.cells, self.objects, self.scopes = {}, {}, {}, {}
        self.pending = []
        self.events = []

    def slots(self):
        for held in self.handles.values():
            yield from held.fields if isinstance(held, Bare) else [held]
        yield from self.cells.values()
        for fields in self.objects.values():
            yield from fields or []
        for kind, item in self.pending:
            if kind == "slot":
                yield item

    def counts(self, number):
        """The strong and the weak count."""
        ones = [slot[0] for slot in self.slots() if named(slot) == number]
        return ones.count("strong"), ones.count("weak")

    def is_alive(self, number):
        return self.objects.get(number) is not None

    def make(self, label, handle, held):
        """A handle that wasn't there."""
        self.handles[handle] = held
        self.scopes.setdefault(label, []).insert(0, handle)

    def end(self, handle):
        for scope in self.scopes.values():
            if handle in scope:
                scope.remove(handle)
        return self.handles.pop(handle)

    def drop(self, held):
        """Drops what a handle, a cell or a field held."""
        self.pending += [("slot", slot) for slot in (held.fields if isinstance(held, Bare) else [held])]

    def release(self):
        """Drops all that is pending, the first one first."""
        while self.pending:
            kind, item = self.pending.pop(0)
            if kind == "end":
                if self.counts(item)[1] == 0:
                    self.free(item)
            elif item[0] == "strong" and self.counts(item[1])[0] == 0:
                self.destroy(item[1])
            elif item[0] == "weak" and self.is_forgotten(item[1]):
                self.free(item[1])

    def is_forgotten(self, number):
        return not self.is_alive(number) and self.counts(number)[1] == 0 and ("end", number) not in self.pending

    def destroy(self, number):
        self.events.append(("destroyed", number))
        fields = self.objects[number]
        self.objects[number] = None
        self.pending[:0] = [("slot", slot) for slot in fields] + [("end", number)]

    def free(self, number):
        self.events.append(("freed", number))
        del self.objects[number]

    def move_out(self, number, event):
        """The fields of a value that leaves its allocation."""
        self.events.append((event, number))
        fields = self.objects[number]
        self.objects[number] = None
        return fields


# What must stand at a handle, beside that it is there.
def is_slot(held):
    return not isinstance(held, Bare)


def is_strong(held):
    return is_slot(held) and held[0] == "strong"


def is_weak(held):
    return is_slot(held) and held[0] in ("weak", "dangling")


def is_pointer(held):
    return is_slot(held) and held[0] in ("strong", "nothing")


def has_fields(held):
    return isinstance(held, Bare) or held[0] == "strong"


def is_counted(held):
    return is_slot(held) and held[0] in ("strong", "weak", "dangling")


WANTED = {
    ("new_from", "from"): lambda held: isinstance(held, Bare),
    ("clone", "from"): is_slot,
    ("drop", "h"): lambda held: True,
    ("downgrade", "from"): is_strong,
    ("upgrade", "from"): is_weak,
    ("try_unwrap", "h"): is_strong,
    ("into_inner", "h"): is_strong,
    ("get_mut", "h"): is_strong,
    ("make_mut", "h"): is_strong,
    ("counts", "h"): is_counted,
    ("ptr_eq", "a"): is_strong,
    ("ptr_eq", "b"): is_strong,
    ("set", "h"): has_fields,
    ("set", "from"): is_slot,
    ("take", "h"): has_fields,
    ("get", "h"): has_fields,
    ("cell_new", "from"): is_pointer,
    ("cell_swap", "from"): is_pointer,
    ("cell_cas", "expected"): is_pointer,
    ("cell_cas", "desired"): is_pointer,
}


def handles_named(op):
    """Each handle that an operation names, with the member, in the order of the table."""
    for name in MEMBERS[op["op"]]:
        name = name.rstrip("?")
        if name == "fields":
            yield from (("fields", it) for it in op["fields"] if type(it) is int)
        elif name not in ("c", "i") and name in op:
            yield name, op[name]


def check(heap, op):
    """Raises Skipped with the first reason that fits."""
    kind, members = op["op"], list(handles_named(op))
    if kind != "ptr_eq":
        seen = set()
        for _, handle in members:
            if handle in seen:
                raise Skipped("SameName", handle)
            seen.add(handle)
    for name in MEMBERS[kind]:
        name = name.rstrip("?")
        if name == "c" and kind != "cell_new" and op["c"] not in heap.cells:
            raise Skipped("NoCell", op["c"])
        for member, handle in members:
            if member == name and name != "to" and handle not in heap.handles:
                raise Skipped("NotHeld", handle)
    for name, handle in members:
        if name != "to" and not WANTED.get((kind, name), is_slot)(heap.handles[handle]):
            raise Skipped("WrongKind", handle)
    if "i" in op and op["i"] >= len(value_at(heap, op["h"])):
        raise Skipped("NoField", op["i"])
    for name in MEMBERS[kind]:
        if name == "c" and kind == "cell_new" and op["c"] in heap.cells:
            raise Skipped("CellHeld", op["c"])
        if name.rstrip("?") == "to" and op.get("to") in heap.handles:
            raise Skipped("AlreadyHeld", op["to"])


def value_at(heap, handle):
    """The fields of the value that a handle holds or names."""
    held = heap.handles[handle]
    return held.fields if isinstance(held, Bare) else heap.objects[held[1]]


def object_at(heap, handle):
    held = heap.handles[handle]
    return None if isinstance(held, Bare) else named(held)


# Each of these carries out an operation that can be done. It returns the answer and the object whose counts are reported.
def new(heap, op):
    number = op["id"]
    fields = [NOTHING if it is None else weak(number) if it == "me" else heap.end(it) for it in op["fields"]]
    heap.objects[number] = fields
    heap.make(op["t"], op["to"], strong(number))
    return "made", number


def new_from(heap, op):
    heap.objects[op["id"]] = heap.end(op["from"]).fields
    heap.make(op["t"], op["to"], strong(op["id"]))
    return "made", op["id"]


def weak_new(heap, op):
    heap.make(op["t"], op["to"], DANGLING)
    return "done", None


def null(heap, op):
    heap.make(op["t"], op["to"], NOTHING)
    return "done", None


def clone(heap, op):
    heap.make(op["t"], op["to"], heap.handles[op["from"]])
    return "done", named(heap.handles[op["from"]])


def drop(heap, op):
    number = object_at(heap, op["h"])
    heap.drop(heap.end(op["h"]))
    return "done", number


def downgrade(heap, op):
    number = heap.handles[op["from"]][1]
    heap.make(op["t"], op["to"], weak(number))
    return "done", number


def upgrade(heap, op):
    number = named(heap.handles[op["from"]])
    lives = heap.is_alive(number)
    heap.make(op["t"], op["to"], strong(number) if lives else NOTHING)
    return "yes" if lives else "no", number


def unwrap(heap, op, number):
    heap.handles[op["h"]] = Bare(heap.move_out(number, "unwrapped"))
    heap.pending.append(("end", number))
    return "yes", number


def try_unwrap(heap, op):
    number = heap.handles[op["h"]][1]
    return unwrap(heap, op, number) if heap.counts(number)[0] == 1 else ("no", number)


def into_inner(heap, op):
    number = heap.handles[op["h"]][1]
    if heap.counts(number)[0] == 1:
        return unwrap(heap, op, number)
    heap.handles[op["h"]] = NOTHING
    heap.drop(strong(number))
    return "no", number


def get_mut(heap, op):
    number = heap.handles[op["h"]][1]
    return "yes" if heap.counts(number) == (1, 0) else "no", number


def make_mut(heap, op):
    number, made = heap.handles[op["h"]][1], op["id"]
    ones, weaks = heap.counts(number)
    if ones > 1:
        heap.objects[made] = list(heap.objects[number])
        heap.handles[op["h"]] = strong(made)
        heap.drop(strong(number))
        return "cloned", made
    if weaks > 0:
        heap.objects[made] = heap.move_out(number, "moved")
        heap.handles[op["h"]] = strong(made)
        return "moved", made
    return "unique", number


def counts(heap, op):
    return "done", named(heap.handles[op["h"]])


def ptr_eq(heap, op):
    one, other = heap.handles[op["a"]][1], heap.handles[op["b"]][1]
    return "yes" if one == other else "no", one


def set_field(heap, op):
    fields = value_at(heap, op["h"])
    old, fields[op["i"]] = fields[op["i"]], heap.end(op["from"])
    heap.drop(old)
    return "done", object_at(heap, op["h"])


def take(heap, op):
    fields = value_at(heap, op["h"])
    heap.make(op["t"], op["to"], fields[op["i"]])
    fields[op["i"]] = NOTHING
    return "done", object_at(heap, op["h"])


def get(heap, op):
    heap.make(op["t"], op["to"], value_at(heap, op["h"])[op["i"]])
    return "done", object_at(heap, op["h"])


def cell_new(heap, op):
    heap.cells[op["c"]] = heap.end(op["from"])
    return "done", named(heap.cells[op["c"]])


def cell_load(heap, op):
    heap.make(op["t"], op["to"], heap.cells[op["c"]])
    return "done", named(heap.cells[op["c"]])


def cell_swap(heap, op):
    old, heap.cells[op["c"]] = heap.cells[op["c"]], heap.end(op["from"])
    if "to" in op:
        heap.make(op["t"], op["to"], old)
    else:
        heap.drop(old)
    return "done", named(heap.cells[op["c"]])


def cell_cas(heap, op):
    old, expected = heap.cells[op["c"]], heap.handles[op["expected"]]
    desired = heap.end(op["desired"])
    if old == expected:
        heap.cells[op["c"]] = desired
        heap.drop(old)
        return "yes", named(desired)
    heap.handles[op["expected"]] = old
    heap.drop(expected)
    heap.drop(desired)
    return "no", named(old)


def cell_drop(heap, op):
    old = heap.cells.pop(op["c"])
    heap.drop(old)
    return "done", named(old)


def scope_end(heap, op):
    for handle in list(heap.scopes.get(op["t"], [])):
        heap.drop(heap.end(handle))
    return "done", None


ROWS = {
    "new": new, "new_cyclic": new, "new_from": new_from, "weak_new": weak_new, "null": null, "clone": clone, "drop": drop,
    "downgrade": downgrade, "upgrade": upgrade, "try_unwrap": try_unwrap, "into_inner": into_inner, "get_mut": get_mut,
    "make_mut": make_mut, "counts": counts, "ptr_eq": ptr_eq, "set": set_field, "take": take, "get": get, "cell_new": cell_new,
    "cell_load": cell_load, "cell_swap": cell_swap, "cell_cas": cell_cas, "cell_drop": cell_drop, "scope_end": scope_end,
}  # fmt: skip


def step(heap, op):
    """Carries out one operation; its outcome is (answer, object, counts, events), or (reason, number) where it is skipped."""
    heap.events = []
    try:
        check(heap, op)
    except Skipped as skipped:
        return skipped.args
    answer, number = ROWS[op["op"]](heap, op)
    heap.release()
    return answer, number, heap.counts(number) if number else None, heap.events
