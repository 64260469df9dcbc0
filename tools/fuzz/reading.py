"""A trace and its requests as docs/FORMATS.md has them, read slowly and plainly."""

from json_values import NotJson, value_of

LINE_BYTES = 4_096
HANDLE, CELL, OBJECT, LABEL, FIELD, FIELDS = 999_999, 999_999, 999_999_999, 65_535, 63, 64
VERSION, SESSION = 1_000_000, 15
# The members of each operation in the order of the table; a name with a question mark may be missing.
MEMBERS = {
    "new": ["to", "fields"],
    "new_cyclic": ["to", "fields"],
    "new_from": ["from", "to"],
    "weak_new": ["to"],
    "null": ["to"],
    "clone": ["from", "to"],
    "drop": ["h"],
    "downgrade": ["from", "to"],
    "upgrade": ["from", "to"],
    "try_unwrap": ["h"],
    "into_inner": ["h"],
    "get_mut": ["h"],
    "make_mut": ["h"],
    "counts": ["h"],
    "ptr_eq": ["a", "b"],
    "set": ["h", "i", "from"],
    "take": ["h", "i", "to"],
    "get": ["h", "i", "to"],
    "cell_new": ["c", "from"],
    "cell_load": ["c", "to"],
    "cell_swap": ["c", "from", "to?"],
    "cell_cas": ["c", "expected", "desired"],
    "cell_drop": ["c"],
    "scope_end": [],
}
MOST = {"c": CELL, "i": FIELD}


class Fault(Exception):
    """Why a line is none."""


class FaultAt(Exception):
    """The first faulty line of an input, and why."""

    def __init__(self, line, cause):
        super().__init__(line, cause)
        self.line = line
        self.cause = cause


def number(members, name, least, most):
    if name not in members:
        raise Fault("Missing")
    return number_of(members[name], least, most)


def number_of(value, least, most):
    if type(value) is not int:
        raise Fault("WrongType")
    if not least <= value <= most:
        raise Fault("OutOfRange")
    return value


def text(members, name):
    if name not in members:
        raise Fault("Missing")
    if type(members[name]) is not str:
        raise Fault("WrongType")
    return members[name]


def fields_of(members, may_be_me):
    if "fields" not in members:
        raise Fault("Missing")
    fields = members["fields"]
    if type(fields) is not list:
        raise Fault("WrongType")
    if len(fields) > FIELDS:
        raise Fault("OutOfRange")
    for it in fields:
        if it is None or (may_be_me and it == "me" and type(it) is str):
            continue
        number_of(it, 0, HANDLE)
    return fields


def op_of(members):
    """The operation that an object is."""
    op = {"id": number(members, "id", 1, OBJECT), "t": number(members, "t", 0, LABEL), "op": text(members, "op")}
    if op["op"] not in MEMBERS:
        raise Fault("UnknownOp")
    for name in MEMBERS[op["op"]]:
        if name == "to?":
            if members.get("to") is not None:
                op["to"] = number(members, "to", 0, HANDLE)
        elif name == "fields":
            op["fields"] = fields_of(members, op["op"] == "new_cyclic")
        else:
            op[name] = number(members, name, 0, MOST.get(name, HANDLE))
    return op


def object_of(line):
    """The members of a line, or none where it is blank."""
    if len(line) > LINE_BYTES:
        raise Fault("LineTooLong")
    if not line.strip(b" \t\r"):
        return None
    try:
        value = value_of(line)
    except NotJson:
        raise Fault("NotJson") from None
    if type(value) is not dict:
        raise Fault("NotObject")
    return value


def edit_of(value):
    if type(value) is not dict:
        raise Fault("WrongType")
    kind = text(value, "edit")
    if kind not in ("insert", "remove", "change"):
        raise Fault("UnknownOp")
    place = number(value, "after", 0, OBJECT) if kind == "insert" else number(value, "id", 1, OBJECT)
    if kind == "remove":
        return kind, place, None
    if "op" not in value:
        raise Fault("Missing")
    if type(value["op"]) is not dict:
        raise Fault("WrongType")
    return kind, place, op_of(value["op"])


def request_of(members):
    base = number(members, "base", 0, VERSION)
    session = number(members, "session", 0, SESSION)
    if "edits" not in members:
        raise Fault("Missing")
    if type(members["edits"]) is not list:
        raise Fault("WrongType")
    return base, session, [edit_of(it) for it in members["edits"]]


def lines_of(data):
    """The lines with their numbers."""
    lines = data.split(b"\n")
    if not lines[-1]:
        lines.pop()
    return list(enumerate(lines, 1))


def read(data, most_requests):
    """The operations and the requests, of which there may be so many, or FaultAt."""
    ops, taken, requests, in_trace = [], set(), [], True
    for at, line in lines_of(data):
        if most_requests and in_trace and line == b"--":
            in_trace = False
            continue
        try:
            members = object_of(line)
            if members is None:
                continue
            if not in_trace:
                request = request_of(members)
                if len(requests) == most_requests:
                    raise Fault("TooMany")
                requests.append(request)
                continue
            op = op_of(members)
            if op["id"] in taken:
                raise Fault("IdTaken")
        except Fault as fault:
            raise FaultAt(at, fault.args[0]) from None
        taken.add(op["id"])
        ops.append(op)
    return ops, requests
