"""Whether what `race` writes is a race: its lines have an order of the requests, and asked in that order, these get just these replies and this report."""

import re

from commands import answer
from reading import lines_of, object_of

REPLY = re.compile(rb"session (\d+) (.*)\n")


def asked(data):
    """What comes before the requests, and each session's request lines in order."""
    lines = [line for _, line in lines_of(data)]
    at = lines.index(b"--") if b"--" in lines else len(lines)
    sessions = {}
    for line in lines[at + 1 :]:
        request = object_of(line)
        if request is not None:
            sessions.setdefault(request["session"], []).append(line)
    return b"".join(line + b"\n" for line in lines[:at]) + b"--\n", sessions


def fault(data, status, text):
    """What is wrong with the status and the output of a race, if anything is."""
    wanted = answer(["script"], data)
    if wanted[0] != 0 or status != 0:
        return None if (status, text) == wanted else f"status {status}, or another output than that of script"
    before, sessions = asked(data)
    lines = text.splitlines(keepends=True)
    replies = [line for line in lines if line.startswith(b"session ")]
    order, due = [], []
    for line in replies:
        number, reply = REPLY.fullmatch(line).groups()
        if not sessions.get(int(number)):
            return "a reply that nobody asked for"
        order.append(sessions[int(number)].pop(0))
        due.append(reply + b"\n")
    if any(sessions.values()):
        return "a request without a reply"
    due += lines[len(replies) :]
    if answer(["script"], before + b"".join(line + b"\n" for line in order)) != (0, b"".join(due)):
        return "script gives other replies, or another report"
    return None
