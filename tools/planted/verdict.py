"""Decides what refused an edit, from what a check prints."""

import re

# Only these refuse an edit: what a clause, or the invariant of a type, says of the result is not so.
GOOD = ("clause, at values", "clause", "clause, answer by hand")
# An edit's line 'refused by:' lets one of these refuse it too. At a limit the search for a proof of a clause ended without one, as it
# does not for the real function; rt must-fail counts that as well.
LIMIT = "clause, at a limit"
ALLOWED = ("safety", "requires", "loop invariant", LIMIT)
KINDS = (*GOOD, *ALLOWED, "limit", "name gone", "unclear", "not tried", "let through", "not read")

FN = re.compile(r"^fn (\S+): (.*)")
NOTE = re.compile(r"^note: (\S+?):(\d+):\d+: it is not proved that (.*) \(`(\S+)`\)(.*)")
BY_HAND = re.compile(r"^(?:\./)?proofs/(\S+)/(?:Answers|Invariants|Proof)\.antt:\d+:\d+: (?:error: )?(?:`([^`]*)`:? )?(.*)")
ERROR = re.compile(r"(?m)^(?:\./)?(src/\S+\.rt):(\d+):\d+: error")
GONE = re.compile(r"has no field|is not in scope|has no `|was not admitted|is no name|that can be named")
ENDED = re.compile(r"(?m)^only=\d+ holes=")


class Told:
    """What a check says of one function: its verdict, and the goals that were refused, each as (kind, goal, line)."""

    def __init__(self):
        self.verdict, self.goals, self.waits = "", [], False

    @property
    def is_proved(self):
        return not self.goals and bool(re.match(r"proved|no holes|depends on a hole", self.verdict))


def sort_of(goal, text=""):
    """Returns what a goal is of, by its name and by what the check says of it."""
    if re.match(r"returns|invariant_of|ensures|leaves", goal) or "ensures holds when" in text:
        return "clause"
    if re.match(r"loop-.*-(preserved|init)$", goal):
        return "loop invariant"
    if re.match(r"(index|slice|get_unchecked)\S*-requires", goal):
        return "safety"
    if "-requires" in goal:
        return "requires"
    if re.match(r"(over|under)flow|(offset_)?bounds|cast|div|rem|sh[lr]|neg|loop-.*-smaller|no_", goal):
        return "safety"
    return "unclear"


def kind_of(goal, text, more):
    kind = sort_of(goal, text)
    if "is false" in more or "goal fails" in more:
        return "clause, at values" if kind == "clause" else kind
    if "gave up" in more:
        return LIMIT if kind == "clause" else "limit"
    return kind


def read(said, crate):
    """Returns what a check says of each function, by the function's name."""
    found, notes = {}, []
    # an error's text goes on in lines that begin with two spaces
    for line in re.sub(r"\n  (?=has no|is not|that|\()", " ", said).split("\n"):
        fn, note, by_hand = FN.match(line), NOTE.match(line), BY_HAND.match(line)
        if fn:
            it = found.setdefault(fn[1], Told())
            it.verdict, it.goals = fn[2], it.goals + notes
            notes = []
        elif note:
            notes.append((kind_of(note[4], note[3], note[5]), note[4], line))
        elif by_hand and "has-holes" not in line and not line.rstrip().endswith("goal ?"):
            it = found.setdefault("::".join([crate, *by_hand[1].split("/")]), Told())
            it.goals.append((of_answer(by_hand[2] or "", by_hand[3]), by_hand[2] or "", line))
        else:
            waits = re.match(r"note: `search` has not tried the goals of `(\S+)`", line)
            if waits:
                found.setdefault(waits[1], Told()).waits = True
    return found


def of_answer(goal, text):
    """Returns the kind of an error in an answer by hand."""
    if GONE.search(text):
        return "name gone"
    kind = sort_of(goal)
    return "clause, answer by hand" if kind == "clause" else kind


def named(symbol, found):
    """Returns what the check says of the function whose path ends in the name, if it says anything."""
    return next((it for name, it in found.items() if name.endswith(f"::{symbol}") and it.verdict), None)


def told_of(edit, found):
    """Returns what the check says of the function that the edit is judged by, if it says anything."""
    if not edit.in_place:
        return named(edit.symbol, found)
    function = edit.function
    fits = lambda name: name.endswith(f"::{function.name}") and function.kind in name and function.trait in name
    return next((it for name, it in found.items() if fits(name) and it.verdict), None)


def judge(edit, told, control):
    """Gives the edit its kind. Control is what the check says of the plain call of the real function, where there is one."""
    if told is None:
        edit.kind, edit.told = "not read", "the check says nothing of it"
        return
    if told.is_proved:
        edit.kind, edit.told = "let through", "the clauses are proved of this body"
        return
    goals = sorted(told.goals, key=lambda it: KINDS.index(it[0]))
    edit.goals = sorted({(it[0], it[1]) for it in goals})
    edit.kind, edit.told = (goals[0][0], goals[0][2]) if goals else ("not tried", told.verdict)
    if edit.kind in ("clause", LIMIT) and control is not None and not control.is_proved:
        edit.kind = "unclear"
        edit.told = f"the plain call of the real function is not shown to meet the clauses either: {edit.told}"


def passes(edit):
    return edit.kind in GOOD or edit.kind in edit.refused_by
