"""Reads the files planted/*.edits, and finds the function that each edit plants a wrong body in."""

import os
import re

PARTS = ("src/", "specs/", "proofs/")
# What may refuse an edit beside a clause, where its line 'refused by:' says so.
AT_A_LIMIT = "clause, at a limit"
OTHER = ("safety", "requires", "loop invariant", AT_A_LIMIT)


class Edit:
    """A wrong body: in place by pairs of an old and a new text, or the whole body of a copy that may call the real function."""

    def __init__(self, name, file, lines):
        self.name, self.file = name, file
        self.pairs, self.wraps, self.body, self.of = [], None, None, None
        self.refused_by, self.why = [], ""
        # what `place` finds: the function that is judged, the name that it is judged by, and its text
        self.function, self.symbol, self.text = None, "", ""
        # the verdict: its kind, what the check said, and the goals that were refused
        self.kind, self.told, self.goals, self.turns = "", "", [], 0
        self.read(lines)

    def read(self, lines):
        old = None
        for at, line in enumerate(lines):
            word, _, rest = line.partition(":")
            rest = rest[1:] if rest.startswith(" ") else rest
            if word == "body":
                self.body = "\n".join([rest, *lines[at + 1 :]]).strip("\n")
                break
            if word == "file":
                self.file = rest.strip()
            elif word == "wrap":
                self.wraps = rest.strip()
            elif word == "of":
                self.of = rest.strip()
            elif word == "refused by":
                self.refused_by.append(rest.strip())
            elif word == "old":
                old = rest
            elif word == "new":
                self.pairs.append((self.file, old, rest))
            elif line.strip():
                self.why = self.why or f"the line '{line[:60]}' is none of an edit's"
        self.why = self.why or self.fault() or ""

    def fault(self):
        """Says what is wrong with the edit as it is written, if anything is."""
        paths = [self.file, *[it[0] for it in self.pairs]]
        if not all(it.startswith(PARTS) and os.path.normpath(it) == it for it in paths):
            return "a line 'file:' names no file of src/, specs/ or proofs/"
        if not all(it in OTHER for it in self.refused_by):
            return f"'refused by:' takes {', '.join(OTHER)}"
        if self.wraps:
            return "a wrapper has no 'old:' and 'new:'" if self.pairs else None if self.body else "a wrapper wants a body"
        if self.body is not None:
            return "a body wants a line 'wrap:'"
        if not self.pairs:
            return "it has no pair of 'old:' and 'new:', and no 'wrap:'"
        return None if all(it[1] for it in self.pairs) else "a 'new:' stands before any 'old:'"

    def place(self, crate, number):
        """Finds the function that is judged, and says why where there is none. Number tells the edit from the crate's others."""
        if not self.why:
            self.why = (self.place_wrapper if self.wraps else self.place_pairs)(crate, number) or ""

    def place_wrapper(self, crate, number):
        found = crate.named(self.file, self.wraps)
        if len(found) != 1:
            return f"{self.wraps} is the name of {len(found)} functions of {self.file}, and not of one"
        if found[0].of_trait:
            return f"{self.wraps} stands in an impl of a trait, where no other function can: write an edit in place"
        self.plant(found[0], number)
        self.text = self.text_of(crate, self.symbol, self.body)
        return None

    def text_of(self, crate, symbol, body):
        """Returns the function that the edit wraps, under another name and with this body."""
        return copied(crate.texts[self.function.path], self.function, symbol, f"{{\n{body}\n}}")

    def place_pairs(self, crate, number):
        """An edit within one function is judged in a copy beside it; any other in place, by the goals of what 'of:' names."""
        texts, within = dict(crate.texts), set()
        for path, old, new in self.pairs:
            if path not in texts:
                try:
                    with open(f"{crate.folder}/{path}", encoding="utf-8") as it:
                        texts[path] = it.read()
                except OSError:
                    return f"there is no file {path}"
            count = texts[path].count(old)
            if count != 1:
                return f"the text '{old[:60]}' stands in {path} {count} times, and not once"
            at = crate.texts[path].find(old) if path in crate.texts else -1
            within.add(crate.around(path, at, at + len(old)) if at >= 0 else None)
            texts[path] = texts[path].replace(old, new)
        self.texts = {path: text for path, text in texts.items() if text != crate.texts.get(path)}
        if self.of:
            named = [it for it in crate.functions if self.of in (it.shown, f"{it.kind}::{it.name}".strip(":"))]
            within = set([it for it in named if it.path == self.file] or named)
        if len(within) != 1 or None in within:
            return "it changes no single function: a line 'of:' names the one that is judged"
        function = within.pop()
        if self.of or function.of_trait:
            self.function, self.symbol = function, function.name
            return None
        self.plant(function, number)
        return self.copy_in_place(crate)

    def copy_in_place(self, crate):
        text = crate.texts[self.function.path]
        inside = text[self.function.opens : self.function.end]
        for _, old, new in self.pairs:
            if inside.count(old) != 1:
                return f"'{old[:60]}' is no text of the body of {self.function.shown}"
            inside = inside.replace(old, new)
        self.text = copied(text, self.function, self.symbol, inside)
        return None

    def plant(self, function, number):
        self.function, self.symbol = function, f"{function.name}_planted_{number}"

    @property
    def wants_control(self):
        """Whether the plain call of the real function has to meet the clauses as well."""
        return bool(self.wraps) or AT_A_LIMIT in self.refused_by

    @property
    def in_place(self):
        """Whether it is judged in the crate as edited, and not in a copy of its function."""
        return not self.why and not self.text


def copied(text, function, name, body):
    """Returns the function's text under another name, with this body and its own signature, attributes and clauses."""
    head = text[function.start : function.named[0]]
    head = re.sub(r"#\[cycle\([^\]]*\)\]\s*", "", re.sub(r"(?m)^\s*//.*\n?", "", head))
    return f"{head}{name}{text[function.named[1] : function.opens]}{body}"


def edits_in(path):
    """Returns the edits of a file: a line 'file:' names the source, and each edit begins with a line 'edit: NAME'."""
    with open(path, encoding="utf-8") as it:
        head, *parts = re.split(r"(?m)^edit: ", it.read())
    file = re.search(r"(?m)^file: (\S+)$", head)
    named = [it.split("\n") for it in parts]
    return [Edit(lines[0].strip(), file[1] if file else "", lines[1:]) for lines in named]


def edits_of(folder):
    """Returns the edits in a folder and below it, by name."""
    found = []
    for below, folders, files in os.walk(folder):
        folders.sort()
        found += [edit for it in files if it.endswith(".edits") for edit in edits_in(f"{below}/{it}")]
    found.sort(key=lambda it: it.name)
    for one, next_one in zip(found, found[1:]):
        if one.name == next_one.name:
            next_one.why = "another edit of the crate has this name"
    return found
