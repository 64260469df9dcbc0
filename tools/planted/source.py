"""Reads the functions of a crate's .rt files: where each begins and ends, and what it belongs to."""

import os
import re

# Comments, strings and characters; each is made blank, so that what is left has words and brackets alone.
DEAD = re.compile(r"//[^\n]*|/\*.*?\*/|b?\"(?:\\.|[^\"\\])*\"|b?'(?:\\[^\n]*?|[^'\\\n])'", re.S)
CLAUSE = r"\b(?:requires|ensures|ghost|decreases)\b\*?[^{}();]*\{"
TOKEN = re.compile(rf"[{{}}()\[\];]|\b(?:fn|impl|mod|trait)\b|{CLAUSE}")


class Function:
    """A function with a body: the places of its parts in the text of its file."""

    def __init__(self, path, module, owner, name, start, named, opens, end):
        self.path, self.module, self.owner, self.name = path, module, owner, name
        self.start, self.named, self.opens, self.end = start, named, opens, end

    @property
    def of_trait(self):
        """Whether its impl or its trait fixes which functions stand there, so that none can be put beside it."""
        return self.owner.startswith("trait") or " for " in self.owner

    @property
    def kind(self):
        """The name of the type, or of the trait, that it belongs to; '' for a free function."""
        head = without_arguments(self.owner).split(" where ")[0]
        words = re.findall(r"\w+", head.partition(" for ")[2] or head)
        return words[-1] if words and " for " not in head else words[0] if words else ""

    @property
    def trait(self):
        words = re.findall(r"\w+", without_arguments(self.owner).partition(" for ")[0])
        return words[-1] if " for " in self.owner else ""

    @property
    def given(self):
        """The names of the types that its impl gives to the trait, less the impl's own parameters: the check's name of the trait ends with them."""
        own, head = parameters_of(self.owner.partition(" for ")[0])
        return [it for it in re.findall(r"\w+", head.partition("<")[2]) if it not in own]

    @property
    def shown(self):
        named = f"{self.kind}::{self.name}" if self.kind else self.name
        return f"{self.trait} for {named}" if self.trait else named

    def called(self, text):
        """Returns a call of it on its own parameters, or None where these are not plain names."""
        inside = text[self.parameters_at(text) : self.opens]
        names = [it.partition(":")[0].strip() for it in split(inside)]
        own = bool(names) and bool(re.fullmatch(r"(?:&\s*(?:'\w+\s+)?)?(?:mut\s+)?self", names[0]))
        names = [re.sub(r"^mut\s+", "", it) for it in names[own:]]
        if not all(re.fullmatch(r"[a-z_]\w*", it) for it in names):
            return None
        before = "self." if own else "Self::" if self.kind else ""
        return f"{before}{self.name}{self.turbofish(text)}({', '.join(names)})"

    def parameters_at(self, text):
        """Returns the place behind the bracket that opens the list of parameters."""
        at, depth = self.named[1], 0
        while depth or text[at] != "(":
            depth += {"<": 1, ">": -(text[at - 1] != "-")}.get(text[at], 0)
            at += 1
        return at + 1

    def turbofish(self, text):
        """Returns the function's own type parameters, as a call of it inside names them."""
        if text[self.named[1]] != "<":
            return ""
        names = [it.partition(":")[0].strip() for it in split(text[self.named[1] + 1 : self.opens])]
        names = [re.sub(r"^const\s+", "", it) for it in names if not it.startswith("'")]
        return f"::<{', '.join(names)}>" if names else ""


def split(text):
    """Returns the parts of a list of parameters, up to the bracket that closes it."""
    parts, depth, part = [], 0, ""
    for at, it in enumerate(DEAD.sub(lambda found: re.sub(r"[^\n]", " ", found[0]), text)):
        if it in "([{<":
            depth += 1
        elif it in ")]}" or it == ">" and text[at - 1] != "-":
            if depth == 0:
                break
            depth -= 1
        if it == "," and depth == 0:
            parts.append(part)
            part = ""
        else:
            part += it
    return [it.strip() for it in [*parts, part] if it.strip()]


def parameters_of(head):
    """Returns the names of an impl's own type parameters, and what of its head follows them."""
    head = re.sub(r"^impl\b\s*", "", head)
    if not head.startswith("<"):
        return [], head
    depth = 0
    for i, letter in enumerate(head):
        depth += {"<": 1, ">": -1}.get(letter, 0)
        if depth == 0:
            return [re.split(r"\W", it)[0] for it in split(head[1:i])], head[i + 1 :]
    return [], head


def without_arguments(text):
    """Returns an impl's head less the arguments of its types."""
    text = re.sub(r"^(impl|trait)\b", "", text)
    while True:
        shorter = re.sub(r"<[^<>]*>", " ", text.replace("->", "  "))
        if shorter == text:
            return re.sub(r"\s+", " ", text).strip()
        text = shorter


def blanked(text):
    """Returns the text with comments, strings and characters made blank, each line and column as it was."""
    return DEAD.sub(lambda it: re.sub(r"[^\n]", " ", it[0]), text)


def past_clause(code, at):
    """Returns the place behind the brace that closes the clause whose opening one stands before `at`."""
    depth = 1
    while depth and at < len(code):
        depth += {"{": 1, "}": -1}.get(code[at], 0)
        at += 1
    return at


def module_of(path):
    parts = path[len("src/") : -len(".rt")].split("/")
    return [it for it in parts if it not in ("lib", "main", "mod")]


def functions_of(text, path):
    """Returns the functions with a body in a source file; one that stands inside another is part of that one."""
    code, found, stack = blanked(text), [], []
    waits, brackets, at, begins = None, 0, 0, 0
    while True:
        it = TOKEN.search(code, at)
        if not it:
            return found
        word, at = it[0], it.end()
        if word in ("fn", "mod"):
            name = re.compile(r"\s+(\w+)").match(code, at)
            if name:
                waits, brackets = (word, name[1], begins, name.span(1)), 0
        elif word in ("impl", "trait"):
            if not (waits and waits[0] == "fn"):
                waits, brackets = (word, word + code[at : code.index("{", at)], begins, None), 0
        elif word in "([":
            brackets += 1
        elif word in ")]":
            brackets -= 1
        elif word == ";":
            begins = at
            if brackets == 0:
                waits = None
        elif word == "{":
            stack.append((waits, it.start()))
            waits, begins = None, at
        elif word == "}":
            begins = at
            what, opens = stack.pop() if stack else (None, 0)
            outer = [it for it, _ in stack if it]
            if what and what[0] == "fn" and not any(it[0] == "fn" for it in outer):
                owner = next((it[1] for it in reversed(outer) if it[0] in ("impl", "trait")), "")
                inner = [it[1] for it in outer if it[0] == "mod"]
                start = what[2] + len(code[what[2] :]) - len(code[what[2] :].lstrip())
                found.append(Function(path, [*module_of(path), *inner], owner, what[1], start, what[3], opens, at))
        else:
            at = past_clause(code, at)


class Crate:
    """The texts of a crate's sources and the functions in them."""

    def __init__(self, folder, name):
        self.folder, self.name, self.texts, self.functions = folder, name, {}, []
        for at, folders, files in os.walk(f"{folder}/src"):
            folders.sort()
            for file in sorted(files):
                if file.endswith(".rt"):
                    path = os.path.relpath(f"{at}/{file}", folder)
                    with open(f"{folder}/{path}", encoding="utf-8") as it:
                        self.texts[path] = it.read()
        self.tests = {path for path in self.texts if self.is_test(path)}
        for path, text in self.texts.items():
            if path not in self.tests:
                self.functions += functions_of(text, path)

    functions_in = staticmethod(functions_of)

    def is_test(self, path):
        """Whether the file is a module of tests, which a check leaves out."""
        name = module_of(path)[-1:] or [""]
        asked = rf"#\[cfg\(test\)\]\s*(?:pub\s+)?mod\s+{name[0]}\s*;"
        return bool(name[0]) and any(re.search(asked, it) for it in self.texts.values())

    def named(self, path, name):
        """Returns the functions of a file that go by the name, as `Type::function` or `Trait for Type::function`."""
        return [it for it in self.functions if it.path == path and name in (it.shown, f"{it.kind}::{it.name}".strip(":"))]

    def around(self, path, start, end):
        """Returns the function that holds a piece of a file, if one does."""
        return next((it for it in self.functions if it.path == path and it.start <= start and end <= it.end), None)

    def home_of(self, function):
        """Returns the module that the function's name stands in: that of its type, where an impl stands elsewhere."""
        if function.kind:
            declares = re.compile(rf"\b(?:struct|enum|union|trait)\s+{function.kind}\b")
            for path, text in self.texts.items():
                if path not in self.tests and path != function.path and declares.search(blanked(text)):
                    if not declares.search(blanked(self.texts[function.path])):
                        return module_of(path)
        return function.module

    def parts_of(self, function):
        """Returns the parts of the function's name behind the crate's, as proofs/ has them as folders."""
        return [*self.home_of(function), *([function.kind] if function.kind else []), function.name]
