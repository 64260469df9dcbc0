"""A copy of a crate for one check, in which every function but those that are judged stands for its contract alone."""

import os
import re
import shutil
import subprocess
import tempfile
import time

OF_FUNCTION = ("Answers.antt", "Invariants.antt", "Proof.antt")
# What stands in place of a body: no call, so that a check of what calls the function proves nothing below it.
NOTHING = "{ unreachable!() }"
SECONDS = 1800


class Room:
    """Folders for a crate's checks, below one of the run's own. The repository's libraries are read where they stand."""

    def __init__(self, crate, words, at, with_answers):
        self.crate, self.words, self.at, self.with_answers = crate, words, at, with_answers
        # of each check its label, how many edits it judged, its processor seconds and its seconds
        self.checks = []
        # the planted function that a line of a file belongs to
        self.lines = {}

    def check(self, label, edits, controls=()):
        """Checks these edits, and returns what the check printed. At most one of them is in place."""
        plants = [(it.function, it.symbol, it.text) for it in edits if not it.in_place] + list(controls)
        real = [it.function for it in edits if it.in_place]
        names = [it[1] for it in plants] + [self.path_of(it) for it in real]
        with tempfile.TemporaryDirectory(prefix=f"{self.crate.name}-", dir=self.at) as folder:
            self.write(folder, plants, real, next((it.texts for it in edits if it.in_place), {}))
            return self.run(folder, label, len(edits), names)

    def path_of(self, function):
        """Returns the name that --only takes: of a trait's method the end of its name, which the check writes in a form of its own."""
        return "::".join(self.crate.parts_of(function)) if not function.of_trait else self.only_trait(function)

    def only_trait(self, function):
        return "::".join([*self.crate.home_of(function), f"{function.kind}{function.trait}{''.join(function.given)}", function.name])

    def write(self, folder, plants, real, texts):
        crate = self.crate
        for part in ("specs", "proofs"):
            if os.path.isdir(f"{crate.folder}/{part}"):
                shutil.copytree(f"{crate.folder}/{part}", f"{folder}/{part}")
        # an edit in place moves what stands behind it, so its file is read anew
        changed = {path: type(crate).functions_in(text, path) for path, text in texts.items() if path in crate.texts}
        kept = {(it.path, it.shown) for it in real}
        self.lines = {}
        for path, text in {**crate.texts, **texts}.items():
            functions = changed.get(path) or [it for it in crate.functions if it.path == path]
            if path in crate.texts and path not in crate.tests:
                text = self.planted(path, text, functions, plants, kept)
            os.makedirs(os.path.dirname(f"{folder}/{path}"), exist_ok=True)
            with open(f"{folder}/{path}", "w", encoding="utf-8") as it:
                it.write(text)
        for function in crate.functions:
            if not function.of_trait and (function.path, function.shown) not in kept:
                self.leave_open(folder, function)
        for function, symbol, _ in plants:
            self.copy_answers(folder, function, symbol)

    def planted(self, path, text, functions, plants, kept):
        """Returns a file's text with bodies emptied, and the planted functions beside the real ones; notes the lines of each."""
        made, at = "", 0
        for function in functions:
            if function.of_trait or (path, function.shown) in kept or function.name == "main":
                made += text[at : function.end]
            else:
                made += re.sub(r"#\[cycle\([^\]]*\)\]\s*", "", text[at : function.opens]) + NOTHING
            for _, symbol, more in (it for it in plants if (it[0].path, it[0].shown) == (path, function.shown)):
                made += "\n"
                first = made.count("\n") + 1
                made += more
                self.lines.update({(path, line): symbol for line in range(first, made.count("\n") + 2)})
            at = function.end
        return made + text[at:]

    def leave_open(self, folder, function):
        """Puts a hole in place of the function's proof, so that its contract is taken as it is written."""
        parts = self.crate.parts_of(function)
        at = f"{folder}/proofs/{'/'.join(parts)}"
        os.makedirs(at, exist_ok=True)
        for name in OF_FUNCTION:
            if os.path.isfile(f"{at}/{name}"):
                os.remove(f"{at}/{name}")
        name, module = f"{function.name}_spec", ".".join(["Rattle", self.crate.name, "proofs", *parts, "Statement"])
        with open(f"{at}/Proof.antt", "w", encoding="utf-8") as it:
            it.write(f"use {module}.{{statement}}\n\npub {name} : {{M : Type 1}} → statement M\n{name} = ?\n")

    def copy_answers(self, folder, function, symbol):
        """Gives a copy the invariants and answers by hand of the function that it was copied from."""
        parts = self.crate.parts_of(function)
        was = f"{self.crate.folder}/proofs/{'/'.join(parts)}"
        to = f"{folder}/proofs/{'/'.join([*parts[:-1], symbol])}"
        names = [it for it in OF_FUNCTION if os.path.isfile(f"{was}/{it}")]
        if not names or symbol not in self.with_answers:
            return
        os.makedirs(to)
        owner = re.escape(".".join(["", *parts[:-1], ""]))
        cites = re.compile(rf"(Rattle\.{self.crate.name}\.(?:proofs|specs\.contracts){owner}){re.escape(function.name)}\b")
        for name in names:
            with open(f"{was}/{name}", encoding="utf-8") as it:
                text = cites.sub(rf"\g<1>{symbol}", it.read())
            with open(f"{to}/{name}", "w", encoding="utf-8") as it:
                it.write(text)

    def run(self, folder, label, count, names):
        words = [*self.words, "--allow-holes", *[it for name in names for it in ("--only", name)]]
        began = time.monotonic()
        with tempfile.TemporaryFile(dir=self.at) as out:
            ran = subprocess.Popen(words, cwd=folder, stdin=subprocess.DEVNULL, stdout=out, stderr=subprocess.STDOUT)
            cpu = waited(ran, SECONDS)
            out.seek(0)
            said = out.read().decode("utf-8", "replace")
        self.checks.append((label, count, cpu, time.monotonic() - began))
        return said


def waited(ran, seconds):
    """Waits for a process, which is ended past the limit, and returns its processor seconds."""
    end = time.monotonic() + seconds
    while True:
        done, status, used = os.wait4(ran.pid, os.WNOHANG)
        if done:
            ran.returncode = os.waitstatus_to_exitcode(status) if hasattr(os, "waitstatus_to_exitcode") else status
            return used.ru_utime + used.ru_stime
        if time.monotonic() > end:
            ran.kill()
        time.sleep(0.05)
