"""The program, the commands that are tried, and a count of what was judged."""

import os

TOP = os.path.dirname(os.path.dirname(os.path.dirname(os.path.realpath(__file__))))
PROGRAM = f"{TOP}/crates/arc_scope/out/arc_scope"
DATA = f"{TOP}/crates/conformance/data"
# Each command with its words, and a case of conformance for it.
INPUTS = {
    ("replay",): "nested_fields",
    ("explain",): "two_cycles",
    ("explain", "--life", "2"): "forgotten_weak",
    ("picture",): "two_cycles",
    ("picture", "--all", "2"): "forgotten_weak",
    ("whatif",): "whatif_insert",
    ("script",): "desk_replies",
    ("race", "--workers", "2"): "race_one_session",
}
COMMANDS = [list(words) for words in INPUTS]


def input_of(words):
    with open(f"{DATA}/{INPUTS[tuple(words)]}", "rb") as file:
        return file.read()


class Tally:
    def __init__(self):
        self.passed = self.failed = 0

    def judge(self, name, is_well):
        self.passed += is_well
        self.failed += not is_well
        if not is_well:
            print(f"failed: {name}", flush=True)

    def end(self):
        """Prints the last line, and returns the status."""
        print(f"{self.passed} passed, {self.failed} failed")
        return 1 if self.failed else 0
