"""What is built next, and how long the rest takes, by the weights of the crates: weights.txt says what these are and how they are renewed."""

import collections
import os

from crates import below, crates_in
from machine import cores

HERE = os.path.dirname(os.path.realpath(__file__))
# A crate that may wait no longer than so many seconds before all wait for it is built at full priority.
SLACK = 240

Weight = collections.namedtuple("Weight", "jobs cpu seconds megabytes")

# That of a crate without a line in weights.txt.
UNKNOWN = Weight(1, 120, 120, 3_000)


def weights_in(file):
    found = {}
    with open(file, encoding="ascii") as lines:
        for line in lines:
            words = line.partition("#")[0].split()
            if words:
                found[words[0]] = Weight(*map(int, words[1:]))
    return found


class Plan:
    """The order in which crates are built. `uses` has those that each uses, and no others."""

    def __init__(self, uses, weights, cores):
        self.uses, self.weights, self.cores = uses, weights, cores
        # the seconds by the clock from the begin of a crate to the end of all, and those before it can begin
        self.behind, self.before = {}, {}
        for name in reversed(self.lowest_first()):
            above = [self.behind[it] for it in uses if name in uses[it]]
            self.behind[name] = self.weights[name].seconds + max(above, default=0)
        for name in self.lowest_first():
            self.before[name] = max((self.before[it] + self.weights[it].seconds for it in uses[name]), default=0)
        self.longest = max(self.behind.values())

    def lowest_first(self):
        found = []

        def add(name):
            for it in self.uses[name]:
                add(it)
            if name not in found:
                found.append(name)

        for name in self.uses:
            add(name)
        return found

    def jobs(self, name):
        return min(self.weights[name].jobs, self.cores)

    def is_urgent(self, name):
        """Whether the whole waits for this crate, or nearly so."""
        return self.before[name] + self.behind[name] + SLACK >= self.longest

    def next(self, done, running, free):
        """Returns the crate to begin now, if there is one: its own are built, and so many megabytes are free."""
        if len(running) >= self.cores:
            return None
        ready = [it for it in self.uses if it not in done and it not in running and all(used in done for used in self.uses[it])]
        room = free - sum(self.weights[it].megabytes for it in running)
        # One that has no room waits until something ends, and those behind it wait too, since they would take the room again and again.
        name = max(ready, key=self.behind.get, default=None)
        return name if name and (not running or self.weights[name].megabytes <= room) else None

    def minutes_left(self, done, running):
        """Returns how many minutes the rest takes, at the least. `running` says how many seconds each has run."""
        left = {it: weight.cpu for it, weight in self.weights.items() if it not in done}
        chain = {it: self.behind[it] for it in left}
        for it, seconds in running.items():
            part = 1 - min(seconds / max(self.weights[it].seconds, 1), 0.95)
            chain[it] -= self.weights[it].seconds * (1 - part)
            left[it] *= part
        return max([sum(left.values()) / self.cores, *chain.values()]) / 60


def plan_of(top, program):
    """Returns the plan for a program and all that it stands on, on this machine."""
    uses, weights = crates_in(top), weights_in(f"{HERE}/weights.txt")
    wanted = [*below(program, uses), program]
    return Plan({it: uses[it] for it in wanted}, {it: weights.get(it, UNKNOWN) for it in wanted}, cores())
