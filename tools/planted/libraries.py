"""Finds the libraries that a crate's check reads, and builds those that are not up to date."""

import os
import resource
import shutil
import subprocess
import sys


def fail(why):
    print(f"planted: {why}", file=sys.stderr)
    print("0 passed, 1 failed")
    sys.exit(70)


class Libraries:
    """The crates of the repository, as crates.txt lists them, and the folders of their libraries in out/."""

    def __init__(self, top):
        self.top, self.crates, self.cpu = top, {}, 0.0
        rt = shutil.which("rt")
        if not rt:
            fail("there is no rt on the path")
        self.kit = os.path.dirname(os.path.dirname(os.path.realpath(rt)))
        with open(f"{top}/crates.txt", encoding="utf-8") as it:
            for line in it:
                name, colon, uses = line.partition("#")[0].partition(":")
                if colon:
                    self.crates[name.split()[0]] = uses.split()

    def below(self, name):
        """Returns the repository's crates that a crate stands on, the lowest first."""
        found = []
        for it in self.crates[name]:
            if it in self.crates:
                found += [each for each in [*self.below(it), it] if each not in found]
        return found

    def library(self, name):
        return f"{self.top}/crates/{name}/out/rlib/{name}.rlib"

    def words(self, name):
        """Returns the words of a check of the crate, which is run in its folder or in a copy of it."""
        is_program = os.path.isfile(f"{self.top}/crates/{name}/src/main.rt")
        words = [f"{self.kit}/bin/rattle", "check", "--crate-name", name, f"src/{'main' if is_program else 'lib'}.rt"]
        for it in ["std", *self.crates[name]]:
            words += ["--extern", f"{it}={self.library(it) if it in self.crates else f'{self.kit}/rlibs/{it}.rlib'}"]
        for it in self.below(name):
            words += ["-L", f"dependency={os.path.dirname(self.library(it))}"]
        words += ["-L", f"dependency={self.kit}/rlibs", "--antt-project", f"{self.kit}/rattle/logic/antt-project.json"]
        return [*words, "--logic-built", f"{self.kit}/logic_built", "--links", f"{name}=", "--jobs", "1"]

    def written(self, name):
        """Returns when the newest source of a crate was written."""
        times = [os.path.getmtime(f"{self.top}/crates.txt")]
        for part in ("src", "specs", "proofs"):
            for at, _, files in os.walk(f"{self.top}/crates/{name}/{part}"):
                times += [os.path.getmtime(f"{at}/{it}") for it in files]
        return max(times)

    def built(self, name):
        file = f"{self.library(name)}/format"
        return os.path.getmtime(file) if os.path.isfile(file) else 0

    def is_of_rt(self, name):
        """Whether rt keeps the library, and so can tell itself whether it is up to date."""
        return os.path.isfile(f"{os.path.dirname(self.library(name))}/stamp")

    def is_newer(self, name):
        """Whether a library, as a run of rt ci leaves it, is newer than all that it was made from."""
        own = self.built(name)
        return bool(own) and all(own >= self.written(it) and own >= self.built(it) for it in [*self.below(name), name])

    def make(self, names):
        """Builds the libraries below these crates, in the order of crates.txt, unless all stand as rt ci left them."""
        wanted = {it for name in names for it in self.below(name)}
        if not any(self.is_of_rt(it) for it in wanted) and all(self.is_newer(it) for it in wanted):
            return
        # those of rt ci fit only one another, so one that rt builds anew wants all to be built by it
        for name in [it for it in self.in_order() if it in wanted]:
            before = resource.getrusage(resource.RUSAGE_CHILDREN)
            how = {"stdin": subprocess.DEVNULL, "stdout": subprocess.PIPE, "stderr": subprocess.STDOUT, "errors": "replace"}
            ran = subprocess.run(["rt", "lib"], cwd=f"{self.top}/crates/{name}", **how)
            after = resource.getrusage(resource.RUSAGE_CHILDREN)
            cpu = after.ru_utime + after.ru_stime - before.ru_utime - before.ru_stime
            self.cpu += cpu
            print(f"planted: library {name}: {cpu:.0f} s of processor", flush=True)
            if ran.returncode:
                fail(f"the library {name} was not built:\n{ran.stdout[-2000:]}")

    def in_order(self):
        found = []
        for name in self.crates:
            found += [it for it in [*self.below(name), name] if it not in found]
        return found
