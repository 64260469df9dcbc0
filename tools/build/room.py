"""A room of trees in which crates are proved side by side.

rt holds the folders of all that a crate stands on while it works on it. So each crate is built in a tree of its own, and what was made is
brought back to the crate's out/. The trees are links to one copy of the sources, so that no edit comes between two crates.
"""

import contextlib
import fcntl
import glob
import os
import shutil
import signal
import subprocess
import tempfile

PARTS = ("src", "specs", "proofs")
NAME = "building-"


def link(one, other):
    """Gives a file a second name, or copies it where the file system can't."""
    try:
        os.link(one, other)
    except OSError:
        shutil.copy2(one, other)


def link_proofs(one, other):
    """Links what was proved, which rt replaces and never changes, and copies all else that it keeps."""
    (link if one.endswith(".oantt") else shutil.copy2)(one, other)


def copy_folder(one, other):
    shutil.copytree(one, other, copy_function=link)


def move_folder(one, other):
    try:
        os.rename(one, other)
    except OSError:
        copy_folder(one, other)


def remove(path):
    if os.path.isdir(path):
        shutil.rmtree(path)
    elif os.path.lexists(path):
        os.remove(path)


@contextlib.contextmanager
def alone(folder):
    """Waits until no rt works in a crate's folder, as rt itself does, and keeps others out."""
    held = os.open(folder, os.O_RDONLY)
    try:
        with contextlib.suppress(OSError):
            fcntl.flock(held, fcntl.LOCK_EX)
        yield
    finally:
        os.close(held)


class Room:
    """`lock` is the file that tells others that a build is at work."""

    def __init__(self, top, lock):
        self.top, self.lock, self.at = top, lock, None
        self.running, self.is_ending = {}, False
        # when the sources began to be copied: what is built gets this time, so an edit that came since is newer than it
        self.began = 0

    def __enter__(self):
        # below .git, which is on the same disk and where nothing looks for sources
        git = f"{self.top}/.git"
        for left in glob.glob(f"{glob.escape(git)}/{NAME}*"):
            shutil.rmtree(left, ignore_errors=True)
        self.at = tempfile.mkdtemp(prefix=NAME, dir=git if os.path.isdir(git) else None)
        try:
            self.copy_sources(f"{self.at}/sources")
        except BaseException:
            self.__exit__()
            raise
        return self

    def __exit__(self, *_):
        shutil.rmtree(self.at, ignore_errors=True)

    def copy_sources(self, to):
        os.mkdir(to)
        self.began = os.stat(to).st_mtime_ns
        for name in ("crates.txt", "HANDLES"):
            shutil.copy2(f"{self.top}/{name}", f"{to}/{name}")
        for name in os.listdir(f"{self.top}/crates"):
            for part in PARTS:
                if os.path.isdir(f"{self.top}/crates/{name}/{part}"):
                    shutil.copytree(f"{self.top}/crates/{name}/{part}", f"{to}/crates/{name}/{part}")

    def out(self, name):
        return f"{self.at}/{name}/crates/{name}/out"

    def build(self, name, below, words, niceness):
        """Runs rt on a crate, over the libraries that were built before, and returns its status and the seconds of a processor."""
        copy_folder(f"{self.at}/sources", f"{self.at}/{name}")
        for it in below:
            copy_folder(f"{self.out(it)}/rlib", f"{self.at}/{name}/crates/{it}/out/rlib")
        os.mkdir(self.out(name))
        for part, copy in ("rlib", link), ("incremental", link_proofs):
            self.take(name, part, copy)
        with open(f"{self.out(name)}/build.log", "wb") as log:
            how = {"stdin": subprocess.DEVNULL, "stdout": log, "stderr": subprocess.STDOUT}
            # It holds the lock too: where this program is killed, the next one waits for what is still at work.
            words = ["nice", "-n", str(niceness), "rt", *words]
            run = subprocess.Popen(words, cwd=os.path.dirname(self.out(name)), pass_fds=[self.lock], **how)
            self.running[name] = run.pid
            if self.is_ending:
                self.end(run.pid)
            _, status, used = os.wait4(run.pid, 0)
            del self.running[name]
            run.returncode = os.waitstatus_to_exitcode(status)
        self.bring_back(name)
        return run.returncode, used.ru_utime + used.ru_stime

    def take(self, name, part, copy):
        """Lets a build begin with what an earlier one kept."""
        to = f"{self.out(name)}/{part}"
        if os.path.isdir(f"{self.top}/crates/{name}/out/{part}"):
            try:
                shutil.copytree(f"{self.top}/crates/{name}/out/{part}", to, copy_function=copy)
            except shutil.Error:
                # Another rt has changed it meanwhile: this build begins with less.
                shutil.rmtree(to, ignore_errors=True)

    def bring_back(self, name):
        """Gives the crate's own out/ what was made. A part gets its name when it is whole."""
        made, own = self.out(name), f"{self.top}/crates/{name}/out"
        with alone(os.path.dirname(own)):
            os.makedirs(own, exist_ok=True)
            for part in sorted(os.listdir(made)):
                new, to = f"{own}/new-{part}", f"{own}/{part}"
                remove(new)
                if os.path.isdir(f"{made}/{part}"):
                    # The trees above need the library, and nothing else of what was kept.
                    (copy_folder if part == "rlib" else move_folder)(f"{made}/{part}", new)
                    remove(to)
                else:
                    shutil.copy2(f"{made}/{part}", new)
                    os.utime(new, ns=(self.began, self.began))
                os.replace(new, to)

    def stop(self):
        """Ends what is at work, and what is about to begin."""
        self.is_ending = True
        for pid in list(self.running.values()):
            self.end(pid)

    def end(self, pid):
        with contextlib.suppress(ProcessLookupError):
            os.kill(pid, signal.SIGTERM)
