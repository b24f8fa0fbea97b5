"""Checks of a copy of a crate, each with some edits in it, over the work that a check of the unedited crate kept."""
import collections
import os
import shutil
import signal
import subprocess
import tempfile
import time

from .findings import Findings
from .functions import Functions
from .kit import rtlib
from .layout import Layouts

# seconds: of processor time; memory: the most that one process held, in bytes
Ran = collections.namedtuple("Ran", "status said seconds memory")


def ran(words, folder):
    """Runs a command in a folder, and returns its status, what it wrote and what it took."""
    how = {"cwd": folder, "stdin": subprocess.DEVNULL, "stdout": subprocess.PIPE, "stderr": subprocess.STDOUT, "errors": "replace"}
    begun = time.monotonic()
    with subprocess.Popen([*rtlib.guarded(), *words], **how) as started:
        said = "".join(timed(line, time.monotonic() - begun) for line in started.stdout)
        # (of this command alone, while others run beside it)
        _, status, used = os.wait4(started.pid, 0)
        started.returncode = -os.WTERMSIG(status) if os.WIFSIGNALED(status) else os.WEXITSTATUS(status)
    return Ran(started.returncode, said, used.ru_utime + used.ru_stime, 1024 * used.ru_maxrss)


def timed(line, seconds):
    """Returns a line, and behind one that tells that a function's proof has ended when that was."""
    return f"{line.rstrip()}, {seconds:.1f} s\n" if line.startswith("checked ") else line


def ran_again_if_killed(words, folder):
    """Does the same, once more with one job where the system ended it, most likely for memory."""
    first = ran(words, folder)
    if first.status != -signal.SIGKILL:
        return first
    at = words.index("--jobs") + 1
    second = ran([*words[:at], "1", *words[at + 1 :]], folder)
    return second._replace(seconds=first.seconds + second.seconds)


class Workshop:
    """A copy of a crate's text, taken once, and the work that the check of it as it stands keeps."""

    def __init__(self, crate, room, log_folder=None, is_fresh=False):
        self.crate, self.room, self.log_folder = crate, room, log_folder
        self.number, self.seconds, self.memory = 0, 0.0, 0
        os.makedirs(f"{room}/text")
        for part in rtlib.PARTS:
            if os.path.isdir(f"{crate.folder}/{part}"):
                shutil.copytree(f"{crate.folder}/{part}", f"{room}/text/{part}")
        kept = f"{crate.folder}/out/incremental"
        if os.path.isdir(kept) and not is_fresh:
            shutil.copytree(kept, f"{room}/kept")
        os.makedirs(f"{room}/kept", exist_ok=True)
        self.functions = Functions(f"{room}/text", crate.is_program)

    def check(self, edits, label, jobs, only=()):
        """Checks the crate with these edits, and returns what was found. With none, what is proved is kept for the others.

        Where names of functions are given, only those are checked, with what they call, and what is found is kept too.
        """
        self.number += 1
        layouts = Layouts(self.functions, edits)
        with tempfile.TemporaryDirectory(prefix="check-", dir=self.room) as copy:
            shutil.copytree(f"{self.room}/text", f"{copy}/text")
            for file in layouts.placed:
                with open(f"{copy}/text/{file}", "w", encoding="utf-8") as it:
                    it.write(layouts.of(file).text)
            kept = f"{self.room}/kept"
            if edits and not only:
                # (each over the same work: a check with edits puts its own in the place of some of it)
                kept = shutil.copytree(kept, f"{copy}/kept")
            flags = [word for it in only for word in ("--only", it)]
            words = self.crate.words(["--jobs", str(jobs), "--progress", *flags], keeps=False)
            done = ran_again_if_killed([rtlib.RATTLE, "check", *words, "--incremental", kept], f"{copy}/text")
        self.seconds += done.seconds
        self.memory = done.memory
        self.log(label, done.said)
        return Findings(self.crate.name, layouts, done.status, done.said)

    def log(self, label, said):
        """Keeps what a check printed, where that is asked for."""
        if self.log_folder:
            os.makedirs(self.log_folder, exist_ok=True)
            with open(f"{self.log_folder}/{self.number:02d}_{label}.log", "w", encoding="utf-8") as it:
                it.write(said)
