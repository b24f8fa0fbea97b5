"""The processor time of the commands that a process starts, by crate and kind of work.

`rt ci` prints no times. So while it runs, this looks again and again at the processes that it has started. Once one of them
has ended, what the system counts for the ended children of `rt ci` has grown by exactly that one's time.
"""
import collections
import os
import threading

SECONDS_BETWEEN_LOOKS = 0.2
TICKS = os.sysconf("SC_CLK_TCK")

# own: its processor seconds so far, with those of its ended children; ended: those of its ended children alone
Times = collections.namedtuple("Times", "parent started own ended")


def times_of(process):
    """Returns the times of a process by its number, or None where it has gone."""
    try:
        with open(f"/proc/{process}/stat", encoding="utf-8", errors="replace") as it:
            words = it.read().rpartition(")")[2].split()
    except OSError:
        return None
    used = [int(it) / TICKS for it in words[11:15]]
    return Times(int(words[1]), words[19], sum(used), sum(used[2:]))


def children_of(process):
    """Returns the numbers of a process's children, with those of others where the system does not tell which are whose."""
    found = []
    for thread in numbers_in(f"/proc/{process}/task"):
        try:
            with open(f"/proc/{process}/task/{thread}/children", encoding="utf-8") as it:
                found += it.read().split()
        except OSError:
            if thread == str(process) and os.path.isdir(f"/proc/{process}/task/{thread}"):
                return numbers_in("/proc")
    return found


def numbers_in(folder):
    """Returns the names in a folder that are numbers, none where it has gone."""
    try:
        return [it for it in os.listdir(folder) if it.isdigit()]
    except OSError:
        return []


def words_of(process):
    """Returns the command line of a process, and the folder that it runs in."""
    try:
        with open(f"/proc/{process}/cmdline", encoding="utf-8", errors="replace") as it:
            return it.read().split("\0"), os.readlink(f"/proc/{process}/cwd")
    except OSError:
        return [], ""


def work_of(words, folder):
    """Returns the crate that a command of rt works for and the kind of work, or None where it is neither."""
    if "--crate-name" in words[:-1]:
        crate = words[words.index("--crate-name") + 1]
        if os.path.basename(folder).startswith("rt-edit-"):
            return crate, "edits"
        return crate, "tests" if {"--test", "--crate-checked"} & {*words} else "proof"
    for word in words:
        place, _, name = word.rpartition("/bin/")
        if "/rt-run-" in place:
            return name[: -len("_tests")] if name.endswith("_tests") else name, "tests"
    return None


class Watch(threading.Thread):
    """Looks at the children of a process from now until it is told to stop."""

    def __init__(self, process):
        super().__init__(daemon=True)
        self.process, self.stopped = process, threading.Event()
        # The processor seconds of each crate and kind of work; of None, what is for neither.
        self.seconds = collections.defaultdict(float)
        # Of each child that runs: its work and its times when last seen.
        self.running = {}
        # Children that have gone, and ended time that none of them has been given yet.
        self.gone, self.unclaimed, self.counted = [], 0.0, 0.0
        self.start()

    def run(self):
        while not self.stopped.wait(SECONDS_BETWEEN_LOOKS):
            self.look()

    def stop(self):
        """Ends the watch, once the process itself has ended, and returns the seconds."""
        self.stopped.set()
        self.join()
        self.look()
        self.gone += self.running.values()
        self.share_out()
        return dict(self.seconds)

    def look(self):
        """Notes which children run, and gives those that have ended their time."""
        times = times_of(self.process)
        if times:
            self.unclaimed += times.ended - self.counted
            self.counted = times.ended
        seen = {}
        for name in children_of(self.process):
            child = times_of(name)
            if child and child.parent == self.process:
                key = (name, child.started)
                work = self.running.get(key, (None,))[0] or work_of(*words_of(name))
                seen[key] = (work, child.own)
        self.gone += [it for key, it in self.running.items() if key not in seen]
        self.running = seen
        if self.gone and self.unclaimed >= sum(own for _, own in self.gone) - 0.05:
            self.share_out()

    def share_out(self):
        """Gives the children that have gone the ended time: to each what it was seen to use, and the rest in proportion."""
        used = sum(own for _, own in self.gone)
        for work, own in self.gone:
            share = own / used if used else 1 / len(self.gone)
            self.seconds[work] += self.unclaimed * share
        if not self.gone:
            self.seconds[None] += self.unclaimed
        self.gone, self.unclaimed = [], 0.0
