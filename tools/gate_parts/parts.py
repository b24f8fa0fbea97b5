"""One part of the gate: a command whose last line is 'N passed, M failed', with what was left out, if anything was."""
import concurrent.futures
import os
import re
import subprocess
import time

from .watch import Watch

COUNT = re.compile(r"(\d+) passed, (\d+) failed(?:; left out: .*)?")


class Part:
    """A command that was run, what it counted and what it took."""

    def __init__(self, name, words, is_watched=False):
        """Takes whether to tell, too, what each process that the command starts takes."""
        self.name, self.words, self.is_watched = name, words, is_watched
        self.lines, self.seconds, self.started = [], {}, None
        self.passed = self.failed = self.wall = self.processor = 0

    def run(self, folder):
        """Runs the command in a folder, and prints what it writes as it comes."""
        print(f"\n==== {self.name}", flush=True)
        self.count(self.status(folder, lambda line: print(line, flush=True)))

    def status(self, folder, tell=lambda line: None):
        """Runs the command in a folder, keeps and tells each line that it writes, and returns its status."""
        how = {"cwd": folder, "stdin": subprocess.DEVNULL, "stdout": subprocess.PIPE, "stderr": subprocess.STDOUT}
        begun = time.monotonic()
        with subprocess.Popen(self.words, text=True, errors="replace", **how) as self.started:
            try:
                status, used = self.follow(self.started, tell)
            except BaseException:
                # (what was started ends with the gate)
                self.stop()
                raise
        self.wall, self.processor = time.monotonic() - begun, used.ru_utime + used.ru_stime
        return status

    def stop(self):
        """Ends the command where it runs."""
        if self.started:
            self.started.terminate()

    def follow(self, started, tell):
        """Tells what the command writes, and returns its status and what it used once it has ended."""
        watch = Watch(started.pid) if self.is_watched else None
        for line in started.stdout:
            self.lines.append(line.rstrip("\n"))
            tell(self.lines[-1])
        # (the watch still reads the times of the process, which go once its status is taken)
        os.waitid(os.P_PID, started.pid, os.WEXITED | os.WNOWAIT)
        self.seconds = watch.stop() if watch else {}
        _, status, used = os.wait4(started.pid, 0)
        started.returncode = 1 if status else 0
        return status, used

    def count(self, status):
        """Reads the count from the last line. A part that gives none, or ends with another status than it counts, has failed."""
        found = COUNT.fullmatch(self.lines[-1]) if self.lines else None
        if found:
            self.passed, self.failed = int(found[1]), int(found[2])
        if not found or (status and not self.failed):
            self.failed += 1
            print(f"gate: {self.name} {'ended with another status than 0' if found else 'gave no count'}: that counts as one failure", flush=True)

    def told(self):
        """Returns a line on what the part counted and took."""
        took = f"{self.wall / 60:.1f} minutes, {self.processor / 60:.1f} processor minutes"
        return f"{self.name}: {self.passed} passed, {self.failed} failed; {took}"


def run_together(parts, folder):
    """Runs as many parts at once as there are processors, and prints what each wrote once it has ended, in their order."""
    pool = concurrent.futures.ThreadPoolExecutor(os.cpu_count())
    try:
        for part, status in zip(parts, pool.map(lambda it: it.status(folder), parts)):
            print("", f"==== {part.name}", *part.lines, sep="\n", flush=True)
            part.count(status)
    except BaseException:
        pool.shutdown(wait=False, cancel_futures=True)
        for part in parts:
            part.stop()
        raise
    pool.shutdown()
