"""Work side by side: a task for each crate, on as many processors as there are and memory allows."""
import collections
from concurrent.futures import FIRST_COMPLETED, ThreadPoolExecutor, wait
import os

from .kit import rtlib

# key: its name; waits: the keys of the tasks before it; weight: the heaviest is begun first; call: takes how many jobs it has
Task = collections.namedtuple("Task", "key waits weight call")

# What one check is likely to take at most, in bytes.
MEMORY_OF_A_CHECK = 4_000_000_000
# More jobs than these seldom help one check.
MOST_JOBS = 4


def lanes():
    """Returns how many checks may run side by side."""
    processors, memory = len(os.sched_getaffinity(0)), 1024 * rtlib.number_in("/proc/meminfo", r"MemAvailable:\s+(\d+)")
    for file, period in rtlib.QUOTAS:
        quota, length = rtlib.number_in(file, r"^(\d+)"), rtlib.number_in(*period)
        if quota and length:
            processors = min(processors, quota // length)
    for limit, held in rtlib.GROUPS:
        limit, held = rtlib.number_in(limit, r"(\d+)"), rtlib.number_in(*held)
        if limit and held is not None:
            memory = min(memory, limit - held)
    return max(1, min(processors, memory // MEMORY_OF_A_CHECK))


def run(tasks, number):
    """Runs the tasks on this many processors, each after those that it waits for, and returns what each gave, by its key."""
    left, running, given = sorted(tasks, key=lambda it: -it.weight), {}, {}
    with ThreadPoolExecutor(number) as pool:
        while left or running:
            ready = [it for it in left if all(key in given for key in it.waits)]
            for at, task in enumerate(ready):
                idle = number - sum(jobs for _, jobs in running.values())
                if idle < 1:
                    break
                jobs = max(1, min(MOST_JOBS, idle // (len(ready) - at)))
                left.remove(task)
                running[pool.submit(task.call, jobs)] = (task.key, jobs)
            for future in wait(running, return_when=FIRST_COMPLETED).done:
                key, _ = running.pop(future)
                given[key] = future.result()
    return given
