#!/usr/bin/env python3
"""Prints how many jobs of this many GB fit side by side on this machine: python3 tools/jobs.py GB

RT_JOBS, where it is a number, is the answer. Else it is one job for each processor, but no more than free memory holds, and at least one.
"""
import os
import re
import sys

# The limits of a control group: memory that it may hold and holds, by both versions of the kernel's files.
GROUPS = (("/sys/fs/cgroup/memory.max", "/sys/fs/cgroup/memory.current"),
          ("/sys/fs/cgroup/memory/memory.limit_in_bytes", "/sys/fs/cgroup/memory/memory.usage_in_bytes"))


def number_in(file, pattern=r"^(\d+)$"):
    try:
        with open(file) as f:
            found = re.search(pattern, f.read(), re.M)
    except OSError:
        return None
    return found and int(found[1])


def free_memory():
    """The free memory in bytes, as the machine and the control group have it. None: neither says it."""
    available = number_in("/proc/meminfo", r"^MemAvailable: *(\d+) kB$")
    found = [available * 1024] if available is not None else []
    for limit, held in GROUPS:
        limit, held = number_in(limit), number_in(held)
        if limit is not None and held is not None:
            found.append(limit - held)
    return min(found, default=None)


def jobs(gigabytes):
    given = os.environ.get("RT_JOBS", "")
    if given.isdigit():
        return max(1, int(given))
    processors, free = len(os.sched_getaffinity(0)), free_memory()
    return max(1, processors if free is None else min(processors, int(free / (gigabytes * 1e9))))


if __name__ == "__main__":
    if len(sys.argv) != 2 or not re.fullmatch(r"[1-9]\d*", sys.argv[1]):
        sys.exit(__doc__)
    print(jobs(int(sys.argv[1])))
