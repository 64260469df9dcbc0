"""What the machine has, under the limits of a control group too.

usage: machine.py           how many processors there are, and how many megabytes of memory are free
       machine.py checks    how many checks of crates may run at once; nothing is printed where this is no better than one check with more jobs
"""

import os
import re
import sys

# A control group's quota of a processor's time, with the period that it is for, in its second version and in its first.
QUOTAS = [
    (("cpu.max", r"(\d+)"), ("cpu.max", r" (\d+)")),
    (("cpu/cpu.cfs_quota_us", r"^(\d+)"), ("cpu/cpu.cfs_period_us", r"(\d+)")),
]
# Its limit of memory, and what of that is held by processes: files that were read are given back.
LIMITS = [
    (("memory.max", r"(\d+)"), ("memory.stat", r"^anon (\d+)")),
    (("memory/memory.limit_in_bytes", r"(\d+)"), ("memory/memory.stat", r"^total_rss (\d+)")),
]
# What checks of large crates take each, where several run at once with one job: edit_tests takes 8 GB, run_engine's must-fail edits 5, and most 2 to 4.
MEGABYTES = 5500


def number_in(file, pattern):
    try:
        with open(file, encoding="ascii") as it:
            return int(re.search(pattern, it.read(), re.M)[1])
    except (OSError, TypeError):
        return None


def pairs_of(table):
    """Returns the pairs of numbers that the group's files have, where both are there."""
    read = [[number_in(f"/sys/fs/cgroup/{file}", pattern) for file, pattern in pair] for pair in table]
    return [it for it in read if None not in it]


def cores():
    """Returns how many processors may be used at once."""
    found = len(os.sched_getaffinity(0))
    return min([found, *(max(quota // period, 1) for quota, period in pairs_of(QUOTAS) if period)])


def free_megabytes():
    """Returns how much memory is free."""
    found = number_in("/proc/meminfo", r"^MemAvailable:\s+(\d+)") // 1000
    return min([found, *(max(limit - held, 0) // 1_000_000 for limit, held in pairs_of(LIMITS))])


def checks(processors, megabytes):
    """Returns how many checks of crates may run at once, one a processor. None on several processors whose memory holds one: it gets more jobs."""
    count = min(processors, megabytes // MEGABYTES)
    return max(count, 1) if count > 1 or processors == 1 else None


if __name__ == "__main__":
    if sys.argv[1:] == ["checks"]:
        print(checks(cores(), free_megabytes()) or "")
    else:
        print(cores(), free_megabytes())
