#!/usr/bin/env python3
"""How many processors and how much memory there are, under the limits of a control group too.

Called as a program it prints what RT_JOBS is best for 'rt ci' here, or nothing where rt's own choice is as good. rt
reckons with two to nine times the memory that a check takes, up to 10 GB for one. So where there is enough for a check
a processor, but not for what rt reckons with, it would leave processors idle, and let the longest chain wait.
"""

import os
import re
from typing import Optional

# What a check takes at most, in bytes.
CHECK = 3_600_000_000
GROUP = "/sys/fs/cgroup"


def number(path: str, pattern: str) -> Optional[int]:
    try:
        with open(path, encoding="utf-8") as file:
            found = re.search(pattern, file.read())
    except OSError:
        return None
    return int(found[1]) if found else None


def processors() -> int:
    found = len(os.sched_getaffinity(0))
    quota, period = number(f"{GROUP}/cpu.max", r"^(\d+)"), number(f"{GROUP}/cpu.max", r" (\d+)")
    return max(1, min(found, quota // period)) if quota and period else found


def free() -> int:
    """Free memory in bytes."""
    found = 1024 * (number("/proc/meminfo", r"MemAvailable:\s+(\d+)") or 0)
    most, held = number(f"{GROUP}/memory.max", r"^(\d+)"), number(f"{GROUP}/memory.stat", r"anon (\d+)")
    return found if most is None or held is None else min(found, most - held)


def lanes() -> int:
    """How many checks to run side by side."""
    return max(1, min(processors(), free() // CHECK))


def jobs_of_rt(count: int, memory: int) -> Optional[int]:
    """One check a processor, where the memory is enough for that, and rt would not see it."""
    is_enough = count * 3_750_000_000 <= memory
    is_seen = 10_000_000_000 * count <= memory
    return count if count > 1 and is_enough and not is_seen else None


if __name__ == "__main__":
    print(jobs_of_rt(processors(), free()) or "")
