"""How many proofs run side by side. A proof keeps one core busy, and two threads of one core are no faster than that core."""
import os
import re

OF_A_PROOF = 5  # GB, the most that one takes here (docs/PERFORMANCE.md, 'The gate')


def threads():
    return len(os.sched_getaffinity(0))


def cores():
    """The cores that this process may run on, by the topology; where the system doesn't tell it, each of its threads counts as one."""
    return len({siblings(it) for it in os.sched_getaffinity(0)})


def siblings(thread):
    try:
        with open(f'/sys/devices/system/cpu/cpu{thread}/topology/thread_siblings_list', encoding='ascii') as it:
            return it.read().strip()
    except OSError:
        return str(thread)


def lanes():
    """One proof a core, and one for each 5 GB of memory. By itself rt ci counts three times the memory that a proof here takes, so that cores are idle."""
    with open('/proc/meminfo', encoding='ascii') as it:
        free = int(re.search(r'MemAvailable:\s+(\d+)', it.read())[1]) >> 20
    return max(1, min(cores(), free // OF_A_PROOF))
