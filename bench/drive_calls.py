"""Prints what callgrind counted of drives: drive_calls.py FILE.

FILE is what `valgrind --tool=callgrind --callgrind-out-file=FILE` wrote of a run of os9. For each of the functions
that are named here it prints how often it was called, and the host instructions of a call in the mean, with those of
what it calls.
"""
import re
import sys
from collections import Counter

NAMES = {
    "SureDriveBlockDriver::read": "reads of a drive",
    "SureDriveBlockDriver::write": "writes of a drive",
    "Volume::bring": "sectors brought, from the cache or the drive",
    "Volume::store": "sectors stored, in the cache and the drive",
}


def counted(lines):
    """How often each function was called, and the instructions of these calls."""
    names, calls, costs = {}, Counter(), Counter()
    callee, is_cost = None, False
    for line in lines:
        if is_cost:
            costs[callee] += int(line.split()[-1])
            is_cost = False
        elif line.startswith("calls="):
            calls[callee] += int(line[6:].split()[0])
            is_cost = True
        elif match := re.match(r"c?fn=\((\d+)\)(?: (.*))?", line):
            number, name = match.groups()
            if name:
                names[number] = name
            if line.startswith("c"):
                callee = number
    found = {}
    for number, count in calls.items():
        for end, meaning in NAMES.items():
            if names[number].split("'")[0].endswith(end):
                before = found.get(meaning, (0, 0))
                found[meaning] = (before[0] + count, before[1] + costs[number])
    return found


def main():
    with open(sys.argv[1]) as file:
        found = counted(file.read().splitlines())
    for meaning in NAMES.values():
        if meaning in found:
            count, cost = found[meaning]
            print(f"  {meaning}: {count}, {cost / count:.0f} host instructions each")


if __name__ == "__main__":
    main()
