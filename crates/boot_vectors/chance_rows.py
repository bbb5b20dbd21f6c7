#!/usr/bin/env python3
"""chance_rows.py SEED COUNT makes so many rows, as terminal_rows.py does, of programs, keys and faults of terminals
that are chosen by chance, below their heading."""

import random
import sys

from terminal_model import NAMES
from terminal_rows import codes, guest

KINDS = ["write", "writln", "readln", "readln", "readln", "read", "read", "perr", "sleep"]
KEYS = codes("08 18 04 01 0D 0D 0D 1B 61 62 63 64 00 7F C1 20")


def chance_step(by):
    kind, terminal = by.choice(KINDS), by.choice([0, 0, 1, 1, 2])
    if kind in ("write", "writln"):
        return kind, terminal, bytes(by.choices([0x61, 0x62, 0x0D, 0x41, 0x00, 0xFF, 0x0A], k=by.randint(1, 7)))
    if kind in ("read", "readln"):
        return kind, terminal, by.choice([1, 2, 3, 5, 80, 80, 256, 257, 400])
    return (kind, 0, by.randint(0, 255)) if kind == "perr" else (kind, by.randint(1, 3))


def chance_programs(by):
    first = [chance_step(by) for _ in range(by.randint(2, 6))]
    programs = {"SysGo": first}
    if by.random() < 0.7:
        at = by.randint(0, len(first))
        first.insert(at, ("fork", "Child"))
        if by.random() < 0.5:
            first.insert(by.randint(at + 1, len(first)), ("wait",))
        steps = [chance_step(by) for _ in range(by.randint(1, 5))]
        programs["Child"] = steps + [("exit", by.randint(0, 255))]
    first.append(("exit", by.randint(0, 255)))
    return programs


def chance_keys(by):
    """Few keys in a line, and sometimes more than a type-ahead holds."""
    keys, tick = [], 0
    for _ in range(by.randint(1, 9)):
        tick += by.choice([0, 1, 1, 1, 2])
        many = by.random() < 0.05
        few = by.choices(KEYS, k=by.randint(1, 6))
        line = by.choices(codes("61 62 08 01"), k=by.randint(250, 300)) if many else few
        keys.append((tick, by.choice(["TERM", "TERM", "T1", "T1", "T2"]), line))
    return keys


def main(seed, count):
    by = random.Random(seed)
    print("= programs")
    for _ in range(count):
        chosen = [name for name in NAMES[:3] if by.random() < 0.6]
        failing = {name: sorted({by.randint(1, 45) for _ in range(by.randint(1, 4))}) for name in chosen}
        guest(chance_programs(by), chance_keys(by), 12, failing)


main(int(sys.argv[1]), int(sys.argv[2]))
