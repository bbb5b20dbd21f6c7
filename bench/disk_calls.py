"""Compares what disk_vectors prints with what is known: disk_calls.py EXPECTED < PRINTED.

EXPECTED, plain or packed by gzip, has for each row a line `row N` and then its outcomes. One that is
headed `outcome maybe` may be missing from what is printed, where it is headed `outcome`.
"""
import gzip
import re
import sys


def rows_of(text):
    """The outcomes of each row, by its number, each with its head line."""
    parts = re.split(r"^row (\d+)\n", text, flags=re.M)
    return {
        number: [part for part in re.split(r"^(?=outcome)", body, flags=re.M) if part]
        for number, body in zip(parts[1::2], parts[2::2])
    }


def agrees(printed, expected):
    """Are these the outcomes, where those that may be missing may be?"""
    left = list(printed)
    for outcome in expected:
        head, _, body = outcome.partition("\n")
        here = bool(left) and left[0] == "outcome\n" + body
        if here:
            left.pop(0)
        elif head != "outcome maybe":
            return False
    return not left


def main():
    with open(sys.argv[1], "rb") as file:
        data = file.read()
    if data[:2] == b"\x1f\x8b":
        data = gzip.decompress(data)
    expected = rows_of(data.decode())
    printed = rows_of(sys.stdin.read())
    differ = [
        number
        for number, outcomes in printed.items()
        if not agrees(outcomes, expected.get(number, []))
    ]
    for number in differ:
        print(f"differs: row {number}")
    missing = len(expected.keys() - printed.keys())
    print(f"{len(printed)} rows, {len(differ)} differ, {missing} were not run")
    return bool(differ)


if __name__ == "__main__":
    sys.exit(main())
