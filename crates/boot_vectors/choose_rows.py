#!/usr/bin/env python3
"""choose_rows.py FILE COUNT NUMBER.. chooses COUNT of the rows of FILE, so that each answer of each call that occurs
in FILE occurs in one of them. The rows of these numbers, from 1, are among them. With the count 60 and the numbers 1,
25 and 157, in which a process ends by a signal while it reads or writes, it made the first 60 rows of programs and
trees of the stdin of this crate. worked_rows.py makes those behind them; then follow each fifth of another list, and
last those of example_rows.py.

src/row.rt has the fields of a row. Its programs write a line of 24 hexadecimal digits after most calls: a tag, the
process, and then CC, A, B, DP, X, Y and U. In the program the tag stands before the call, as LDA #tag and STA <0,
and the routine that writes the line is called behind it. So which call a line is of is read from the modules of the
row, those of its file and those on its images."""

import re
import sys
from collections import Counter

# the calls, each with the numbers that it may be refused with (docs/calls.md)
CALLS = {
    0x00: "207 210 221 235",
    0x01: "205 206 207 210 214 215 216 221 231 232 236 237 253",
    0x02: "221",
    0x03: "205 206 207 210 214 215 216 221 229 231 232 234 236 237 253",
    0x04: "226",
    0x05: "205 206 207 210 214 215 216 221 231 232 234 236 237 253",
    0x06: "",
    0x07: "207 237",
    0x08: "224 233",
    0x09: "",
    0x0A: "",
    0x0C: "",
    0x0D: "224",
    0x0F: "201 203 217 245 248",
    0x10: "210 235",
    0x11: "210 235",
    0x15: "210",
    0x16: "210 225",
    0x17: "210",
    0x1C: "",
    0x1D: "210 221 235",
    0x82: "200 201",
    0x83: "200 203 210 214 215 216 217 218 221 248",
    0x84: "200 203 210 214 215 216 221 253",
    0x85: "210 214 215 216 217 218 221 248",
    0x86: "203 210 214 215 216 221",
    0x87: "210 214 215 216 221 253",
    0x88: "201",
    0x89: "201 203 210 211 245",
    0x8A: "201 203 210 217 245 248",
    0x8B: "201 203 210 211 245",
    0x8C: "201 203 210 217 245 248",
    0x8D: "201 208 210 211 246",
    0x8E: "201 203 208 210 214 217 248",
    0x8F: "201",
    0x90: "203 210 214 215 216 221 253",
}
UNKNOWN = {208}  # what any other code is refused with
WAITING = {0x04, 0x0A, 0x0F, 0x89, 0x8A, 0x8B, 0x8C}  # the calls that wait, which a signal may end
LEAST_ERROR = 200
START = 0xFE  # the tag of the line at the start of a program, and of those of its first calls
NO_CALL = 0x80  # from here on any other line is not behind a call
WRITER = bytes.fromhex("347F1F4132E8D01F42")  # the begin of the routine that writes a line
LINE = re.compile(rb"([0-9A-F]{24})\r\n")


def number(data, at, size):
    return int.from_bytes(data[at : at + size], "big")


def image_of(field):
    """The image of a field: its length, and its sectors."""
    length, *sectors = field.split(";")
    data = bytearray(int(length))
    for sector in sectors:
        lsn, digits = sector.split(":")
        held = bytes.fromhex(digits)
        data[256 * int(lsn) : 256 * int(lsn) + len(held)] = held
    return bytes(data)


def contents(image, descriptor):
    """The bytes of a file, by the segments of its descriptor."""
    held, at = b"", 256 * descriptor + 16
    while at < 256 * descriptor + 256 and number(image, at + 3, 2) > 0:
        first, sectors = number(image, at, 3), number(image, at + 3, 2)
        held += image[256 * first : 256 * (first + sectors)]
        at += 5
    return held[: number(image, 256 * descriptor + 9, 4)]


def files_of(image, descriptor):
    """The bytes of each file that stands in a directory or below it."""
    held = contents(image, descriptor)
    if image[256 * descriptor] < 0x80:
        yield held
        return
    for at in range(64, len(held), 32):
        if held[at]:
            yield from files_of(image, number(held, at + 29, 3))


def modules_of(data):
    """The modules that stand in a file."""
    at = data.find(b"\x87\xcd")
    while at >= 0:
        size = max(2, number(data, at + 2, 2))
        yield data[at : at + size]
        at = data.find(b"\x87\xcd", at + size)


def lines_of(module):
    """The lines that a module writes, by their tags and in their order: of each the codes of the calls before it,
    the last of which is behind the others if they are done."""
    routine, lines, tag, codes = module.find(WRITER), {}, None, []
    for match in re.finditer(rb"\x86(.)\x97\x00|\x10\x3f(.)|\x17(?=(..))", module, re.DOTALL):
        if match.group(1):
            tag, codes = match.group(1)[0], []
        elif match.group(2):
            codes.append(match.group(2)[0])
        elif (match.start() + 3 + number(match.group(3), 0, 2)) % 65536 == routine:
            lines.setdefault(tag, []).append(codes)
            codes = []
    return lines


def programs_of(fields):
    """The lines of each program of a row."""
    files = [bytes.fromhex(fields[1].strip("-"))]
    for field in (fields[8], fields[10]):
        if field != "-":
            image = image_of(field)
            files.append(image[256 * number(image, 21, 3) :][: number(image, 24, 2)])
            files.extend(files_of(image, number(image, 8, 3)))
    return [lines for held in files for lines in map(lines_of, modules_of(held)) if lines]


def refusals(code):
    return {int(word) for word in CALLS[code].split()} if code in CALLS else UNKNOWN


def is_answer(code, answer):
    """May a call be answered so? The answer of a call that a signal ended is the signal's number."""
    if answer == "done":
        return code in CALLS
    return answer in refusals(code) or (code in WAITING and answer < LEAST_ERROR)


def runs_of(out):
    """The tags and answers of each program that began, where it begins again at a chain."""
    runs, current = [], {}
    for match in LINE.finditer(out):
        tag, process, flags, _, b = bytes.fromhex(match.group(1).decode())[:5]
        if tag == START and any(other != START for other, _ in current.get(process, [(None, None)])):
            current[process] = []
            runs.append(current[process])
        if process in current and (tag < NO_CALL or tag == START):
            current[process].append((tag, b if flags & 1 else "done"))
    return runs


def read_as(lines, run):
    """The calls of a run with their answers, if it is one of the program with these lines. A line that is left out
    is one over which an error led."""
    places, found = {}, set()
    for tag, answer in run:
        of_tag = lines.get(tag, [])
        first = places.get(tag, 0) % max(1, len(of_tag))
        for place in range(first, len(of_tag)):
            may = [code for code in of_tag[place] if is_answer(code, answer)]
            if may or not of_tag[place]:
                places[tag] = place + 1
                found |= {(may[-1], shown(answer))} if may else set()
                break
        else:
            return None
    return found


def answers_of(fields):
    """The calls of a row with their answers, as far as one program alone can be meant. The first one runs first."""
    programs, answers = programs_of(fields), {("status", fields[5]), ("words", fields[0].split()[0])}
    others = [lines for lines in programs if lines != programs[0]]
    for place, run in enumerate(runs_of(bytes.fromhex(fields[6].strip("-")))):
        may = [read_as(lines, run) for lines in (programs[:1] if place == 0 else others)]
        found = [calls for calls in may if calls is not None]
        answers |= set.intersection(*found) if found else set()
    return answers


def shown(answer):
    return answer if answer == "done" or answer >= LEAST_ERROR else "signal"


def chosen(rows, count, first):
    """The places of so many rows, with the first ones among them. The others are taken one by one, each time the row
    that has most of what few have that were taken, for its length."""
    answers = [answers_of(row.split("\t")) for row in rows]
    taken = list(first)
    while len(taken) < count:
        times = Counter(answer for place in taken for answer in answers[place])
        left = [place for place in range(len(rows)) if place not in taken]
        taken.append(max(left, key=lambda n: sum(8.0 ** -times[answer] for answer in answers[n]) / len(rows[n])))
    missing = set.union(*answers) - set.union(*(answers[place] for place in taken))
    assert not missing, missing
    return sorted(taken)


def main(path, count, *numbers):
    with open(path) as file:
        rows = file.read().splitlines()
    print("# programs over disk images and without them, chosen of a longer list")
    for place in chosen(rows, int(count), [int(number) - 1 for number in numbers]):
        print(rows[place])


if __name__ == "__main__":
    main(*sys.argv[1:])
