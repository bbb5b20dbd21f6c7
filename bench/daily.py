#!/usr/bin/env python3
"""Counts what daily work on disks costs: daily.py OS9 DISK_VECTORS, the two built programs.

Each guest runs twice, with few calls and with many, under callgrind; the difference is divided by the calls
that the second one makes more, so the guest's own instructions count too. Needs valgrind.
"""
import os
import re
import subprocess
import sys
import tempfile

TOP = os.path.dirname(os.path.dirname(os.path.abspath(__file__)))
sys.path[:0] = [os.path.join(TOP, "bench"), os.path.join(TOP, "crates", "boot_vectors")]

from assemble import assemble
from disk_speed import descriptor, name_field
from make_image import Volume


def repeated(begin, work, texts, room=1000):
    """A guest that does its work COUNT times, once it has begun."""
    return f"""
        mod     SysGo,$11,$81,{room}
start   {begin.strip()}
        ldd     #COUNT
        std     <2
again   {work.strip()}
count   ldd     <2
        subd    #1
        std     <2
        bne     again
        clrb
exit    os9     $06
{texts}        emod
"""


def named(label, text):
    return f"""{label:8}fcc     "{text}"
        fcb     $0D
"""


# Makes the file NEW.
MAKE = """
        leax    <name,pcr
        lda     #3
        ldb     #3
        os9     $83
        bcs     exit
"""

# Writes 4,096 bytes to it, each time at its end.
WRITE = repeated(
    MAKE + "        sta     0",
    """
        lda     0
        ldx     #256
        ldy     #4096
        os9     $8A
        bcs     exit
""",
    named("name", "NEW"),
    room=6000,
)

# Writes a byte at its end COUNT times. A call keeps A, X and Y, so X is the count and the place of the byte.
APPEND = f"""
        mod     SysGo,$11,$81,1000
start   {MAKE.strip()}
        ldx     #COUNT
        ldy     #1
again   os9     $8A
        bcs     exit
        leax    -1,x
        bne     again
        clrb
exit    os9     $06
{named("name", "NEW")}        emod
"""


def seek_and_read(sectors):
    """Goes so many sectors on in the 256 of which X is the high half of the position, and reads a sector."""
    return f"""        leau    {256 * sectors},u
        os9     $88
        lbcs    exit
        os9     $89
        lbcs    exit
"""


# Goes through the 4,096 sectors of BIG COUNT times, 16 sectors to a round, and never reads one that was among the
# last 256. A call keeps A, X, Y and U, so X is the high half of the position and the place of the buffer too.
READ = f"""
        mod     SysGo,$11,$81,1000
start   leax    name,pcr
        lda     #1
        os9     $84
        lbcs    exit
        ldx     #0
        ldy     #256
        ldu     #0
        ldb     #COUNT
        stb     >769
        clr     >768
again   {(seek_and_read(78) + 15 * seek_and_read(77)).strip()}
        leax    1,x
        cmpx    #16
        bne     count
        ldx     #0
count   dec     >768
        lbne    again
        dec     >769
        lbne    again
        clrb
exit    os9     $06
{named("name", "BIG")}        emod
"""

# Goes to the directory DIR; the first name is F0000.
ENTER = """
        leax    <dir,pcr
        lda     #3
        os9     $86
        bcs     exit
        ldd     #$4630
        std     <16
        ldd     #$3030
        std     <18
        ldd     #$300D
        std     <20
"""

# Makes the file of the name, and counts the name up.
CREATE_NEXT = """
        ldx     #16
        lda     #2
        ldb     #3
        os9     $83
        bcs     exit
        os9     $8F
        bcs     exit
        ldx     #20
next    lda     >0,x
        inca
        sta     >0,x
        cmpa    #58
        bne     count
        lda     #48
        sta     >0,x
        leax    >-1,x
        bra     next
"""

CREATE = repeated(ENTER, CREATE_NEXT, named("dir", "DIR"))

# Copies BIG to COPY, 256 bytes at a time.
with open(os.path.join(TOP, "bench", "copy.asm")) as source:
    COPY = source.read()

# Ends at once.
NOTHING = """
        mod     SysGo,$11,$81,1000
start   clrb
        os9     $06
        emod
"""


def collected(words, **more):
    """The host instructions of a run of these words, and what it printed."""
    counted = ["valgrind", "--tool=callgrind", "--callgrind-out-file=/dev/null", *words]
    run = subprocess.run(counted, text=True, capture_output=True, check=True, **more)
    return int(re.search(r"Collected : (\d+)", run.stderr)[1]), run.stdout


def write_disk(path, source, sectors, big=0, room=0):
    """A volume with a boot file of this guest, BIG of so many sectors, and DIR with room for so many entries."""
    volume = Volume(sectors)
    root = volume.take(1)
    entries = [("OS9Boot", volume.boot_file(assemble(source)))]
    if big:
        entries.append(("BIG", volume.file(big)))
    if room:
        lsn = volume.take(1)
        volume.directory(lsn, root, [])
        volume.take(room // 8)
        first = int.from_bytes(volume.image[256 * lsn + 16 : 256 * lsn + 19], "big")
        volume.describe(lsn, 0xBF, 64, first, 1 + room // 8)
        entries.append(("DIR", lsn))
    volume.directory(root, root, entries)
    volume.finish(root)
    with open(path, "wb") as out:
        out.write(volume.image)


def boot(program, source, count=0, check=None, **disk):
    """The host instructions of a boot whose guest does its work so many times."""
    write_disk("disk", source.replace("COUNT", str(count)), **disk)
    cost, _ = collected([program, "boot", "disk", "--script", "script", "--slices", "slices"])
    counted = subprocess.run([program, "check", "disk"], text=True, capture_output=True, check=True).stdout
    assert check is None or counted.startswith(check), counted
    return cost


def each(program, source, few, many, **disk):
    return (boot(program, source, many, **disk) - boot(program, source, few, **disk)) / (many - few)


def copied(program):
    costs = [boot(program, COPY, sectors=16384, big=sectors, check="files 3 ") for sectors in (2048, 4096)]
    return (costs[1] - costs[0]) / 4096


def created(program, files):
    """The mean of the first so many files of one directory, in one run."""
    disk = {"sectors": 4096, "room": 1016}
    many = boot(program, CREATE, files, check=f"files {files + 1} ", **disk)
    return (many - boot(program, CREATE, 1, **disk)) / (files - 1)


def row(marks, calls):
    """A row of disk_vectors: a volume of 524,280 sectors with the empty file F behind its own sectors, and these
    clusters marked."""
    sectors, map_bytes, root = 524280, 65535, 257
    named = (("..", root), (".", root), ("F", root + 2))
    entries = b"".join(name_field(name) + lsn.to_bytes(3, "big") for name, lsn in named)
    parts = {
        0: sectors.to_bytes(3, "big") + b"\0" + map_bytes.to_bytes(2, "big") + b"\0\1\0" + root.to_bytes(2, "big"),
        root: descriptor(0xBF, 96, [(root + 1, 1)]),
        root + 1: entries,
        root + 2: descriptor(3, 0, []),
    }
    bits = bytearray(map_bytes)
    for lsn in (*range(root + 3), *marks(root + 3)):
        bits[lsn // 8] |= 0x80 >> lsn % 8
    for place in range(0, map_bytes, 256):
        parts[1 + place // 256] = bytes(bits[place : place + 256])
    image = ";".join([str(256 * sectors)] + [f"{lsn}:{data.hex()}" for lsn, data in sorted(parts.items())])
    return "\t".join(["1", image, "-", "mount", *calls]) + "\n"


def driver_calls(program, writes):
    """How many calls of the drive a boot makes whose guest writes 4,096 bytes at the end of a file so many times."""
    write_disk("disk", WRITE.replace("COUNT", str(writes)), sectors=4096)
    counted = ["valgrind", "--tool=callgrind", "--compress-strings=no", "--callgrind-out-file=calls"]
    words = [*counted, program, "boot", "disk", "--script", "script", "--slices", "slices"]
    subprocess.run(words, check=True, capture_output=True)
    with open("calls") as lines:
        text = lines.read()
    counts = re.findall(r"^cfn=.*SureDrive.*::(?:read|write)(?:'\d+)?\ncalls=(\d+) ", text, re.M)
    return sum(int(count) for count in counts)


def grown(vectors, calls):
    """The answer of the last of these calls on the file F, and its host instructions, on a volume of 524,280 sectors
    of which every second one is free."""
    lines = [row(lambda first: range(first, 524280, 2), some) for some in (calls[:-1], calls)]
    costs = [collected([vectors], input=line) for line in lines]
    answer = re.findall(r"^\d+ (.*)$", costs[1][1], re.M)[len(calls)]
    return answer, costs[1][0] - costs[0][0]


def main():
    if len(sys.argv) != 3:
        sys.exit(__doc__.strip())
    program, vectors = (os.path.abspath(word) for word in sys.argv[1:])
    with tempfile.TemporaryDirectory() as folder:
        os.chdir(folder)
        with open("script", "w") as script:
            script.write("# no key\n")
        with open("slices", "w") as slices:
            slices.write("1000000*10\n")
        calls = (driver_calls(program, 17) - driver_calls(program, 1)) / 16
        print(f"calls of the drive of a write of 4,096 bytes at the end: {calls:.2f}", flush=True)
        print(f"one byte appended: {each(program, APPEND, 1000, 5000, sectors=4096):.0f}", flush=True)
        print(f"a call of a copy by 256 bytes: {copied(program):.0f}", flush=True)
        cost = each(program, READ, 1, 4, sectors=8192, big=4096) / 4096
        print(f"a seek and a read of a sector: {cost:.0f}", flush=True)
        for files in (400, 1000):
            print(f"each of {files} files: {created(program, files):.0f}", flush=True)
        print(f"a boot of 128 MiB: {boot(program, NOTHING, sectors=524280) / 1e6:.1f} million", flush=True)
        for calls in (["size /F 12288"], ["size /F 12544"], ["size /F 12544"] * 2, ["size /F 12544", "size /F 12288"]):
            answer, cost = grown(vectors, calls)
            print(f"262,000 holes, {', '.join(calls)}: {answer}, {cost} host instructions", flush=True)


if __name__ == "__main__":
    main()
