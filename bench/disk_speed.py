"""Counts the host instructions of calls on disks, by disk_vectors under callgrind.

disk_speed.py PROGRAM, where PROGRAM is the built disk_vectors. Each number is that of a row with the
calls, less that of the same row without them, divided by the bytes or files. So making the bytes of a
write, the checksum of a read, and the lines that are printed count too. Needs valgrind.
"""
import re
import subprocess
import sys

MOVED = 16 * 3840
FILES = 20


def name_field(name):
    text = name.encode()
    return (text[:-1] + bytes([text[-1] | 0x80])).ljust(29, b"\0")


def descriptor(attr, size, segments):
    fields = bytes([attr, 0, 0, 86, 7, 4, 12, 30, 1]) + size.to_bytes(4, "big") + bytes([86, 7, 4])
    for lsn, count in segments:
        fields += lsn.to_bytes(3, "big") + count.to_bytes(2, "big")
    return fields


def image(total, files, size=0):
    """A volume of so many sectors: files in the root, of which the first has a size in bytes."""
    map_bytes = (total + 7) // 8
    root = 1 + (map_bytes + 255) // 256
    entries = [("..", root), (".", root)]
    # Room is left for the entries that are new, so that none needs another sector.
    length = (2 + files + FILES + 7) // 8 * 8
    next_free = root + 1 + length // 8
    sectors = {}
    for i in range(files):
        data = (size + 255) // 256 if i == 0 else 0
        segments = [(next_free + 1, data)] if data else []
        sectors[next_free] = descriptor(0x03, size if i == 0 else 0, segments)
        entries.append((f"F{i}", next_free))
        next_free += 1 + data
    bytes_of = b"".join(name_field(name) + lsn.to_bytes(3, "big") for name, lsn in entries)
    bytes_of = bytes_of.ljust(32 * length, b"\0")
    sectors[root] = descriptor(0xBF, len(bytes_of), [(root + 1, length // 8)])
    for place in range(0, len(bytes_of), 256):
        sectors[root + 1 + place // 256] = bytes_of[place : place + 256]
    sectors[0] = (
        total.to_bytes(3, "big") + b"\0" + map_bytes.to_bytes(2, "big") + b"\0\1" + root.to_bytes(3, "big")
    )
    bits = ((1 << next_free) - 1) << (8 * map_bytes - next_free)
    marks = bits.to_bytes(map_bytes, "big")
    for place in range(0, map_bytes, 256):
        sectors[1 + place // 256] = marks[place : place + 256]
    parts = [str(256 * total)]
    for lsn in sorted(sectors):
        data = sectors[lsn].rstrip(b"\0")
        if data:
            parts.append(f"{lsn}:{data.hex()}")
    return ";".join(parts)


def instructions(program, field, calls):
    row = "\t".join(["1", field, "-", "mount", *calls]) + "\n"
    words = ["valgrind", "--tool=callgrind", "--callgrind-out-file=/dev/null", program]
    run = subprocess.run(words, input=row, text=True, capture_output=True, check=True)
    for line in run.stdout.splitlines()[2 : 3 + len(calls)]:
        assert re.fullmatch(r"\d+ ok.*", line), line
    return int(re.search(r"Collected : (\d+)", run.stderr)[1])


def cost(program, field, calls, per):
    with_calls = instructions(program, field, calls)
    return (with_calls - instructions(program, field, [])) / per


def main():
    program = sys.argv[1]
    for times in (1, 4):
        size = times * MOVED
        field = image(4096, 1, size)
        places = range(0, size, 3840)
        writes = [f"write /F0 {at} 3840*7" for at in places]
        reads = [f"read /F0 {at} 3840" for at in places]
        print(f"a byte written, of {size}: {cost(program, field, writes, size):.1f}", flush=True)
        print(f"a byte read, of {size}: {cost(program, field, reads, size):.1f}", flush=True)
    creations = [f"create /N{i} 0b 0 r" for i in range(FILES)]
    for megabytes, files in ((1, 1000), (128, 1000), (128, 8000)):
        field = image(min(4096 * megabytes, 524280), files)
        count = cost(program, field, creations, FILES)
        print(f"a file created among {files}, {megabytes} MiB: {count:.0f}", flush=True)


if __name__ == "__main__":
    main()
