#!/usr/bin/env python3
"""Prints the rows of the disks of examples/ and docs/GUESTS.md that a boot changes, for the stdin of this crate: files
that are made, and three files that get other attributes.

What the disks hold before is read here (docs/disk.md), and what a boot makes of them is said here too, by docs/calls.md
and examples/README.md: neither shares text with the program. src/row.rt has the fields of a row."""

from pathlib import Path

from worked_rows import ALL_MAY, NEW, OLD, WRITTEN, boot_disk, directory_line, file_line, tree

EXAMPLES = Path(__file__).parents[2] / "examples"
SECTOR = 256


def field(image):
    """An image, as a row has it."""
    held = [(lsn, image[at : at + SECTOR].rstrip(b"\0")) for lsn, at in enumerate(range(0, len(image), SECTOR))]
    return ";".join([str(len(image))] + [f"{lsn}:{data.hex()}" for lsn, data in held if data])


def descriptor(image, number):
    """The attributes, dates and contents of the file with this descriptor."""
    held = image[SECTOR * number : SECTOR * (number + 1)]
    dates = f"{held[3:8].hex()} {held[13:16].hex()}"
    contents = b""
    for at in range(16, SECTOR - 5, 5):
        first, count = int.from_bytes(held[at : at + 3], "big"), int.from_bytes(held[at + 3 : at + 5], "big")
        contents += image[SECTOR * first : SECTOR * (first + count)]
    return held[0], dates, contents[: int.from_bytes(held[9:13], "big")]


def lines(image, number=None, path=""):
    """The line of each file by its path, from this directory on."""
    number = int.from_bytes(image[8:11], "big") if number is None else number
    attributes, dates, listing = descriptor(image, number)
    found, names = {}, []
    for at in range(64, len(listing), 32):
        entry = listing[at : at + 32]
        end = next(it for it in range(29) if entry[it] & 0x80)
        name = (entry[:end] + bytes([entry[end] & 0x7F])).decode()
        target = int.from_bytes(entry[29:32], "big")
        names.append(name)
        mode, written, contents = descriptor(image, target)
        if mode & 0x80:
            found |= lines(image, target, f"{path}/{name}")
        else:
            found[f"{path}/{name}"] = file_line(f"{path}/{name}", mode, contents, written)
    assert attributes == ALL_MAY
    found[path or "/"] = directory_line(path or "/", names, dates)
    return found


def row(name, image, script, slices, out, left, free):
    """A row by its name; the image is a field, and what it holds afterwards the lines of its files."""
    print("#", name)
    words = "boot d0.img --slices slices --script script"
    print(words, "-", 0, slices.encode().hex(), script.encode().hex() or "-", 0, out.hex(), "-", image,
          tree(left.values(), free), "-", "-", sep="\t")


def text(name):
    return (EXAMPLES / name).read_text()


def logs():
    """The first boot of log.img makes the file."""
    image = (EXAMPLES / "log.img").read_bytes()
    left = lines(image)
    made = left["/"].split(" ")[4]
    left["/"] = directory_line("/", ["OS9Boot", "log"], f"{NEW.split()[0]} {made}")
    left["/log"] = file_line("/log", 3, b"booted\r", NEW)
    row("log.img", field(image), text("log.keys"), text("log.slices"), b"booted\r\n", left, 24)


def shell():
    """The session of shell.keys. Allow gives three programs the attributes 2F."""
    image = (EXAMPLES / "shell.img").read_bytes()
    out = (
        "OS9:Allow CMDS/Hello CMDS/Say CMDS/List|OS9:Hello|Hello|OS9:Say one, two|one, two|OS9:List note|"
        "The first line.|The second one.|OS9:Nobody|ERROR #216|OS9:"
    )
    left = lines(image)
    for path in "/CMDS/Hello", "/CMDS/Say", "/CMDS/List":
        name, _, rest = left[path].split(" ", 2)
        left[path] = f"{name} 2f {rest}"
    out = out.replace("|", "\r\n").encode()
    row("shell.img", field(image), text("shell.keys"), text("shell.slices"), out, left, 48)


def account():
    """Two programs add 1 to the number of a file three times each. Its size stays, and so do its dates."""
    image = (EXAMPLES / "account.img").read_bytes()
    left = lines(image)
    dates = " ".join(left["/account"].split(" ")[3:5])
    left["/account"] = file_line("/account", 0x0B, b"0006\r", dates)
    row("account.img", field(image), text("log.keys"), text("account.slices"), b"0006\r\n", left, 24)


def names():
    """The first boot of docs/GUESTS.md, over a disk that is laid out here: it asks for a name, and makes the file."""
    modules = (EXAMPLES / "names.mod").read_bytes()
    left = {
        "/": directory_line("/", ["OS9Boot", "NAMES"], WRITTEN),
        "/OS9Boot": file_line("/OS9Boot", 3, modules, OLD),
        "/NAMES": file_line("/NAMES", 3, b"Ada\r", NEW),
    }
    disk = boot_disk(modules)
    free = disk.total // disk.cluster - len(disk.marked) - 2  # a descriptor and a sector
    out = b"Your name? Ada\r\nAda\r\n"
    row("the program of docs/GUESTS.md", disk.field(), "1 TERM 41 64 61 0D\n", "1000*20\n", out, left, free)


logs()
shell()
account()
names()
