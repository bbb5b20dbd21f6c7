#!/usr/bin/env python3
"""Makes a disk image bootable: set_boot.py IMAGE [NAME]

Sets the two fields of LSN 0 by which a boot file is found, DD.BT and DD.BSZ, to the file NAME of the
root directory, else OS9Boot. Its bytes have to lie in one piece. All other bytes of IMAGE stay.
"""
import sys

SECTOR = 256
DIRECTORY = 0x80
MOST_BYTES = 0xFFFF


class NoBootFile(Exception):
    """Why a file cannot be the boot file."""


def number(data):
    return int.from_bytes(data, "big")


def sector(image, lsn):
    return image[SECTOR * lsn:SECTOR * (lsn + 1)]


def describe(image, lsn):
    """The size of the file of a descriptor, and its sectors in order."""
    descriptor = sector(image, lsn)
    sectors = []
    for at in range(16, SECTOR, 5):
        first, count = number(descriptor[at:at + 3]), number(descriptor[at + 3:at + 5])
        if count == 0:
            break
        sectors.extend(range(first, first + count))
    return number(descriptor[9:13]), sectors


def contents(image, lsn):
    size, sectors = describe(image, lsn)
    return b"".join(sector(image, it) for it in sectors)[:size]


def find(image, name):
    """The descriptor that the root directory names so, with the case of letters ignored."""
    entries = contents(image, number(image[8:11]))
    for at in range(64, len(entries), 32):
        text = entries[at:at + 29].split(b"\0")[0]
        if text and bytes(byte & 0x7F for byte in text).lower() == name.lower().encode():
            return number(entries[at + 29:at + 32])
    raise NoBootFile(f"the root has no file {name}")


def set_boot(image, name):
    """The image whose boot file is the one of this name."""
    lsn = find(image, name)
    if sector(image, lsn)[0] & DIRECTORY:
        raise NoBootFile(f"{name} is a directory")
    size, sectors = describe(image, lsn)
    sectors = sectors[:(size + SECTOR - 1) // SECTOR]
    if not 0 < size <= MOST_BYTES:
        raise NoBootFile(f"{name} has {size} bytes, and a boot file has 1 to {MOST_BYTES}")
    if sectors != list(range(sectors[0], sectors[0] + len(sectors))):
        raise NoBootFile(f"{name} does not lie in one piece")
    return image[:21] + sectors[0].to_bytes(3, "big") + size.to_bytes(2, "big") + image[26:]


def main():
    if len(sys.argv) not in (2, 3):
        sys.exit(__doc__.strip())
    name = sys.argv[2] if len(sys.argv) == 3 else "OS9Boot"
    with open(sys.argv[1], "rb") as file:
        image = file.read()
    try:
        image = set_boot(image, name)
    except NoBootFile as why:
        sys.exit(f"set_boot.py: {why}")
    with open(sys.argv[1], "wb") as file:
        file.write(image)


if __name__ == "__main__":
    main()
