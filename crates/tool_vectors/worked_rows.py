#!/usr/bin/env python3
"""Prints rows of commands with what they answer and leave, worked out by hand: worked_rows.py [IMAGE..]

The rows have names of 29 and 30 characters and paths of each wrong form, the smallest disks, a worn disk
on which a file needs more segments than there are, permissions that are missing, and checks. With images, of
other makers, they are rows on these: what is listed and read, and what a new file and a new directory
leave. A row is as those that are known from elsewhere: its number, the image, the commands.
"""
import os
import sys

sys.path.append(os.path.join(os.path.dirname(os.path.abspath(__file__)), "..", "disk_vectors"))

from disk_bytes import crc24, name_field, pattern

DATE = ("5a01010000", "5a0101")
ROOT_ATTRIBUTES, FILE_ATTRIBUTES = 0xBF, 0x0B


def number(data):
    return int.from_bytes(data, "big")


def entry(name, lsn):
    return name_field(name) + lsn.to_bytes(3, "big")


def listing(own, parent, entries):
    return entry("..", parent) + entry(".", own) + b"".join(entry(name, lsn) for name, lsn in entries)


class Disk:
    """A disk of sectors that are clusters, laid out by hand."""

    def __init__(self, sectors):
        self.data = bytearray(256 * sectors)
        self.data[0:11] = sectors.to_bytes(3, "big") + b"\0" + ((sectors + 7) // 8).to_bytes(2, "big") + b"\0\1\0\0\2"
        self.mark(0, 1)

    def mark(self, *clusters):
        for it in clusters:
            self.data[256 + it // 8] |= 0x80 >> it % 8

    def file(self, lsn, attributes, contents):
        """A file whose one segment lies behind its descriptor."""
        count = (len(contents) + 255) // 256
        fields = bytes([attributes, 0, 0]) + bytes.fromhex(DATE[0]) + b"\1" + len(contents).to_bytes(4, "big")
        fields += bytes.fromhex(DATE[1]) + (lsn + 1).to_bytes(3, "big") + count.to_bytes(2, "big")
        self.data[256 * lsn:256 * lsn + len(fields)] = fields
        self.data[256 * (lsn + 1):256 * (lsn + 1) + len(contents)] = contents
        self.mark(*range(lsn, lsn + 1 + count))


def field(data):
    """An image as a row has it."""
    parts = [str(len(data))]
    for lsn in range(len(data) // 256 + 1):
        sector = bytes(data[256 * lsn:256 * lsn + 256]).rstrip(b"\0")
        if sector:
            parts.append(f"{lsn}:{sector.hex()}")
    return ";".join(parts)


def described(path, attributes, dates=DATE, owner=0, links=1):
    return f"{path} {attributes:02x} {owner} {dates[0]} {dates[1]} {links}"


def file_line(path, contents, attributes=FILE_ATTRIBUTES):
    return f"{described(path, attributes)} {len(contents)} {crc24(contents):06x}"


def directory_line(path, names, attributes=ROOT_ATTRIBUTES):
    return f"{described(path, attributes)} [{','.join(names)}]"


def left(image, lines, free, lost=0):
    """An image that a command leaves, by its tree: its length and sector 0 are those of `image`."""
    tree = ";".join(sorted(lines))
    return f"i {len(image)} {tree};free {free} lost {lost} sector 0 {crc24(image[:256]):06x}"


def done(words, file="-", lines="-", change="-"):
    return f"{words}|{file}|0|{lines}|-|{change}"


def refused(words, error, file="-"):
    return f"{words}|{file}|11|-|os9: i: error {error}|-"


def blank(sectors, cluster):
    """LSN 0 of a disk that has been formatted, in an image of its length."""
    map_bytes = ((sectors + cluster - 1) // cluster + 7) // 8
    root = 1 + (map_bytes + 255) // 256
    first = sectors.to_bytes(3, "big") + b"\0" + map_bytes.to_bytes(2, "big") + cluster.to_bytes(2, "big")
    first += root.to_bytes(3, "big") + b"\0\0\xff" + bytes(12) + bytes.fromhex(DATE[0])
    return first.ljust(256 * sectors, b"\0")


def names_row():
    """The root's 60 free clusters lose two for a file and two for a directory."""
    image, long, other = blank(64, 1), "a" * 29, "Name_of.29.characters_long_29"
    one, two, three = pattern(3, 7), pattern(256, 8), pattern(257, 9)
    root = directory_line("/", [long, "B"])
    in_b = [directory_line("/B", [other, "C"]), file_line(f"/B/{other}", two)]
    commands = [done("vol,format,i,64", change=left(image, [directory_line("/", [])], 60))]
    for path in ("", "/", f"/{long}", f"{long}/", f"{long}//B", "a-b", "a b", "a" * 30, f"B/{'a' * 30}", ".", "..", "NOPE/.", "B/.."):
        commands += [refused(f"vol,put,i,{path},f", 215, "3*7"), refused(f"vol,mkdir,i,{path}", 215)]
    for path in ("", "/", "/A", "A/", "A//B", "a-b", "a" * 30):
        commands += [refused(f"vol,get,i,{path},g", 215), refused(f"vol,delete,i,{path}", 215)]
    commands += [refused(f"vol,dir,i,{path}", 215) for path in ("", "//", "/A", "A/", "a" * 30)]
    commands += [
        refused("vol,put,i,NOPE/A,f", 216, "3*7"),
        refused("vol,mkdir,i,NOPE/A", 216),
        done(f"vol,put,i,{long},f", "3*7", change=left(image, [directory_line("/", [long]), file_line(f"/{long}", one)], 58)),
        done("vol,mkdir,i,B", change=left(image, [root, file_line(f"/{long}", one), directory_line("/B", [])], 56)),
        refused(f"vol,put,i,{long.upper()},f", 218, "3*7"),
        refused("vol,put,i,b,f", 218, "3*7"),
        refused(f"vol,mkdir,i,{long}", 218),
        done(f"vol,put,i,B/../b/./{other},f", "256*8", change=left(image, [root, file_line(f"/{long}", one), directory_line("/B", [other]), in_b[1]], 54)),
        done("vol,put,i,B/C,f", "257*9", change=left(image, [root, file_line(f"/{long}", one), *in_b, file_line("/B/C", three)], 51)),
        done(f"vol,get,i,{'A' * 29},g", change=f"g 3 {crc24(one):06x}"),
        done(f"vol,get,i,B/../B/{other.swapcase()},g", change=f"g 256 {crc24(two):06x}"),
        done("vol,dir,i,/", lines=f"0B 3 {long};BF 128 B"),
        done("vol,dir,i,B", lines=f"0B 256 {other};0B 257 C"),
        done("vol,dir,i,b/..", lines=f"0B 3 {long};BF 128 B"),
        refused("vol,get,i,B,g", 214),
        refused(f"vol,dir,i,{long}", 214),
        refused("vol,delete,i,B", 214),
        refused("vol,delete,i,B/..", 214),
        refused(f"vol,put,i,{long}/X,f", 214, "3*7"),
        refused(f"vol,get,i,{long}/X,g", 214),
        refused("vol,get,i,B/D,g", 216),
        refused("vol,delete,i,B/D", 216),
        refused("vol,dir,i,B/D", 216),
        done("vol,delete,i,B/c", change=left(image, [root, file_line(f"/{long}", one), directory_line("/B", [other, "-"]), in_b[1]], 54)),
        done("check,i", lines="files 2 dirs 2 free 54 lost 0"),
    ]
    return "-", commands


def smallest_row():
    """16 sectors: LSN 0, a sector of the map, the root's descriptor and its sector are in use."""
    image, most = blank(16, 1), pattern(11 * 256, 5)
    empty = left(image, [directory_line("/", [])], 12)
    return "-", [
        done("vol,format,i,16", change=empty),
        refused("vol,put,i,A,f", 248, f"{11 * 256 + 1}*5"),
        done("check,i", lines="files 0 dirs 1 free 12 lost 0"),
        done("vol,put,i,A,f", f"{11 * 256}*5", change=left(image, [directory_line("/", ["A"]), file_line("/A", most)], 0)),
        refused("vol,put,i,B,f", 248, "0*0"),
        refused("vol,mkdir,i,B", 248),
        done("vol,get,i,A,g", change=f"g {11 * 256} {crc24(most):06x}"),
        done("vol,delete,i,A", change=left(image, [directory_line("/", ["-"])], 12)),
        done("vol,mkdir,i,B", change=left(image, [directory_line("/", ["B"]), directory_line("/B", [])], 10)),
    ]


def whole_cluster_row():
    """16 sectors, in one cluster that is not whole."""
    image = blank(16, 64)
    return "-", [
        done("vol,format,i,16,--cluster=64", change=left(image, [directory_line("/", [])], 0)),
        refused("vol,put,i,A,f", 248, "0*0"),
        refused("vol,mkdir,i,A", 248),
        done("vol,repair,i", lines="freed 0"),
        done("check,i", lines="files 0 dirs 1 free 0 lost 0"),
    ]


def worn_row():
    """Of the clusters from 4 to 239 every second one is lost, so that each free one is a segment."""
    disk = Disk(240)
    disk.file(2, ROOT_ATTRIBUTES, listing(2, 2, []))
    disk.mark(*range(5, 240, 2))
    image, most = bytes(disk.data), pattern(48 * 256, 3)
    root = directory_line("/", ["A"])
    return field(image), [
        done("check,i", lines="files 0 dirs 1 free 118 lost 118"),
        refused("vol,put,i,A,f", 217, f"{49 * 256}*3"),
        done("check,i", lines="files 0 dirs 1 free 118 lost 118"),
        done("vol,put,i,A,f", f"{48 * 256}*3", change=left(image, [root, file_line("/A", most)], 69, 118)),
        refused("vol,put,i,B,f", 248, f"{69 * 256}*3"),
        done("vol,repair,i", lines="freed 118", change=left(image, [root, file_line("/A", most)], 187)),
        done("vol,get,i,A,g", change=f"g {48 * 256} {crc24(most):06x}"),
    ]


def permissions_row():
    """Files and directories with some of the owner's permissions: 1 to read, 2 to write."""
    disk = Disk(64)
    files = [("none", 4, 0x38), ("read", 6, 0x01), ("write", 8, 0x02)]
    directories = [("Closed", 10, 0xBE), ("Fixed", 12, 0xBD)]
    disk.file(2, ROOT_ATTRIBUTES, listing(2, 2, [(name, lsn) for name, lsn, _ in files + directories]))
    for name, lsn, attributes in files:
        disk.file(lsn, attributes, name.encode())
    disk.file(10, 0xBE, listing(10, 2, [("in", 14)]))
    disk.file(12, 0xBD, listing(12, 2, [("in", 16)]))
    disk.file(14, FILE_ATTRIBUTES, b"one")
    disk.file(16, FILE_ATTRIBUTES, b"two")
    image = bytes(disk.data)
    kept = [
        file_line("/none", b"none", 0x38),
        file_line("/read", b"read", 0x01),
        directory_line("/Closed", ["in"], 0xBE),
        file_line("/Closed/in", b"one"),
        directory_line("/Fixed", ["in"], 0xBD),
        file_line("/Fixed/in", b"two"),
    ]
    root = directory_line("/", ["none", "read", "-", "Closed", "Fixed"])
    return field(image), [
        done("vol,dir,i,/", lines="38 4 none;01 4 read;02 5 write;BE 96 Closed;BD 96 Fixed"),
        refused("vol,get,i,none,g", 214),
        refused("vol,get,i,write,g", 214),
        done("vol,get,i,read,g", change=f"g 4 {crc24(b'read'):06x}"),
        refused("vol,delete,i,none", 214),
        refused("vol,delete,i,read", 214),
        refused("vol,dir,i,Closed", 214),
        refused("vol,get,i,Closed/in,g", 214),
        refused("vol,get,i,Closed/NOPE,g", 214),
        refused("vol,put,i,Closed/new,f", 214, "1*1"),
        refused("vol,mkdir,i,Closed/new", 214),
        refused("vol,delete,i,Closed/in", 214),
        done("vol,dir,i,Fixed", lines="0B 3 in"),
        done("vol,get,i,Fixed/in,g", change=f"g 3 {crc24(b'two'):06x}"),
        refused("vol,put,i,Fixed/in,f", 214, "1*1"),
        refused("vol,put,i,Fixed/new,f", 214, "1*1"),
        refused("vol,mkdir,i,Fixed/new", 214),
        refused("vol,delete,i,Fixed/in", 214),
        refused("vol,delete,i,Fixed/NOPE", 214),
        done("vol,delete,i,write", change=left(image, [root, *kept], 48)),
    ]


class Image:
    """The image of another maker, by a reading of its own."""

    def __init__(self, path):
        with open(path, "rb") as file:
            self.data = file.read()
        first = self.sector(0)
        self.total, self.k = number(first[:3]), number(first[6:8])
        self.owned = set(range(1 + (number(first[4:6]) + 255) // 256))
        self.tree, self.gets, self.lists = [], [], []
        self.search(number(first[8:11]), "")

    def sector(self, lsn):
        return self.data[256 * lsn:256 * lsn + 256]

    def search(self, lsn, path):
        """Reads a file or directory, and what is in it; its line of a listing."""
        fields, sectors = self.sector(lsn), []
        for at in range(16, 256, 5):
            first, count = number(fields[at:at + 3]), number(fields[at + 3:at + 5])
            if count == 0:
                break
            sectors.extend(range(first, first + count))
        self.owned |= {lsn, *sectors}
        size = number(fields[9:13])
        data = b"".join(self.sector(it) for it in sectors)[:size]
        head = described(path or "/", fields[0], (fields[3:8].hex(), fields[13:16].hex()), number(fields[1:3]), fields[8])
        if fields[0] < 0x80:
            self.tree.append(f"{head} {size} {crc24(data):06x}")
            self.gets.append(done(f"vol,get,i,{path[1:]},g", change=f"g {size} {crc24(data):06x}"))
        else:
            self.directory(data, head, path)
        return f"{fields[0]:02X} {size}"

    def directory(self, data, head, path):
        names, lines = [], []
        for at in range(64, len(data), 32):
            text = bytes(byte & 0x7F for byte in data[at:at + 29].split(b"\0")[0]).decode()
            names.append(text or "-")
            if text:
                lines.append(f"{self.search(number(data[at + 29:at + 32]), f'{path}/{text}')} {text}")
        self.tree.append(f"{head} [{','.join(names)}]")
        self.lists.append(done(f"vol,dir,i,{path[1:] or '/'}", lines=";".join(lines) or "-"))

    def marked(self, cluster):
        return self.data[256 + cluster // 8] >> 7 - cluster % 8 & 1

    def counts(self):
        """How many clusters are free and how many are lost."""
        used = {it // self.k for it in self.owned}
        whole = [it for it in range(self.total // self.k) if it not in used]
        lost = sum(map(self.marked, whole))
        return len(whole) - lost, lost


def image_row(path):
    image = Image(path)
    free, lost = image.counts()
    repaired = left(image.data, image.tree, free + lost)
    return field(image.data), [
        *image.lists,
        *image.gets,
        done("vol,repair,i", lines=f"freed {lost}", change=repaired if lost else "-"),
    ]


# What is not zero of the smallest volume: of its 16 sectors sector 2 is the descriptor of the root, its only file.
SMALLEST = {2: 16, 5: 2, 7: 1, 10: 2, 256: 0xF0, 512: 0xBF, 524: 64, 530: 3, 532: 1, 768: 0x2E, 769: 0xAE, 799: 2,
            800: 0xAE, 831: 2}
# Two files with the descriptors 4 and 5, which share sector 9.
TWO_FILES = {256: 0xFC, 257: 0x40, 524: 128, 832: 0xC1, 863: 4, 864: 0xC2, 895: 5, 1042: 9, 1044: 1, 1298: 9, 1300: 1}
# The greatest number of sectors, with a bit each in a map of 65,535 bytes; the root is sector 257.
MOST = {0: 0x07, 1: 0xFF, 2: 0xF8, 4: 0xFF, 5: 0xFF, 7: 1, 9: 1, 10: 1, 288: 0xE0, 65792: 0xBF, 65804: 64, 65809: 1,
        65810: 2, 65812: 1, 66048: 0x2E, 66049: 0xAE, 66078: 1, 66079: 1, 66080: 0xAE, 66110: 1, 66111: 1,
        **{at: 0xFF for at in range(256, 288)}}
# A volume of 300 sectors, all marked, whose root has the sectors from 3 on for 102 entries.
LONG_ROOT = {1: 1, 2: 44, 5: 38, 7: 1, 10: 2, 512: 0xBF, 523: 12, 524: 192, 530: 3, 532: 13, 768: 0xAE, 799: 2,
             800: 0x2E, 801: 0xAE, 831: 2, **{at: 0xFF for at in range(256, 294)}}


def overlapping(attributes):
    """Its 100 files, each of 48 segments of the sectors from 150 on; or they are directories of that size."""
    places = dict(LONG_ROOT)
    for lsn in range(16, 116):
        at = 832 + 32 * (lsn - 16)
        places.update({at: 0xC1, at + 31: lsn})
        for i in range(48):
            places.update({256 * lsn + 18 + 5 * i: 150, 256 * lsn + 20 + 5 * i: 150})
        if attributes:
            places.update({256 * lsn: attributes, 256 * lsn + 10: 28, 256 * lsn + 11: 32})
    return places


def counted(length, places, line):
    """A volume whose check counts files, directories, free and lost clusters."""
    return laid_out(length, places), [done("check,i", lines=line)]


def broken(length, places, line):
    """An image that breaks a rule."""
    return laid_out(length, places), [f"check,i|-|6|-|os9: i: {line}|-"]


def laid_out(length, places):
    """An image as a row has it: its length, and the bytes at these places."""
    sectors = {}
    for at, byte in places.items():
        sectors.setdefault(at // 256, bytearray(256))[at % 256] = byte
    held = [(lsn, bytes(sector).rstrip(b"\0")) for lsn, sector in sorted(sectors.items())]
    return ";".join([str(length)] + [f"{lsn}:{sector.hex()}" for lsn, sector in held if sector])


def check_rows():
    """Checks of volumes whose bytes are laid out here one by one (docs/disk.md)."""
    small = lambda places: {**SMALLEST, **places}
    clusters = lambda total, size, mark: small({2: total, 5: 1, 7: size, 256: mark})
    most = 256 * 524280
    return [
        counted(4096, SMALLEST, "files 0 dirs 1 free 12 lost 0"),
        broken(4095, SMALLEST, "rule 1 at LSN 0"),
        counted(4106, SMALLEST, "files 0 dirs 1 free 12 lost 0"),
        counted(4096, small({768: 0xAE, 769: 0, 800: 0x2E, 801: 0xAE}), "files 0 dirs 1 free 12 lost 0"),
        broken(4096, small({256: 0xE0}), "rule 3 at LSN 3"),
        broken(4096, small(TWO_FILES), "rule 4 at LSN 9"),
        counted(4096, small({256: 0xFF, 257: 0xFF}), "files 0 dirs 1 free 0 lost 12"),
        counted(8192, clusters(32, 4, 0x80), "files 0 dirs 1 free 7 lost 0"),
        counted(8192, clusters(30, 4, 0x80), "files 0 dirs 1 free 6 lost 0"),
        counted(8192, clusters(32, 4, 0xC0), "files 0 dirs 1 free 6 lost 1"),
        broken(8192, clusters(32, 3, 0x80), "rule 1 at LSN 0"),
        counted(most, MOST, "files 0 dirs 1 free 524021 lost 0"),
        broken(76800, overlapping(0), "rule 4 at LSN 150"),
        broken(76800, {**overlapping(0), 293: 0xE0}, "rule 3 at LSN 299"),
        broken(76800, {**overlapping(0xBF), 76768: 0xC1, 76799: 120}, "rule 4 at LSN 150"),
        broken(76800, {**overlapping(0xBF), 76768: 0xC1, 76798: 1, 76799: 44}, "rule 1 at LSN 16"),
    ]


def main():
    if len(sys.argv) > 1:
        rows = [image_row(path) for path in sys.argv[1:]]
    else:
        rows = [names_row(), smallest_row(), whole_cluster_row(), worn_row(), permissions_row(), *check_rows()]
    for place, (image, commands) in enumerate(rows):
        print("\t".join([str(201 + place), image, *commands]))


if __name__ == "__main__":
    main()
