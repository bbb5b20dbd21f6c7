#!/usr/bin/env python3
"""Makes rows of boots whose ends are worked out by hand, for the stdin of this crate: a file that grows, full volumes,
a worn volume, clusters of four sectors, a newer revision of a module, a floppy, drives that fail.

The images are laid out here, sector by sector (docs/disk.md), and what is expected is said here too, by docs/calls.md:
neither shares text with the program. src/row.rt has the fields of a row."""

from assemble import assemble, crc
from routines import ANSWER
from terminal_rows import EXIT, SHOW

SECTOR = 256
ROOT = 2  # the descriptor of a root behind a map of one sector; its sectors are behind it
ALL_MAY = 0xBF
OLD = "0000000000 000000"  # the dates of what stands on an image
NEW = "5a01010000 5a0101"  # those of what a run makes, in its first minute: 1 January 1990, 00:00
WRITTEN = "5a01010000 000000"  # those of what stood on an image, and has another size now


def program(name, source, storage=200):
    """The module of a program that shows words and answers."""
    shown = SHOW.replace("PATH", "1")
    return assemble(f"        mod {name},$11,$81,{storage}\n{source}{ANSWER}{shown}        emod\n")


def data_module(name, kind, revision, contents):
    listed = ",".join(map(str, contents))
    return assemble(f"        mod {name},{kind},{revision},0\n        fcb {listed}\n        emod\n")


def lines(words):
    return b"".join(word.encode() + b"\r\n" for word in words.split())


def needed(contents):
    """The sectors that so many bytes need."""
    return -(-len(contents) // SECTOR)


class Volume:
    """A volume, with its root behind the map. A cluster is marked where something is put into one of its sectors."""

    def __init__(self, total, cluster=1):
        self.total, self.cluster, self.boot = total, cluster, (0, 0)
        self.data = bytearray(SECTOR * total)
        self.marked = set()
        self.root = 1 + -(-total // (cluster * 8 * SECTOR))
        self.mark(0, self.root)

    def mark(self, first, count):
        self.marked |= {lsn // self.cluster for lsn in range(first, first + count)}

    def put(self, lsn, contents):
        self.data[SECTOR * lsn : SECTOR * lsn + len(contents)] = contents
        self.mark(lsn, needed(contents))

    def file(self, number, attributes, contents, segments):
        """A file with descriptor `number`, in these segments of a first sector and a count."""
        head = bytes([attributes, 0, 0, 0, 0, 0, 0, 0, 1]) + len(contents).to_bytes(4, "big") + bytes(3)
        listed = b"".join(first.to_bytes(3, "big") + count.to_bytes(2, "big") for first, count in segments)
        self.put(number, head + listed)
        for first, count in segments:
            self.put(first, contents[: SECTOR * count])
            contents = contents[SECTOR * count :]

    def directory(self, number, parent, names):
        """A directory with descriptor `number` and its contents behind it: names with the numbers of descriptors. One
        without a name is free."""
        listing = b""
        for name, target in [("..", parent), (".", number), *names]:
            marked = name[:-1].encode() + bytes([ord(name[-1]) | 0x80]) if name else b""
            listing += marked.ljust(29, b"\0") + target.to_bytes(3, "big")
        self.file(number, ALL_MAY, listing, [(number + 1, needed(listing))])

    def field(self):
        """The image, as a row has it."""
        clusters = -(-self.total // self.cluster)
        marks = "".join("1" if cluster in self.marked else "0" for cluster in range(clusters))
        held = bytes(int(marks[at : at + 8].ljust(8, "0"), 2) for at in range(0, clusters, 8))
        self.put(1, held)
        first, size = self.boot
        sizes = self.total.to_bytes(3, "big") + bytes(1) + len(held).to_bytes(2, "big")
        root = self.cluster.to_bytes(2, "big") + self.root.to_bytes(3, "big")
        self.put(0, sizes + root + bytes(10) + first.to_bytes(3, "big") + size.to_bytes(2, "big"))
        sectors = [(lsn, self.data[SECTOR * lsn : SECTOR * (lsn + 1)].rstrip(b"\0")) for lsn in range(self.total)]
        return ";".join([str(len(self.data))] + [f"{lsn}:{held.hex()}" for lsn, held in sectors if held])


BOOT_FILE, BOOT_SECTORS = 4, 5  # the boot file of a boot disk: its descriptor and its first sector
MORE = 16  # the sectors from here on are for other files


def boot_disk(modules, total=64, files=()):
    """A volume with a boot file and other files: names with descriptor, attributes, contents and segments."""
    disk = Volume(total)
    disk.directory(ROOT, ROOT, [("OS9Boot", BOOT_FILE)] + [(name, number) for name, number, *_ in files])
    disk.file(BOOT_FILE, 3, modules, [(BOOT_SECTORS, needed(modules))])
    assert BOOT_SECTORS + needed(modules) <= MORE
    for _, number, attributes, contents, segments in files:
        disk.file(number, attributes, contents, segments)
    disk.boot = (BOOT_SECTORS, len(modules))
    return disk


def file_line(path, attributes, contents, dates=OLD):
    return f"{path} {attributes:02x} 0 {dates} 1 {len(contents)} {crc(contents).hex()}"


def directory_line(path, names, dates=OLD):
    return f"{path} {ALL_MAY:02x} 0 {dates} 1 [{','.join(names)}]"


def tree(described, free, lost=0):
    return ";".join(sorted(described) + [f"free {free} lost {lost}"])


def row(name, out, disks, slices="1000*9", status=0, line="-", failing=()):
    """A row by its name: its images with their trees behind the run, or `-` where they keep their bytes. The calls of
    drives that fail are the last field, which a row without them lacks."""
    fields = [field for disk, left in disks for field in (disk.field(), left)] + ["-"] * 4
    images = " ".join(["d0.img", "d1.img"][: len(disks)])
    print("#", name)
    print(f"boot {images} --slices slices --script script", "-", 0, slices.encode().hex(), "-", status,
          out.hex() or "-", line, *fields[:4], *([",".join(failing)] if failing else []), sep="\t")


def filled(count):
    """How a program begins: it fills so many bytes from 100 on with 1 to 255, 0 and so on, and makes the file of its
    name."""
    return f"""start   ldx     #$100
        ldb     #1
fill    stb     ,x+
        incb
        cmpx    #${0x100 + count:X}
        bne     fill
        leax    <name,pcr
        lda     #3
        ldb     #3
        os9     $83
"""


def file_growth():
    """A file of 255 bytes, then a byte at 255, 256, 257 and 1,000 in turn, each time with a run that ends there."""
    first = bytes(range(1, 256))
    added = [(255, b"A"), (256, b"B"), (257, b"C"), (1000, b"D")]
    sizes, sectors = "00FF 0100 0101 0102 03E9".split(), [1, 1, 2, 2, 4]
    for count in range(len(added) + 1):
        writes = "".join(f"""
        lda     #{byte[0]}
        ldu     #{at}
        lbsr    append
""" for at, byte in added[:count])
        modules = program("SysGo", f"""
{filled(255)}        sta     <$30
        ldx     #$100
        ldy     #255
        os9     $8A
        lbsr    size
{writes}{EXIT}
append  sta     <$31
        lda     <$30
        ldx     #0
        os9     $88
        ldx     #$31
        ldy     #1
        os9     $8A
size    lda     <$30
        ldb     #2
        os9     $8D
        tfr     u,d
        lbsr    show
        rts
name    fcs     "/D0/Grown"
""", 600)
        disk, contents = boot_disk(modules), first
        for at, byte in added[:count]:
            contents = contents + bytes(at - len(contents)) + byte
        free = 64 - BOOT_SECTORS - needed(modules) - 1 - sectors[count]
        told = lines(" ".join(sizes[: count + 1]))
        row(f"a file that has grown to {len(contents)} bytes, sectors: {sectors[count]}", told,
            [(disk, tree([directory_line("/", ["OS9Boot", "Grown"], WRITTEN), file_line("/OS9Boot", 3, modules),
                          file_line("/Grown", 3, contents, NEW)], free))])


def full_volumes():
    """No free cluster: 248. A free cluster, but no place for it among the 48 segments of a file: 217."""
    modules = program("SysGo", f"""
start   leax    <name,pcr
        lda     #3
        ldb     #3
        os9     $83
        lbsr    answer
{EXIT}
name    fcs     "/D1/New"
""")
    full = Volume(16)
    full.directory(ROOT, ROOT, [])
    full.mark(0, 16)  # the map is FF FF; sectors 4 to 15 are in no file
    row("a new file on a volume without a free cluster", lines("01F8"),
        [(boot_disk(modules), tree([directory_line("/", ["OS9Boot"]), file_line("/OS9Boot", 3, modules)],
                                   64 - BOOT_SECTORS - needed(modules))),
         (full, tree([directory_line("/", [])], 0, 12))])
    modules = program("SysGo", f"""
start   leax    <name,pcr
        lda     #3
        os9     $84
        sta     <$30
        ldx     #0
        ldu     #12288
        os9     $88
        lda     #33
        sta     <$31
        lda     <$30
        ldx     #$31
        ldy     #1
        clrb
        os9     $8A
        lbsr    answer
{EXIT}
name    fcs     "/D0/Runs"
""")
    # Segments of one sector at 20, 22 and so on, the last of them at 114, and each sector is marked but 119, and 115
    # in the second case; the file Next is in sector 115 or 116.
    segments = [(20 + 2 * n, 1) for n in range(48)]
    contents = b"".join(bytes([n + 1] * SECTOR) for n in range(48))
    for name, after, shown, left, dates, free in [
        ("a 49th segment", 115, "01D9", contents, OLD, 1),
        ("a longer 48th segment", 116, "0000", contents + b"!", WRITTEN, 1),
    ]:
        disk = boot_disk(modules, 128, [("Runs", MORE, 3, contents, segments), ("Next", after, 3, b"", [])])
        disk.mark(0, 128)
        disk.marked -= {119} if after == 115 else {115, 119}
        used = BOOT_SECTORS + needed(modules) + 1 + 1 + needed(left)
        row(f"a byte at the end of a file of 48 segments: {name}", lines(shown),
            [(disk, tree([directory_line("/", ["OS9Boot", "Runs", "Next"]), file_line("/OS9Boot", 3, modules),
                          file_line("/Runs", 3, left, dates), file_line("/Next", 3, b"")], free, 128 - used - free))])


def clusters():
    """A volume of eight clusters of four sectors: a descriptor's cluster has three sectors of the contents."""
    first = bytes((n + 1) % 256 for n in range(768))
    steps = ["", """
        ldx     #$100
        ldy     #1
        os9     $8A
        lbsr    answer
""", """
        ldb     #2
        ldx     #0
        ldu     #0
        os9     $8E
        lbsr    answer
"""]
    for count, (name, contents, free) in enumerate([
        ("768 bytes beside the descriptor", first, 6),
        ("a byte more, in a second cluster", first + b"\1", 5),
        ("the size 0 again", b"", 6),
    ]):
        modules = program("SysGo", f"""
{filled(768)}        ldx     #$100
        ldy     #768
        clrb
        os9     $8A
        lbsr    answer
{''.join(steps[: count + 1])}{EXIT}
name    fcs     "/D1/Data"
""", 1200)
        disk = Volume(32, 4)
        disk.directory(ROOT, ROOT, [])  # all of it is in cluster 0: the map is 80
        shown = lines(" ".join(["0000", "0000", "0002"][: count + 1]))
        disks = [(boot_disk(modules), tree([directory_line("/", ["OS9Boot"]), file_line("/OS9Boot", 3, modules)],
                                           64 - BOOT_SECTORS - needed(modules))),
                 (disk, tree([directory_line("/", ["Data"], WRITTEN), file_line("/Data", 3, contents, NEW)], free))]
        row(f"clusters of four sectors: {name}", shown, disks)
    row("the same, and a stop of the drive at each of its calls", shown, disks, failing=["stops D1"])


LINK = """
        leax    <shared,pcr
        lda     #$40
        os9     $00
        lbsr    show
"""
SHARED = """
first   clra
        ldb     >15,u
        lbsr    show
        rts
shared  fcs     "Shared"
"""


def newer_revision():
    """The boot file has a module, and files have it with the same revision and with the next one. A line has the type
    of the module in A, and its attributes and revision in B; its first byte stands 15 behind its header. Process 3
    links it and sleeps until process 2 has loaded what is newer, and process 4 has linked it, stored 77 there, which
    process 2 reads, and unlinked it."""
    one, two = (data_module("Shared", "$40", f"$8{revision}", [17 * revision]) for revision in (1, 2))
    modules = program("SysGo", f"""
start   leax    <holder,pcr
        lbsr    fork
        ldx     #4
        os9     $0A
        leax    <one,pcr
        os9     $01
        lbsr    answer
        leax    <two,pcr
        os9     $01
        lbsr    show
        stu     <$30
        leax    <reader,pcr
        lbsr    fork
        os9     $04
        lbsr    show
        ldu     <$30
        lbsr    first
        lda     #3
        ldb     #1
        os9     $08
        os9     $04
        lbsr    show
        ldu     <$30
        clrb
        os9     $02
        lbsr    answer
{LINK}
        lbsr    first
{EXIT}
fork    ldy     #0
        ldu     #0
        lda     #$11
        clrb
        os9     $03
        rts
one     fcs     "/D0/One"
two     fcs     "/D0/Two"
holder  fcs     "Holder"
reader  fcs     "Reader"
{SHARED}""") + one + program("Holder", f"""
start   nop
{LINK}
        ldx     #0
        os9     $0A
        lbsr    first
{EXIT}{SHARED}""") + program("Reader", f"""
start   nop
{LINK}
        lbsr    first
        lda     #$77
        sta     >15,u
        clrb
        os9     $02
        lbsr    answer
{EXIT}{SHARED}""")
    files = [("One", MORE, 7, one, [(MORE + 1, 1)]), ("Two", MORE + 2, 7, two, [(MORE + 3, 1)])]
    disk = boot_disk(modules, files=files)
    holder, loads, reader = "4081", "01E7 4082", "4082 0022 0000"
    row("a newer revision of a module", lines(f"{holder} {loads} {reader} 0400 0077 0011 0300 0000 4081 0011"),
        [(disk, tree([directory_line("/", ["OS9Boot", "One", "Two"]), file_line("/OS9Boot", 3, modules),
                      file_line("/One", 7, one), file_line("/Two", 7, two)],
                     64 - BOOT_SECTORS - needed(modules) - 4))], "1000*30")


def slash_behind_a_name():
    """F$Fork of one name with a slash behind it, and of path lists. A line has how far X has moved, and then what the
    program shows, or the refusal: `Pr/` and `Pr//` are the name `Pr`, which is entered; `Qr/` is the name of no entered
    module, so the file of the path list is loaded, and there is none of `No/`; `/Pr` begins at a device, and `Pr/x` is
    looked up on the disk. F$Chain of `Pr/` comes last."""
    shows = {name: program(name, f"""
start   ldd     #{number}
        lbsr    show
{EXIT}""") for name, number in [("Pr", "$AA"), ("Qr", "$BB")]}
    texts = ["Pr/\r", "Pr//", "Qr/\r", "No/\r", "/Pr\r", "Pr/x\r"]
    forks = "".join(f"        leax    <text{n},pcr\n        lbsr    fork\n" for n in range(len(texts)))
    held = "".join(f"text{n}   fcb     {','.join(str(ord(c)) for c in text)}\n" for n, text in enumerate(texts))
    modules = program("SysGo", f"""
start   nop
{forks}        leax    <text0,pcr
        lbsr    taken
        os9     $05
        lbsr    answer
{EXIT}
taken   ldy     #0
        ldu     #0
        lda     #$11
        clrb
        rts
fork    stx     <$30
        lbsr    taken
        os9     $03
        bcs     refused
        tfr     x,d
        subd    <$30
        lbsr    show
        os9     $04
        rts
refused lbsr    answer
        rts
{held}""") + shows["Pr"]
    disk = boot_disk(modules, files=[("Qr", MORE, 7, shows["Qr"], [(MORE + 1, 1)])])
    row("a slash behind the name of a program", lines("0002 00AA 0002 00AA 0002 00BB 01D8 01DD 01D8 00AA"),
        [(disk, tree([directory_line("/", ["OS9Boot", "Qr"]), file_line("/OS9Boot", 3, modules),
                      file_line("/Qr", 7, shows["Qr"])], 64 - BOOT_SECTORS - needed(modules) - 2))], "1000*30")


SYSTEM = [("OS9p1", "$C1"), ("OS9p2", "$C1"), ("Init", "$C0"), ("IOMan", "$C1"), ("RBF", "$D1"), ("CC3Disk", "$E1"),
          ("D0", "$F1"), ("SCF", "$D1"), ("VTIO", "$E1"), ("Term", "$F1"), ("PipeMan", "$D1"), ("Clock", "$21")]
NATIVE = bytes(n * n // 7 % 256 for n in range(1900))  # what stands in the place of a native module's code


def boot_file():
    """24,000 bytes: a program that opens TERM and writes the names of the entries of D0 there, among system modules."""
    modules = b"".join(data_module(name, kind, "$81", NATIVE) for name, kind in SYSTEM) + program("SysGo", """
start   leax    <term,pcr
        lda     #2
        os9     $84
        bcs     exit
        sta     <$30
        leax    <drive,pcr
        lda     #$81
        os9     $84
        bcs     exit
        sta     <$31
next    lda     <$31
        ldx     #$40
        ldy     #32
        os9     $89
        bcs     over
char    lda     ,x+
        cmpa    #$80
        bcs     char
        anda    #$7F
        sta     >-1,x
        lda     #13
        sta     >0,x
        ldx     #$40
        ldy     #80
        lda     <$30
        os9     $8C
        bcc     next
over    cmpb    #211
        bne     exit
        clrb
exit    os9     $06
term    fcs     "/TERM"
drive   fcs     "/D0"
""")
    rest = 24000 - len(modules) - len(data_module("Config", "$40", "$81", [0])) + 1
    return modules + data_module("Config", "$40", "$81", NATIVE[:rest])


def floppy():
    """35 tracks of 18 sectors, of which track 34 is marked and in no file, and a root of 40 entries in five sectors."""
    modules, disk = boot_file(), Volume(630)
    assert len(modules) == 24000
    named, described = [("OS9Boot", 8)], [file_line("/OS9Boot", 3, modules)]
    disk.file(8, 3, modules, [(9, 94)])
    for name, number in [("CMDS", 103), ("SYS", 105)]:
        disk.directory(number, ROOT, [])
        named.append((name, number))
        described.append(directory_line(f"/{name}", []))
    for n in range(35):
        name, number, contents = f"Letter.{n:02}", 107 + 2 * n, f"Dear reader {n},\r".encode()
        disk.file(number, 3, contents, [(number + 1, 1)])
        named.append((name, number))
        described.append(file_line(f"/{name}", 3, contents))
    disk.directory(ROOT, ROOT, named)
    disk.boot = (9, len(modules))
    disk.mark(612, 18)
    names = [name for name, _ in named]
    # sectors 0 to 176 and the 18 of track 34 are marked
    row("a floppy with a boot track", lines(" ".join(["..", ".", *names])),
        [(disk, tree([directory_line("/", names), *described], 630 - 177 - 18, 18))], "1000*20")


def mount_faults():
    """The read of sector 0 is call 1 of the drive of an image, which is put in before anything runs."""
    modules = program("SysGo", f"""
start   lbsr    answer
{EXIT}
""")
    second = Volume(16)
    second.directory(ROOT, ROOT, [])
    for name, disks, number in [
        ("the second of two images", [(boot_disk(modules), "-"), (second, "-")], 1),
        ("the only image", [(boot_disk(modules), "-")], 0),
    ]:
        row(f"a drive that fails when it is mounted: {name}", b"", disks, status=9, line=f"os9: drive {number}: 244",
            failing=[f"D{number} 1 244"])


# The calls of D1 before the guest's first one there: the read of sector 0, and that of the map's one sector.
MOUNT = 2
# To find a name, or a free place, in a root of one sector: its descriptor and that sector.
SEARCH = 2


def write_fault():
    """A file is made, in a free entry, and 768 bytes are written, of which the last sector's write fails. The three
    clusters that are marked then are lost, the size is still 0, and the same bytes go to three other clusters."""
    contents = bytes((n + 1) % 256 for n in range(768))
    write = """
        lda     <$30
        ldx     #$100
        ldy     #768
        clrb
        os9     $8A
        lbsr    answer
        lda     <$30
        ldb     #2
        os9     $8D
        tfr     u,d
        lbsr    show
"""
    modules = program("SysGo", f"""
{filled(768)}        sta     <$30
        lbsr    answer
{write}{write}{EXIT}
name    fcs     "/D1/Data"
""", 1200)
    disk = Volume(32)
    disk.directory(ROOT, ROOT, [("", 0)])  # clusters 0 to 3
    # the map's mark and the descriptor; then the entry, in a sector that is held since the search
    created = MOUNT + SEARCH + 2 + 1
    # the descriptor is held and the map written; then three sectors are written, all of them whole
    last = created + 1 + 3
    row("768 bytes, whose last sector is not written, and then the same again", lines("0003 01F5 0000 0000 0300"),
        [(boot_disk(modules), tree([directory_line("/", ["OS9Boot"]), file_line("/OS9Boot", 3, modules)],
                                   64 - BOOT_SECTORS - needed(modules))),
         (disk, tree([directory_line("/", ["Data"]), file_line("/Data", 3, contents, NEW)],
                     32 - 4 - 1 - 3 - 3, 3))], failing=[f"D1 {last} 245"])


def delete_faults():
    """A file of two sectors is deleted, and then opened. The first write frees its entry, the second one its marks."""
    modules = program("SysGo", f"""
start   leax    <name,pcr
        clrb
        os9     $87
        lbsr    answer
        leax    <name,pcr
        lda     #1
        clrb
        os9     $84
        lbsr    answer
{EXIT}
name    fcs     "/D1/Gone"
""")
    contents = bytes(n % 7 for n in range(300))
    # the name is searched and the file's descriptor read; then the entry's sector, which is held, is written
    entry = MOUNT + SEARCH + 1 + 1
    for name, failing, shown, names, files, free, lost in [
        ("the write fails of the entry", f"D1 {entry} 242", "01F2 0000", ["Gone"], [file_line("/Gone", 3, contents)],
         32 - 4 - 3, 0),
        ("the write fails of the map", f"D1 {entry + 1} 247", "01F7 01D8", ["-"], [], 32 - 4 - 3, 3),
        ("the drive stops at each of its calls", "stops D1", "0000 01D8", ["-"], [], 32 - 4, 0),
    ]:
        disk = Volume(32)
        disk.directory(ROOT, ROOT, [("Gone", 4)])  # clusters 0 to 3
        disk.file(4, 3, contents, [(5, 2)])
        row(f"a file is deleted, and {name}", lines(shown),
            [(boot_disk(modules), tree([directory_line("/", ["OS9Boot"]), file_line("/OS9Boot", 3, modules)],
                                       64 - BOOT_SECTORS - needed(modules))),
             (disk, tree([directory_line("/", names), *files], free, lost))], failing=[failing])


def driver_calls():
    """A root of 64 bytes is opened and read. What comes to an end before the call that is to fail is not told of it."""
    idle = f"""
start   nop
{EXIT}
"""
    reads = f"""
start   clra
        clrb
        ldx     #$100
        std     >0,x
        leax    <name,pcr
        lda     #$81
        os9     $84
        sta     <$30
        lbsr    answer
        lda     <$30
        ldx     #$100
        ldy     #64
        os9     $89
        lbsr    answer
        tfr     y,d
        lbsr    show
        ldx     #$100
        ldd     >0,x
        lbsr    show
{EXIT}
name    fcs     "/D1"
"""
    # to open it is to read its descriptor, which is held then; to read it, the one sector that holds its bytes
    opened, read = MOUNT + 1, MOUNT + 1 + 1
    for name, source, call, shown in [
        ("mounted, in two calls", idle, MOUNT + 1, ""),
        ("opened and read, in two more", reads, read + 1, "0000 0000 0040 2EAE"),
        ("opened, and the last call of its read fails", reads, read, "0000 01F4 0040 0000"),
        ("not opened, since the first call after mounting fails", reads, opened, "01F4 01C9 0040 0000"),
    ]:
        modules = program("SysGo", source, 600)
        disk = Volume(16)
        disk.directory(ROOT, ROOT, [])  # clusters 0 to 3
        row(f"the root of a second drive is {name}", lines(shown),
            [(boot_disk(modules), tree([directory_line("/", ["OS9Boot"]), file_line("/OS9Boot", 3, modules)],
                                       64 - BOOT_SECTORS - needed(modules))),
             (disk, tree([directory_line("/", [])], 16 - 4))], failing=[f"D1 {call} 244"])


def worn_volume():
    """140 files of 100 bytes were made, each a descriptor and a sector, and every second was deleted: so 70 holes of
    two clusters are before the free rest. A file is written in ten pieces of 8,000 bytes. Its descriptor goes to the
    first hole, and its first 32 sectors to the first run that has as many, which is the rest; each further piece goes
    on there. If it took the holes first, it would have 48 segments after 94 sectors."""
    piece = bytes((n + 1) % 256 for n in range(8000))
    modules = program("SysGo", f"""
{filled(8000)}        sta     <$30
        lda     #10
        sta     <$31
again   lda     <$30
        ldx     #$100
        ldy     #8000
        clrb
        os9     $8A
        lbsr    answer
        lda     <$31
        deca
        sta     <$31
        bne     again
{EXIT}
name    fcs     "/D1/Data"
""", 8400)
    old = bytes(range(100))
    worn = Volume(2520)
    kept = [(f"F{n:03}", 32 + 2 * n) for n in range(0, 140, 2)]
    worn.directory(worn.root, worn.root, [entry for file in kept for entry in (file, ("", 0))])
    for _, number in kept:
        worn.file(number, 3, old, [(number + 1, 1)])
    used = worn.root + 1 + needed(bytes(32 * 142)) + 2 * len(kept) + 1 + needed(bytes(80000))
    names = [kept[0][0], "Data"] + [shown for name, _ in kept[1:] for shown in (name, "-")]
    row("a worn volume: ten pieces of 8,000 bytes", lines("0000 " * 10),
        [(boot_disk(modules), tree([directory_line("/", ["OS9Boot"]), file_line("/OS9Boot", 3, modules)],
                                   64 - BOOT_SECTORS - needed(modules))),
         (worn, tree([directory_line("/", names), file_line("/Data", 3, piece * 10, NEW)]
                     + [file_line(f"/{name}", 3, old) for name, _ in kept], 2520 - used))], slices="10000*9")


def two_workers():
    """The first process makes a directory for each of two others, in a root whose sector is full, forks them and waits
    for them; I$MakDir leaves B, the attributes. Each of the others makes a file in its directory, writes 300 bytes,
    writes over the first ten of them, makes the file longer and shorter, and makes a second file, which it deletes. It
    goes on after an error, and exits with it. D0 stops at each of its calls in turn: files that are not named here
    stay as they were."""
    calls = {name: f"os9 ${code:02X}\n        lbsr note" for name, code in [
        ("create", 0x83), ("chgdir", 0x86), ("delete", 0x87), ("seek", 0x88), ("write", 0x8A), ("setstt", 0x8E),
        ("close", 0x8F)]}
    size = f"""
        lda     <$31
        ldb     #2
        ldx     #0
        {calls["setstt"]}
"""
    modules = program("SysGo", f"""
start   leax    <one,pcr
        lbsr    make
        leax    <two,pcr
        lbsr    make
        ldb     #65
        lbsr    fork
        ldb     #66
        lbsr    fork
        os9     $04
        lbsr    answer
        os9     $04
        lbsr    answer
{EXIT}
make    ldb     #{ALL_MAY}
        os9     $85
        lbsr    answer
        rts
fork    stb     <$30
        leax    <worker,pcr
        ldy     #1
        ldu     #$30
        lda     #$11
        clrb
        os9     $03
        rts
one     fcs     "/D0/A"
two     fcs     "/D0/B"
worker  fcs     "Worker"
""") + program("Worker", f"""
start   lda     >0,x
        sta     <$44
        ldx     #$2F44
        stx     <$40
        ldx     #$302F
        stx     <$42
        ldb     #$0D
        stb     <$45
        ldx     #$100
fill    sta     ,x+
        cmpx    #$300
        bne     fill
        clrb
        stb     <$30
        ldx     #$40
        lda     #1
        {calls["chgdir"]}
        leax    data,pcr
        lda     #3
        ldb     #3
        {calls["create"]}
        sta     <$31
        ldx     #$100
        ldy     #300
        {calls["write"]}
        lda     <$31
        ldx     #0
        ldu     #0
        {calls["seek"]}
        lda     <$31
        leax    <over,pcr
        ldy     #10
        {calls["write"]}
        ldu     #700
{size}
        ldu     #40
{size}
        leax    <gone,pcr
        lda     #3
        ldb     #3
        {calls["create"]}
        ldx     #$100
        ldy     #10
        {calls["write"]}
        {calls["close"]}
        leax    <gone,pcr
        {calls["delete"]}
        ldb     <$30
        os9     $06
note    bcc     noted
        stb     <$30
noted   rts
data    fcs     "Data"
gone    fcs     "Gone"
over    fcc     "0123456789"
""", 1000)
    disk, kept = Volume(128), bytes(n % 251 for n in range(600))
    more = [(f"More{n}", MORE + n, 3, b"", []) for n in range(2)]
    files = [("Kept", 20, 0x0B, kept, [(21, 2), (30, 1)]), *more]
    described = [file_line("/OS9Boot", 3, modules)]
    for name, number, attributes, contents, segments in files:
        disk.file(number, attributes, contents, segments)
        described.append(file_line(f"/{name}", attributes, contents))
    disk.directory(40, ROOT, [("Deep", 42)])
    disk.file(42, 3, kept[:300], [(43, 2)])
    described += [directory_line("/Old", ["Deep"]), file_line("/Old/Deep", 3, kept[:300])]
    disk.file(BOOT_FILE, 3, modules, [(BOOT_SECTORS, needed(modules))])
    assert BOOT_SECTORS + needed(modules) <= MORE
    named = [("OS9Boot", BOOT_FILE), ("Old", 40)] + [(name, number) for name, number, *_ in files]
    disk.directory(ROOT, ROOT, [*named, ("Last", 50)])  # eight entries, a sector of them
    disk.file(50, 3, b"", [])
    described.append(file_line("/Last", 3, b""))
    disk.boot = (BOOT_SECTORS, len(modules))
    free = 128 - len(disk.marked | {0, 1})
    names = [name for name, _ in named] + ["Last", "A", "B"]
    described.append(directory_line("/", names, WRITTEN))
    for name in "AB":
        described.append(directory_line(f"/{name}", ["Data", "-"], NEW))
        described.append(file_line(f"/{name}/Data", 3, b"0123456789" + name.encode() * 30, NEW))
    # the root has one sector more; each worker a directory of two sectors, and a file of two
    row("two workers, and a stop of the drive at each of its calls", lines("00BF 00BF 0000 0000"),
        [(disk, tree(described, free - 1 - 2 * 4))], "20*2000", failing=["stops D0"])


def main():
    assert crc(b"123456789").hex() == "200fa5"
    assert crc(b"").hex() == "000000"
    file_growth()
    full_volumes()
    worn_volume()
    clusters()
    newer_revision()
    floppy()
    mount_faults()
    write_fault()
    delete_faults()
    driver_calls()
    slash_behind_a_name()
    two_workers()


if __name__ == "__main__":
    main()
