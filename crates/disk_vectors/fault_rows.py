"""Writes rows of worked examples and of faults for disk_vectors, and what they print.

fault_rows.py rows > ROWS; fault_rows.py expected > EXPECTED. What a row prints is worked out here from
the order of each operation's sector writes (docs/disk.md), by a model of trees that knows no sectors.
In the table of faults each of thirteen operations is tried on volumes with 1, 4 and 64 sectors per cluster.
Calls that are refused leave one state at every fault, and marks in two sectors of the map three.
"""
import copy
import sys

from disk_bytes import crc24, name_field, pattern

CLUSTERS = 24
START = bytes([86, 7, 4, 12, 30])
BORN = bytes([85, 1, 2])

FREE = b"\0" * 29


class File:
    def __init__(self, attr, owner, data, date=START, born=BORN):
        self.attr, self.owner, self.data = attr, owner, data
        self.date, self.born = date, born
        self.entries = None

    def line(self, path, entry):
        size = 32 * (2 + len(self.entries)) if self.entries is not None else len(self.data)
        what = "dir" if self.entries is not None else f"{crc24(self.data):06x}"
        name = "-" if entry is None else f"{crc24(entry):06x}"
        return (
            f"{path or '/'} {self.attr:02x} {self.owner} {self.date.hex()} {self.born.hex()} 1 "
            f"{size} {what} {name}\n"
        )

    def lines(self, path="", entry=None):
        text = self.line(path, entry)
        if self.entries is None:
            return text
        text += f"{path}/ dots {crc24(name_field('..') + name_field('.')):06x}\n"
        for place in self.entries:
            if place is None:
                text += f"{path}/ free {crc24(FREE):06x}\n"
            else:
                name, file = place
                text += file.lines(f"{path}/{name}", name_field(name))
        return text

    def counts(self):
        """How many files and directories there are."""
        if self.entries is None:
            return 1, 0
        below = [place[1].counts() for place in self.entries if place]
        return sum(b[0] for b in below), 1 + sum(b[1] for b in below)

    def at(self, name):
        return next(place[1] for place in self.entries if place and place[0] == name)


class Volume:
    """A volume: LSN 0, the map, the root's descriptor behind it and then the root's entries."""

    def __init__(self, k, clusters=CLUSTERS):
        self.k = k
        self.clusters = clusters
        self.total = clusters * k
        self.sectors = {}
        self.maps = -(-self.map_bytes() // 256)
        self.used = {sector // k for sector in range(3 + self.maps)}
        self.root = File(0xBF, 0, b"")
        self.root.entries = []
        self.next = 3 + self.maps if k == 1 else 1

    def take(self, clusters):
        first = self.next * self.k
        self.used |= set(range(self.next, self.next + clusters))
        self.next += clusters
        return first

    def descriptor(self, file, size, segments):
        fields = bytes([file.attr]) + file.owner.to_bytes(2, "big") + file.date + b"\1"
        fields += size.to_bytes(4, "big") + file.born
        for lsn, count in segments:
            fields += lsn.to_bytes(3, "big") + count.to_bytes(2, "big")
        return fields

    def add(self, name, attr, owner, data, clusters):
        """A file of so many clusters behind that of its descriptor."""
        file = File(attr, owner, data)
        lsn = self.take(1 + clusters)
        count = (1 + clusters) * self.k - 1
        self.sectors[lsn] = self.descriptor(file, len(data), [(lsn + 1, count)] if count else [])
        for place in range(0, len(data), 256):
            self.sectors[lsn + 1 + place // 256] = data[place : place + 256]
        self.root.entries.append((name, file, lsn))

    def lay_entries(self, free):
        root = 1 + self.maps
        entries = [("..", None, root), (".", None, root), *self.root.entries] + [None] * free
        data = b"".join(
            name_field(e[0]) + e[2].to_bytes(3, "big") if e else b"\0" * 32 for e in entries
        )
        self.sectors[root] = self.descriptor(self.root, len(data), [(root + 1, 1)])
        self.sectors[root + 1] = data
        self.root.entries = [e and e[:2] for e in entries[2:]]
        self.sectors[0] = (
            self.total.to_bytes(3, "big")
            + b"\0"
            + self.map_bytes().to_bytes(2, "big")
            + self.k.to_bytes(2, "big")
            + b"\0"
            + root.to_bytes(2, "big")
        )
        self.mark()

    def map_bytes(self):
        return (self.clusters + 7) // 8

    def mark(self, lost=()):
        top = 8 * self.map_bytes() - 1
        bits = sum(1 << (top - cluster) for cluster in self.used | set(lost))
        marks = bits.to_bytes(self.map_bytes(), "big")
        for place in range(self.maps):
            self.sectors[1 + place] = marks[256 * place : 256 * (place + 1)]

    def field(self):
        parts = [str(256 * self.total)]
        for lsn in sorted(self.sectors):
            data = self.sectors[lsn].rstrip(b"\0")
            if data:
                parts.append(f"{lsn}:{data.hex()}")
        return ";".join(parts)

    def free(self):
        return self.clusters - len(self.used)

    def outside(self):
        first = self.sectors[0].ljust(256, b"\0")
        return f"outside {crc24(first):06x} {crc24(bytes(256 * self.maps)):06x} {crc24(b''):06x}\n"

    def block(self, answers, root, free, lost, head="outcome"):
        files, directories = root.counts()
        text = f"{head}\n" + "".join(f"{i} {a}\n" for i, a in enumerate(answers, 1))
        text += f"check files {files} dirs {directories} free {free} lost {lost}\n"
        return text + self.outside() + root.lines()


def minute(call):
    return bytes([90, 2, 3, 4, call])


def volume_for_faults(k, free, others):
    """Files A, whose last sector has 168 bytes left, and B, which has a cluster of its own.

    So many others, and then free entries."""
    volume = Volume(k)
    sectors = 3 if k < 64 else 63
    size = 256 * sectors - 168
    behind = 3 if k == 1 else 0
    volume.add("A", 0x03, 0, pattern(600, 5).ljust(size, b"\0"), behind)
    volume.add("B", 0x0B, 7, pattern(300, 9), 2 if k == 1 else 1)
    for i in range(others):
        volume.add(f"C{i}", 0x03, 0, b"", 0)
    volume.lay_entries(free)
    return volume


class Fault:
    """An operation: its call, what it leaves as the old tree stands, and the tree when it is done."""

    def __init__(self, name, k, call, free=4, others=0, volume=None):
        self.name, self.call = name, call
        self.volume = volume or volume_for_faults(k, free, others)
        self.old = self.volume.root
        self.new = copy.deepcopy(self.old)
        self.blocks = []

    def stops(self, root, lost, taken=None, head="outcome"):
        free = self.volume.free() - (lost if taken is None else taken)
        self.blocks.append(self.volume.block(["ok", "device 245"], root, free, lost, head))

    def ends(self, taken):
        self.blocks.append(self.volume.block(["ok", "ok"], self.new, self.volume.free() - taken, 0))
        return self


def overwritten(data, at, new):
    return data.ljust(at, b"\0")[:at] + new + data[at + len(new) :]


def fault_table(k):
    size = (3 if k < 64 else 63) * 256 - 168

    fault = Fault("an overwrite of two sectors", k, "write /A 100 412*200")
    front = copy.deepcopy(fault.old)
    front.at("A").data = overwritten(front.at("A").data, 100, pattern(412, 200)[:156])
    fault.new.at("A").data = overwritten(fault.old.at("A").data, 100, pattern(412, 200))
    fault.stops(fault.old, 0)
    fault.stops(front, 0)
    yield fault.ends(0)

    gained = 3 if k == 1 else 1
    fault = Fault("an append of three sectors", k, f"write /A {size} 768*17")
    fault.new.at("A").data += pattern(768, 17)
    yield grown(fault, gained)

    gained = 4 if k == 1 else 1
    fault = Fault("a write past the end", k, f"write /A {size + 1000} 100*33")
    fault.new.at("A").data += bytes(1000) + pattern(100, 33)
    yield grown(fault, gained)

    fault = Fault("a size upwards", k, f"size /A {size + 1000}")
    fault.new.at("A").data += bytes(1000)
    yield grown(fault, gained)

    fault = Fault("a size downwards", k, "size /B 10")
    fault.new.at("B").data = fault.old.at("B").data[:10]
    fault.new.at("B").date = minute(2)
    fault.stops(fault.old, 0)
    fault.stops(fault.new, 1, 0)
    yield fault.ends(-1)

    fault = Fault("a file in a free entry", k, "create /N 0b 7 r")
    fault.new.entries[2] = ("N", File(0x0B, 7, b"", minute(2), minute(2)[:3]))
    fault.stops(fault.old, 0)
    fault.stops(fault.old, 1)
    yield fault.ends(1)

    fault = Fault("a file behind the last entry", k, "create /N 0b 7 r", 0)
    fault.new.entries.append(("N", File(0x0B, 7, b"", minute(2), minute(2)[:3])))
    fault.new.date = minute(2)
    fault.stops(fault.old, 0)
    fault.stops(fault.old, 1)
    yield fault.ends(1)

    fault = Fault("a file in a new sector of the directory", k, "create /N 0b 7 r", 0, 4)
    fault.new.entries.append(("N", File(0x0B, 7, b"", minute(2), minute(2)[:3])))
    fault.new.date = minute(2)
    for lost in range(3):
        fault.stops(fault.old, lost)
    yield fault.ends(2)

    made = File(0xBF, 7, b"", minute(2), minute(2)[:3])
    made.entries = []
    its = 2 if k == 1 else 1

    fault = Fault("a directory", k, "mkdir /M bf 7")
    fault.new.entries[2] = ("M", made)
    yield folder(fault, its, 0)

    fault = Fault("a directory behind the last entry", k, "mkdir /M bf 7", 0)
    fault.new.entries.append(("M", made))
    fault.new.date = minute(2)
    yield folder(fault, its, 0)

    fault = Fault("a directory in a new sector of its parent", k, "mkdir /M bf 7", 0, 4)
    fault.new.entries.append(("M", made))
    fault.new.date = minute(2)
    yield folder(fault, its, 1)

    given = 3 if k == 1 else 2
    fault = Fault("a deletion", k, "delete /B 0 r")
    fault.new.entries[1] = None
    fault.stops(fault.old, 0)
    fault.stops(fault.new, given, 0)
    yield fault.ends(-given)

    fault = Fault("attributes", k, "attr /A 1f 0")
    fault.new.at("A").attr = 0x1F
    fault.new.at("A").date = minute(2)
    fault.stops(fault.old, 0)
    yield fault.ends(0)


def folder(fault, its, more):
    """A directory takes its clusters by one write of the map, and then its parent may take one."""
    fault.stops(fault.old, 0)
    if its == 2:
        fault.stops(fault.old, 1, head="outcome maybe")
    for lost in range(its, its + more + 1):
        fault.stops(fault.old, lost)
    return fault.ends(its + more)


def grown(fault, gained):
    fault.new.at("A").date = minute(2)
    fault.stops(fault.old, 0)
    fault.stops(fault.old, gained)
    return fault.ends(gained)


def refusals():
    """Calls that are refused: a fault at any of their accesses changes nothing."""
    closed = volume_for_faults(1, 4, 0)
    closed.root.attr = 0xAF
    closed.sectors[2] = bytes([0xAF]) + closed.sectors[2][1:]
    for call, error, volume in (
        ("delete /A 7 r", 214, None),
        ("delete /X 0 r", 216, None),
        ("delete /B 7 r", 214, closed),
        ("create /B 0b 7 r", 218, None),
        ("create /N 0b 7 r", 214, closed),
        ("mkdir /A bf 7", 218, None),
        ("mkdir /N bf 7", 214, closed),
        ("attr /A 1f 7", 214, None),
        ("write /A 600 5120*3", 248, None),
        ("size /A 5720", 248, None),
    ):
        fault = Fault(f"a refused {call.split()[0]}", 1, call, volume=volume)
        fault.stops(fault.old, 0)
        free = fault.volume.free()
        fault.blocks.append(fault.volume.block(["ok", f"error {error}"], fault.old, free, 0))
        yield fault
    for call, free in (("create /N 0b 7 r", 0), ("mkdir /N bf 7", 1)):
        fault = Fault(f"a {call.split()[0]} without room", 1, call)
        lost = fault.volume.free() - free
        fault.volume.mark(range(CLUSTERS - lost, CLUSTERS))
        for answer in ("device 245", "error 248"):
            fault.blocks.append(fault.volume.block(["ok", answer], fault.old, free, lost))
        yield fault


def two_map_sectors():
    """Clusters of one file on both sides of 2,048: each sector of the map has two or four of those that change."""

    def volume(first, sectors):
        it = Volume(1, 2112)
        it.next = first
        it.add("A", 0x03, 0, pattern(256 * sectors, 5), sectors)
        it.lay_entries(0)
        return it

    title = "in two sectors of the map"
    fault = Fault(f"an append {title}", 1, "write /A 1280 1024*17", volume=volume(2040, 5))
    fault.new.at("A").data += pattern(1024, 17)
    fault.new.at("A").date = minute(2)
    for lost in (0, 2, 4):
        fault.stops(fault.old, lost)
    yield fault.ends(4)

    fault = Fault(f"a size downwards {title}", 1, "size /A 1280", volume=volume(2040, 9))
    fault.new.at("A").data = fault.old.at("A").data[:1280]
    fault.new.at("A").date = minute(2)
    fault.stops(fault.old, 0)
    fault.stops(fault.new, 4, 0)
    fault.stops(fault.new, 2, -2)
    yield fault.ends(-4)

    fault = Fault(f"a deletion {title}", 1, "delete /A 0 r", volume=volume(2044, 7))
    fault.new.entries[0] = None
    fault.stops(fault.old, 0)
    fault.stops(fault.new, 8, 0)
    fault.stops(fault.new, 4, -4)
    yield fault.ends(-8)


def file_growth():
    """Bytes at 255, 256, 257 and 1000 of a file of 255 bytes: 1, 2, 2 and 4 sectors."""
    volume = Volume(1, 16)
    volume.add("A", 0x03, 0, pattern(255, 1), 1)
    volume.lay_entries(0)
    calls, answers = [], ["ok"]
    for at, free in ((255, 10), (256, 9), (257, 9), (1000, 7)):
        calls += [f"write /A {at} 1*{at % 251}", "free"]
        answers += ["ok", f"ok {free}"]
    calls.append("read /A 258 742")
    answers.append(f"ok 742 {crc24(bytes(742)):06x}")
    file = volume.root.at("A")
    for at in (255, 256, 257, 1000):
        file.data = overwritten(volume.root.at("A").data, at, bytes([at % 251]))
    file.date = minute(8)
    return [["file-growth", volume, "-", calls, [volume.block(answers, volume.root, 7, 0)]]]


def check_and_full():
    """The smallest volume, and a file with 48 segments that are all full."""
    free = Volume(1, 16)
    free.lay_entries(0)
    yield ["check-and-full", free, "-", ["free"], [free.block(["ok", "ok 12"], free.root, 12, 0)]]
    full = Volume(1, 16)
    full.lay_entries(0)
    full.mark(range(16))
    answers = ["ok", "ok 0", "error 248"]
    calls = ["free", "create /A 0b 0 r"]
    yield ["check-and-full", full, "-", calls, [full.block(answers, full.root, 0, 12)]]
    for after, answer in ((True, "error 217"), (False, "ok")):
        volume, file = full_segments(after)
        left = volume.free()
        if not after:
            file.data += b"\5"
            file.date = minute(2)
            left -= 1
        blocks = [volume.block(["ok", answer], volume.root, left, 0)]
        yield ["check-and-full", volume, "-", ["write /A 12288 1*5"], blocks]


def write_fault():
    """A write that is stopped, and one after it, which goes to other clusters."""
    volume = Volume(1, 16)
    volume.lay_entries(1)
    calls = ["create /A 0b 0 r", "write /A 0 768*7", "write /A 0 768*9"]
    root, blocks = volume.root, []
    for third, lost, date in (("device 245", 0, 4), ("device 245", 3, 4), ("ok", 0, 3)):
        root.entries = [("A", File(0x0B, 0, pattern(768, 9), minute(date), minute(2)[:3]))]
        blocks.append(volume.block(["ok", "ok", third, "ok"], root, 8 - lost, lost))
    field = Volume(1, 16)
    field.lay_entries(1)
    return [["write-fault", field, "3 245", calls, blocks]]


def clusters():
    """A volume of 32 sectors, four to a cluster."""
    volume = Volume(4, 8)
    volume.lay_entries(0)
    calls = ["free", "create /A 0b 0 r", "write /A 0 768*1", "free", "write /A 768 1*1", "free"]
    calls += ["size /A 0", "free"]
    answers = ["ok", "ok 7", "ok", "ok", "ok 6", "ok", "ok 5", "ok", "ok 6"]
    after = copy.deepcopy(volume.root)
    after.entries = [("A", File(0x0B, 0, b"", minute(8), minute(3)[:3]))]
    after.date = minute(3)
    yield ["clusters", volume, "-", calls, [volume.block(answers, after, 6, 0)]]
    short = Volume(4, 8)
    short.total = 30
    short.lay_entries(0)
    short_blocks = [short.block(["ok", "ok 6"], short.root, 6, 0)]
    yield ["clusters", short, "-", ["free"], short_blocks]
    lost = Volume(4, 8)
    lost.lay_entries(0)
    lost.mark([1])
    yield ["clusters", lost, "-", ["free"], [lost.block(["ok", "ok 6"], lost.root, 6, 1)]]
    three = Volume(3, 8)
    three.lay_entries(0)
    yield ["clusters", three, "-", ["free"], ["outcome\n1 not rbf\ncheck rule 1 at LSN 0\n"]]


def without_room():
    """A file needs a cluster, a directory of clusters of one sector two; and the parent's end may need one."""
    for k in (1, 4):
        for call, attr, its in (("create /N 0b 7 r", 0x0B, 1), ("mkdir /N bf 7", 0xBF, 2 if k == 1 else 1)):
            for more in (0, 1):
                for free in (its + more - 1, its + more):
                    volume = Volume(k, 16)
                    for i in range(6 if more else 1):
                        volume.add(f"C{i}", 0x03, 0, b"", 0)
                    volume.lay_entries(0 if more else 1)
                    lost = set(range(volume.next, 16 - free))
                    volume.mark(lost)
                    root, answer = copy.deepcopy(volume.root), "error 248"
                    left = free
                    if free == its + more:
                        made = File(attr, 7, b"", minute(2), minute(2)[:3])
                        made.entries = [] if attr == 0xBF else None
                        if more:
                            root.entries.append(("N", made))
                            root.date = minute(2)
                        else:
                            root.entries[1] = ("N", made)
                        answer, left = "ok", 0
                    blocks = [volume.block(["ok", answer], root, left, len(lost))]
                    yield ["room", volume, "-", [call], blocks]


def most_segments():
    """A parent of 48 segments of one sector, which hold an entry in each of their places."""
    volume = Volume(1, 448)
    segments = [(4 + 2 * i, 1) for i in range(48)]
    others = [lsn for lsn in range(5, 448) if lsn > 98 or lsn % 2 == 1]
    entries = [("..", 2), (".", 2)]
    for i in range(382):
        name, file, lsn = f"F{i}", File(0x03, 0, b""), others[i]
        volume.sectors[lsn] = volume.descriptor(file, 0, [])
        volume.root.entries.append((name, file))
        entries.append((name, lsn))
    data = b"".join(name_field(name) + lsn.to_bytes(3, "big") for name, lsn in entries)
    for i, (lsn, _) in enumerate(segments):
        volume.sectors[lsn] = data[256 * i : 256 * (i + 1)]
    volume.sectors[2] = volume.descriptor(volume.root, len(data), segments)
    volume.used = {0, 1, 2} | {lsn for lsn, _ in segments} | {lsn for _, lsn in entries}
    size = volume.map_bytes().to_bytes(2, "big")
    volume.sectors[0] = volume.total.to_bytes(3, "big") + b"\0" + size + b"\0\1\0\0\2"
    volume.mark()
    free = volume.free()
    blocks = [volume.block(["ok", "error 217", "error 217", f"ok {free}"], volume.root, free, 0)]
    return [["segments", volume, "-", ["create /N 0b 0 r", "mkdir /N bf 0", "free"], blocks]]


def stages():
    """Rows of worked examples that end earlier, so that `check` sees the volume behind each call."""
    for count in range(1, 5):
        volume = Volume(1, 16)
        volume.add("A", 0x03, 0, pattern(255, 1), 1)
        volume.lay_entries(0)
        file, ends = volume.root.at("A"), (255, 256, 257, 1000)[:count]
        for at in ends:
            file.data = overwritten(file.data, at, bytes([at % 251]))
        file.date = minute(1 + count)
        calls = [f"write /A {at} 1*{at % 251}" for at in ends]
        free = (10, 9, 9, 7)[count - 1]
        yield ["file-growth", volume, "-", calls, [volume.block(["ok"] * (1 + count), volume.root, free, 0)]]
    calls = ["create /A 0b 0 r", "write /A 0 768*1", "write /A 768 1*1"]
    for count in range(1, 4):
        volume = Volume(4, 8)
        volume.lay_entries(0)
        data = (b"", pattern(768, 1), pattern(768, 1) + b"\1")[count - 1]
        after = copy.deepcopy(volume.root)
        after.entries = [("A", File(0x0B, 0, data, minute(1 + count), minute(2)[:3]))]
        after.date = minute(2)
        free = (6, 6, 5)[count - 1]
        yield ["clusters", volume, "-", calls[:count], [volume.block(["ok"] * (1 + count), after, free, 0)]]
    volume = Volume(1, 16)
    volume.lay_entries(1)
    root, blocks = copy.deepcopy(volume.root), []
    for answer, lost, taken, data, date in (
        ("device 245", 0, 0, b"", 2), ("device 245", 3, 0, b"", 2), ("ok", 0, 3, pattern(768, 7), 3),
    ):
        root.entries = [("A", File(0x0B, 0, data, minute(date), minute(2)[:3]))]
        blocks.append(volume.block(["ok", "ok", answer], root, 11 - lost - taken, lost))
    yield ["write-fault", volume, "3 245", ["create /A 0b 0 r", "write /A 0 768*7"], blocks]
    volume = Volume(1, 16)
    volume.lay_entries(0)
    blocks = [volume.block(["device 244"], volume.root, 12, 0), volume.block(["ok", "ok 12"], volume.root, 12, 0)]
    yield ["mount-driver-calls", volume, "1 244", ["free"], blocks]


def refused_names_and_sizes():
    """Names that no entry may have, and a size for which 48 full segments have no room."""
    for call in ("create /.. 0b 0 r", "create /. 0b 0 r", "mkdir /.. bf 0", "mkdir /. bf 0"):
        volume = Volume(1, 16)
        volume.lay_entries(0)
        yield ["names", volume, "2 245", [call], [volume.block(["ok", "error 215"], volume.root, 12, 0)]]
    volume, _ = full_segments(True)
    blocks = [volume.block(["ok", answer], volume.root, volume.free(), 0) for answer in ("device 245", "error 217")]
    yield ["segments", volume, "2 245", ["size /A 12289"], blocks]


def full_segments(after):
    """A file of 48 full segments, and another one behind the last of them or not."""
    volume = Volume(1, 104)
    file = File(0x03, 0, bytes(48 * 256))
    segments = [(6 + 2 * i, 1) for i in range(48)]
    volume.sectors[4] = volume.descriptor(file, len(file.data), segments)
    volume.used |= {4} | {lsn for lsn, _ in segments}
    volume.root.entries.append(("A", file, 4))
    if after:
        volume.next = 101
        volume.add("B", 0x03, 0, b"", 0)
    volume.lay_entries(0)
    return volume, file


def all_rows():
    """The title, the fields and the outcomes of each row."""
    number = 1
    for make in (file_growth, check_and_full, write_fault, clusters, without_room, most_segments):
        for title, volume, swept, calls, blocks in make():
            yield title, [str(number), volume.field(), swept, "mount", *calls], blocks
            number += 1
    for k in (1, 4, 64):
        for fault in fault_table(k):
            title = f"{fault.name}, {k} to a cluster"
            yield title, [str(number), fault.volume.field(), "2 245", "mount", fault.call], fault.blocks
            number += 1
    for faults in (refusals(), two_map_sectors()):
        for fault in faults:
            fields = [str(number), fault.volume.field(), "2 245", "mount", fault.call]
            yield fault.name, fields, fault.blocks
            number += 1
    for rows in (stages(), refused_names_and_sizes()):
        for title, volume, swept, calls, blocks in rows:
            yield title, [str(number), volume.field(), swept, "mount", *calls], blocks
            number += 1


def main():
    for title, fields, blocks in all_rows():
        if sys.argv[1] == "rows":
            print(f"# {title}")
            print("\t".join(fields))
        else:
            print(f"row {fields[0]}")
            print("".join(blocks), end="")


if __name__ == "__main__":
    main()
