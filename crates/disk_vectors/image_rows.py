"""Writes rows that mount images of other makers, and what they print, by a reading of their own.

image_rows.py rows IMAGE.. > ROWS; image_rows.py expected IMAGE.. > EXPECTED. A row mounts an image and
asks how many clusters are free; what is printed then is its tree. The rows are numbered from 101.
"""
import sys

from fault_rows import crc24


def number(data):
    return int.from_bytes(data, "big")


class Image:
    def __init__(self, path):
        with open(path, "rb") as file:
            self.data = file.read()
        first = self.sector(0)
        self.total, self.map_bytes = number(first[:3]), number(first[4:6])
        self.k, self.root = number(first[6:8]), number(first[8:11])
        self.clusters = -(-self.total // self.k)
        self.owned = set(range(1 + -(-self.map_bytes // 256)))
        self.files = self.directories = 0

    def sector(self, lsn):
        return self.data[256 * lsn : 256 * lsn + 256]

    def field(self):
        parts = [str(len(self.data))]
        for place in range(0, len(self.data), 256):
            data = self.data[place : place + 256].rstrip(b"\0")
            if data:
                parts.append(f"{place // 256}:{data.hex()}")
        return ";".join(parts)

    def lines(self, lsn, path, entry):
        """The lines of a file or directory and of what stands in it."""
        fields = self.sector(lsn)
        sectors = []
        for place in range(16, 256, 5):
            first, count = number(fields[place : place + 3]), number(fields[place + 3 : place + 5])
            if not count:
                break
            sectors += range(first, first + count)
        self.owned |= {lsn, *sectors}
        size = number(fields[9:13])
        data = b"".join(self.sector(sector) for sector in sectors)[:size]
        directory = fields[0] >= 0x80
        self.directories += directory
        self.files += not directory
        what = "dir" if directory else f"{crc24(data):06x}"
        text = f"{path or '/'} {fields[0]:02x} {number(fields[1:3])} {fields[3:8].hex()} "
        text += f"{fields[13:16].hex()} {fields[8]} {size} {what} {entry}\n"
        return text + (self.entry_lines(data, path) if directory else "")

    def entry_lines(self, data, path):
        text = f"{path}/ dots {crc24(data[:29] + data[32:61]):06x}\n"
        for place in range(64, len(data), 32):
            entry = data[place : place + 32]
            check = f"{crc24(entry[:29]):06x}"
            if not entry[0]:
                text += f"{path}/ free {check}\n"
                continue
            end = next(i for i in range(29) if entry[i] >= 0x80)
            name = bytes(byte & 0x7F for byte in entry[: end + 1]).decode()
            text += self.lines(number(entry[29:]), f"{path}/{name}", check)
        return text

    def map(self):
        end = 256 + -(-self.map_bytes // 256) * 256
        return number(self.data[256:end]), 8 * (end - 256)

    def block(self):
        tree = self.lines(self.root, "", "-")
        bits, width = self.map()
        used = {sector // self.k for sector in self.owned}
        whole = range(self.total // self.k)
        marked = {cluster for cluster in whole if bits >> (width - 1 - cluster) & 1}
        free, lost = len(whole) - len(marked), len(marked - used)
        left = (bits & ((1 << (width - self.clusters)) - 1)).to_bytes(width // 8, "big")
        outside = (self.sector(0), left, self.data[256 * self.total :])
        text = f"outcome\n1 ok\n2 ok {free}\n"
        text += f"check files {self.files} dirs {self.directories} free {free} lost {lost}\n"
        return text + "outside " + " ".join(f"{crc24(part):06x}" for part in outside) + "\n" + tree


def main():
    for row, path in enumerate(sys.argv[2:], 101):
        image = Image(path)
        if sys.argv[1] == "rows":
            print(f"# {path.rsplit('/', 1)[-1]}")
            print("\t".join([str(row), image.field(), "-", "mount", "free"]))
        else:
            print(f"row {row}\n{image.block()}", end="")


if __name__ == "__main__":
    main()
