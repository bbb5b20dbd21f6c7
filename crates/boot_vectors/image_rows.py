#!/usr/bin/env python3
"""Makes the rows of boots from images in the stdin of this crate.

What is expected is worked out here from the order of causes (docs/texts.md) and a volume of 16 sectors
(docs/disk.md). It shares no text with the program. src/row.rt has the fields of a row."""

HELLO = bytes.fromhex("87cd002b000d118103001200c853797347ef308c0d108e00508601103f8c5f103f0648656c6c6f0d8492d7")
ECHO = bytes.fromhex("87cd0029000d118101001200c853797347ef8e0000108e00504f103f8b8601103f8c5f103f06665df4")
LINE = b"Hello\r\n"
BOOT = "boot d0.img --slices slices --script script"
TWO = "boot d0.img d1.img --slices slices --script script"


def volume(file=HELLO, at=4, size=None, total=16, rest=b""):
    """A volume whose root is its only file, and a boot file that no directory names."""
    image = bytearray(256 * total)
    image[0:3] = total.to_bytes(3, "big")
    image[4:6] = (2).to_bytes(2, "big")
    image[6:8] = (1).to_bytes(2, "big")
    image[8:11] = (2).to_bytes(3, "big")
    image[21:24] = at.to_bytes(3, "big")
    image[24:26] = (len(file) if size is None else size).to_bytes(2, "big")
    image[256] = 0xF0
    image[512] = 0xBF
    image[524] = 64
    image[528:533] = bytes([0, 0, 3, 0, 1])
    image[768:770] = b".\xae"
    image[799] = 2
    image[800] = 0xAE
    image[831] = 2
    if 0 < at < total:
        image[256 * at : 256 * at + len(file)] = file
    return bytes(image[: 256 * total]) + rest


def changed(data, at, byte):
    data = bytearray(data)
    data[at] = byte
    return bytes(data)


def field(data):
    """The bytes as pieces, where runs of zeros are short."""
    pieces, at = [], 0
    while at < len(data):
        end = at
        while end < len(data) and data[end] == 0:
            end += 1
        if end - at >= 8:
            pieces.append(f"00*{end - at}")
            at = end
            continue
        end = at
        while end < len(data) and data[end : end + 8] != bytes(8):
            end += 1
        pieces.append(data[at:end].hex())
        at = end
    return ",".join(pieces) or "-"


def row(words, d0, d1=b"", status=0, out=b"", err="", slices=b"1000", script=b"", failing="-"):
    print(words, "-", 0, slices.hex() or "-", script.hex() or "-", status, out.hex() or "-", err or "-", "-",
          field(d0), field(d1), failing, sep="\t")


def main():
    good = volume()
    other = volume(b"")
    bad = changed(good, 256, 0xE0)  # rule 3: the root's sector 3 is not marked
    print("# boots from images: the first one's boot file runs")
    row(BOOT, good, out=LINE)
    row(BOOT + " --blocks 8", good, out=LINE)
    row(BOOT + " --time 1990-01-01T00:00:00", good, out=LINE)
    row(TWO, good, other, out=LINE)
    row("boot --script=script d0.img --slices=slices d1.img d0.img d1.img", good, other, out=LINE)
    row(TWO, other, good, status=8, err="os9: boot bounds")
    row(BOOT, good, status=5, slices=b"")
    row(BOOT, good, status=5, slices=b"4")
    row(BOOT, good, status=5, out=LINE, slices=b"6")
    row(BOOT, volume(rest=b"\x01" * 300), out=LINE)
    row(BOOT, volume(ECHO), out=b"hi\r\nhi\r\n", slices=b"100*2", script=b"2 TERM 68 69 0D")
    print("# boots: words that are no command line")
    row("boot --slices slices --script script", good, status=1, err="os9: words")
    row("boot d0.img --slices slices", good, status=1, err="os9: words")
    row("boot d0.img --script script", good, status=1, err="os9: words")
    row("boot d0.img d0.img d0.img d0.img d0.img --slices slices --script script", good, status=1, err="os9: words")
    row(BOOT + " --history", good, status=1, err="os9: words")
    print("# boots: the order of causes: what cannot be read, the texts, the images, the boot file")
    row(TWO, bad, bad, status=2, err="os9: cannot read script", slices=b"0", script=b"0", failing="1")
    row(TWO, bad, bad, status=2, err="os9: cannot read slices", slices=b"0", script=b"0", failing="2")
    row(TWO, bad, bad, status=2, err="os9: cannot read d0.img", slices=b"0", script=b"0", failing="3")
    row(TWO, bad, bad, status=2, err="os9: cannot read d1.img", slices=b"0", script=b"0", failing="4")
    row("boot d0.img d2.img --slices slices --script script", bad, status=2, err="os9: cannot read d2.img")
    row(TWO, bad, bad, status=7, err="os9: script: line 1", slices=b"0", script=b"0")
    row(TWO, bad, bad, status=7, err="os9: slices: line 1", slices=b"0")
    row("boot d0.img --slices slices --script d0.img", bad, status=7, err="os9: d0.img: line 1")
    row("boot d0.img --slices d0.img --script script", bad, status=7, err="os9: d0.img: line 1")
    row(TWO, bad, bad, status=6, err="os9: d0.img: rule 3 at LSN 3")
    row(TWO, volume(at=0), bad, status=6, err="os9: d1.img: rule 3 at LSN 3")
    row(TWO, good, good[:1024], status=6, err="os9: d1.img: rule 1 at LSN 0")
    print("# boots: the bounds of the boot file, and its modules")
    for at, size in [(0, 43), (4, 0), (16, 1), (15, 257), (14, 513), (4, 65535), (16777215, 65535)]:
        row(BOOT, volume(HELLO, at, size), status=8, err="os9: boot bounds")
    row(BOOT, volume(at=15, size=257, rest=bytes(256)), status=8, err="os9: boot bounds")
    row(BOOT, volume(HELLO + bytes(213), at=15), out=LINE)
    row(BOOT, volume(at=14, size=512), out=LINE)
    row(BOOT, volume(size=42), status=8, err="os9: boot module 205 at 0")
    # the map, the root's descriptor and its entries in the place of a boot file
    for at, size in [(1, 16), (2, 256), (3, 64)]:
        row(BOOT, volume(b"", at, size), status=8, err="os9: boot module 205 at 0")
    row(BOOT, volume(at=15, size=256, file=b""), status=8, err="os9: boot no SysGo")
    row(BOOT, volume(changed(HELLO, 8, 2)), status=8, err="os9: boot module 236 at 0")
    print("# boots: writes that fail: those of the output, and behind the run those of the images, in order")
    row(BOOT, good, status=3, err="os9: cannot write output", failing="4")
    row(BOOT, good, status=3, out=LINE, err="os9: cannot write d0.img", failing="5")
    row(TWO, good, other, status=3, err="os9: cannot write output", failing="5")
    row(TWO, good, other, status=3, out=LINE, err="os9: cannot write d0.img", failing="6")
    row(TWO, good, other, status=3, out=LINE, err="os9: cannot write d1.img", failing="7")
    row(TWO, good, other, out=LINE, failing="8")
    row(BOOT, good, status=3, err="os9: cannot write d0.img", slices=b"4", failing="4")


if __name__ == "__main__":
    main()
