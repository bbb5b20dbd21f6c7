#!/usr/bin/env python3
"""Makes the first rows of programs of the stdin of this crate: boot files, and what `run` answers to each.

This is a reading of its own of the rules for boot files (docs/machine.md, "Modules" and "The
start"): it shares no text with the program. src/row.rt has the fields of a row."""

NAME_CHARACTERS = set(range(0x21, 0x7F)) - {0x2F}


def crc(data):
    register = 0xFFFFFF
    for byte in data:
        for place in range(7, -1, -1):
            top = register >> 23 & 1
            register = register << 1 & 0xFFFFFF
            if top != byte >> place & 1:
                register ^= 0x800063
    return register ^ 0xFFFFFF


def word(data, at):
    return data[at] << 8 | data[at + 1]


def sealed(data):
    """The module with right parity and CRC."""
    data = bytearray(data)
    parity = 0xFF
    for byte in data[:8]:
        parity ^= byte
    data[8] = parity
    return bytes(data[:-3]) + crc(data[:-3]).to_bytes(3, "big")


def marked(name):
    return name[:-1] + bytes([name[-1] | 0x80])


def program(name, text, revision=1, kind=0x11, storage=200):
    """A program that writes the text up to its carriage return, and exits with 0."""
    code = bytes.fromhex("308C0D108E00508601103F8C5F103F06")
    header = 13
    size = header + len(name) + len(code) + len(text) + 3
    data = bytes([0x87, 0xCD]) + size.to_bytes(2, "big") + header.to_bytes(2, "big")
    data += bytes([kind, 0x80 | revision, 0]) + (header + len(name)).to_bytes(2, "big")
    data += storage.to_bytes(2, "big") + marked(name) + code + text + bytes(3)
    return sealed(data)


def other(name, revision=1, kind=0x21, body=b""):
    """A module that is no program."""
    size = 9 + len(name) + len(body) + 3
    data = bytes([0x87, 0xCD]) + size.to_bytes(2, "big") + bytes([0, 9, kind, 0x80 | revision, 0])
    return sealed(data + marked(name) + body + bytes(3))


def stored_name(data):
    for count, byte in enumerate(data):
        if count == 29 or byte & 0x7F not in NAME_CHARACTERS:
            return None
        if byte & 0x80:
            return bytes(c & 0x7F for c in data[: count + 1])
    return None


def module_at(data):
    """The module at the front, or the number of the rule that it breaks."""
    if len(data) < 13 or word(data, 0) != 0x87CD:
        return 205
    size, offset, kind = word(data, 2), word(data, 4), data[6]
    is_program = kind >> 4 == 1
    header = 13 if is_program else 9
    if size < header + 4 or size > len(data) or offset < header:
        return 205
    name = stored_name(data[offset : size - 3])
    if name is None:
        return 205
    entry = word(data, 9) if is_program else 0
    if entry >= size - 3:
        return 205
    parity = 0
    for byte in data[:9]:
        parity ^= byte
    if parity != 0xFF:
        return 236
    if crc(data[: size - 3]).to_bytes(3, "big") != data[size - 3 : size]:
        return 232
    return {
        "name": name.lower(),
        "size": size,
        "kind": kind,
        "revision": data[7] & 15,
        "storage": word(data, 11) if is_program else 0,
    }


def refusal(file, blocks):
    """The line that the file is refused with, or the program that starts."""
    if len(file) > 57344:
        return "os9: boot too large"
    entries, at = [], 0
    while True:
        while at < len(file) and file[at] == 0:
            at += 1
        if at == len(file):
            break
        module = module_at(file[at:])
        if isinstance(module, int):
            return f"os9: boot module {module} at {at}"
        same = [e for e in entries if e["name"] == module["name"] and e["kind"] >> 4 == module["kind"] >> 4]
        if any(e["revision"] >= module["revision"] for e in same):
            return f"os9: boot module 231 at {at}"
        if len(entries) == 64:
            return f"os9: boot module 206 at {at}"
        module["at"] = at
        entries.append(module)
        at += module["size"]
    first = None
    for entry in entries:
        newer = any(
            e["name"] == entry["name"] and e["kind"] >> 4 == entry["kind"] >> 4 and e["revision"] > entry["revision"]
            for e in entries
        )
        if entry["name"] == b"sysgo" and entry["kind"] == 0x11 and not newer and first is None:
            first = entry
    if first is None:
        return "os9: boot no SysGo"
    pages = max(1, -(-first["storage"] // 256))
    data_blocks, file_blocks = -(-pages // 32), -(-len(file) // 8192)
    if data_blocks + file_blocks > min(8, blocks):
        return "os9: boot too large"
    return first


def line(file, zeros=0, blocks=64, text=b"Hello\r"):
    """A row: where the file is accepted, the text is what its first program writes."""
    verdict = refusal(bytes(file) + bytes(zeros), blocks)
    if isinstance(verdict, str):
        status, out, err = 8, b"", verdict
    else:
        status, out, err = 0, text + b"\n", ""
    words = f"run modules --slices slices --blocks {blocks}"
    print(words, bytes(file).hex() or "-", zeros, b"1000".hex(), "-", status, out.hex() or "-", err or "-", sep="\t")


def changed(data, at, byte):
    data = bytearray(data)
    data[at] = byte
    return bytes(data)


def main():
    hello = program(b"SysGo", b"Hello\r")
    newer = program(b"SysGo", b"Newer\r", revision=2)
    assert hello.hex() == (
        "87cd002b000d11810300120 0c8".replace(" ", "") + "53797347ef308c0d108e00508601103f8c5f103f0648656c6c6f0d8492d7"
    )
    # the worked rows
    line(hello)
    line(b"")
    line(changed(hello, 8, 0x02))
    line(changed(hello, 0x22, 0x68))
    line(changed(changed(hello, 8, 0x02), 0x22, 0x68))
    line(changed(hello, 0, 0x86))
    line(hello, 57301, blocks=8)
    line(hello, 57302, blocks=8)
    line(program(b"SysGo", b"Hello\r", storage=0x2001), 57301)
    # each byte changed
    for at, byte in enumerate(hello):
        for value in sorted({0x00, 0xFF, byte ^ 0x01, byte ^ 0x80, (byte + 1) % 256} - {byte}):
            line(changed(hello, at, value))
    # the file cut, and with bytes behind it
    for length in range(len(hello)):
        line(hello[:length])
    line(hello + b"\x01")
    line(hello + bytes(100))
    line(bytes(3) + hello)
    line(b"", 57344)
    line(b"", 57345)
    # fields that lie, with right parity and CRC
    for at, value in [(2, 0xFF), (2, 0x01), (3, 0x2A), (3, 0x2C), (3, 0x10), (3, 0x00)]:
        line(sealed(changed(hello, at, value)))
    for offset in [0x00, 0x0C, 0x27, 0x28, 0x29, 0x2B, 0xFF]:
        line(sealed(changed(hello, 5, offset)))
    line(sealed(changed(hello, 4, 0xFF)))
    for entry in [0x28, 0x2A, 0x2B, 0xFF]:
        line(sealed(changed(hello, 10, entry)))
    line(sealed(changed(hello, 9, 0x01)))
    for kind in [0x01, 0x10, 0x12, 0x1F, 0x21, 0xC1, 0xF1]:
        line(sealed(changed(hello, 6, kind)))
    # names
    for name in [b"sysgo", b"SYSGO", b"SysGo2", b"SysG", b"S", b"A" * 29, b"A" * 30, b"Sys/o", b"Sys o"]:
        line(program(name, b"Hello\r"))
    # data areas
    for storage in [0, 1, 256, 257, 0x2000, 0x2001, 0xE000, 0xE001, 0xFFFF]:
        line(program(b"SysGo", b"Hello\r", storage=storage))
        line(program(b"SysGo", b"Hello\r", storage=storage), 8192 - 43, blocks=8)
        line(program(b"SysGo", b"Hello\r", storage=storage), 8192 - 42, blocks=8)
    # several modules
    line(hello + newer, text=b"Newer\r")
    line(newer + hello)
    line(hello + hello)
    line(hello + bytes(5) + newer + bytes(2), text=b"Newer\r")
    line(hello + program(b"SYSGO", b"Hello\r"))
    line(hello + program(b"SysGo", b"Other\r", kind=0x12))
    line(hello + program(b"SysGo", b"Other\r", kind=0x12, revision=2))
    line(hello + other(b"SysGo"))
    line(other(b"SysGo") + hello)
    line(other(b"Data") + hello + other(b"Init", kind=0xC0))
    line(other(b"Data") + b"\x00\x01" + hello)
    line(hello + changed(other(b"Data"), 8, 0))
    line(hello + changed(other(b"Data"), -1, 0))
    line(hello + other(b"Data")[:-1])
    line(other(b"Data") * 2 + hello)
    line(other(b"Data", 2) + other(b"Data", 1) + hello)
    line(other(b"Data", 1) + other(b"Data", 2) + other(b"Data", 3) + hello)
    many = b"".join(other(b"M%d" % k) for k in range(64))
    line(hello + many[: 14 * 10 + 15 * 53])
    line(hello + many)
    line(hello + many[: 14 * 10 + 15 * 53] + other(b"M3"))
    line(many)
    full = b"".join(other(b"M%d" % k, body=bytes(880)) for k in range(63))
    line(hello + full, blocks=8)
    line(hello + full, 57344 - len(hello) - len(full), blocks=8)
    line(hello + full, 57345 - len(hello) - len(full), blocks=8)


main()
