"""Makes a module of 6809 code: make_module.py FILE CODE, with the code in hexadecimal.

The module is a program of the name SysGo that begins at its first byte of code. The header, its
parity and the CRC are those of the OS-9 System Programmer's Manual, "Memory modules".
"""

import pathlib
import sys

sys.path.insert(0, str(pathlib.Path(__file__).resolve().parent.parent / "crates" / "boot_vectors"))

from assemble import crc  # noqa: E402

HEADER = 13
NAME = b"SysG" + bytes([ord("o") | 0x80])
STORAGE = 200


def module(code):
    size = HEADER + len(NAME) + len(code) + 3
    head = bytes([0x87, 0xCD]) + size.to_bytes(2, "big") + HEADER.to_bytes(2, "big") + bytes([0x11, 0x81])
    parity = 0xFF
    for byte in head:
        parity ^= byte
    entry = HEADER + len(NAME)
    body = head + bytes([parity]) + entry.to_bytes(2, "big") + STORAGE.to_bytes(2, "big") + NAME + code
    return body + crc(body)


if __name__ == "__main__":
    with open(sys.argv[1], "wb") as file:
        file.write(module(bytes.fromhex(sys.argv[2])))
