"""Bytes of disks as the rows of disk_vectors and tool_vectors have them: checks, patterns and names."""


def crc24(data):
    register = 0xFFFFFF
    for byte in data:
        register ^= byte << 16
        for _ in range(8):
            register = register << 1 ^ (0x800063 if register & 0x800000 else 0)
            register &= 0xFFFFFF
    return register ^ 0xFFFFFF


def pattern(length, seed):
    return bytes((seed + 37 * i + i // 256) % 256 for i in range(length))


def name_field(name):
    text = name.encode()
    return (text[:-1] + bytes([text[-1] | 0x80])).ljust(29, b"\0")
