#!/usr/bin/env python3
"""Tests that the modules of examples/ are those of its sources, assembled outside of the program."""
import os
import sys
import unittest

FOLDER = os.path.dirname(os.path.abspath(__file__))
sys.path.append(os.path.join(FOLDER, "..", "crates", "boot_vectors"))

from assemble import assemble

# The pieces of a file of modules that has more than its own source: sources, and bytes between them.
PIECES = {
    "account": ["account", "deposit"],
    "pipe": ["pipe", "lines"],
    "workers": ["workers", "worker"],
    "revisions": ["hello", bytes(5), "data", "newer"],
}


def read(name):
    with open(os.path.join(FOLDER, name), "rb") as file:
        return file.read()


def made(piece):
    return piece if isinstance(piece, bytes) else assemble(read(piece + ".asm").decode("latin-1"))


class Sources(unittest.TestCase):
    def test_modules_are_those_of_the_sources(self):
        names = [name[:-4] for name in sorted(os.listdir(FOLDER)) if name.endswith(".mod")]
        self.assertIn("hello", names)
        for name in names:
            with self.subTest(name):
                pieces = PIECES.get(name, [name])
                self.assertEqual(b"".join(map(made, pieces)), read(name + ".mod"))

    def test_shell_is_that_of_the_program(self):
        code = read(os.path.join("..", "crates", "guest_mods", "src", "shell.rt"))
        self.assertIn(b'br#"' + read("shell.asm") + b'"#;', code)


if __name__ == "__main__":
    unittest.main()
