#!/usr/bin/env python3
"""Tests set_boot.py with the images of examples/, whose fields README.md gives byte by byte."""
import os
import unittest

from set_boot import NoBootFile, set_boot

FOLDER = os.path.dirname(os.path.abspath(__file__))


def read(name):
    with open(os.path.join(FOLDER, name), "rb") as file:
        return file.read()


def changed(image, at, data):
    return image[:at] + data + image[at + len(data):]


class SetBoot(unittest.TestCase):
    def test_fields_of_the_examples_are_found_again(self):
        for name in ("echo.img", "log.img"):
            image = read(name)
            self.assertEqual(set_boot(changed(image, 0x15, bytes(5)), "os9BOOT"), image)

    def test_file_of_another_name_is_not_there(self):
        with self.assertRaises(NoBootFile):
            set_boot(read("smallest.img"), "OS9Boot")

    def test_deleted_file_is_not_there(self):
        with self.assertRaises(NoBootFile):
            set_boot(changed(read("echo.img"), 0x340, b"\0"), "OS9Boot")

    def test_file_in_two_pieces_is_refused(self):
        longer = changed(read("echo.img"), 0x409, (300).to_bytes(4, "big"))
        apart = changed(longer, 0x410, bytes([0, 0, 5, 0, 1, 0, 0, 7, 0, 1]))
        with self.assertRaises(NoBootFile):
            set_boot(apart, "OS9Boot")
        together = changed(longer, 0x410, bytes([0, 0, 5, 0, 1, 0, 0, 6, 0, 1]))
        self.assertEqual(set_boot(together, "OS9Boot")[0x15:0x1A], bytes([0, 0, 5, 1, 44]))

    def test_sectors_behind_the_end_may_lie_elsewhere(self):
        apart = changed(read("echo.img"), 0x410, bytes([0, 0, 5, 0, 1, 0, 0, 7, 0, 1]))
        self.assertEqual(set_boot(apart, "OS9Boot")[0x15:0x1A], bytes([0, 0, 5, 0, 49]))

    def test_directory_is_refused(self):
        with self.assertRaises(NoBootFile):
            set_boot(changed(read("echo.img"), 0x400, b"\xbf"), "OS9Boot")

    def test_empty_file_is_refused(self):
        with self.assertRaises(NoBootFile):
            set_boot(changed(read("echo.img"), 0x409, bytes(4)), "OS9Boot")


if __name__ == "__main__":
    unittest.main()
