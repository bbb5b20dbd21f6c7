#!/usr/bin/env python3
"""Types at the console at random, and counts what 100,000 lines cost: console.py OS9 OS9_CONSOLE, the two built
programs.

Each session is recorded, and `boot` over its record must give the same bytes, the same image and the same status.
Then come the edges: an image that is refused, bytes above 7F, lines of up to a megabyte, no input, a record that
cannot be written, and interrupts, at a prompt and of a guest that never waits. At last 100,000 empty lines are typed
at a guest that reads lines, and the host instructions of the console are divided by those of `boot` over the record.
Needs valgrind.
"""
import os
import random
import re
import shutil
import signal
import subprocess
import sys
import tempfile
import time

TOP = os.path.dirname(os.path.dirname(os.path.abspath(__file__)))
sys.path[:0] = [os.path.join(TOP, "bench"), os.path.join(TOP, "crates", "boot_vectors")]

from assemble import assemble
from make_image import Volume

# Reads lines until the keyboard is at its end.
READER = """
        mod     SysGo,$11,$81,1000
start   ldx     #16
        ldy     #80
        clra
        os9     $8B
        bcc     start
        os9     $06
        emod
"""

# Never waits.
SPINNER = """
        mod     SysGo,$11,$81,1000
start   bra     start
        emod
"""

WORDS = ["Hello", "Say", "List", "Keep", "Allow", "note", "CMDS/Keep", "CMDS/List", "one", "two", "", " "]


def line(chance):
    """A line: words that the shell knows, in any order, or any bytes."""
    if chance.random() < 0.8:
        return " ".join(chance.choice(WORDS) for _ in range(chance.randint(0, 4))).encode()
    return bytes(chance.choice([*range(1, 10), *range(11, 256)]) for _ in range(chance.randint(0, 100)))


def run(words, **more):
    return subprocess.run(words, capture_output=True, check=False, **more)


def compare(os9, console, lines, number):
    """A session of these lines on a shell's disk, and its run again."""
    shutil.copyfile("old", "typed")
    shutil.copyfile("old", "again")
    session = run([console, "typed", "--record", "r"], input=b"\n".join(lines) + b"\n")
    boot = run([os9, "boot", "again", "--script", "r.script", "--slices", "r.slices"])
    with open("typed", "rb") as typed, open("again", "rb") as again:
        same = typed.read() == again.read()
    if (session.stdout, session.returncode) != (boot.stdout, boot.returncode) or not same:
        sys.exit(f"session {number} is not its run: {lines}")


def volume_with(name, source):
    """A file with an image whose boot file has this program alone."""
    volume = Volume(630)
    root = volume.take(1)
    volume.directory(root, root, [("OS9Boot", volume.boot_file(assemble(source)))])
    volume.finish(root)
    with open(name, "wb") as out:
        out.write(volume.image)


def content(name):
    with open(name, "rb") as file:
        return file.read()


def expect(what, is_so):
    if not is_so:
        sys.exit(f"not so: {what}")


def interrupted(console, image, typed):
    """Interrupts a session after half a second; its image must be old and whole, and no file may be left beside it."""
    shutil.copyfile(image, "struck")
    names = os.listdir(".")
    session = subprocess.Popen([console, "struck"], stdin=subprocess.PIPE, stdout=subprocess.DEVNULL)
    session.stdin.write(typed)
    session.stdin.flush()
    time.sleep(0.5)
    expect("the session goes on", session.poll() is None)
    session.send_signal(signal.SIGINT)
    expect("SIGINT ends it", session.wait(10) == -signal.SIGINT)
    expect("its image is the old one", content("struck") == content(image) and os.listdir(".") == names)


def edges(os9, console):
    """What a person may do at the edges."""
    with open("zeros", "wb") as out:
        out.write(bytes(4096))
    refused = run([console, "zeros", "--record", "z"], input=b"Ada\n")
    expect("the image is refused", refused.returncode == 6 and content("zeros") == bytes(4096))
    expect("nothing is recorded", not os.path.exists("z.script"))
    compare(os9, console, [bytes(range(128, 256)), "Zo\u00eb".encode()], "with bytes above 7F")
    expect("they are typed", b" 80 81 82 " in content("r.script") and b" C3 AB 0D\n" in content("r.script"))
    volume_with("reader", READER)
    for length in (126, 127, 128, 254, 255, 256, 257, 300, 5000, 900000):
        shutil.copyfile("reader", "old")
        compare(os9, console, [b"x" * length, b"next"], f"with a line of {length} bytes")
        keys = re.findall(rb" (?=[0-9A-F]{2}\b)", content("r.script"))
        expect("all of it is typed", len(keys) == length + 1 + 5)
        expect("each part has at most 128 keys", max(it.count(b" ") for it in content("r.script").split(b"\n")) == min(length + 1, 128) + 1)
        expect("each line ends", content("r.script").count(b" 0D\n") == 2)
    long = run([console, "reader", "--record", "long"], input=b"x" * (1 << 20) + b"\n")
    expect("a megabyte is typed", long.returncode == 5 and long.stdout.count(b"\x07") == (1 << 20) - 79)
    expect("it is too long to be recorded", b"too long" in long.stderr and not os.path.exists("long.script"))
    closed = subprocess.run([console, "reader"], preexec_fn=lambda: os.close(0), capture_output=True, check=False)
    for none in (run([console, "reader"], stdin=subprocess.DEVNULL), closed):
        expect("no input is the end of the input", (none.returncode, none.stdout) == (5, b""))
    lost = run([console, "reader", "--record", "missing/r"], input=b"Ada\n")
    expect("the record cannot be written", lost.returncode == 3 and lost.stderr == b"os9: cannot write missing/r.script\n")
    volume_with("spinner", SPINNER)
    interrupted(console, "spinner", b"Ada\n")
    interrupted(console, "shell", b"Allow CMDS/Keep CMDS/List\nKeep a line\n")
    print("the edges are as they should be", flush=True)


def collected(words, **more):
    """The host instructions of a run of these words."""
    counted = run(["valgrind", "--tool=callgrind", "--callgrind-out-file=/dev/null", *words], **more)
    return int(re.search(rb"Collected : (\d+)", counted.stderr)[1])


def main():
    if len(sys.argv) != 3:
        sys.exit(__doc__.strip())
    os9, console = (os.path.abspath(word) for word in sys.argv[1:])
    examples = os.path.join(TOP, "examples")
    with tempfile.TemporaryDirectory() as folder:
        os.chdir(folder)
        shutil.copyfile(os.path.join(examples, "shell.img"), "old")
        run([os9, "vol", "put", "old", "CMDS/Keep", os.path.join(examples, "keep.mod")])
        chance = random.Random(1)
        sessions = 200
        for number in range(sessions):
            lines = [b"Allow CMDS/Keep CMDS/List CMDS/Say"] * chance.randint(0, 1)
            compare(os9, console, lines + [line(chance) for _ in range(chance.randint(0, 20))], number)
        print(f"{sessions} sessions, each is its run", flush=True)
        shutil.copyfile("old", "shell")
        edges(os9, console)
        typed = collected([console, "reader", "--record", "r"], input=b"\n" * 100000)
        booted = collected([os9, "boot", "reader", "--script", "r.script", "--slices", "r.slices"])
        print(f"100,000 lines: {typed / 1e6:.1f} million host instructions, {typed / booted:.2f} times those of boot")


if __name__ == "__main__":
    main()
