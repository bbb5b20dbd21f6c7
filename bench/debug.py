"""Compares `debug` with `run` over a million instructions of a program that goes round for ever: the
processor time of the fastest of twelve runs, the host instructions, and the peak memory. Times a trace of
100,000 positions, too. Fails if `to 1000000` takes more than twice the host instructions of `run`, or a tenth
more memory than `to 1`. The program is built first: ./os9 build. Needs valgrind and /usr/bin/time."""

import os
import re
import resource
import subprocess
import tempfile

TOP = os.path.dirname(os.path.dirname(os.path.realpath(__file__)))
PROGRAM = f"{TOP}/crates/os9/out/os9"
MODULE = f"{TOP}/examples/loop.mod"
TIMES = 12
# How many times the host instructions of `run`, and the memory of `to 1`, a `to` of its end may take.
MOST_INSTRUCTIONS = 2
MOST_MEMORY = 1.1


def spent():
    """Returns the processor seconds of the children that have ended."""
    used = resource.getrusage(resource.RUSAGE_CHILDREN)
    return used.ru_utime + used.ru_stime


def fastest(words):
    """Returns the processor seconds of the fastest run of the program on these words."""
    best = None
    for _ in range(TIMES):
        before = spent()
        subprocess.run([PROGRAM, *words], stdout=subprocess.DEVNULL, check=False)
        took = spent() - before
        best = took if best is None else min(best, took)
    return best


def collected(words):
    """Returns the host instructions of a run of the program on these words."""
    counted = ["valgrind", "--tool=callgrind", "--callgrind-out-file=/dev/null", PROGRAM, *words]
    run = subprocess.run(counted, stdout=subprocess.DEVNULL, stderr=subprocess.PIPE, text=True, check=False)
    return int(re.search(r"Collected : (\d+)", run.stderr)[1])


def peak(words):
    """Returns the peak memory of a run of the program on these words, in KiB."""
    timed = ["/usr/bin/time", "-q", "-f", "%M", PROGRAM, *words]
    run = subprocess.run(timed, stdout=subprocess.DEVNULL, stderr=subprocess.PIPE, text=True, check=True)
    return int(run.stderr)


def main():
    with tempfile.TemporaryDirectory() as folder:

        def text(name, content):
            with open(f"{folder}/{name}", "w") as file:
                file.write(content)
            return f"{folder}/{name}"

        slices = text("slices", "100000*10\n")
        first = text("first", "to 1\n")
        last = text("last", "to 1000000\n")
        trace = text("trace", "".join(f"to {k}\nregs\n" for k in range(1, 100_001)))
        back = text("back", "to 1000000\nback 1\nregs\n")
        run = ["run", MODULE, "--slices", slices]

        def debug(commands):
            return ["debug", MODULE, "--slices", slices, "--commands", commands]

        seconds = fastest(run)
        print(f"run {seconds:.3f} s")
        for name, commands in ("to 1000000", last), ("100,000 positions", trace), ("back 1 from the end", back):
            took = fastest(debug(commands))
            print(f"{name} {took:.3f} s, {took / seconds:.2f} times run")
        times = collected(debug(last)) / collected(run)
        print(f"to 1000000 {times:.2f} times the host instructions of run")
        least, most = peak(debug(first)), peak(debug(last))
        print(f"to 1 {least} KiB, to 1000000 {most} KiB")
        assert times <= MOST_INSTRUCTIONS, times
        assert most <= MOST_MEMORY * least, (least, most)


main()
