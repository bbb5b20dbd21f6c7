#!/usr/bin/env bash
# Runs `os9 asm` on sources of 1,000, 10,000 and 100,000 lines of every form, on one of a million, and on
# single lines of a million bytes, and compares each answer with that of another assembler (asm_sources.py).
# It prints for each the seconds of the processor, the least of five runs, and the peak memory. With a PROGRAM
# as its word it runs `PROGRAM asm SOURCE OUT` in turn with it, asks for the same answers, and prints how many
# times the seconds of PROGRAM os9 takes.
top=$(cd "$(dirname "$(readlink -f "${BASH_SOURCE[0]}")")/.." && pwd) || exit 1
folder=$(mktemp -d) || exit 1
trap 'rm -rf "$folder"' EXIT

"$top/os9" build || exit 1

python3 - "$folder" "$top/bench" "$top/crates/os9/out/os9" "$@" <<'PYTHON'
import os, resource, subprocess, sys

folder, bench, programs = sys.argv[1], sys.argv[2], sys.argv[3:5]
sys.path.append(bench)

from asm_sources import SOURCES, source_and_answer

REFUSED = 10  # the status of a source that breaks a rule
source, out = f"{folder}/source", f"{folder}/out"


def processor_seconds():
    usage = resource.getrusage(resource.RUSAGE_CHILDREN)
    return usage.ru_utime + usage.ru_stime


def has_answered(run, answer):
    """The program wrote the module that is the answer, or refused the source by that line and error."""
    if isinstance(answer, bytes):
        return run.returncode == 0 and open(out, "rb").read() == answer
    line, error = answer
    told = run.stderr.endswith(f": line {line} error {error}\n")
    return run.returncode == REFUSED and told and not os.path.exists(out)


def measure(program, answer):
    """The seconds of the processor, and the peak memory in KiB."""
    if os.path.exists(out):
        os.remove(out)
    cost = f"{folder}/cost"
    begin = processor_seconds()
    timed = ["/usr/bin/time", "-q", "-f", "%M", "-o", cost, program, "asm", source, out]
    run = subprocess.run(timed, stderr=subprocess.PIPE, text=True)
    seconds = processor_seconds() - begin
    if not has_answered(run, answer):
        sys.exit(f"{program} gave another answer: status {run.returncode} {run.stderr}")
    return seconds, int(open(cost).read())


for name in SOURCES:
    text, answer = source_and_answer(name)
    with open(source, "w") as file:
        file.write(text)
    runs = [[measure(program, answer) for program in programs] for _ in range(5)]
    seconds = [min(cost for cost, _ in column) for column in zip(*runs)]
    peak = max(peak for _, peak in next(zip(*runs)))
    print(f"{name}: {seconds[0]:.3f} seconds, {peak / 1024:.1f} MiB", flush=True)
    for program, other in zip(programs[1:], seconds[1:]):
        print(f"  {seconds[0] / other:.2f} times the {other:.3f} seconds of {program}")
PYTHON
