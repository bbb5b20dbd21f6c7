#!/usr/bin/env bash
# Prints what a call costs in host instructions by which a guest copies a file of 1 MiB on a disk, 256
# bytes at a time, and what the copy of 512 KiB and `stress 1` cost and how often they call drives. Takes
# the file of a program, else the one that is built here is measured. Needs valgrind.
top=$(cd "$(dirname "$(readlink -f "${BASH_SOURCE[0]}")")/.." && pwd) || exit 1
[ -n "${1-}" ] || "$top/os9" build || exit 1
program=$(readlink -f "${1:-$top/crates/os9/out/os9}")
folder=$(mktemp -d) || exit 1
trap 'rm -rf "$folder"' EXIT
cd "$folder" || exit 1

python3 "$top/crates/boot_vectors/assemble.py" "$top/bench/copy.asm" copy.mod || exit 1
echo "# no key" >script
echo "1000000*10" >slices

# The host instructions of `os9` with these words; the file `profile` has what they were spent on.
host_instructions() {
    valgrind --tool=callgrind --callgrind-out-file=profile "$program" "$@" >out 2>err
    sed -n 's/.*Collected : \([0-9]*\).*/\1/p' err
}

# Those of a boot whose guest copies a file of so many sectors, on a disk of 4 MiB.
copied() {
    python3 - "$top/bench" "$1" <<'PYTHON' || exit 1
import sys
sys.path.insert(0, sys.argv[1])
from make_image import Volume
volume = Volume(16384)
root = volume.take(1)
named = [("OS9Boot", volume.boot_file(open("copy.mod", "rb").read())), ("BIG", volume.file(int(sys.argv[2])))]
volume.directory(root, root, named)
volume.finish(root)
open("disk", "wb").write(volume.image)
PYTHON
    host_instructions boot disk --script script --slices slices
}

"$program" stress 1 || exit 1
few=$(copied 2048) || exit 1
cp profile copy_profile
many=$(copied 4096) || exit 1
"$program" check disk || exit 1
awk -v few="$few" -v many="$many" \
    'BEGIN { printf "a call of 256 bytes: %.0f host instructions, the mean of I$Read and I$Write\n", (many - few) / 4096 }'
echo "the copy of 2048 sectors: $few host instructions"
python3 "$top/bench/drive_calls.py" copy_profile
echo "stress 1: $(host_instructions stress 1) host instructions"
python3 "$top/bench/drive_calls.py" profile
