#!/usr/bin/env bash
# Runs `./os9 check` on images of 1, 16 and 128 MiB, and prints for each what it answers, the
# seconds that it takes and its peak memory, with how many times the image that is. The largest has
# 524,280 sectors, which are 128 MiB but for eight sectors.
top=$(cd "$(dirname "$(readlink -f "${BASH_SOURCE[0]}")")/.." && pwd) || exit 1
folder=$(mktemp -d) || exit 1
trap 'rm -rf "$folder"' EXIT

# Runs a program, and writes its seconds and its peak memory in KiB into the file `cost`.
measure() {
    if [ -x /usr/bin/time ]; then
        /usr/bin/time -f '%e %M' -o "$folder/cost" "$@"
    else
        python3 - "$folder/cost" "$@" <<'PYTHON'
import resource, subprocess, sys, time
begin = time.monotonic()
status = subprocess.run(sys.argv[2:]).returncode
took = time.monotonic() - begin
peak = resource.getrusage(resource.RUSAGE_CHILDREN).ru_maxrss
with open(sys.argv[1], "w") as cost:
    print(f"{took:.2f} {peak}", file=cost)
sys.exit(status)
PYTHON
    fi
}

"$top/os9" build || exit 1

for sectors in 4096 65536 524280; do
    python3 "$top/bench/make_image.py" "$folder/image" $sectors || exit 1
    measure "$top/os9" check "$folder/image" >"$folder/out" || exit 1
    read -r seconds peak <"$folder/cost"
    times=$((100 * peak / (sectors / 4)))
    echo "$sectors sectors: $(cat "$folder/out")"
    echo "  $seconds seconds, $((peak / 1024)) MiB at most, $((times / 100)).$(printf %02d $((times % 100))) times the image"
done
