#!/usr/bin/env bash
# Runs `./os9 boot` on one and on four images of 16 MiB, and on four of 128 MiB, and prints for each the
# seconds that it takes and its peak memory, with how many times the images that is, and the seconds
# of `./os9 check` of the same images. The boot file of the first says Hello and exits.
top=$(cd "$(dirname "$(readlink -f "${BASH_SOURCE[0]}")")/.." && pwd) || exit 1
folder=$(mktemp -d) || exit 1
trap 'rm -rf "$folder"' EXIT
"$top/os9" build || exit 1

# Runs a program, and writes its seconds and its peak memory in KiB into the file `cost`.
measure() {
    python3 - "$folder/cost" "$@" <<'PYTHON'
import resource, subprocess, sys, time
begin = time.monotonic()
status = subprocess.run(sys.argv[2:], stdout=subprocess.DEVNULL).returncode
took = time.monotonic() - begin
peak = resource.getrusage(resource.RUSAGE_CHILDREN).ru_maxrss
with open(sys.argv[1], "w") as cost:
    print(f"{took:.2f} {peak}", file=cost)
sys.exit(status)
PYTHON
}

echo "# no key" >"$folder/script"
for row in "65536 1" "65536 4" "524280 4"; do
    read -r sectors count <<<"$row"
    python3 "$top/bench/make_image.py" "$folder/image" "$sectors" "$top/examples/hello.mod" || exit 1
    images=()
    for n in $(seq "$count"); do
        cp "$folder/image" "$folder/d$n" || exit 1
        images+=("$folder/d$n")
    done
    checked=0
    for image in "${images[@]}"; do
        measure "$top/os9" check "$image" || exit 1
        read -r seconds peak <"$folder/cost"
        checked=$(python3 -c "print(f'{$checked + $seconds:.2f}')")
    done
    measure "$top/os9" boot "${images[@]}" --script "$folder/script" --slices "$top/examples/hello.slices" || exit 1
    read -r seconds peak <"$folder/cost"
    times=$((100 * peak / (count * sectors / 4)))
    echo "$count of $sectors sectors: $seconds seconds, $checked to check them, $((peak / 1024)) MiB at most, $((times / 100)).$(printf %02d $((times % 100))) times the images"
    for image in "${images[@]}"; do
        cmp "$folder/image" "$image" || exit 1
    done
done
