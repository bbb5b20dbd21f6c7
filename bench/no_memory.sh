#!/usr/bin/env bash
# Boots an image of 16 MiB under limits on memory, from one that is too small to one that is enough, and
# shows that each boot ends with status 0, or with 4 and its line or none, and leaves the image whole.
top=$(cd "$(dirname "$(readlink -f "${BASH_SOURCE[0]}")")/.." && pwd) || exit 1
folder=$(mktemp -d) || exit 1
trap 'rm -rf "$folder"' EXIT
python3 "$top/bench/make_image.py" "$folder/old" 65536 "$top/examples/hello.mod" || exit 1
echo "# no key" >"$folder/script"
cp "$folder/old" "$folder/image"

"$top/os9" build || exit 1
"$top/os9" boot "$folder/image" --script "$folder/script" --slices "$top/examples/hello.slices" >/dev/null || exit 1

without=0
with=0
for mebibytes in $(seq 4 2 96); do
    (
        ulimit -v $((1024 * mebibytes))
        "$top/crates/os9/out/os9" boot "$folder/image" --script "$folder/script" \
            --slices "$top/examples/hello.slices" >"$folder/out" 2>"$folder/err"
    )
    status=$?
    cmp -s "$folder/old" "$folder/image" || { echo "under $mebibytes MiB: the image is not whole" && exit 1; }
    case "$status $(cat "$folder/err")" in
        "0 ") with=$((with + 1)) ;;
        "4 " | "4 os9: no memory") without=$((without + 1)) ;;
        *) echo "under $mebibytes MiB: status $status, $(cat "$folder/err")" && exit 1 ;;
    esac
done
echo "status 4 under $without limits, 0 under $with; the image is whole each time"
