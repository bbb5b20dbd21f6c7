#!/usr/bin/env bash
# Shows what is in an image file if its write is broken off or disturbed. `./os9 boot` of an image of 64 MiB,
# whose program writes a file: under a limit on the size of files, killed twenty times at moments spread over
# its whole time, twice at once, beside files of the names that a new file would have, and with a FIFO in the
# place of the image. Each time the file must be the old image or the new one, whole, and no new file may have a bit
# of its mode that the old image lacks. It is killed under the umask 022 and under 000.
top=$(cd "$(dirname "$(readlink -f "${BASH_SOURCE[0]}")")/.." && pwd) || exit 1
folder=$(mktemp -d) || exit 1
trap 'rm -rf "$folder"' EXIT
"$top/os9" build || exit 1
image=$folder/image
python3 "$top/bench/make_image.py" "$folder/old" 262144 "$top/examples/log.mod" || exit 1

# Boots these images.
boot() {
    "$top/os9" boot "$@" --script "$top/examples/log.keys" --slices "$top/examples/log.slices" >/dev/null
}

# Is the file one of these images, whole?
is_one_of() {
    local name=$1 file=$2 whole
    shift 2
    for whole in "$@"; do cmp -s "$folder/$whole" "$file" && return; done
    echo "$name: the image is not whole" && exit 1
}

# Has no file that a run may have made a bit of its mode that the image did not have?
is_private() {
    local file bits
    for file in "$image"*; do
        bits=$(stat -c %a "$file")
        if ((8#$bits & ~8#640)); then echo "$1: $file has the mode $bits" && exit 1; fi
    done
}

# The image anew.
lay_out() {
    rm -f "$image"
    cp "$folder/old" "$image"
    chmod 640 "$image"
}

# Is no new file left?
is_alone() {
    if compgen -G "$folder/*.os9-*" >/dev/null; then echo "$1: a new file is left" && exit 1; fi
}

lay_out
(
    ulimit -f 1024
    trap '' XFSZ
    boot "$image"
)
ended=$?
echo "under a limit: status $ended"
[ $ended = 3 ] || exit 1
is_one_of "under a limit" "$image" old
is_alone "under a limit"
is_private "under a limit"

begin=$(date +%s%N)
boot "$image" || exit 1
took=$(($(date +%s%N) - begin))
cp "$image" "$folder/new"
if cmp -s "$folder/old" "$folder/new"; then echo "the program wrote nothing" && exit 1; fi
is_alone "whole"
is_private "whole"

for mask in 022 000; do
    umask $mask
    left=0
    for n in $(seq 20); do
        lay_out
        (exec "$top/os9" boot "$image" --script "$top/examples/log.keys" --slices "$top/examples/log.slices" >/dev/null) &
        sleep "$(python3 -c "print($took * $n / 20e9)")"
        kill -KILL $! 2>/dev/null
        wait $! 2>/dev/null
        is_one_of "killed at $n of 20" "$image" old new
        is_private "killed at $n of 20"
        if compgen -G "$image.os9-*" >/dev/null; then left=$((left + 1)) && rm "$image".os9-*; fi
    done
    echo "umask $mask, killed 20 times: the image is whole each time; a new file was left beside it $left times"
done
umask 022

refused=0
for n in 1 2 3 4 5; do
    lay_out
    boot "$image" 2>/dev/null &
    one=$!
    boot "$image" 2>/dev/null &
    other=$!
    wait $one
    first=$?
    wait $other
    second=$?
    if [ "$first $second" != "0 0" ] && [ "$first $second" != "0 3" ] && [ "$first $second" != "3 0" ]; then
        echo "twice at once: status $first and $second" && exit 1
    fi
    is_one_of "twice at once" "$image" new
    is_alone "twice at once"
    is_private "twice at once"
    if [ "$first $second" != "0 0" ]; then refused=$((refused + 1)); fi
done
echo "twice at once, 5 times: the image is whole each time; one of the two ended with 3 $refused times"

cp "$folder/old" "$image"
echo stale >"$image.os9-1"
boot "$image" || exit 1
is_one_of "beside a stale file" "$image" new
if [ "$(cat "$image.os9-1")" != stale ]; then echo "the stale file has changed" && exit 1; fi
cp "$folder/old" "$image"
cp "$folder/old" "$image.os9-1"
boot "$image" "$image.os9-1" || exit 1
is_one_of "two images" "$image" new
is_one_of "two images" "$image.os9-1" old
echo "beside files of the names of new files: all are whole"
rm "$image.os9-1" "$image"

mkfifo "$image"
cat "$folder/old" >"$image" &
timeout 120 "$top/os9" boot "$image" --script "$top/examples/log.keys" --slices "$top/examples/log.slices" >/dev/null 2>&1
ended=$?
echo "a FIFO: status $ended"
[ $ended = 3 ] || exit 1
