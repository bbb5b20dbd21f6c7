#!/usr/bin/env bash
# Shows what is in image files if their write is broken off at any step, and what a boot says that cannot write
# them. `./os9 boot` of one image of 128 KiB and of four, whose program counts its runs in a file on each, is
# killed by strace at each system call on a file in turn; stopped there while a second boot of the same images
# runs whole, and then goes on; and each such call fails in turn, for want of room. Each image must be whole at
# all times: as it was, or as a boot leaves it; and no file may have a bit of its mode that the old images lack, so
# that nobody can read or write a new file who could not do so with the old one. All of it is done under the umask
# 022 and under 000. Last come a folder that may not be written, a user who may not give the new file the old one's
# group (only if this is run as root), and a name that is too long. Needs strace.
top=$(cd "$(dirname "$(readlink -f "${BASH_SOURCE[0]}")")/.." && pwd) || exit 1
folder=$(mktemp -d) || exit 1
trap 'chmod -R u+w "$folder"; rm -rf "$folder"' EXIT
chmod 755 "$folder"
calls="openat write fsync fdatasync fchmod fchmodat chown lchown fchown fchownat rename renameat renameat2 unlink
    unlinkat"
program=$top/crates/os9/out/os9
"$top/os9" build || exit 1
cd "$folder" || exit 1
echo "# no key" >script
echo "1000000*10" >slices

# Adds 1 to the byte in the file N of each drive, from D0 to D3, that has an image.
cat >guest.asm <<'END'
        mod     SysGo,$11,$81,1000
start   lda     #48
        sta     8
again   ldd     #$2F44
        std     <16
        lda     <8
        sta     18
        ldd     #$2F4E
        std     <19
        lda     #13
        sta     21
        ldx     #16
        lda     #3
        os9     $84
        bcc     opened
        ldx     #16
        lda     #3
        ldb     #3
        os9     $83
        bcs     next
opened  sta     9
        clr     <32
        ldx     #32
        ldy     #1
        os9     $89
        inc     <32
        lda     <9
        ldx     #0
        ldu     #0
        os9     $88
        lda     <9
        ldx     #32
        ldy     #1
        os9     $8A
        lda     <9
        os9     $8F
next    inc     <8
        lda     <8
        cmpa    #52
        bne     again
        clrb
        os9     $06
        emod
END
python3 "$top/crates/boot_vectors/assemble.py" guest.asm guest.mod || exit 1
mkdir d old new newer
mode=640
python3 "$top/bench/make_image.py" old/0 512 guest.mod || exit 1
for n in 1 2 3; do python3 "$top/bench/make_image.py" "old/$n" 512 || exit 1; done

# So many images anew.
lay_out() {
    local n
    rm -rf d/*
    images=()
    for n in $(seq 0 $(($1 - 1))); do
        cp "old/$n" "d/$n"
        chmod "$mode" "d/$n"
        images+=("d/$n")
    done
}

boot() {
    "$program" boot "${images[@]}" --script script --slices slices
}

# Is each image whole, one of these, and has no file of the folder a bit of its mode that the images did not have?
are_whole() {
    local name=$1 image state found file bits
    shift
    for file in d/*; do
        bits=$(stat -c %a "$file")
        if ((8#$bits & ~8#$mode)); then echo "$name: $file has the mode $bits" && exit 1; fi
    done
    for image in "${images[@]}"; do
        found=
        for state in "$@"; do cmp -s "$state/${image##*/}" "$image" && found=1; done
        if [ -z "$found" ]; then echo "$name: $image is not whole" && exit 1; fi
    done
}

lay_out 4
boot || exit 1
cp d/? new
boot || exit 1
cp d/? newer
for n in 0 1 2 3; do
    if cmp -s "old/$n" "new/$n" || cmp -s "new/$n" "newer/$n"; then echo "the program wrote nothing" && exit 1; fi
done

# The steps of a boot of so many images: each call that it makes, by its name and its number among those of the name.
steps() {
    local call
    for call in $calls; do
        lay_out "$1"
        strace -f -qq -o log -e trace="$call" "$program" boot "${images[@]}" --script script --slices slices || exit 1
        seq -f "$call %.0f" "$(grep -c "$call(" log)"
    done
}

# A boot under strace, which does this at the step, in the place of this shell.
boot_with() {
    exec strace -f -qq -o log -e trace="$1" -e inject="$1:$3:when=$2" "$program" boot "${images[@]}" --script script \
        --slices slices >/dev/null 2>&1
}

for mask in 022 000; do
    umask $mask
    for count in 1 4; do
        steps "$count" >steps
        whole=$(wc -l <steps)

        killed=0
        while read -r call n; do
            lay_out "$count"
            boot_with "$call" "$n" signal=KILL &
            wait $! 2>/dev/null
            if [ $? = 137 ]; then killed=$((killed + 1)); fi
            are_whole "killed at $call $n" old new
        done <steps
        echo "umask $mask, images: $count, killed at $killed of $whole steps: all are whole"

        refused=0
        while read -r call n; do
            lay_out "$count"
            (boot_with "$call" "$n" error=ENOSPC)
            status=$?
            are_whole "no room at $call $n" old new
            if [ $status = 3 ]; then refused=$((refused + 1)); fi
            case $status in 0 | 2 | 3 | 127) ;; *) echo "no room at $call $n: status $status" && exit 1 ;; esac
        done <steps
        echo "umask $mask, images: $count, no room at each of $whole steps: all are whole; status 3 at $refused of them"

        stopped=0
        while read -r call n; do
            lay_out "$count"
            rm -f log
            boot_with "$call" "$n" signal=STOP &
            for _ in $(seq 100); do
                grep -q "stopped by SIGSTOP" log 2>/dev/null && stopped=$((stopped + 1)) && break
                sleep 0.05
            done
            boot >/dev/null 2>&1
            are_whole "beside a run that is stopped at $call $n" old new newer
            kill -CONT "$(pgrep -P $!)" 2>/dev/null
            wait $!
            are_whole "two runs, one of them stopped at $call $n" new newer
        done <steps
        echo "umask $mask, images: $count, one of two runs stopped at $stopped of $whole steps: all are whole"
    done
done
umask 022

mode=666
lay_out 1
chmod a-w d
as_other=()
if [ "$(id -u)" = 0 ]; then as_other=(setpriv --reuid=65534 --clear-groups); fi
"${as_other[@]}" "$program" boot "${images[@]}" --script script --slices slices >/dev/null 2>&1
ended=$?
echo "a folder that may not be written: status $ended"
[ $ended = 3 ] || exit 1
are_whole "a folder that may not be written" old
chmod u+w d

if [ "$(id -u)" = 0 ]; then
    lay_out 1
    chmod a+w d
    setpriv --reuid=65534 --regid=65534 --clear-groups "$program" boot "${images[@]}" --script script \
        --slices slices >/dev/null 2>&1
    ended=$?
    left=$(stat -c "%a %u %g" "${images[0]}")
    echo "a user who may not give the group: status $ended, the mode is ${left%% *} where it was $mode"
    if [ $ended != 0 ] || [ "$left" != "606 65534 65534" ]; then exit 1; fi
    are_whole "a user who may not give the group" new
    chmod go-w d
fi

lay_out 1
long=d/$(printf 'n%.0s' $(seq 252))
mv "${images[0]}" "$long"
"$program" boot "$long" --script script --slices slices >/dev/null 2>&1
ended=$?
echo "a name that is too long for a new file's: status $ended"
[ $ended = 3 ] || exit 1
cmp -s old/0 "$long" || { echo "a name that is too long: the image is not whole" && exit 1; }
