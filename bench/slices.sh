#!/usr/bin/env bash
# Prints what a slice costs in host instructions, and what an instruction does: with one process, with
# 31 that run, the most that live at once, and with one that runs while 30 wait. Its word is a built
# program, else it builds this one. Needs valgrind.
top=$(cd "$(dirname "$(readlink -f "${BASH_SOURCE[0]}")")/.." && pwd) || exit 1
folder=$(mktemp -d) || exit 1
trap 'rm -rf "$folder"' EXIT
program=${1:-$top/crates/os9/out/os9}

# Writes a guest that begins so, forks itself until it is refused, and counts for ever. A child is
# given one parameter, and so knows that it is one: it does the rest, for ever.
write_guest() {
    cat >"$folder/$1.asm" <<END
        mod     SysGo,\$11,\$81,200
start   cmpd    #1
        beq     child
$2
again   ldy     #1
        ldu     #0
        leax    <name,pcr
        lda     #\$11
        clrb
        os9     \$03
        bcc     again
loop    incb
        bne     loop
        bra     loop
child
$3
        bra     child
name    fcs     "SysGo"
pipe    fcc     "/PIPE"
        fcb     13
        emod
END
}

cat >"$folder/one.asm" <<'END'
        mod     SysGo,$11,$81,200
start   incb
        bne     start
        bra     start
        emod
END
# Ten bytes of the path 0: of TERM, or of the pipe that was opened as that.
read_ten='        clra
        ldx     #0
        ldy     #10
        os9     $89'
open_pipe='        clra
        os9     $8F
        lda     #3
        leax    <pipe,pcr
        os9     $84'
write_guest all "" "        incb"
write_guest sleep "" '        ldx     #0
        os9     $0A'
write_guest key "" "$read_ten"
write_guest pipe "$open_pipe" "$read_ten"

# The host instructions of a run of a program over these slices, which come after those in which it forks.
host_instructions() {
    echo "1000*100 $2" >"$folder/slices"
    valgrind --tool=callgrind --callgrind-out-file=/dev/null "$program" \
        run "$folder/$1.mod" --slices "$folder/slices" >"$folder/out" 2>"$folder/err"
    sed -n 's/.*Collected : \([0-9]*\).*/\1/p' "$folder/err"
}

[ $# -gt 0 ] || "$top/os9" build || exit 1

printf '%-40s %12s %16s\n' processes 'a slice' 'an instruction'
for guest in one all sleep key pipe; do
    python3 "$top/crates/boot_vectors/assemble.py" "$folder/$guest.asm" "$folder/$guest.mod" || exit 1
    few=$(host_instructions $guest "1*1000") || exit 1
    many=$(host_instructions $guest "1*2000") || exit 1
    long=$(host_instructions $guest "1*999 1000000") || exit 1
    case $guest in
        one) name='1' ;;
        all) name='31, all of which run' ;;
        sleep) name='1 that runs, 30 in F$Sleep' ;;
        key) name='1 that runs, 30 that wait for a key' ;;
        pipe) name='1 that runs, 30 that wait for a pipe' ;;
    esac
    awk -v name="$name" -v few="$few" -v many="$many" -v long="$long" \
        'BEGIN { printf "%-40s %12.1f %16.1f\n", name, (many - few) / 1000, (long - few) / 999999 }'
done
