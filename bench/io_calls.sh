#!/usr/bin/env bash
# Prints what a byte costs in host instructions that a guest writes to a terminal in long lines, reads
# from the keys of a script, and moves through a pipe to another process; then a key for which the
# type-ahead has no room, and a byte that is read as a line of a pipe with one byte and with 255. Needs
# valgrind.
top=$(cd "$(dirname "$(readlink -f "${BASH_SOURCE[0]}")")/.." && pwd) || exit 1
folder=$(mktemp -d) || exit 1
trap 'rm -rf "$folder"' EXIT
cd "$folder" || exit 1

LINE=16000
KEYS=80
BYTES=80

# Lines of zero bytes, from the whole data area, on a path: 1 is the screen, 9 is not open.
written() {
    cat <<END
        mod     SysGo,\$11,\$81,$LINE
start   ldx     #0
        ldy     #$LINE
        lda     #$1
        os9     \$8C
        bra     start
        emod
END
}

cat >read.asm <<END
        mod     SysGo,\$11,\$81,200
start   ldx     #0
        ldy     #$KEYS
        clra
        os9     \$8B
        bra     start
        emod
END

# SysGo makes a pipe the standard output of Lines, and reads all lines.
cat >pipe.asm <<END
        mod     SysGo,\$11,\$81,200
start   lda     #1
        os9     \$8F
        lda     #3
        leax    <device,pcr
        os9     \$84
        leax    <name,pcr
        ldy     #0
        lda     #\$11
        clrb
        os9     \$03
again   ldx     #0
        ldy     #$BYTES
        lda     #1
        os9     \$8B
        bcc     again
        clrb
        os9     \$06
device  fcc     "/PIPE"
        fcb     \$0D
name    fcs     "Lines"
        emod
END

# Lines writes so many lines on its standard output.
lines() {
    cat <<END
        mod     Lines,\$11,\$81,200
start   ldd     #$1
again   pshs    a,b
        leax    <line,pcr
        ldy     #$BYTES
        lda     #1
        os9     \$8C
        puls    a,b
        subd    #1
        bne     again
        clrb
        os9     \$06
line    fcc     "$(printf 'a%.0s' $(seq $((BYTES - 1))))"
        fcb     \$0D
        emod
END
}

# It fills a pipe of its own with so many bytes, none a carriage return, and then reads one as a line and
# writes one, again and again.
filled() {
    cat <<END
        mod     SysGo,\$11,\$81,600
start   lda     #3
        leax    <device,pcr
        os9     \$84
        ldx     #0
        ldy     #$1
        lda     #3
        os9     \$8A
again   ldx     #\$200
        ldy     #1
        lda     #3
        os9     \$8B
        ldx     #\$200
        ldy     #1
        lda     #3
        os9     \$8A
        bra     again
device  fcc     "/PIPE"
        fcb     \$0D
        emod
END
}

cat >sleep.asm <<'END'
        mod     SysGo,$11,$81,200
start   ldx     #0
        os9     $0A
        bra     start
        emod
END

# So many lines of keys, one at each tick.
keys() {
    awk -v lines="$1" -v keys=$((KEYS - 1)) 'BEGIN {
        for (i = 0; i < keys; i++) text = text " 61"
        for (tick = 1; tick <= lines; tick++) print tick " TERM" text " 0D"
    }'
}

assemble() {
    python3 "$top/crates/boot_vectors/assemble.py" "$1" "$2" || exit 1
}

# The host instructions of a run of a file of modules over these slices, with these words besides.
host_instructions() {
    echo "$2" >slices
    valgrind --tool=callgrind --callgrind-out-file=/dev/null "$top/crates/os9/out/os9" \
        run "$1" --slices slices "${@:3}" >out 2>err
    sed -n 's/.*Collected : \([0-9]*\).*/\1/p' err
}

# The host instructions of a byte: those that the second run has more than the first, by so many bytes.
a_byte() {
    awk -v name="$1" -v few="$2" -v many="$3" -v bytes="$4" \
        'BEGIN { printf "%-44s %8.1f\n", name, (many - few) / bytes }'
}

written 1 >screen.asm
written 9 >closed.asm
for bytes in 1 255; do filled $bytes >filled$bytes.asm; done
for guest in screen closed read pipe sleep filled1 filled255; do assemble $guest.asm $guest.mod; done
for lines in 1000 2000; do
    lines $lines >lines.asm
    assemble lines.asm lines.mod
    cat pipe.mod lines.mod >pipe$lines.mod
    keys $lines >keys$lines
done

"$top/os9" build || exit 1

# A call of a line is five instructions, so a slice of 100 has 20.
for guest in screen closed; do
    few=$(host_instructions $guest.mod '100*5')
    many=$(host_instructions $guest.mod '100*10')
    case $guest in
        screen) name='I$WritLn to a terminal' ;;
        closed) name='I$WritLn to a path that is not open' ;;
    esac
    a_byte "$name" "$few" "$many" $((5 * 20 * LINE))
done
few=$(host_instructions read.mod '100*1000' --script keys1000)
many=$(host_instructions read.mod '100*2000' --script keys2000)
a_byte 'I$ReadLn of a key, its text and its slice' "$few" "$many" $((1000 * KEYS))
few=$(host_instructions pipe1000.mod '1000*10000')
many=$(host_instructions pipe2000.mod '1000*10000')
a_byte 'a pipe, written and read in lines' "$few" "$many" $((1000 * BYTES))

# 256 keys come first, so that each later one finds no room and rings the bell.
few=$(host_instructions sleep.mod '1*1000' --script keys1000)
many=$(host_instructions sleep.mod '1*2000' --script keys2000)
a_byte 'a key without room, its text and its bell' "$few" "$many" $((1000 * KEYS))

# Nine instructions read a byte and write one.
for bytes in 1 255; do
    few=$(host_instructions filled$bytes.mod '90*100')
    many=$(host_instructions filled$bytes.mod '90*200')
    a_byte "a byte read as a line, of $bytes in the pipe" "$few" "$many" 1000
done
