#!/usr/bin/env bash
# Runs a million instructions of each of seven programs, and prints for each how many instructions a
# second that is. Where valgrind is installed, it also prints host instructions for each guest
# instruction, and their mean over the four programs that touch memory in one way each.
top=$(cd "$(dirname "$(readlink -f "${BASH_SOURCE[0]}")")/.." && pwd) || exit 1
folder=$(mktemp -d) || exit 1
trap 'rm -rf "$folder"' EXIT

many=1000000
echo $many >"$folder/many"
echo 1 >"$folder/one"

# What a program does, and its bytes. Each goes round for ever.
guests=(
    "INCB BNE BRA|5C 26FD 20FB"
    "LDX LDY LDA ,X+ STA ,Y+ BRA|8E0010 108E0080 A680 A7A0 20F3"
    "PSHS PULS of six, BRA|343F 353F 20FA"
    "BSR RTS BRA|8D02 20FC 39"
    "LDA STA ADDA extended, BRA|B60040 B70041 BB0042 20F5"
    "LDA [,X] LDA [8,X] BRA|A694 A69808 20F9"
    "a checksum of 64 bytes|C600 8E0010 EB80 C855 3404 3504 8C0050 26F3 F70060 20E9"
)

# Runs so many instructions, by a program and the words before its own. The guest never ends, so
# status 5 is what a whole run answers.
run() {
    local slices=$1
    shift
    "$@" run "$folder/guest.mod" --slices "$folder/$slices" >"$folder/out" 2>"$folder/err"
    local status=$?
    if [ $status -ne 5 ]; then
        cat "$folder/err" >&2
        echo "status $status, not 5" >&2
        exit 1
    fi
}

# The time in nanoseconds of the fastest of five runs.
fastest() {
    local least='' begin took
    for _ in 1 2 3 4 5; do
        begin=$(date +%s%N)
        run "$1" "$top/os9"
        took=$(($(date +%s%N) - begin))
        if [ -z "$least" ] || [ $took -lt "$least" ]; then
            least=$took
        fi
    done
    echo "$least"
}

# How many millions of instructions a second; what starting takes, a run of one instruction, is left out.
millions_a_second() {
    local long short
    long=$(fastest many) || exit 1
    short=$(fastest one) || exit 1
    awk -v spent=$((long - short)) -v many=$many \
        'BEGIN { if (spent > 0) printf "%.1f", (many - 1) * 1000 / spent; else printf "?" }'
}

# The host instructions of a run.
host_instructions() {
    run "$1" valgrind --tool=callgrind --callgrind-out-file=/dev/null "$top/crates/os9/out/os9"
    sed -n 's/.*Collected : \([0-9]*\).*/\1/p' "$folder/err"
}

# Host instructions for each guest instruction, without those of a run of one instruction.
host_instructions_each() {
    local all start
    all=$(host_instructions many) || exit 1
    start=$(host_instructions one) || exit 1
    awk -v all="$all" -v start="$start" -v many=$many 'BEGIN { printf "%.1f", (all - start) / (many - 1) }'
}

"$top/os9" build || exit 1
each=-
printf '%-32s %20s %20s\n' program 'millions a second' 'host instructions'
for guest in "${guests[@]}"; do
    python3 "$top/bench/make_module.py" "$folder/guest.mod" "${guest#*|}" || exit 1
    millions=$(millions_a_second) || exit 1
    if command -v valgrind >/dev/null; then
        each=$(host_instructions_each) || exit 1
        echo "$each" >>"$folder/each"
    fi
    printf '%-32s %20s %20s\n' "${guest%|*}" "$millions" "$each"
done
if [ -e "$folder/each" ]; then
    awk 'NR > 1 && NR < 6 { sum += $1 } END { printf "%-32s %41.1f\n", "mean of the second to the fifth", sum / 4 }' \
        "$folder/each"
fi
