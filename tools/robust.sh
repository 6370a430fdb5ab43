#!/bin/sh
# usage: tools/robust.sh
# Runs crates/stemcard/out/stemcard under adverse conditions, and prints a table line for each (docs/ROBUST.md). Ends with status 1
# if a line is not ok.
root=$(cd "$(dirname "$0")/.." && pwd)
program=$root/crates/stemcard/out/stemcard
record=$root/examples/letter_d.record
[ -x "$program" ] || { echo "robust.sh: first ./stemcard examples/letter_d.record" >&2; exit 2; }
work=$(mktemp -d)
trap 'rm -rf "$work"' EXIT
bad=0
"$program" < "$record" > "$work/card" || exit 2

# What stands in a file: the whole card, or its one line.
told() {
    if [ ! -s "$1" ]; then echo nothing
    elif cmp -s "$1" "$work/card"; then echo 'the card'
    elif [ "$(wc -c < "$1")" -le 20 ]; then cat "$1"
    else echo "$(wc -c < "$1") bytes"
    fi
}

# line CONDITION EXPECTED: EXPECTED is `STATUS: WHAT IS PRINTED`, or several of them with ` or ` between them
line() {
    status=$(cat "$work/status")
    printed=$(told "$work/out")
    verdict='NOT OK'
    rest="$2 or "
    while [ -n "$rest" ]; do
        [ "${rest%% or *}" = "$status: $printed" ] && verdict=ok
        rest=${rest#* or }
    done
    [ "$verdict" = ok ] || bad=1
    echo "| $1 | $status | $printed | $2 | $verdict |"
}

# The status and what was printed.
outcome() {
    echo "$(cat "$work/status"): $(told "$work/out")"
}

# series CONDITION EXPECTED OUTCOMES: of a row of runs, each outcome that differs from the one before it
series() {
    verdict='NOT OK'
    [ "$3" = "$2" ] && verdict=ok
    [ "$verdict" = ok ] || bad=1
    statuses=$(echo "$3" | sed 's/: [^,]*//g; s/,/, then /g')
    prints=$(echo "$3" | sed 's/[0-9]*: //g; s/,/, then /g')
    echo "| $1 | $statuses | $prints | $(echo "$2" | sed 's/,/, then /g') | $verdict |"
}

# Runs the program on the standard input and output that it is given, and keeps its status.
run() {
    "$program"
    echo $? > "$work/status"
}

# Within so many KiB of address space; the shell's own word on a program that cannot start goes nowhere.
run_within() {
    (ulimit -v "$1" && exec "$program" < "$record") > "$work/out" 2> /dev/null
    echo $? > "$work/status"
}

# With a C library that fails as these settings ask.
run_with() {
    env "$@" "LD_PRELOAD=$work/adverse.so" "$program" < "$record" > "$work/out"
    echo $? > "$work/status"
}

# $1 bytes that begin as a record of $2 bytes.
long_input() {
    printf '\001'
    length=$(($2 - 3))
    printf "\\$(printf %03o $((length / 256)))\\$(printf %03o $((length % 256)))"
    printf '\003\350\000\000\000'
    head -c $(($1 - 8)) /dev/zero
}

echo '| condition | status | printed | expected | verdict |'
echo '|---|---|---|---|---|'
run < "$record" > "$work/out"
line 'a good record' '0: the card'
for size in 100 1000; do
    run_within "$size" 2> /dev/null
    line "$size KiB of address space: the system cannot start it" '127: nothing or 139: nothing or 137: nothing'
done
sweep() {
    for size in $(seq 2000 8 3000); do
        run_within "$size"
        outcome
    done | uniq | paste -s -d ,
}
series 'each 8 KiB from 2,000 to 3,000 KiB of address space' '127: nothing,1: nothing,0: the card' "$(sweep)"
for size in 3000 4000 65536; do
    run_within "$size"
    line "$size KiB of address space" '0: the card'
done
if cc -O1 -shared -fPIC -o "$work/adverse.so" "$root/tools/adverse.c" 2> /dev/null; then
    starve() {
        for n in $(seq 1 40); do
            run_with "MALLOC_FAILS=$1$n"
            outcome
        done | uniq | paste -s -d ,
    }
    series 'the 1st, 2nd, .. 40th request for memory alone fails' '1: nothing,0: the card' "$(starve '')"
    series 'from the 1st, 2nd, .. 40th on, every request for memory fails' '1: nothing,0: the card' "$(starve -)"
    (record=$root/examples/out_of_range.record && run_with MALLOC_FAILS=-5)
    line 'a point out of range, and from the 5th on, every request for memory fails' '0: refused 14'
    run_with READ_MOST=1
    line 'input a byte at a time' '0: the card'
    run_with WRITE_MOST=1
    line 'output a byte at a time' '0: the card'
    for n in 1 2; do
        run_with "READ_STOPS=$n"
        line "a signal interrupts read $n" '0: the card'
        run_with "READ_FAILS=$n"
        line "read $n fails" '1: nothing'
    done
    run_with WRITE_STOPS=1
    line 'a signal interrupts the write' '0: the card'
    run_with WRITE_FAILS=1
    line 'the write fails' '1: nothing'
    run_with WRITE_MOST=100 WRITE_FAILS=3
    line 'writing fails after 200 bytes' '1: 200 bytes'
else
    echo 'robust.sh: no C compiler, so some conditions are left out' >&2
fi
run <&- > "$work/out"
line 'input closed' '1: nothing'
run < "$root" > "$work/out"
line 'a directory as input' '1: nothing'
: > "$work/out"
run < "$record" >&-
line 'output closed' '1: nothing'
run < "$record" > /dev/full
line 'output to a full device' '1: nothing'
run < /dev/null > "$work/out"
line 'empty input' '0: refused 3'
yes | run > "$work/out"
line 'endless input, text' '0: refused 4'
run < /dev/zero > "$work/out"
line 'endless input, zeros' '0: refused 4'
(printf '\001\077\375\003\350\000\000\000'; cat /dev/zero) | run > "$work/out"
line 'endless input that begins as a record' '0: refused 5'
head -c 60 "$record" | run > "$work/out"
line 'a record cut off' '0: refused 5'
(cat "$record"; printf x) | run > "$work/out"
line 'a record with a byte more' '0: refused 5'
run < "$root/examples/out_of_range.record" > "$work/out"
line 'a record with a point out of range' '0: refused 14'
(head -c 12 "$record"; printf '\377'; tail -c +14 "$record") | run > "$work/out"
line 'a record with an unknown kind' '0: refused 9'
long_input 16383 16383 | run > "$work/out"
line '16,383 bytes: 3,275 points' '0: refused 13'
long_input 16384 16384 | run > "$work/out"
line '16,384 bytes, as many told' '0: refused 5'
long_input 16385 16385 | run > "$work/out"
line '16,385 bytes, as many told' '0: refused 5'
long_input 16385 16383 | run > "$work/out"
line '16,385 bytes, of which 16,383 told' '0: refused 5'
(for i in 1 2 3 4 5 6 7; do head -c $((14 * i)) "$record" | tail -c 14; sleep 0.05; done) | run > "$work/out"
line 'a record that comes in parts' '0: the card'
: > "$work/out"
(sleep 0.3; cat "$record") | run | head -c 0
line 'output to a pipe whose reader is gone' '1: nothing or 141: nothing'
(trap '' PIPE; (sleep 0.3; cat "$record") | run | head -c 0)
line 'the same, by a caller that ignores SIGPIPE' '1: nothing'
exit $bad
