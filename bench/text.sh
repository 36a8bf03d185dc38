#!/bin/sh
# bench/text.sh: how many instructions the program needs to read rule files, and to write the lists that they hold.
# Instructions are counted by valgrind's callgrind, so the figures do not hang on how busy the machine is.
# What reading costs is told by a file whose last line is at fault: all of it is read, and nothing is written. What writing costs is
# the difference between that file and the one without its last line.
# Needs valgrind and rt.
set -eu

CDPATH= cd -- "$(dirname -- "$0")/.."
program=crates/yulmekesh/out/yulmekesh
# rt run proves and links the program where something changed, and then runs it, here on no input.
echo 'bench: proving and building the program, if it is not yet' >&2
(cd crates/yulmekesh && rt run >&2 </dev/null)
if [ ! -x "$program" ]; then
    echo "bench: $program is missing though all is proved: remove the folders crates/*/out and run again" >&2
    exit 1
fi
if ! command -v valgrind >/dev/null 2>&1; then
    echo 'bench: valgrind is missing' >&2
    exit 2
fi
tmp=$(mktemp -d)
trap 'rm -rf "$tmp"' EXIT
trap 'exit 2' HUP INT TERM

# sized BYTES LINE: a guarded list of so many bytes, its first line, then LINE over and over, then one comment that fills up.
sized() {
    LC_ALL=C awk -v bytes="$1" -v line="$2" 'BEGIN {
        print "G 9"
        left = bytes - 4
        while (left >= length(line) + 3) { print line; left -= length(line) + 1 }
        fill = "#"
        while (length(fill) < left - 1) fill = fill "."
        print fill
    }'
}

# counted RULES LINE: a guarded list of so many rules, LINE over and over.
counted() {
    LC_ALL=C awk -v rules="$1" -v line="$2" 'BEGIN { print "G 9"; for (i = 0; i < rules; i++) print line }'
}

# count FILE BEGINNING: the instructions of one run, whose answer must begin so.
count() {
    valgrind --tool=callgrind --callgrind-out-file="$tmp/profile" "$program" <"$1" >"$tmp/answer" 2>"$tmp/said" || { cat "$tmp/said" >&2; exit 1; }
    head -n 1 "$tmp/answer" | grep -q "^$2" || { echo "bench: $1: $(head -n 1 "$tmp/answer")" >&2; exit 1; }
    sed -n 's/.*Collected *: *\([0-9]*\).*/\1/p' "$tmp/said"
}

# reading FILE: what reading it costs, by a last line that is no rule.
reading() {
    { cat "$1"; printf x; } >"$tmp/faulty"
    count "$tmp/faulty" 'refused 2 '
}

printf 'G 0\n' >"$tmp/empty"
fixed=$(reading "$tmp/empty")
printf 'a list without rules: %s instructions, the fixed cost\n\n' "$fixed"
printf '| reading | bytes | instructions | above the fixed cost, per byte | for each byte more than the row above |\n'
printf '|---|---:|---:|---:|---:|\n'

# shape NAME LINE: a row for each size.
shape() {
    before=0
    less=0
    for bytes in 4095 8191 16383 32767; do
        sized "$bytes" "$2" >"$tmp/list"
        size=$(wc -c <"$tmp/list")
        [ "$size" -eq "$bytes" ] || { echo "bench: $size bytes in place of $bytes" >&2; exit 1; }
        spent=$(reading "$tmp/list")
        awk -v name="$1" -v bytes="$bytes" -v spent="$spent" -v fixed="$fixed" -v before="$before" -v less="$less" 'BEGIN {
            more = before ? sprintf("%.2f", (spent - less) / (bytes - before)) : ""
            printf "| %s | %d | %d | %.2f | %s |\n", name, bytes, spent, (spent - fixed) / bytes, more
        }'
        before=$bytes
        less=$spent
    done
}

long='+ 0 !1 !2 !3 !4 !5 !6 !7 !a !b !c !d !e !f !g !h !i'
shape 'long rules' "$long"
shape 'short rules' '+ 4 a !b'
shape 'comments' '# the captain may release when the aircraft is insured'
shape 'empty' ''

printf '\n| writing | rules | bytes written | instructions | for each rule | for each byte |\n'
printf '|---|---:|---:|---:|---:|---:|\n'

# rules NAME LINE COUNT..: a row for each number of rules.
rules() {
    name=$1
    line=$2
    shift 2
    for number; do
        counted "$number" "$line" >"$tmp/list"
        whole=$(count "$tmp/list" 'G 9')
        written=$(wc -c <"$tmp/answer")
        read=$(reading "$tmp/list")
        awk -v name="$name" -v rules="$number" -v bytes="$written" -v spent=$((whole - read)) \
            'BEGIN { printf "| %s | %d | %d | %d | %.1f | %.1f |\n", name, rules, bytes, spent, spent / rules, spent / bytes }'
    done
}

rules 'long rules' "$long" 79 157 315 630
rules 'short rules' '+ a !b' 512 1024 2048 4096
