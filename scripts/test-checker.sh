#!/usr/bin/env bash
# The checking program as its users meet it: what it writes, for input of any length and in any pieces, and for what is no
# input to its end.
set -uo pipefail
cd "$(dirname "${BASH_SOURCE[0]}")/.." || exit 1

check=build/wennathig-check
place=$(mktemp -d) || exit 1
trap 'rm -rf "$place"' EXIT
sheet=$place/sheet wrote=$place/wrote said=$place/said
passed=0 failed=0

tally() { # STATUS WHAT
    if [ "$1" -eq 0 ]; then passed=$((passed + 1)); else failed=$((failed + 1)); echo "FAILED: $2"; fi
}
# expect WHAT LINE: what the program wrote is that line, its newline included, and nothing else
expect() {
    printf '%s\n' "$2" | cmp -s - "$wrote"
    tally $? "$1: expected '$2', written: $(head -c 100 "$wrote" | cat -v)"
}
# complains WHAT REASON: nothing was written, and standard error has one line with the reason
complains() {
    [ ! -s "$wrote" ] && [ "$(cat "$said")" = "wennathig-check: $2" ]
    tally $? "$1: expected '$2' alone, written: $(head -c 100 "$wrote" | cat -v), said: $(head -c 200 "$said" | cat -v)"
}
zeros() { head -c "$1" /dev/zero; }

$check </dev/null >"$wrote"
expect "no input" "refused 2 0"

printf 'HD\1\0\0\1PR\0\0\0\377\1\0IN\21\377\377\377\0\0' >"$sheet"
$check <"$sheet" >"$wrote"
expect "the smallest sheet from a file" "accepted 0 0"
perl -e '$| = 1; binmode STDIN; while (read STDIN, my $b, 1) { print $b; select undef, undef, undef, 0.005 }' <"$sheet" | $check >"$wrote"
expect "the smallest sheet through a pipe, byte by byte" "accepted 0 0"
(cat "$sheet"; printf x) | $check >"$wrote"
expect "a byte left over" "refused 2 22"
(head -c 9 "$sheet"; sleep 0.1; tail -c +10 "$sheet"; sleep 0.1; printf x) | $check >"$wrote"
expect "a byte left over, in three pieces" "refused 2 22"

# the limit is 32,768 bytes; of a sheet at the limit the records are read, and the first mark here is wrong
zeros 32768 | $check >"$wrote"
expect "32,768 zeros" "refused 3 0"
zeros 32769 | $check >"$wrote"
expect "32,769 zeros" "refused 1 0"
(cat "$sheet"; zeros 32746) | $check >"$wrote"
expect "the smallest sheet with zeros to 32,768" "refused 2 22"
(cat "$sheet"; zeros 32747) | $check >"$wrote"
expect "the smallest sheet with zeros to 32,769" "refused 1 0"
(zeros 32768; sleep 0.1; printf x) | $check >"$wrote"
expect "the byte too many comes late" "refused 1 0"
for n in 65535 65536 65537 131072 10000000; do
    zeros "$n" | $check >"$wrote"
    expect "$n zeros" "refused 1 0"
done

# What cannot be read to its end has no verdict, whatever came before.
$check <"$place" >"$wrote" 2>"$said"
complains "a directory" "standard input: Is a directory"
$check <&- >"$wrote" 2>"$said"
complains "no standard input" "standard input: Bad file descriptor"
$check 0>"$place/written" >"$wrote" 2>"$said"
complains "a standard input that can only be written" "standard input: Bad file descriptor"
$check "$sheet" <"$sheet" >"$wrote" 2>"$said"
[ ! -s "$wrote" ] && [ "$(cat "$said")" = "usage: wennathig-check <SHEET" ]
tally $? "an argument is misuse, and gets no verdict"

# scripts/lend-input lends a standard input as the name says, in which the sheet comes in two parts
perl scripts/lend-input non-blocking "$sheet" "$check" >"$wrote" 2>"$said"
expect "a pipe in non-blocking mode" "accepted 0 0"
perl scripts/lend-input reset "$sheet" "$check" >"$wrote" 2>"$said"
complains "a connection that is reset" "standard input: Connection reset by peer"
perl scripts/lend-input one-write "$sheet" "$check" >"$wrote" 2>"$said"
expect "one call of write" "accepted 0 0"

# Calls that a signal interrupts are made again.
gcc -shared -fPIC -O2 -Wall -Wextra -Werror c/interrupting.c -o "$place/interrupting.so"
LD_PRELOAD=$place/interrupting.so $check <"$sheet" >"$wrote" 2>"$said"
expect "calls interrupted every second time" "accepted 0 0"

# A line that cannot be written is said on standard error.
$check <"$sheet" >/dev/full 2>"$said"
[ "$(cat "$said")" = "wennathig-check: standard output: No space left on device" ]
tally $? "a full device: $(cat "$said")"
$check <"$sheet" >&- 2>"$said"
[ "$(cat "$said")" = "wennathig-check: standard output: Bad file descriptor" ]
tally $? "no standard output: $(cat "$said")"
(ulimit -f 1; trap '' XFSZ; zeros 1020 >"$place/log"; exec $check <"$sheet" >>"$place/log" 2>"$said")
[ "$(cat "$said")" = "wennathig-check: standard output: only a part of the line was written" ]
tally $? "a line cut short: $(cat "$said")"

# Two programs that append to one file do not mix their lines.
append() { for _ in $(seq 200); do $check <"$1" >>"$place/log"; done; }
rm -f "$place/log"
append "$sheet" & append /dev/null & wait
[ "$(sort "$place/log" | uniq -c | tr -s ' \n' ' ')" = " 200 accepted 0 0 200 refused 2 0 " ]
tally $? "two programs append to one file"

echo "$passed passed, $failed failed"
[ "$failed" -eq 0 ]
