#!/usr/bin/env bash
# The header alone, from C and from C++, its words, its version and its bound of the stack; then each C test, by itself and
# under valgrind; a C test's last line is 'N passed, M failed'. Under valgrind a test counts once more: an access outside a
# buffer or a leak is one failure. Then the library of wn_watch by itself, and the host of c/host.c, as its users meet it.
set -uo pipefail
cd "$(dirname "${BASH_SOURCE[0]}")/.." || exit 1

sheets=$(mktemp -d) || exit 1
trap 'rm -rf "$sheets"' EXIT
passed=0 failed=0
tally() { # STATUS WHAT
    if [ "$1" -eq 0 ]; then passed=$((passed + 1)); else failed=$((failed + 1)); echo "FAILED: $2"; fi
}

# stopped STOP REPORT: what the host prints of an accepted sheet, the same for both machines
stopped() { printf '%s\n' 'check   0 accepted, place 0' "run    $1" "$2" "watch  $1" "$2"; }

# host WHAT STATUS EXPECTED ARGUMENTS..: what the host prints for the reads on standard input, and its exit status
host() {
    local what=$1 status=$2 expected=$3 said got
    shift 3
    said=$(build/wennathig-host "$@" 2>&1)
    got=$?
    [ "$said" = "$expected" ] && [ "$got" -eq "$status" ]
    tally $? "the host, $what: status $got, said: $said"
}

# sheet NAME RECORD..: writes a sheet from its records, each with its bytes as printf has them
sheet() { printf "$(printf '%s' "${@:2}")" >"$sheets/$1"; }

# Main returns at once; main takes n and puts n, n - 1 and so on down to 1; a number is taken for an array's variable.
write_sheets() {
    local integer='QT\0\0\0\377' return='IN\21\377\377\377\0\0'
    sheet smallest 'HD\1\0\0\1' 'PR\0\0\0\377\1\0' "$return"
    sheet countdown 'HD\1\0\1\1' "$integer" 'PR\0\0\3\377\10\0' 'VR\0\377' 'VR\0\377' 'VR\0\377' \
        'IN\7\0\377\377\0\0' 'IN\1\1\377\377\1\0' 'IN\1\2\377\377\0\0' 'IN\5\0\377\377\7\0' 'IN\10\0\377\377\0\0' \
        'IN\3\0\0\1\0\0' 'IN\5\2\377\377\3\0' "$return"
    sheet refused 'HD\1\0\2\1' "$integer" 'QT\1\16\0\0' 'PR\0\0\1\377\2\0' 'VR\1\377' 'IN\7\0\377\377\0\0' "$return"
    # a procedure with a rights name, at least read, and a call with two actuals: both may be read or not
    local named=('TY\1\0\377\377\377\377\377\377\377\377' 'QT\2\2\0\377' 'QT\2\0\0\377' 'QT\377\0\0\377'
        'PR\0\0\2\377\2\0')
    local called=('IN\20\377\0\377\1\0' "$return" 'PR\0\2\2\377\1\0' 'GN\2\2\0' 'VR\2\2' 'VR\2\2' "$return")
    sheet unsettled 'HD\1\1\3\2' "${named[@]}" 'VR\0\377' 'VR\1\377' "${called[@]}"
    sheet short 'HD\1\1\3\2' "${named[@]}" 'VR\1\377' 'VR\1\377' "${called[@]}"
    head -c 40000 /dev/zero >"$sheets/long"
}

# The numbers, words and replies of the host are those of the calls; reads and fuel reach the run.
host_answers() {
    host "the smallest sheet" 0 "$(stopped '11 done, 1 steps, 0 words put, procedure 0, instruction 0' report)" \
        "$sheets/smallest" </dev/null
    host "down from three" 0 "$(stopped '11 done, 17 steps, 3 words put, procedure 0, instruction 7' 'report 3 2 1')" \
        "$sheets/countdown" <<<$'3\t30\n4'
    host "fuel for five steps" 1 \
        "$(stopped '12 fuel spent, 5 steps, 1 words put, procedure 0, instruction 5' 'report 4294967295')" \
        "$sheets/countdown" 5 <<<4294967295
    host "no reads" 1 "$(stopped '15 reads ended, 0 steps, 0 words put, procedure 0, instruction 0' report)" \
        "$sheets/countdown" </dev/null
    host "as many reads as there may be" 0 \
        "$(stopped '11 done, 9 steps, 1 words put, procedure 0, instruction 7' 'report 1')" \
        "$sheets/countdown" < <(yes 1 | head -n 4096)
    host "a refused sheet" 1 "$(printf '%s\n' 'check   8 wrong kind, place 30' 'run     8 wrong kind, place 30' \
        'watch  18 mixed sample, 0 steps, 0 words put, procedure 0, instruction 0' report)" "$sheets/refused" <<<2
    host "two actuals that differ" 1 "$(printf '%s\n' 'check  20 unsettled, place 52' 'run    20 unsettled, place 52' \
        'watch  18 mixed sample, 0 steps, 0 words put, procedure 0, instruction 0' report)" "$sheets/unsettled" </dev/null
    host "a settled set that lacks a right" 1 "$(printf '%s\n' 'check  21 short, place 52' 'run    21 short, place 52' \
        'watch  19 unlicensed, 0 steps, 0 words put, procedure 0, instruction 0' report)" "$sheets/short" </dev/null
    host "an overlong sheet" 1 "$(printf '%-6s  1 overlong, place 0\n' check run watch)" "$sheets/long" </dev/null
}

# What cannot be read is named, with the reason.
host_complaints() {
    local usage="usage: wennathig-host SHEET [FUEL] <READS" says="wennathig-host: standard input:"
    host "no file" 2 "wennathig-host: $sheets/none: No such file or directory" "$sheets/none" </dev/null
    host "a name that a terminal would obey" 2 'wennathig-host: \x1b[31m here: No such file or directory' \
        "$(printf '\033[31m here')" </dev/null
    host "a folder" 2 "wennathig-host: $sheets: Is a directory" "$sheets" </dev/null
    host "reads that are a folder" 2 "$says Is a directory" "$sheets/countdown" <"$sheets"
    host "a read of 33 bits" 2 "$says read 1 is no number of 32 bits: 4294967296" "$sheets/countdown" <<<4294967296
    host "a read that is no number" 2 "$says read 2 is no number of 32 bits: x" "$sheets/countdown" <<<'3 x'
    host "a read with bytes of all sorts" 2 "$says read 3 is no number of 32 bits: 4\\x00\\x1b[1m\\x5c\\xff" \
        "$sheets/countdown" < <(printf '2 3\n4\0\33[1m\\\377 5')
    host "a read without end" 2 "$says read 1 is no number of 32 bits: 11111111111111111111111111111111.." \
        "$sheets/countdown" < <(yes 1 | head -n 50000 | tr -d '\n')
    host "a read too many" 2 "$says more than 4096 reads" "$sheets/countdown" < <(yes 1 | head -n 4097)
    host "fuel that is no number" 2 "$usage" "$sheets/countdown" 1e3 </dev/null
    host "empty fuel" 2 "$usage" "$sheets/countdown" '' </dev/null
    host "no sheet" 2 "$usage" </dev/null
}

# unwritten WHAT: the host's output, to which file 3 leads, cannot be written.
unwritten() {
    local said got
    said=$(build/wennathig-host "$sheets/countdown" 2>&1 >&3)
    got=$?
    [ "$said" = "wennathig-host: standard output: No space left on device" ] && [ "$got" -eq 3 ]
    tally $? "the host, $1: status $got, said: $said"
}

host_tests() {
    write_sheets
    host_answers
    host_complaints
    unwritten "a full disk" 3>/dev/full <<<3
    unwritten "a full disk, and more than a buffer" 3>/dev/full <<<3000
}

# A program that prints every number's word, up to the first number that has none
words_of() { # COMPILER OPTION..
    "$@" -Wall -Wextra -Werror -pedantic -Iinclude - -o "$sheets/words" <<'END' && "$sheets/words"
#include <stdio.h>
#include <string.h>
#include "wennathig.h"
int main(void)
{
    int i;
    for (i = 0; strcmp(wn_word((uint64_t)i), "no such number") != 0; i++)
        printf("%d %s\n", i, wn_word((uint64_t)i));
    return 0;
}
END
}

# The words of wn_word are those of the comments beside the numbers, and of the manual page.
word_tests() {
    local beside
    beside=$(perl -ne 'print "$1 $2\n" if m{^WN_\w+ *= +(\d+),? +/\* [c ][r ][w ] ([^:]+): }' include/wennathig.h)
    [ "$(wc -l <<<"$beside")" -eq 22 ]
    tally $? "every number has a word beside it"
    diff <(echo "$beside") <(words_of gcc -std=c99 -x c)
    tally $? "wn_word gives the words beside the numbers, in C"
    diff <(echo "$beside") <(words_of g++ -std=c++11 -x c++)
    tally $? "wn_word gives the words beside the numbers, in C++"
    diff <(echo "$beside") <(perl -ne 'print "$1 $2\n" if /^(\d+)\|WN_\w+\|(.+?)(?:: | \()/' man/wennathig.3)
    tally $? "the manual page has the words"
}

# The first row of the table of versions is the header's.
version_test() {
    local header row
    header=$(sed -nE 's/^#define WN_VERSION_(MAJOR|MINOR|PATCH) ([0-9]+)$/\2/p' include/wennathig.h | paste -sd.)
    row=$(sed -n '/^| version | brought |$/{n;n;p;q}' docs/CHANGES.md)
    [[ $row == "| $header | "* ]]
    tally $? "the first row of docs/CHANGES.md is version $header: $row"
}

# The most stack that each call of a library takes, by its instructions: its frame, and the deepest of those that it calls.
# For what cannot be bounded so there is a complaint, which is no number: a function that comes back to itself, a call
# through a pointer, another way to move the stack's end. The 128 bytes below the end are free to use without moving it.
stack_of() { # LIBRARY
    objdump -dr --no-show-raw-insn -M intel "$1" | perl -e '
        my (%frame, %calls, $in, $open);
        while (<STDIN>) {
            if (/^[0-9a-f]+ <(.+)>:$/) { $in = $1; $frame{$in} = 8; next }
            if ($open && /R_X86_64_PLT32\s+(?:\.text\.)?(\S+)-0x4$/) { $calls{$in}{$1} = 1; $open = 0; next }
            die "$in calls what is not named\n" if $open;
            next unless /^\s*[0-9a-f]+:\t(\S+)\s*(.*)$/;
            my ($what, $on) = ($1, $2);
            if ($what eq "push") { $frame{$in} += 8 }
            elsif ($what eq "sub" && $on =~ /^rsp,0x([0-9a-f]+)$/) { $frame{$in} += hex $1 }
            elsif ($what eq "call") { $open = 1 }
            elsif ($on =~ /^rsp,/ && $what !~ /^(?:add|cmp|test)$/) { die "$in moves the stack: $what $on\n" }
        }
        $frame{$_} = 8 for qw(memset memcpy); # of the C library; they keep nothing on the stack
        sub most {
            my ($name, @above) = @_;
            die "$name comes back to itself\n" if grep { $_ eq $name } @above;
            my $below = 128;
            for (keys %{$calls{$name}}) {
                my $one = most($_, @above, $name);
                $below = $one if $one > $below;
            }
            return ($frame{$name} // die "$name is not in the library\n") + $below;
        }
        print "$_ ", most($_), "\n" for sort grep { /^wn_/ } keys %frame' 2>&1
}

stack_tests() {
    local bound name most count=0
    bound=$(sed -nE 's/^#define WN_STACK_MAX ([0-9]+)$/\1/p' include/wennathig.h)
    while read -r name most; do
        count=$((count + 1))
        [[ $most =~ ^[0-9]+$ ]] && [ "$most" -lt "$bound" ]
        tally $? "by its instructions, $name takes less than $bound bytes of stack: $most"
    done < <(stack_of build/libwennathig.a; stack_of build/libwennathig_watch.a)
    [ "$count" -eq 3 ]
    tally $? "the instructions of three calls were read: $count"
}

gcc -std=c99 -Wall -Wextra -Werror -pedantic -fsyntax-only -x c include/wennathig.h
tally $? "the header alone, as C99"
g++ -std=c++11 -Wall -Wextra -Werror -pedantic -fsyntax-only -x c++ include/wennathig.h
tally $? "the header alone, as C++"
word_tests
version_test
stack_tests

command -v valgrind >/dev/null || timeout 120 apt-get install -y valgrind </dev/null
command -v valgrind >/dev/null
has_valgrind=$?
[ "$has_valgrind" -eq 0 ] || tally 1 "valgrind is missing and could not be installed"

for source in c/test_*.c; do
    name=$(basename "$source" .c)
    if ! make --no-print-directory "build/$name"; then
        tally 1 "$source does not compile and link"
        continue
    fi
    said=$("build/$name")
    status=$?
    printf '%s\n' "$said"
    if [[ ${said##*$'\n'} =~ ^([0-9]+)\ passed,\ ([0-9]+)\ failed$ ]]; then
        passed=$((passed + BASH_REMATCH[1])) failed=$((failed + BASH_REMATCH[2]))
        [ "$status" -eq 0 ] || [ "${BASH_REMATCH[2]}" -gt 0 ] || tally 1 "$name ended with status $status"
    else
        tally 1 "$name ended without its count, with status $status"
    fi
    # to valgrind, what lies below a stack's end is nobody's, and test_stack reads just that
    if [ "$has_valgrind" -eq 0 ] && [ "$name" != test_stack ]; then
        valgrind -q --error-exitcode=99 --leak-check=full "build/$name" >/dev/null
        tally $? "$name under valgrind"
    fi
done

# The C tests of wn_check and wn_run are linked with their library alone; this is the other one, alone.
gcc -std=c99 -Wall -Wextra -Werror -Iinclude -x c - -x none build/libwennathig_watch.a -o "$sheets/alone" <<'END'
#include "wennathig.h"
int main(void) { return wn_watch(NULL, 0, NULL, 0, 0, NULL, 0, NULL, 0, NULL, 0) != WN_TORN; }
END
tally $? "libwennathig_watch.a alone links"
"$sheets/alone"
tally $? "libwennathig_watch.a alone answers"

make --no-print-directory host
status=$?
tally "$status" "c/host.c compiles and links"
[ "$status" -ne 0 ] || host_tests

echo "$passed passed, $failed failed"
[ "$failed" -eq 0 ]
