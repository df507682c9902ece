#!/usr/bin/env bash
# The built program as a user runs it: statuses, standard output and standard error.
# The last line is 'N passed, N failed'; the status is 0 only where none failed.
set -u
top=$(cd "$(dirname "$0")/.." && pwd)
trials=$(mktemp -d)
trap 'rm -rf "$trials"' EXIT
. "$top/tests/tally.sh"

# Builds the program where it is missing or old. Its own answer to no words is one of the trials.
"$top/wcet" 2>"$trials/build.log"
if ! [ -x "$top/crates/wcet_cli/out/wcet_cli" ]; then
    cat "$trials/build.log"
    echo "0 passed, 1 failed"
    exit 1
fi

cd "$trials" || exit 1
cp "$top/examples/return.elf" return.elf
cp return.elf ./-dashed.elf
: >empty
head -c 16777217 /dev/zero >too-long
head -c 16777216 /dev/zero >longest
head -c 16777216 /dev/zero | tr '\0' '#' >comment
head -c 16777217 /dev/zero | tr '\0' '#' >too-long-comment
printf 'memory = 20\n' >slow.toml
printf 'speed = 1\n' >speed.toml
mkdir folder

# What the program prints of a function that returns at once.
once=$(printf 'bound 22\nreached 22\nvalue 1 1\nvalue 2 1\nleaf 1 1:22\nend')

# The same where memory takes 20 cycles.
twice=$(printf 'bound 42\nreached 42\nvalue 1 1\nvalue 2 1\nleaf 1 1:42\nend')

# Runs the program: the trial's name, the wanted status, output and error, then the words.
trial() {
    local name=$1 status=$2 out=$3 err=$4
    shift 4
    "$top/wcet" "$@" >out.txt 2>err.txt
    check "$name" "$? $(cat out.txt)|$(cat err.txt)" "$status $out|$err"
}

trial "a function that returns at once" 0 "$once" "" analyse return.elf
trial "an empty file" 2 "refused short 00000000" "" analyse empty
trial "a file that is a byte too long" 2 "refused too-long 01000000" "" analyse too-long
trial "a file of the greatest length" 2 "refused not-elf 00000000" "" analyse longest
trial "a missing file" 3 "" "read fault" analyse missing
trial "a directory" 3 "" "read fault" analyse folder
trial "no words" 1 "" "usage"
trial "a bound" 0 "$once" "" bound return.elf
trial "an empty profile" 0 "$once" "" analyse return.elf empty
trial "a profile of the greatest length, one comment" 0 "$once" "" bound return.elf comment
trial "a profile that is a byte too long" 2 "refused too-long 01000000" "" analyse return.elf too-long-comment
trial "a profile" 0 "$twice" "" bound return.elf slow.toml
trial "an unknown key" 2 "refused config-key speed" "" analyse return.elf speed.toml
trial "a missing profile" 3 "" "read fault" analyse return.elf missing
trial "a file that is too long, and a missing profile" 2 "refused too-long 01000000" "" analyse too-long missing
trial "a word too many" 1 "" "usage" analyse return.elf empty empty
trial "a command without its file" 1 "" "usage" analyse
trial "an unknown command" 1 "" "usage" analyze return.elf
trial "a file named like an option, missing" 3 "" "read fault" analyse --help
trial "an empty file name" 3 "" "read fault" analyse ""
trial "a file whose name begins with a dash" 0 "$once" "" analyse -dashed.elf
trial "a word that is no text" 1 "" "usage" analyse $'\xff'

# `./wcet` answers this word itself (tests/help.sh); to the program it is a word like others.
"$top/crates/wcet_cli/out/wcet_cli" --help >out.txt 2>err.txt
check "a word for help" "$? $(cat out.txt)|$(cat err.txt)" "1 |usage"

# A pipe can't seek, and gives the file in one piece or in several.
(head -c 40 return.elf; sleep 0.2; tail -c +41 return.elf) |
    "$top/wcet" analyse /dev/stdin >out.txt 2>err.txt
check "a pipe" "${PIPESTATUS[1]} $(cat out.txt)|$(cat err.txt)" "0 $once|"

"$top/wcet" analyse return.elf >/dev/full 2>err.txt
check "a full disk" "$? $(cat err.txt)" "4 write fault"

# The pipe's reader is gone before the program starts.
mkfifo gone
exec 3<>gone
exec 4>gone
exec 3>&-
"$top/wcet" analyse return.elf >&4 2>err.txt
check "a closed pipe" "$? $(cat err.txt)" "4 write fault"
exec 4>&-

echo "$passed passed, $failed failed"
[ "$failed" -eq 0 ]
