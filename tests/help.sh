#!/usr/bin/env bash
# What `./wcet` adds to the program's answers where WCET_HELP is 1 or standard error is a terminal, and that it adds nothing else.
# The last line is 'N passed, N failed'; the status is 0 only where none failed.
set -u
top=$(cd "$(dirname "$0")/.." && pwd)
trials=$(mktemp -d)
trap 'rm -rf "$trials"' EXIT
. "$top/tests/tally.sh"

# Builds the program where it is missing or old.
"$top/wcet" >"$trials/build.log" 2>&1
if ! [ -x "$top/crates/wcet_cli/out/wcet_cli" ]; then
    cat "$trials/build.log"
    echo "0 passed, 1 failed"
    exit 1
fi

cd "$trials" || exit 1
cp "$top/examples/return.elf" return.elf
printf 'speed = 1\n' >speed.toml
printf 'memory = 20\nstore =\n' >cut.toml
head -c 16777217 /dev/zero >too-long
: >empty
mkdir folder

# A loop without a record, in a file without symbols: `b .` with its slot, at 00400054.
python3 - "$top/tests" <<'END'
import sys
sys.dont_write_bytecode = True
sys.path.insert(0, sys.argv[1])
from executables import START, Image
with open("loop.elf", "wb") as file:
    file.write(Image([0x1000FFFF, 0, 0x03E00008, 0], symbols=[("spin", START, 1)]).file())
# Fourteen functions of five units that each call the next one twice, and one of one unit behind them.
words = []
for number in range(14):
    words += [0x0C000000 | (START + 32 * (number + 1)) >> 2, 0] * 2 + [0, 0, 0x03E00008, 0]
with open("calls.elf", "wb") as file:
    file.write(Image(words + [0x03E00008, 0], symbols=[("first", START, 1)]).file())
END

# Runs the program with help and without: the trial's name, a pattern of a line of help, then the words. Standard output, the
# status and the program's own lines on standard error must be the same.
trial() {
    local name=$1 line=$2 status
    shift 2
    WCET_HELP=0 "$top/wcet" "$@" >plain.txt 2>plain.err
    status=$?
    WCET_HELP=1 "$top/wcet" "$@" >out.txt 2>err.txt
    check "$name: status" "$?" "$status"
    check "$name: standard output" "$(cat out.txt)" "$(cat plain.txt)"
    check "$name: standard error begins with the program's" "$(head -c "$(wc -c <plain.err)" err.txt)" "$(cat plain.err)"
    check "$name: help" "$(grep -c "$line" err.txt)" 1
    check "$name: nothing without help" "$(grep -v -e '^usage$' -e '^read fault$' plain.err)" ""
}

trial "no words" '^usage: ./wcet bound ELF \[CONFIG\]'
trial "an unknown command" '^usage: ./wcet bound ELF \[CONFIG\]' analyze return.elf
trial "a missing file" "^cause: there is no file 'missing'$" bound missing speed.toml
trial "a missing profile" "^cause: there is no file 'gone.toml'$" bound return.elf gone.toml
trial "a directory" "^cause: 'folder' is a directory$" bound folder
trial "an empty file" '^cause: the file has 0 bytes, fewer than' bound empty
trial "an unknown key" '^ cure: docs/FORMATS.md lists the keys' bound return.elf speed.toml
python3 -c 'import tomllib' 2>/dev/null &&
    trial "a profile that isn't TOML" '^ here: cut.toml: .*line 2' bound return.elf cut.toml
trial "a file that is too long" '^ here: too-long has 16777217 bytes$' bound too-long
trial "a loop without a record: cause" '^cause: no record names the loop of header 00400000 as' bound loop.elf
trial "a loop without a record: place" '^ here: 00400000 (spin+0x0)$' bound loop.elf
trial "too many contexts: limits" '^cause: there are more than 16,384 contexts or more than 65,536 places$' bound calls.elf
trial "too many contexts: places" '^ here: 32,767 contexts and 98,299 places$' bound calls.elf

# A pipe can't be read a second time.
WCET_HELP=1 "$top/wcet" bound /dev/stdin <empty >out.txt 2>err.txt
check "an empty pipe" "$? $(cat out.txt)|$(grep -c '^cause' err.txt)" "2 refused short 00000000|1"
cat empty | WCET_HELP=1 "$top/wcet" bound /dev/stdin >out.txt 2>err.txt
check "a pipe has no help" "$? $(cat out.txt)|$(cat err.txt)" "2 refused short 00000000|"

# An answer that is no fault has no help.
WCET_HELP=1 "$top/wcet" bound return.elf >out.txt 2>err.txt
check "a bound" "$? $(head -n 1 out.txt)|$(cat err.txt)" "0 bound 22|"

# The form and the version.
"$top/wcet" --help >out.txt 2>err.txt
check "the forms: status" "$?|$(cat err.txt)" "0|"
check "the forms" "$(grep -c '/wcet \(bound\|analyse\) ELF \[CONFIG\]' out.txt)" 2
check "the version" "$(grep -c '^version: ' out.txt)" 1

# A terminal on standard error, which python3 makes.
python3 - "$top/wcet" <<'END' >out.txt 2>&1
import pty, sys
pty.spawn([sys.argv[1], "bound", "missing"])
END
check "a terminal" "$(grep -c "^cause: there is no file 'missing'" out.txt)" 1

# Each kind of refusal has a row.
for kind in $(grep -oE '=> "[a-z-]+"' "$top/crates/wcet_engine/src/refusal.rt" | grep -oE '[a-z-]{3,}'); do
    check "a row of $kind" "$(grep -c "^$kind " "$top/docs/causes.txt")" 1
done

echo "$passed passed, $failed failed"
[ "$failed" -eq 0 ]
