#!/usr/bin/env bash
# Records that are added to a finished executable, by the commands of docs/GUIDE.md ("An executable that can't be compiled
# anew"): sort.elf without its records is refused, and with the added ones it has the bound of its sheet again.
#
# WCET names another program than ./wcet. It skips without a compiler for MIPS, and for code that the sheet doesn't hold for.
# The last line is 'N passed, N failed'; the status is 0 only where none failed.
set -u
top=$(cd "$(dirname "$0")/.." && pwd)
wcet=${WCET:-$top/wcet}
plain=$top/examples/profiles/plain.toml
sheet=$top/examples/c/sums/sort.txt
work=$(mktemp -d)
trap 'rm -rf "$work"' EXIT
. "$top/tests/tally.sh"

if ! command -v mips-linux-gnu-gcc >/dev/null || ! command -v make >/dev/null; then
    echo 'skipped: no compiler for MIPS'
    exit 0
fi
if ! make -s -C "$top/examples/c" OUT="$work" "$work/sort.elf" >"$work/log" 2>&1; then
    cat "$work/log"
    exit 1
fi
if [ "$("$top/tests/cycles.py" code "$work/sort.elf")" != "$(sed -n 's/^code *//p' "$sheet")" ]; then
    echo 'skipped: the sheet holds for code of another compiler'
    exit 0
fi

# The first line of an answer.
first_line() {
    "$wcet" bound "$1" "$plain" 2>&1 | sed -n 1p
}

cd "$work" || exit 1
bound="bound $(sed -n 's/^value *//p' "$sheet")"
mips-linux-gnu-objcopy --remove-section .wcet sort.elf old.elf
check 'without its records' 'refused no-bound 004000C0' "$(first_line old.elf)"
check 'what it lacks' 'no record: the loop at 004000C0 no record: the loop at 004000F0' \
    "$("$top/examples/c/records.py" old.elf task | sed -n 's/^\(no record: the loop at [0-9A-F]*\).*/\1/p' | xargs)"

# The commands of the guide, as they stand there.
commands() {
    sed -n "/^## An executable that can't be compiled anew/,/^## Records/s/^    \($1.*\)/\1/p" "$top/docs/GUIDE.md"
}
commands '\(printf\|mips-linux-gnu-as\|mips-linux-gnu-objcopy -O\|mips-linux-gnu-objcopy --add-section\)' >add.sh
bash -eu add.sh
check 'with added records' "$bound" "$(first_line new.elf)"

mips-linux-gnu-strip new.elf
check 'stripped' 'refused no-symbol 00000000' "$(first_line new.elf)"
commands 'mips-linux-gnu-objcopy --add-symbol' >name.sh
bash -eu name.sh
check 'with a symbol for its entry' "$bound" "$(first_line named.elf)"

mips-linux-gnu-objcopy --update-section .wcet=records.bin sort.elf replaced.elf
check 'with replaced records' "$bound" "$(first_line replaced.elf)"
echo "added: $passed passed, $failed failed"
[ "$failed" -eq 0 ]
