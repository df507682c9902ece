#!/usr/bin/env bash
# The programs of examples/c: built, run by QEMU, and analysed. Each bound is compared with the value in the program's sheet
# (examples/c/sums), which was added up by hand from the disassembly, with that of a second method (second.py), and with the
# cycles of the traced run, which must keep the records. Then programs with a mistake each, which the tools must tell.
# The sheet holds for one compiler and one checksum of the code; for other code the test says so, and goes by the second
# method and the run.
#
# Usage: tests/c.sh [WORD ..], the words for make, as CFLAGS=-O2. WCET names another program than ./wcet.
# It installs Debian's compiler and QEMU where they are missing, and skips where they can't be had.
# The last line is 'N passed, N failed'; the status is 0 only where none failed.
set -u
top=$(cd "$(dirname "$0")/.." && pwd)
wcet=${WCET:-$top/wcet}
cycles=$top/tests/cycles.py
plain=$top/examples/profiles/plain.toml
board=$top/examples/profiles/board.toml
work=$(mktemp -d)
trap 'rm -rf "$work"' EXIT
. "$top/tests/tally.sh"

is_there() {
    command -v "$1" >/dev/null
}

if ! is_there mips-linux-gnu-gcc || ! is_there qemu-mips || ! is_there make; then
    export DEBIAN_FRONTEND=noninteractive
    timeout 180 apt-get update >"$work/apt.log" 2>&1
    timeout 180 apt-get install -y --no-install-recommends gcc-mips-linux-gnu binutils-mips-linux-gnu qemu-user make \
        >>"$work/apt.log" 2>&1
fi
if ! is_there mips-linux-gnu-gcc || ! is_there make; then
    echo 'skipped: no compiler for MIPS'
    exit 0
fi
if ! python3 -c 'import tomllib' 2>/dev/null; then
    echo 'skipped: profiles are read by Python 3.11 and later'
    exit 0
fi
is_there qemu-mips || echo 'skipped: the runs, without QEMU for MIPS'
single=-singlestep
qemu-mips -help 2>/dev/null | grep -q one-insn-per-tb && single=-one-insn-per-tb

# Builds into the trials' folder: a log's name, then words for make.
build() {
    local log=$work/$1
    shift
    make -s -C "$top/examples/c" OUT="$work" VPATH="$top/tests/c" "$@" >"$log" 2>&1
}

# What records.py says of a program that is as it should be: no line of another kind.
said='^\(loop\|access\|target\|size:\) '

# What a line of a sheet says: the program, then the line's first word.
told() {
    sed -n "s/^$2  *//p" "$top/examples/c/sums/$1.txt"
}

# Analyses a program under a profile: its bound comes to stand in `bound`.
analyse() {
    "$wcet" bound "$work/$1.elf" "$2" >"$work/bound" 2>"$work/error"
    check "$1: status" "$? $(cat "$work/error")" "0 "
    bound=$(sed -n '1s/^bound //p' "$work/bound")
    check "$1: a bound" "$(grep -c '^[1-9][0-9]*$' <<<"$bound")" 1
    check "$1: the bound by the second method" "bound $bound" "$("$top/tests/second.py" "$work/$1.elf" "$2")"
}

# Compares the bound with the program's sheet, where that holds for this code.
compare_with_sheet() {
    local elf=$work/$1.elf sheet=$top/examples/c/sums/$1.txt
    if [ "$("$cycles" code "$elf")" != "$(told "$1" code)" ] || [ "$compiler" != "$(told "$1" compiler)" ]; then
        echo "$1: other code than its sheet's"
        return
    fi
    check "$1: the sheet's sum" "$("$cycles" sum "$elf" "$sheet")" "$(told "$1" value)"
    check "$1: the bound" "$bound" "$(told "$1" value)"
}

# Traces a run: the program, then the result that it must have. The run must keep the records.
trace() {
    is_there qemu-mips || return
    qemu-mips $single -d exec,nochain,cpu -D "$work/$1.trace" "$work/$1.elf"
    check "$1: the run's result" "$?" "$2"
    "$top/examples/c/kept.py" "$work/$1.elf" "$work/$1.trace" task >"$work/kept" 2>&1
    check "$1: the run keeps the records" "$? $(grep '^broken' "$work/kept")" "0 "
}

# Compares the bound with the traced run's cycles under a profile, which come to stand in `run`.
compare_with_run() {
    is_there qemu-mips || return
    run=$("$cycles" run "$work/$1.elf" "$work/$1.trace" "$2")
    check "$1: cycles of the run" "$(grep -c '^[1-9][0-9]*$' <<<"$run")" 1
    check "$1: the run's $run cycles are at most the bound" "$((run <= bound))" 1
    echo "$1: bound $bound, run $run (${2##*/})"
}

# A number with commas.
grouped() {
    sed ':a; s/\B[0-9]\{3\}\>/,&/; ta' <<<"$1"
}

# The guide has this text, if it was written for this compiler and these flags.
tell_guide() {
    if [ "$words" -eq 0 ] && [ "$compiler" = "$(told sort compiler)" ] && is_there qemu-mips; then
        check "the guide: $1" "$(grep -cF -- "$1" "$top/docs/GUIDE.md")" 1
    fi
}

# Builds the analyser if it is missing or old.
"$wcet" >"$work/analyser.log" 2>&1
if [ $? -ne 1 ]; then
    cat "$work/analyser.log"
    echo '0 passed, 1 failed'
    exit 1
fi

compiler=$(mips-linux-gnu-gcc --version | sed -n 1p)
words=$#
for name in sort crc matrix crossing find levels filter search frames; do
    build "$name.log" "$@" "$work/$name.elf"
    check "$name: built" "$? $(grep -v -e "$said" -e '^nothing: .*(memmove' "$work/$name.log")" "0 "
    [ -e "$work/$name.elf" ] || continue
    analyse "$name" "$plain"
    compare_with_sheet "$name"
    trace "$name" "$(told "$name" result)"
    compare_with_run "$name" "$plain"
    tell_guide " | $(grouped "$bound") | $(grouped "${run:-0}") |"
    analyse "$name" "$board"
    compare_with_run "$name" "$board"
done

# Every width of access and every number of targets that wcet.h has. The result is how many values are wrong.
build widths.log "$@" "$work/widths.elf"
check "widths: built" "$? $(grep -v "$said" "$work/widths.log")" "0 "
if [ -e "$work/widths.elf" ]; then
    analyse widths "$plain"
    trace widths 0
    compare_with_run widths "$plain"
fi

# A device, and the array that a run reads in its place: 1 + 2 + 3 + 4.
build device.log "$@" "$work/device.elf"
check "device: built" "$? $(grep -v "$said" "$work/device.log")" "0 "
if [ -e "$work/device.elf" ]; then
    analyse device "$plain"
    trace device 10
    compare_with_run device "$plain"
fi
build ports.log "$@" OUT="$work/ports" DEFINED=-DDEVICE "$work/ports/device.elf"
check "ports: the ranges" "$(grep -c '^access at .* from A0000000 to below A0000010$' "$work/ports.log")" 2
if [ -e "$work/ports/device.elf" ]; then
    mv "$work/ports/device.elf" "$work/ports.elf"
    { cat "$plain"; printf '[[region]]\nstart = 0xA000_0000\nsize = 16\n'; } >"$work/ports.toml"
    analyse ports "$work/ports.toml"
fi

# A second source: the functions of memory.c, called by name and by the compiler.
build copies.log "$@" --eval "$work/copies.elf: $work/memory.o" "$work/copies.elf"
check "copies: built" "$? $(grep -v "$said" "$work/copies.log")" "0 "
if [ -e "$work/copies.elf" ]; then
    analyse copies "$plain"
    trace copies 0
    compare_with_run copies "$plain"
fi

# A run that returns past its caller, of which the bound says nothing.
build skips.log "$work/skips.elf"
if is_there qemu-mips; then
    qemu-mips $single -d exec,nochain,cpu -D "$work/skips.trace" "$work/skips.elf"
    check "a return past the caller: the run's result" "$?" 0
    "$top/examples/c/kept.py" "$work/skips.elf" "$work/skips.trace" task >"$work/kept"
    check "a return past the caller: status" "$?" 1
    check "a return past the caller" "$(sed -n 's/ at .* comes/ comes/p' "$work/kept")" \
        'broken: the return comes back elsewhere than after its call'
fi

# A trace without registers serves for all but ranges.
if is_there qemu-mips; then
    qemu-mips $single -d exec,nochain -D "$work/short.trace" "$work/crc.elf"
    check "without registers: loops" "$("$top/examples/c/kept.py" "$work/crc.elf" "$work/short.trace" task |
        grep -c -e 'visited 3 of 3$' -e 'visited 10 of 10$' -e 'the trace has no registers$')" 3
    check "without registers: cycles" "$("$cycles" run "$work/crc.elf" "$work/short.trace")" \
        "$("$cycles" run "$work/crc.elf" "$work/crc.trace")"
fi

# A trace of another build: it is older than the program.
if is_there qemu-mips; then
    cp "$work/crc.trace" "$work/old.trace"
    touch -d '1 hour ago' "$work/old.trace"
    older="$work/old.trace: it is older than $work/crc.elf, so it may be the run of another build"
    check "an old trace: records" "$("$top/examples/c/kept.py" "$work/crc.elf" "$work/old.trace" task 2>&1) $?" "$older 1"
    check "an old trace: cycles" "$("$cycles" run "$work/crc.elf" "$work/old.trace" 2>&1) $?" "$older 1"
fi

# A changed header builds the program again, and a changed Makefile.
mkdir "$work/again"
cp "$top"/examples/c/*.{c,S,h,inc,ld,py} "$top/examples/c/Makefile" "$work/again"
make -s -C "$work/again" "$@" out/crc.elf >"$work/again.log" 2>&1
for name in wcet.h Makefile; do
    touch -d '1 hour ago' "$work"/again/*.* "$work"/again/Makefile "$work"/again/out/*
    make -q -C "$work/again" "$@" out/crc.elf >"$work/again.log" 2>&1
    check "before $name changes: make has nothing to do" "$?" 0
    touch "$work/again/$name"
    make -q -C "$work/again" "$@" out/crc.elf >"$work/again.log" 2>&1
    check "a changed $name: make has something to do" "$?" 1
done

# The causes of a bound far above the run, as the guide tells them with their numbers: each function, and how it is mended.
build loose.log "$@" "$work/loose.elf"
check "loose: built" "$? $(grep -v "$said" "$work/loose.log")" "0 "
if [ -e "$work/loose.elf" ]; then
    trace loose 0
    for name in once once_mended rotated rotated_mended arms arms_mended; do
        echo "entry = \"$name\"" >"$work/$name.toml"
        analyse loose "$work/$name.toml"
        compare_with_run loose "$work/$name.toml"
        tell_guide "\`$name\`: $(grouped "$bound"), $(grouped "${run:-0}")"
    done
fi

# 4,095 contexts. By hand: 2,048 calls of the last function (33 cycles), 2,046 of those between (141), and the task (174).
build contexts.log "$@" "$work/contexts.elf"
check "contexts: built" "$? $(grep -v '^size: ' "$work/contexts.log")" "0 "
if [ -e "$work/contexts.elf" ]; then
    analyse contexts "$plain"
    trace contexts 0
    compare_with_run contexts "$plain"
    if [ "$words" -eq 0 ] && [ "$compiler" = "$(told sort compiler)" ]; then
        check "contexts: the bound" "$bound" 356244
        check "contexts: the size" "$(cat "$work/contexts.log")" 'size: 4,095 contexts, 20,475 places'
    fi
    tell_guide 'These are 4,095 contexts with 20,475 places, and the bound is 356,244.'
fi

# Another entry than the task.
echo 'entry = "length"' >"$work/length.toml"
analyse find "$work/length.toml"
compare_with_run find "$work/length.toml"

# Its records alone are looked at: a text of 19 bytes, so the loop's header is visited 20 times.
build entry.log "$@" OUT="$work/entry" ENTRY=length "$work/entry/find.elf"
check "another entry: its loop" "$(grep -c '^loop [0-9A-F]* (length.*: 20 visits, by' "$work/entry.log")" 1
check "another entry: no other loop" "$(grep -c '^loop ' "$work/entry.log")" 1

# Small data, which register 28 reaches.
build small.log MACHINE='-EB -march=mips1 -mabi=32 -msoft-float -mno-abicalls -fno-pic -fno-pie -G8 -ffreestanding' \
    OUT="$work/small" "$work/small/crossing.elf"
check "small data: built" "$? $(grep -v "$said" "$work/small.log")" "0 "
if [ -e "$work/small/crossing.elf" ]; then
    mv "$work/small/crossing.elf" "$work/small.elf"
    check "small data: by register 28" "$(mips-linux-gnu-objdump -d "$work/small.elf" | grep -c '(gp)' | sed 's/[1-9].*/some/')" some
    { echo "gp = 0x$(mips-linux-gnu-nm "$work/small.elf" | sed -n 's/ . _gp$//p')"; cat "$plain"; } >"$work/small.toml"
    analyse small "$work/small.toml"
    trace small "$(told crossing result)"
    compare_with_run small "$work/small.toml"
fi

# A profile with a cache.
"$wcet" bound "$work/sort.elf" "$top/examples/profiles/fetch-cache.toml" >"$work/bound" 2>"$work/error"
check "a cache, which isn't taken yet" "$? $(cat "$work/bound" "$work/error")" "2 refused unbuilt 00000000"
if is_there qemu-mips; then
    told=$("$cycles" run "$work/sort.elf" "$work/sort.trace" "$top/examples/profiles/fetch-cache.toml" 2>&1)
    check "a cache, whose cycles aren't added up" "$? ${told##*/}" \
        "1 fetch-cache.toml: the cycles of caches aren't added up here"
fi

# With the flags of the Makefile these programs are built; without them the compiler copies their records, and that is
# an error of the assembler.
for name in inlined unrolled; do
    build "$name.log" "$work/$name.o"
    check "$name.c with the flags of the Makefile" "$? $(cat "$work/$name.log")" "0 "
    rm -f "$work/$name.o"
done
if [ "$compiler" = "$(told sort compiler)" ]; then
    build inlined.log STEADY= CFLAGS='-I. -O2' "$work/inlined.o"
    check "a record copied by inlining: status" "$?" 2
    check "a record copied by inlining" "$(grep -c 'symbol `.Lwcet_0. is already defined' "$work/inlined.log")" 1
    build unrolled.log STEADY= CFLAGS='-I. -O3' "$work/unrolled.o"
    check "a record copied by unrolling: status" "$?" 2
    check "a record copied by unrolling" "$(grep -c 'symbol `.Lwcet_0. is already defined' "$work/unrolled.log")" 2

    # A record whose loop the compiler dissolved bounds another loop, and the look at the records tells it.
    build dissolved.log "$work/dissolved.elf"
    check "a record whose loop was dissolved: status" "$?" 2
    check "a record whose loop was dissolved" \
        "$(grep -c '^fault: the record at .* bounds it too, by 101$' "$work/dissolved.log")" 1

    # One mistake each, which a tool of the recipe tells.
    "$top/tests/broken.py" "$wcet" "$plain" >"$work/broken"
    check "programs with a mistake" "$? $(grep -v -e 'passed' -e '^skipped' "$work/broken")" "0 "
    echo "programs with a mistake: $(tail -n 1 "$work/broken")"
else
    echo "another compiler than the sheets', so what it copies and dissolves isn't looked at"
fi

echo "$passed passed, $failed failed"
[ "$failed" -eq 0 ]
