#!/bin/sh
# Assembles the forms of tests/assembler.txt and compares what decode_words prints for their words.
# It takes GNU's assembler for MIPS (Debian's binutils-mips-linux-gnu), else LLVM's, and skips
# where neither is there. Usage: tests/assembler.sh PROGRAM, as crates/decode_words/out/decode_words.
set -eu
program=${1:?the built decode_words}
forms=$(dirname "$0")/assembler.txt
work=$(mktemp -d)
trap 'rm -rf "$work"' EXIT

# Each line of the forms: what is assembled, a bar, what is printed.
{
    echo '.set noat'
    echo '.set noreorder'
    sed 's/ |.*//' "$forms"
} >"$work/forms.s"
sed 's/.*| //' "$forms" >"$work/wanted"

if command -v mips-linux-gnu-as >/dev/null; then
    mips-linux-gnu-as -EB -mips1 -mabi=32 -o "$work/forms.o" "$work/forms.s"
    mips-linux-gnu-objcopy -O binary -j .text "$work/forms.o" "$work/forms.bin"
elif command -v llvm-mc >/dev/null; then
    llvm-mc --triple=mips --mcpu=mips1 --filetype=obj -o "$work/forms.o" "$work/forms.s"
    llvm-objcopy -O binary -j .text "$work/forms.o" "$work/forms.bin"
else
    echo 'skipped: no assembler for MIPS'
    exit 0
fi

if ! [ -x "$program" ]; then
    echo "failed: decode_words isn't built: there is no program $program; rt run in crates/decode_words builds it"
    exit 1
fi

# One word a line; the assembler may pad the end with zeros.
od -An -v -tx1 -w4 "$work/forms.bin" | tr -d ' ' | head -n "$(wc -l <"$work/wanted")" >"$work/words"
"$program" <"$work/words" >"$work/printed"
diff "$work/wanted" "$work/printed"
echo "passed: $(wc -l <"$work/wanted") forms"
