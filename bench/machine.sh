#!/usr/bin/env bash
# The machine's speed: 50,000,000 units of a loop of arithmetic and loads, without caches and with three.
# usage: bench/machine.sh [UNITS]
set -eu
cd "$(dirname "$0")/.."
units=${1:-50000000}
program=crates/machine_bench/out/machine_bench
[ -x "$program" ] || (cd crates/machine_bench && rt run >/dev/null)
for line in "$units" "caches $units"; do
    start=$(date +%s.%N)
    echo "$line" | "$program"
    end=$(date +%s.%N)
    python3 -c "print(f'$line: {$end - $start:.2f} seconds, {$units / ($end - $start) / 1e6:.1f} million units a second')"
done
