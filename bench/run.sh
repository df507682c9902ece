#!/usr/bin/env bash
# All benches of the analyser over generated files, one after the other: code, nests of loops, and calls. The last lines tell
# those that took 2 seconds or more or 500 MB or more, or gave another bound than the formula's, and the status is 0 only where
# none did.
# usage: bench/run.sh
set -u
cd "$(dirname "$0")/.." || exit 1
lines=$(mktemp)
trap 'rm -f "$lines"' EXIT
for bench in code nests calls; do
    echo "== $bench"
    "bench/$bench.sh"
done | tee "$lines"
echo "== too slow, too large or wrong:"
awk '
    {
        for (field = 2; field <= NF; field++) {
            if ($field == "s" && $(field - 1) + 0 >= 2) { print; bad = 1; next }
            if ($field == "KiB" && $(field - 1) + 0 >= 500000) { print; bad = 1; next }
            if ($field == "WANTED") { print; bad = 1; next }
        }
    }
    END { exit bad }
' "$lines"
