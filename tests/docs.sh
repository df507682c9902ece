#!/usr/bin/env bash
# That docs/ tells of all that stands: each definitions' file in DEFINITIONS.md, each crate in README.md and ARCHITECTURE.md, there
# in its group and with what it stands on, each refusal in GUIDE.md, with the cause and the cure that `wcet` prints by
# docs/causes.txt.
set -u
cd "$(dirname "$0")/.."
missing=0

tell() {
    echo "docs: $1"
    missing=$((missing + 1))
}

for file in crates/*/specs/*.antt; do
    crate=$(basename "$(dirname "$(dirname "$file")")")
    name=$(basename "$file")
    [ "$name" = Lib.antt ] && continue
    # A row names the first file of a crate by its path, and further ones by their names alone.
    grep -F "$crate/specs/" docs/DEFINITIONS.md | grep -qE "(/|\`)$name\`" || tell "no definition of $crate/specs/$name"
done

for crate in $(grep -oE '^[a-z_]+' crates.txt); do
    for page in README.md docs/ARCHITECTURE.md; do
        grep -qF "| \`$crate\`" "$page" || tell "$page has no row of $crate"
    done
done

# The crates by groups, each with what it stands on: crates.txt and the tables of ARCHITECTURE.md tell the same, in one order.
groups_listed() {
    awk -F': *' '/^# [A-Z][a-z]*$/ { group = substr($0, 3) } /^[a-z_]+:/ { print group, $1 ":", $2 }' crates.txt
}

groups_told() {
    awk -F' [|] ' '/^##/ { group = substr($0, 5) } /^[|] `/ && NF == 3 && !/specs/ {
        sub(/ [|]$/, "", $3); sub(/^none$/, "", $3); gsub(/[`,]/, "", $3); gsub(/[|` ]/, "", $1)
        print group, $1 ":", $3
    }' docs/ARCHITECTURE.md
}

while read -r line; do
    tell "crates.txt (<) and docs/ARCHITECTURE.md (>) differ: $line"
done < <(diff <(groups_listed) <(groups_told) | grep '^[<>]')

kinds=$(grep -oE '=> "[a-z-]+"' crates/wcet_engine/src/refusal.rt | grep -oE '[a-z-]{3,}')
for kind in $kinds; do
    rows=$(grep -c "^$kind [^ ]* | [^|]* | [^|]*$" docs/causes.txt)
    [ "$rows" -eq 1 ] || tell "docs/causes.txt has $rows rows of the refusal $kind"
done
[ "$(grep -vc '^#' docs/causes.txt)" -eq "$(wc -w <<<"$kinds")" ] || tell "docs/causes.txt has another row"

# The rows of the guide's table, in their order, are those of the causes.
while read -r row; do
    tell "docs/GUIDE.md and docs/causes.txt differ: $row"
done < <(diff <(sed -n 's/^| `refused \([a-z-]* [^ ]*\)` | \(.*\) |$/\1 | \2/p' docs/GUIDE.md) <(grep -v '^#' docs/causes.txt) | grep '^[<>]')

echo "docs: $missing missing"
[ "$missing" -eq 0 ]
