# Sourced by the benches: goes to the top, and sets `folder` to the one given, or to a new one that is removed again.
cd "$(dirname "${BASH_SOURCE[0]}")/.." || exit 1
folder=${1:-}
if [ -z "$folder" ]; then
    folder=$(mktemp -d)
    trap 'rm -rf "$folder"' EXIT
fi
mkdir -p "$folder"
