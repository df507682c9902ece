# A tally of trials, which the tests of this folder read by `.`.
passed=0
failed=0

# Counts a trial: its name, then what it gave, then what is wanted.
check() {
    if [ "$2" = "$3" ]; then
        passed=$((passed + 1))
    else
        failed=$((failed + 1))
        printf 'failed: %s\n  gave:   %q\n  wanted: %q\n' "$1" "$2" "$3"
    fi
}
