#!/bin/sh
# Runs each example of docs/PROCESSORS.md through the built program bt_proc_cases. The first line of an example is the list of
# processors, the second the batch, and the lines behind them are what must be printed. Each heading of a processor must have
# an example. It wants crates/bt_proc_cases/out/bt_proc_cases, which the gate leaves.
cd "$(dirname "$0")/.." || exit 1
program=$PWD/crates/bt_proc_cases/out/bt_proc_cases
[ -x "$program" ] || { echo "no $program: run make test first"; exit 1; }
work=$(mktemp -d) || exit 1
trap 'rm -rf "$work"' EXIT
heading='' within='' failed=0 missing=0 examples=0

# The example of the heading, whose lines stand in the file want.
try() {
    head -n 2 "$work/want" > "$work/input"
    if ! "$program" < "$work/input" > "$work/out" 2> "$work/err" || [ -s "$work/err" ] || ! cmp -s "$work/want" "$work/out"; then
        echo "FAILED $heading"
        diff "$work/want" "$work/out"
        cat "$work/err"
        failed=1
    fi
    examples=$((examples + 1))
}

while IFS= read -r line; do
    case "$within$line" in
    '## `'*)
        [ "$missing" -eq 0 ] || { echo "FAILED $heading: no example"; failed=1; }
        heading=${line#'## '} missing=1
        ;;
    '```example')
        : > "$work/want"
        within=example:
        ;;
    'example:```')
        try
        within='' missing=0
        ;;
    example:*)
        printf '%s\n' "$line" >> "$work/want"
        ;;
    esac
done < docs/PROCESSORS.md
[ "$missing" -eq 0 ] || { echo "FAILED $heading: no example"; failed=1; }
[ "$failed" -ne 0 ] || echo "ok     $examples examples of docs/PROCESSORS.md"
[ "$examples" -gt 0 ] || failed=1
exit $failed
