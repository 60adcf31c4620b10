#!/bin/sh
# Runs each example of docs/METHODS.md through the built program. The first line of an example is the input, the last is what
# must be printed, the lines between are the mapping, and words behind `example` are flags of `blobl`. Each heading of the
# page must have an example. It wants crates/benthos/out/benthos, which the gate and `make build` leave.
cd "$(dirname "$0")/.." || exit 1
program=$PWD/crates/benthos/out/benthos
[ -x "$program" ] || { echo "no $program: run make build first"; exit 1; }
work=$(mktemp -d) || exit 1
trap 'rm -rf "$work"' EXIT
heading='' within='' failed=0 missing=0 examples=0

# The example of the heading: its lines stand in the files input and mapping, and the last of them in $last.
try() {
    mapping=$(cat "$work/mapping")
    # shellcheck disable=SC2086 # each flag is a word
    "$program" blobl $flags "$mapping" < "$work/input" > "$work/out" 2> "$work/err"
    status=$?
    printf '%s\n' "$last" > "$work/want"
    if [ "$status" -ne 0 ] || [ -s "$work/err" ] || ! cmp -s "$work/want" "$work/out"; then
        echo "FAILED $heading: status $status, not 0; '$(cat "$work/out" "$work/err")', not '$last'"
        failed=1
    fi
    examples=$((examples + 1))
}

while IFS= read -r line; do
    case "$within$line" in
    '### '*)
        [ "$missing" -eq 0 ] || { echo "FAILED $heading: no example"; failed=1; }
        heading=${line#'### '} missing=1
        ;;
    '```example'*)
        flags=${line#'```example'} within=input:
        ;;
    input:*)
        printf '%s\n' "$line" > "$work/input"
        : > "$work/mapping"
        within=first:
        ;;
    'last:```')
        try
        within='' missing=0
        ;;
    first:*)
        last=$line within=last:
        ;;
    last:*)
        printf '%s\n' "$last" >> "$work/mapping"
        last=$line
        ;;
    esac
done < docs/METHODS.md
[ "$missing" -eq 0 ] || { echo "FAILED $heading: no example"; failed=1; }
[ "$failed" -ne 0 ] || echo "ok     $examples examples of docs/METHODS.md"
[ "$examples" -gt 0 ] || failed=1
exit $failed
