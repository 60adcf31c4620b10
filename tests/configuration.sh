#!/bin/sh
# Runs the examples of docs/CONFIGURATION.md through the built program: each `json accepted` has no lint, each `json refused` has the
# lint lines of the `text` below it, and each `json migrated` is what `lint --migrate` prints of the example above it.
# It wants crates/benthos/out/benthos, which the gate and `make build` leave, or the program that PROGRAM names.
cd "$(dirname "$0")/.." || exit 1
program=${PROGRAM:-$PWD/crates/benthos/out/benthos}
[ -x "$program" ] || { echo "no $program: run make build first"; exit 1; }
work=$(mktemp -d) || exit 1
trap 'rm -rf "$work"' EXIT

# a file for each block, by its number and kind: 001.accepted, 002.refused, 003.text and so on
awk -v work="$work" '
    /^```$/ && inside { inside = 0; close(file); next }
    /^```(json (accepted|refused|migrated)|text)$/ { inside = 1; count++; kind = $NF; sub(/^```/, "", kind); file = sprintf("%s/%03d.%s", work, count, kind); next }
    inside { print > file }
' docs/CONFIGURATION.md

failed=0
tried=0
fail() {
    echo "FAILED $1: $(cat "$2")"
    failed=1
}
# lint FILE [FLAG]: the status, the printed lines in out, and those of standard error in err
lint() {
    "$program" lint $2 "$1" > "$work/out" 2> "$work/err"
    status=$?
    tried=$((tried + 1))
}

for block in "$work"/[0-9]*; do
    case $block in
    *.accepted)
        last=$block
        lint "$block"
        [ $status -eq 0 ] && [ ! -s "$work/out" ] && [ ! -s "$work/err" ] || fail "no lint" "$block"
        ;;
    *.refused)
        last=$block
        lint "$block"
        [ $status -eq 1 ] && [ ! -s "$work/err" ] || fail "a lint" "$block"
        ;;
    *.text)
        cmp -s "$block" "$work/out" || fail "the lint lines" "$last"
        ;;
    *.migrated)
        lint "$last" --migrate
        [ $status -eq 0 ] && cmp -s "$block" "$work/out" || fail "its migration" "$last"
        lint "$block" --migrate
        [ $status -eq 0 ] && cmp -s "$block" "$work/out" || fail "migrated again" "$block"
        ;;
    esac
done
[ $tried -ge 48 ] || { echo "FAILED only $tried examples were found"; failed=1; }
[ $failed -eq 0 ] && echo "ok     $tried examples of docs/CONFIGURATION.md"
exit $failed
