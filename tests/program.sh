#!/bin/sh
# Runs the built program on what only a real system has: each case must end with its status and its line.
# It wants crates/benthos/out/benthos, which the gate and `make build` leave.
cd "$(dirname "$0")/.." || exit 1
program=$PWD/crates/benthos/out/benthos
[ -x "$program" ] || { echo "no $program: run make build first"; exit 1; }
work=$(mktemp -d) || exit 1
trap 'rm -rf "$work"' EXIT
printf '{}' > "$work/c.json"
printf 'a\n\nb' > "$work/input"
ln -s "$program" "$work/$(printf '\377')"
long=$(head -c 60000 /dev/zero | tr '\0' a)
printf '%s\n%s\nc\n' "$long" "$long" > "$work/long"
half=$(head -c 700 /dev/zero | tr '\0' a)
other=$(head -c 700 /dev/zero | tr '\0' b)
printf '%s\n%s\nc\n' "$half" "$other" > "$work/records"
longest=$(head -c 65536 /dev/zero | tr '\0' x)
printf 'a\n%s\n%sx\nb\n' "$longest" "$longest" > "$work/too_long"
printf '%s\r\n' "$longest" > "$work/returned"
failed=0

# case NAME STATUS LINE COMMAND: the command's status, and its standard error's first line
case_of() {
    name=$1 want=$2 line=$3
    shift 3
    "$@" 2> "$work/err" > "$work/out"
    got=$?
    first=$(head -n 1 "$work/err")
    if [ "$got" -eq "$want" ] && [ "$first" = "$line" ]; then
        echo "ok     $name"
    else
        echo "FAILED $name: status $got, not $want; '$first', not '$line'"
        failed=1
    fi
}

run() { "$program" run -c "$1" < "$work/input"; }
long_run() { "$program" run -c "$work/c.json" < "$1"; }
long_blobl() { (printf '{}\n'; cat "$work/returned") | "$program" blobl 'root = 1'; }
closed_output() { "$program" run -c "$work/c.json" < "$work/input" >&-; }
full_output() { "$program" run -c "$work/c.json" < "$work/input" > /dev/full; }
no_text() { "$program" run -c "$(printf '\377')" < "$work/input"; }
# so little memory that the program begins and can't read its words: the least with which it begins is looked for
little_memory() {
    word=$(head -c 120000 /dev/zero | tr '\0' w)
    set --
    for _ in 1 2 3 4 5 6 7 8 9 10 11 12 13 14 15; do set -- "$@" "$word"; done
    for kilobytes in $(seq 1000 500 64000); do
        { (ulimit -v "$kilobytes"; exec "$program" "$@") 2> "$work/little"; status=$?; } 2> "$work/killed"
        case $status in 2 | 6) cat "$work/little" >&2; return $status ;; esac
    done
}
foreign_name() { "$work/$(printf '\377')" run -c "$work/c.json" < "$work/input"; }
# a reader that left before the first record
left_output() { (sleep 1; "$program" run -c "$work/c.json" < "$work/input") > "$work/pipe"; }
# a reader that leaves while the second record, which has no room in the pipe, is being written
leaving_output() { "$program" run -c "$work/c.json" < "$work/long" > "$work/pipe"; }
# a file of two blocks at most, at whose end the second record is torn
short_output() { (ulimit -f 2; trap '' XFSZ; "$program" run -c "$work/c.json" < "$work/records" > "$work/short"); }
lint() { "$program" lint "$@"; }
full_lint() { "$program" lint "$1" > /dev/full; }
answers() { "$program" run -c "$work/c.json" --answers "$1" < "$work/input"; }
refused_answers() { "$program" run --answers="$work/none" -c"$1" < "$work/input"; }
# config TEXT: the file with this configuration
config() { printf '%s' "$1" > "$work/config.json"; echo "$work/config.json"; }
wrong='{"output":{"drop":{},"stdout":{}},"x":1}'
blobl() { printf '{"a":{"b":7}}\n{"a":1}\n' | "$program" blobl "$1"; }
blobl_words() { printf '{}\n' | "$program" blobl "$@"; }
usage="usage: benthos run, lint, test, blobl or load"
full_blobl() { printf '{}\n' | "$program" blobl 'root = 1' > /dev/full; }
closed_blobl() { printf '{}\n' | "$program" blobl 'root = 1' >&-; }
directory_blobl() { "$program" blobl 'root = 1' < "$work"; }
directory_input() { "$program" run -c "$work/c.json" < "$work"; }

case_of "lines are carried" 0 "taken 3 acknowledged 3 refused 0" run "$work/c.json"
printf 'a\n\nb\n' | cmp -s - "$work/out" || { echo "FAILED the lines that were carried"; failed=1; }
case_of "a directory in place of the configuration" 4 "file $work: cannot read" run "$work"
case_of "a configuration that isn't there" 4 "file $work/none: cannot read" run "$work/none"
if [ "$(id -u)" -ne 0 ]; then
    cp "$work/c.json" "$work/secret.json" && chmod 000 "$work/secret.json"
    case_of "an unreadable configuration" 4 "file $work/secret.json: cannot read" run "$work/secret.json"
fi
case_of "a line that is too long" 7 "line 3: longer than 65536 bytes" long_run "$work/too_long"
[ "$(tail -n 2 "$work/err" | head -n 1)" = "taken 2 acknowledged 2 refused 0" ] || { echo "FAILED the lines before one that is too long"; failed=1; }
printf 'a\n%s\n' "$longest" | cmp -s - "$work/out" || { echo "FAILED the longest line"; failed=1; }
case_of "a line that is too long for its carriage return" 7 "line 1: longer than 65536 bytes" long_run "$work/returned"
case_of "a line of blobl that is too long" 7 "line 2: longer than 65536 bytes" long_blobl
case_of "a closed standard output" 1 "taken 3 acknowledged 0 refused 3" closed_output
case_of "a full standard output" 1 "taken 3 acknowledged 0 refused 3" full_output
mkfifo "$work/pipe"
(: < "$work/pipe") &
case_of "a reader that left the standard output" 1 "taken 3 acknowledged 0 refused 3" left_output
(head -c 10 > "$work/read"; sleep 1) < "$work/pipe" &
case_of "a reader that leaves within a record" 1 "taken 3 acknowledged 1 refused 2" leaving_output
wait
case_of "a record that is torn" 1 "taken 3 acknowledged 1 refused 2" short_output
[ "$(tail -c 1 "$work/short")" = b ] || { echo "FAILED nothing is written behind a torn record"; failed=1; }
case_of "lines are mapped" 0 "" blobl 'root = this.a.b'
printf '7\nnull\n' | cmp -s - "$work/out" || { echo "FAILED the lines that were mapped"; failed=1; }
case_of "a mapping with a fault" 3 "mapping: syntax at line 1 column 14" blobl 'root = a | b + c'
case_of "a line is dropped" 0 "" blobl 'root = if this.a == 1 { deleted() }'
printf '{"a":{"b":7}}\n' | cmp -s - "$work/out" || { echo "FAILED the line that isn't dropped"; failed=1; }
case_of "a statement that fails" 1 'line 2: failed assignment (line 1): +: wrong type null' blobl 'root = this.a.b + 1'
case_of "a full standard output of blobl" 5 "out: write fault" full_blobl
case_of "a closed standard output of blobl" 5 "out: write fault" closed_blobl
case_of "a directory as standard input of blobl" 4 "source: read fault" directory_blobl
case_of "a word that is no text" 2 "usage: benthos run, lint, test, blobl or load" no_text
case_of "no memory for the words" 6 "no memory" little_memory
case_of "a program name that is no text" 0 "taken 3 acknowledged 3 refused 0" foreign_name
case_of "a directory as standard input" 4 "source: read fault" directory_input
case_of "a configuration with lints" 3 "/output: not exactly one kind" run "$(config "$wrong")"
[ "$(cat "$work/err")" = "$(printf '/output: not exactly one kind\n/x: unknown field')" ] || { echo "FAILED the lints of a run"; failed=1; }
case_of "a configuration that is no JSON" 3 "config: not JSON" run "$(config '{}{}')"
case_of "a number that is no whole number" 3 "config: number out of profile" run "$(config '{"version":1e0}')"
head -c 16777217 /dev/zero | tr '\0' ' ' > "$work/big.json"
case_of "a configuration that is too long" 3 "config: longer than 16777216 bytes" run "$work/big.json"
case_of "a configuration that isn't built yet" 3 "config: not built" run "$(config '{"output":{"stdout":{}}}')"
case_of "nothing is opened for a configuration with lints" 3 "/a: unknown field" refused_answers "$(config '{"a":1}')"
[ ! -e "$work/none" ] || { echo "FAILED no answers are opened"; failed=1; }
case_of "answers in a file" 0 "taken 3 acknowledged 3 refused 0" answers "$work/answers"
printf '1 0 ack\n2 0 ack\n3 0 ack\n' | cmp -s - "$work/answers" || { echo "FAILED the answers"; failed=1; }
case_of "answers that fail" 5 "answers: 3 faults" answers /dev/full
case_of "answers that can't be opened" 4 "answers $work: cannot open" answers "$work"
case_of "lint" 1 "" lint "$(config "$wrong")"
printf '/output: not exactly one kind\n/x: unknown field\n' | cmp -s - "$work/out" || { echo "FAILED the printed lints"; failed=1; }
case_of "lint of nothing wrong" 0 "" lint "$work/c.json"
[ ! -s "$work/out" ] || { echo "FAILED nothing is printed"; failed=1; }
case_of "lint of no JSON" 3 "config: not JSON" lint "$(config '[')"
case_of "lint of a directory" 4 "file $work: cannot read" lint "$work"
case_of "lint of a configuration that is too long" 3 "config: longer than 16777216 bytes" lint "$work/big.json"
case_of "a full standard output of lint" 5 "out: write fault" full_lint "$(config "$wrong")"
case_of "lint --migrate" 0 "" lint --migrate "$(config '{"pipeline":{"processors":[{"bloblang":"root = this"}]}}')"
printf '{"pipeline":{"processors":[{"mapping":"root = this"}]},"version":2}\n' | cmp -s - "$work/out" || { echo "FAILED the migrated configuration"; failed=1; }
case_of "a word behind dashes" 3 "mapping: syntax at line 1 column 2" blobl_words -- --raw
case_of "a flag twice" 2 "$usage" blobl_words --raw --raw x
case_of "a command that isn't built yet" 2 "$usage" "$program" test "$work/c.json"
case_of "help" 2 "$usage" "$program" --help
case_of "no words" 2 "usage: benthos run, lint, test, blobl or load" "$program"
exit $failed
