#!/usr/bin/env bash
# Runs the built program where no case of kanren_rows reaches: on a file, on standard input by its name,
# on a file that isn't there, on a closed output, on a word that isn't UTF-8, and on a text too long.
#
#     docs/program.sh crates/kanren/out/kanren
#
# Beside the gate. Needs bash and coreutils.
set -uo pipefail
[ $# -eq 1 ] && [ -x "$1" ] || { echo "usage: docs/program.sh PROGRAM" >&2; exit 2; }
program=$(realpath "$1")
folder=$(mktemp -d)
trap 'rm -r "$folder"' EXIT
cd "$folder" || exit 2
passed=0 failed=0

# Compares what a call wrote on both outputs, and its status, with what it must.
expect() {
  local name=$1 want_out=$2 want_err=$3 want_status=$4
  if [ "$(cat out 2>/dev/null)" = "$want_out" ] && [ "$(cat err)" = "$want_err" ] && [ "$status" -eq "$want_status" ]; then
    passed=$((passed + 1))
  else
    failed=$((failed + 1))
    printf '%s: status %s\n--- out\n%s\n--- err\n%s\n' "$name" "$status" "$(cat out)" "$(cat err)"
  fi
}

usage='usage: kanren [--workers N] [--fuel N] [--ahead N] [--round N] [--dialect D] [--lib] [--gen N] [FILE]'
one=$'1\n; 1 answers, 0 pulls, end'
printf '(run* q (== q 1))' > one.scm
printf '(run* q (== q 1))' > ./--lib

"$program" one.scm > out 2> err < /dev/null; status=$?
expect 'a file' "$one" '' 0
"$program" - < one.scm > out 2> err; status=$?
expect 'standard input by its name' "$one" '' 0
"$program" < one.scm > out 2> err; status=$?
expect 'standard input' "$one" '' 0
"$program" -- --lib > out 2> err < /dev/null; status=$?
expect 'a file whose name begins with dashes' "$one" '' 0
"$program" none.scm > out 2> err < /dev/null; status=$?
expect "a file that isn't there" '' 'kanren: read fault' 4
"$program" . > out 2> err < /dev/null; status=$?
expect 'a folder' '' 'kanren: read fault' 4
"$program" < one.scm > /dev/full 2> err; status=$?; : > out
expect 'an output that takes nothing' '' 'kanren: write fault' 5
"$program" < one.scm >&- 2> err; status=$?
expect 'a closed output' '' 'kanren: write fault' 5
"$program" $'\xff' > out 2> err < one.scm; status=$?
expect "a word that isn't UTF-8" '' "$usage" 2
"$program" --help > out 2> err < one.scm; status=$?
expect 'help is no line of the command' '' "$usage" 2
head -c 1048577 /dev/zero | tr '\0' ' ' | "$program" > out 2> err; status=$?
expect 'a text too long' '' 'kanren: text too long' 6
head -c 1048576 /dev/zero | tr '\0' ' ' | "$program" > out 2> err; status=$?
expect 'a text as long as may be' '' '' 0
printf '(defrel (n) (n)) (run* q (n))' | "$program" --fuel 3 > out 2> err; status=$?
expect 'fuel' '; 0 answers, 3 pulls, fuel' '' 1
printf '(run* q (== q x))' | "$program" > out 2> err; status=$?
expect 'a refused text' 'error 11 at 14: unbound name' '' 3

echo "$passed passed, $failed failed"
[ "$failed" -eq 0 ]
