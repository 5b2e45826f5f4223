#!/usr/bin/env bash
# Times the built program on texts whose work doubles: pulls a second, and the greatest memory that it took.
# First: cd crates/kanren && rt run
set -euo pipefail
cd "$(dirname "$0")/.."
program=crates/kanren/out/kanren
[ -x "$program" ] || { echo "no $program: run 'rt run' in crates/kanren first" >&2; exit 1; }

always='(defrel (always q x) (conde ((== q x)) ((always q x))))'
never='(defrel (never) (never))'
append="(defrel (appendo l t out)
  (conde ((== '() l) (== t out))
         ((fresh (a d res) (== (cons a d) l) (== (cons a res) out) (appendo d t res)))))"

# The numbers from 0 up to one below the given one.
numbers() { seq -s ' ' 0 $(($1 - 1)); }

# Runs a text under a name with a fuel, and prints its last line, the pulls a second, and the peak of its memory in KiB.
measure() {
  local name=$1 fuel=$2 text=$3
  printf '%s\n' "$text" | python3 -c '
import resource, subprocess, sys, time
name, program, fuel = sys.argv[1:4]
begun = time.monotonic()
run = subprocess.run([program, "--fuel", fuel], stdin=sys.stdin, stdout=subprocess.PIPE)
seconds = time.monotonic() - begun
last = run.stdout.decode().splitlines()[-1]
pulls = int(last.split()[3])
peak = resource.getrusage(resource.RUSAGE_CHILDREN).ru_maxrss
print(f"{name}: {last}")
print(f"  {seconds:.2f} s, {pulls / seconds:.0f} pulls a second, {peak} KiB at most, {peak * 1024 / max(pulls, 1):.0f} bytes a pull")
' "$name" "$program" "$fuel"
}

for answers in 20000 40000; do
  measure "$answers answers" 1000000 "$always (run $answers q (always q 'a))"
done
for pulls in 200000 400000; do
  measure "$pulls pulls without an answer" "$pulls" "$never (run* q (never))"
done
for elements in 15 30; do
  measure "appending in all ways, $elements elements" 1000000 "$append (run* (x y) (appendo x y '($(numbers $elements))))"
done
