#!/usr/bin/env bash
# Times bindings and unification over both bodies of the trait, in one run: processor time, and the greatest memory.
# First: cd crates/unify_bench && rt run
set -euo pipefail
cd "$(dirname "$0")/.."
program=crates/unify_bench/out/unify_bench
[ -x "$program" ] || { echo "no $program: run 'rt run' in crates/unify_bench first" >&2; exit 1; }

# Runs words of the program five times each, and prints the best processor time of one round and of one part of it, and the
# peak of the memory for a part.
measure() {
  python3 - "$program" "$@" <<'P'
import os, subprocess, sys
program, words = sys.argv[1], sys.argv[2:]

def once(word):
    child = subprocess.Popen([program, word], stdout=subprocess.PIPE)
    said = child.stdout.read().decode()
    _, status, used = os.wait4(child.pid, 0)
    assert status == 0 and "memory" not in said and "no load" not in said, said
    return used.ru_utime + used.ru_stime, used.ru_maxrss * 1024

idle, floor = min(once("tree:equal:0:0") for _ in range(5))
for word in words:
    _, _, size, times = word.split(":")
    size, times = int(size), int(times)
    seconds, peak = min(once(word) for _ in range(5))
    each = (seconds - idle) / times
    print(f"{word:28} {each * 1e3:9.3f} ms {each / size * 1e9:8.0f} ns each {max(peak - floor, 0) / size:9.0f} bytes each")
P
}

measure tree:versions:65536:1 tree:versions:32768:1 list:versions:2048:1 list:versions:1024:1 \
  tree:numbers:400:200 tree:numbers:800:100 tree:variables:400:200 tree:variables:800:100 \
  list:numbers:400:20 list:numbers:800:10 list:variables:400:20 list:variables:800:10 \
  tree:equal:2000:1000 list:equal:2000:1000
