#!/usr/bin/env bash
# usage: bench/lock.sh [TURNS [RUNS]]
# Prints what a turn of the lock costs at 1, 2, 4 and 16 passes, each in a thread of its own: nanoseconds of wall time for a turn,
# all passes together. It is the shortest of RUNS (5) runs of TURNS (200000) turns, less a run of none, over the turns.
# It times crates/bench_lock/out/bench_lock, which `rt run -- 2 1000` in crates/bench_lock proves and builds, by LLVM.
set -eu
cd "$(dirname "$0")/.."
turns=${1:-200000}
runs=${2:-5}
program=crates/bench_lock/out/bench_lock
[ -x "$program" ] || { echo "build it first: (cd crates/bench_lock && rt run -- 2 1000)" >&2; exit 2; }

# The shortest run of $2 turns at $1 passes, in nanoseconds.
shortest() {
  local best=0 start took
  for _ in $(seq "$runs"); do
    start=$(date +%s%N)
    "$program" "$1" "$2" >/dev/null
    took=$(($(date +%s%N) - start))
    if [ "$best" = 0 ] || [ "$took" -lt "$best" ]; then best=$took; fi
  done
  echo "$best"
}

for passes in 1 2 4 16; do
  none=$(shortest "$passes" 0)
  all=$(shortest "$passes" "$turns")
  echo "passes $passes: $(((all - none) / turns)) ns a turn"
done
