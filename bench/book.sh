#!/usr/bin/env bash
# usage: bench/book.sh [TICKS [RUNS]]
# Prints what a tick costs beside its encoder runs with 12, 100 and 1,024 listeners, all sharing one run and no two sharing: processor
# time in nanoseconds, for a tick and for each of its listeners. The encoder runs are measured with no Book, by encoders of each
# listener's own (one listener where all share), and subtracted. Each number is the least of RUNS (5) runs of TICKS (200) ticks, or as
# many more as there are fewer listeners than 1,024, less the least of as many runs of no ticks.
# It times crates/bench_book/out/bench_book, which `rt run -- 12 20 apart` in crates/bench_book proves and builds, by LLVM.
set -eu
cd "$(dirname "$0")/.."
ticks=${1:-200}
runs=${2:-5}
program=crates/bench_book/out/bench_book
[ -x "$program" ] || { echo "build it first: (cd crates/bench_book && rt run -- 12 20 apart)" >&2; exit 2; }

# the least processor time of several runs with these words, in milliseconds
TIMEFORMAT="%3U %3S"
least() {
  local best="" user system took
  for _ in $(seq "$runs"); do
    read -r user system < <({ time "$program" "$@" >/dev/null; } 2>&1)
    took=$((10#${user/[.,]/} + 10#${system/[.,]/}))
    if [ -z "$best" ] || [ "$took" -lt "$best" ]; then best=$took; fi
  done
  echo "$best"
}

# nanoseconds a tick with these words
tick() { # LISTENERS TICKS KIND
  echo $((($(least "$1" "$2" "$3") - $(least "$1" 0 "$3")) * 1000000 / $2))
}

for listeners in 12 100 1024; do
  for kind in shared apart; do
    coders=$listeners
    [ "$kind" = shared ] && coders=1
    most=$((ticks * 1024 / listeners))
    all=$(tick "$listeners" "$most" "$kind")
    encoders=$(tick "$coders" "$most" encode)
    book=$((all - encoders))
    echo "listeners $listeners $kind: $all ns a tick, encoder runs $encoders, the rest $book: $((book / listeners)) ns a listener"
  done
done
