#!/usr/bin/env bash
# usage: bench/shared.sh [PROGRAM [RUNS]]
# Measures two sessions by `bridge alone` and by `bridge shared` with 1 to 4 workers: the time that went by, the processor's time, the
# program's own and the system's for it, and the most memory that a run held.
#
# PROGRAM is the release build that `rt run` and the gate leave at crates/bridge_cli/out/bridge_cli. The first session is bound by its encoder
# runs: 100 listeners who share hardly any, and 1,500 ticks. The second is bound by its packets: 1,024 listeners of whom those who only listen
# share a run for each rate, and 300 ticks. bench/make_session.py makes both. Of RUNS (3) runs the one is told in which the least time went by.
# Every answer is compared with that of `alone`. All of it takes a minute or two.
set -u
cd "$(dirname "$0")/.." || exit 1
program=${1:-crates/bridge_cli/out/bridge_cli}
runs=${2:-3}
command -v python3 >/dev/null || { echo "python3 isn't installed: nothing can be measured"; exit 1; }
[ -x /usr/bin/time ] || { echo "GNU time isn't installed: nothing can be measured"; exit 1; }
[ -x "$program" ] || { echo "no program at $program: build it with 'cd crates/bridge_cli && rt run -- alone x'"; exit 1; }
scratch=$(mktemp -d) || exit 1
trap 'rm -rf "$scratch"' EXIT
roster=$scratch/roster
capture=$scratch/capture
echo "load before: $(cut -d' ' -f1-3 /proc/loadavg), $(nproc) processors"

# The run of several in which the least time went by: "WENT USER SYSTEM KILOBYTES".
best() { # FORM..
  local now least=""
  for _ in $(seq "$runs"); do
    /usr/bin/time -f "%e %U %S %M" -o "$scratch/cost" "$program" "$@" "$roster" <"$capture" >"$scratch/answer" 2>"$scratch/line"
    now=$(tail -1 "$scratch/cost")
    [ -f "$scratch/right" ] || cp "$scratch/answer" "$scratch/right"
    cmp -s "$scratch/answer" "$scratch/right" || { echo "the answer by $* differs" >&2; touch "$scratch/wrong"; }
    if [ -z "$least" ] || awk "BEGIN { exit !(${now%% *} < ${least%% *}) }"; then least=$now; fi
  done
  echo "$least"
}
row() { # FORM..
  best "$@" | {
    read -r went user system most
    awk -v form="$*" -v went="$went" -v processor="$user $system" -v most="$most" \
      'BEGIN { split(processor, p, " "); printf "| `%s` | %.2f | %.2f | %.1f |\n", form, went, p[1] + p[2], most / 1000 }'
  }
}
rows() { # NAME
  rm -f "$scratch/right"
  echo
  echo "$1: $("$program" alone "$roster" <"$capture" 2>&1 >/dev/null)"
  echo
  echo "| | Seconds | Processor seconds | Megabytes |"
  echo "|---|---|---|---|"
  row alone
  for workers in 1 2 3 4; do row shared "$workers"; done
}

python3 bench/make_session.py apart 100 1500 "$roster" >"$capture"
rows "100 listeners apart, four talkers"
python3 bench/make_session.py listeners 1024 300 "$roster" >"$capture"
rows "1,024 listeners, three talkers"
echo
echo "load after: $(cut -d' ' -f1-3 /proc/loadavg)"
[ ! -f "$scratch/wrong" ]
