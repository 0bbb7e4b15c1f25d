#!/usr/bin/env bash
# Refuses each allocation of short runs of the program `report` in turn. The program has to end for want of memory, with a front of the report on
# its output, or with the whole report; anything else fails. It isn't part of the test command.
#
# usage: .ci/refused_memory_report.sh
#
# It takes the program that the gate leaves at crates/report_cli/out/report_cli, and the small library beside this script; it needs a C compiler.
# The runs are over one of examples/sessions, with talkers of G.726 and packets of up to four ticks, in both forms of the report.
set -u
cd "$(dirname "$0")/.." || exit 1
program=crates/report_cli/out/report_cli
[ -x "$program" ] || { echo "no program at $program: the gate builds it"; exit 1; }
scratch=$(mktemp -d) || exit 1
trap 'rm -rf "$scratch"' EXIT
cc -O1 -shared -fPIC -o "$scratch/refused.so" .ci/refused_memory.c || exit 1
session=examples/sessions/bundles_3
refused=0
whole=0
wrong=0

run() { # NUMBER, of the allocation that is refused; 0 for none
  REFUSED=$1 LD_PRELOAD=$scratch/refused.so "$program" $form "$session.roster" \
    <"$session.capture" >"$scratch/out" 2>"$scratch/line" 3>"$scratch/count"
}
for form in "" json; do
  run 0 || { wrong=$((wrong + 1)); cat "$scratch/line"; }
  cp "$scratch/out" "$scratch/right"
  count=$(cat "$scratch/count")
  echo "report $form: $count allocations, $(wc -c <"$scratch/right") octets"
  for ((number = 1; number <= count; number++)); do
    run "$number"
    status=$?
    if [ "$status" = 8 ] && [ "$(cat "$scratch/line")" = "out of memory" ] && head -c "$(wc -c <"$scratch/out")" "$scratch/right" | cmp -s - "$scratch/out"; then
      refused=$((refused + 1))
    elif [ "$status" = 0 ] && [ ! -s "$scratch/line" ] && cmp -s "$scratch/right" "$scratch/out"; then
      whole=$((whole + 1))
    else
      wrong=$((wrong + 1))
      echo "allocation $number: status $status, which is wrong: $(cat "$scratch/line")"
    fi
  done
done
echo "refused memory: $refused out of memory, $whole done, $wrong wrong"
[ "$wrong" = 0 ] && [ "$((refused + whole))" -gt 0 ]
