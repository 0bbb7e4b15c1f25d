#!/usr/bin/env bash
# Refuses each allocation of short runs of the program `audit` in turn. The program has to end for want of memory, or with the verdict that it
# has with ample memory; anything else fails. It isn't part of the test command.
#
# usage: .ci/refused_memory_audit.sh
#
# It takes the program that the gate leaves at crates/audit_cli/out/audit_cli, and the small library beside this script; it needs a C compiler.
# The runs are over the answer of one of examples/sessions, with talkers of G.726 and packets of up to four ticks: whole, with its last octet
# changed, and cut in half.
set -u
cd "$(dirname "$0")/.." || exit 1
program=crates/audit_cli/out/audit_cli
[ -x "$program" ] || { echo "no program at $program: the gate builds it"; exit 1; }
scratch=$(mktemp -d) || exit 1
trap 'rm -rf "$scratch"' EXIT
cc -O1 -shared -fPIC -o "$scratch/refused.so" .ci/refused_memory.c || exit 1
session=examples/sessions/bundles_3
refused=0
judged=0
wrong=0

run() { # NUMBER, of the allocation that is refused; 0 for none
  REFUSED=$1 LD_PRELOAD=$scratch/refused.so "$program" "$session.roster" "$scratch/octets" \
    <"$session.capture" >"$scratch/line" 3>"$scratch/count"
}
refuse_all() { # STATUS LINE, of the run with ample memory
  run 0
  if [ "$?" != "$1" ] || [ "$(cat "$scratch/line")" != "$2" ]; then
    wrong=$((wrong + 1))
    echo "with ample memory: $(cat "$scratch/line")"
  fi
  local count number status
  count=$(cat "$scratch/count")
  echo "$count allocations: $2"
  for ((number = 1; number <= count; number++)); do
    run "$number"
    status=$?
    if [ "$status" = 8 ] && [ "$(cat "$scratch/line")" = "out of memory" ]; then
      refused=$((refused + 1))
    elif [ "$status" = "$1" ] && [ "$(cat "$scratch/line")" = "$2" ]; then
      judged=$((judged + 1))
    else
      wrong=$((wrong + 1))
      echo "allocation $number: status $status, which is wrong: $(cat "$scratch/line")"
    fi
  done
}
size=$(stat -c %s "$session.answer")
cp "$session.answer" "$scratch/octets"
refuse_all 0 yes
head -c $((size - 1)) "$session.answer" >"$scratch/octets"
printf 'x' >>"$scratch/octets"
run 0
refuse_all 16 "$(cat "$scratch/line")"
head -c $((size / 2)) "$session.answer" >"$scratch/octets"
run 0
refuse_all 16 "$(cat "$scratch/line")"
echo "refused memory: $refused out of memory, $judged judged, $wrong wrong"
[ "$wrong" = 0 ] && [ "$((refused + judged))" -gt 0 ]
