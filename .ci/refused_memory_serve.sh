#!/usr/bin/env bash
# Refuses each allocation of short live sessions of the program `serve` in turn, over a link and a clock that are told. The program has to end
# for want of memory, with what it tried a front of what it tries with ample memory, or as it ends with ample memory; anything else fails. It
# isn't part of the test command.
#
# usage: .ci/refused_memory_serve.sh [PROGRAM]
#
# PROGRAM is what the gate leaves at crates/serve_cli/out/serve_cli; a C compiler is needed for the two small libraries beside this script.
set -u
cd "$(dirname "$0")/.." || exit 1
program=${1:-$PWD/crates/serve_cli/out/serve_cli}
[ -x "$program" ] || { echo "no program at $program: the gate builds it"; exit 1; }
scratch=$(mktemp -d) || exit 1
trap 'rm -rf "$scratch"' EXIT
cc -O1 -shared -fPIC -o "$scratch/refused.so" .ci/refused_memory.c || exit 1
cc -O1 -shared -fPIC -o "$scratch/told.so" .ci/told_link.c || exit 1
refused=0
done=0
wrong=0

run() { # NUMBER, of the allocation that is refused; 0 for none
  (cd "$scratch" && REFUSED=$1 LD_PRELOAD=$scratch/refused.so:$scratch/told.so TOLD_SCRIPT=$scratch/script TOLD_TRIES=$scratch/tries \
    "$program" $words 2>"$scratch/line" 3>"$scratch/count")
}
refuse_all() { # WORDS..; the script lies in the scratch folder
  words=$*
  run 0 || { wrong=$((wrong + 1)); echo "with ample memory: $(cat "$scratch/line")"; return; }
  local count number status right
  right=$(cat "$scratch/line")
  count=$(cat "$scratch/count")
  grep '^try' "$scratch/tries" >"$scratch/all"
  echo "$count allocations, $(wc -l <"$scratch/all") tries: $right"
  for ((number = 1; number <= count; number++)); do
    run "$number"
    status=$?
    grep '^try' "$scratch/tries" >"$scratch/some"
    if [ "$status" = 8 ] && [ "$(cat "$scratch/line")" = "out of memory" ] && head -n "$(wc -l <"$scratch/some")" "$scratch/all" | cmp -s - "$scratch/some"; then
      refused=$((refused + 1))
    elif [ "$status" = 0 ] && [ "$(cat "$scratch/line")" = "$right" ] && cmp -s "$scratch/all" "$scratch/some"; then
      done=$((done + 1))
    else
      wrong=$((wrong + 1))
      echo "allocation $number: status $status, which is wrong: $(cat "$scratch/line")"
    fi
  done
}
# one listener and one datagram of a talker, in two ticks; then one listener for 250 ticks, with its reports
printf '0 join 1 pcmu:1 -\n0 join 7 - 32 100 7 0 0\n40 end\n' >"$scratch/roster"
printf '1 127.0.0.1 5002\n7 127.0.0.1 5004\n' >"$scratch/peers"
{
  echo "turn 8000000100000000000000$(printf '01%0320d' 0)"
  echo "clock 0 10 20 40"
} >"$scratch/script"
refuse_all 5004 peers roster
printf '0 join 7 - 32 100 7 0 0\n5000 end\n' >"$scratch/roster"
printf '7 127.0.0.1 5004\n' >"$scratch/peers"
echo "clock $(seq -s ' ' 0 20 5000)" >"$scratch/script"
refuse_all 5004 peers roster
echo "refused memory: $refused out of memory, $done done, $wrong wrong"
[ "$wrong" = 0 ] && [ "$((refused + done))" -gt 0 ]
