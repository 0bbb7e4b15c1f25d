#!/usr/bin/env bash
# Refuses each allocation of a short run of the program `rooms` in turn. The program has to end for want of memory, with a front of each room's
# answer on its output, or with all answers whole; anything else fails, and so does a run that doesn't end within a minute. It isn't part of
# the test command.
#
# usage: .ci/refused_memory_rooms.sh
#
# It takes the programs that the gate leaves at crates/rooms_cli/out/rooms_cli and crates/bridge_cli/out/bridge_cli, and the small library
# beside this script; it needs a C compiler. The rooms are three of examples/sessions: one with talkers of G.726 and packets of up to four
# ticks, one with a bad roster and one with a torn capture. Which thread makes which allocation differs from run to run.
set -u
cd "$(dirname "$0")/.." || exit 1
program=$PWD/crates/rooms_cli/out/rooms_cli
bridge=$PWD/crates/bridge_cli/out/bridge_cli
for built in "$program" "$bridge"; do
  [ -x "$built" ] || { echo "no program at $built: the gate builds it"; exit 1; }
done
scratch=$(mktemp -d) || exit 1
trap 'rm -rf "$scratch"' EXIT
cc -O1 -shared -fPIC -o "$scratch/refused.so" .ci/refused_memory.c || exit 1
names="bundles_3 bad_bundle bundles_torn"
for name in $names; do
  cp examples/sessions/"$name".{roster,capture} "$scratch"
  "$bridge" alone "$scratch/$name.roster" <"$scratch/$name.capture" >"$scratch/$name.right" 2>/dev/null
  echo "$name.roster $name.capture $name.out"
done >"$scratch/list"
refused=0
whole=0
wrong=0

run() { # NUMBER, of the allocation that is refused; 0 for none
  (
    cd "$scratch" || exit 1
    rm -f ./*.out
    timeout 60 env REFUSED="$1" LD_PRELOAD="$scratch/refused.so" "$program" 2 list 2>line 3>count
  )
}
fronts() { # whether each output is a front of its answer
  for name in $names; do
    [ ! -s "$scratch/$name.out" ] || head -c "$(stat -c %s "$scratch/$name.out")" "$scratch/$name.right" | cmp -s - "$scratch/$name.out" || return 1
  done
}
answers() { # whether each is its whole answer
  for name in $names; do
    if [ -s "$scratch/$name.right" ]; then
      cmp -s "$scratch/$name.right" "$scratch/$name.out" || return 1
    elif [ -s "$scratch/$name.out" ]; then
      return 1
    fi
  done
}
run 0 || { wrong=$((wrong + 1)); cat "$scratch/line"; }
cp "$scratch/line" "$scratch/lines"
count=$(cat "$scratch/count")
echo "rooms: $count allocations"
for ((number = 1; number <= count; number++)); do
  run "$number"
  status=$?
  if [ "$status" = 8 ] && [ "$(tail -1 "$scratch/line")" = "out of memory" ] && fronts; then
    refused=$((refused + 1))
  elif [ "$status" = 0 ] && cmp -s "$scratch/line" "$scratch/lines" && answers; then
    whole=$((whole + 1))
  else
    wrong=$((wrong + 1))
    echo "allocation $number: status $status, which is wrong: $(cat "$scratch/line")"
  fi
done
echo "refused memory: $refused out of memory, $whole done, $wrong wrong"
[ "$wrong" = 0 ] && [ "$((refused + whole))" -gt 0 ]
