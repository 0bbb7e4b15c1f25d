#!/usr/bin/env bash
# usage: bench/rooms.sh [PROGRAM [BRIDGE [ROOMS [LISTENERS [TICKS]]]]]
# Measures ROOMS (16) sessions of LISTENERS (1,000) listeners and TICKS (500) ticks by `rooms` with 1, 2 and 4 workers, and by as many runs of
# `bridge alone`: one after the other, and side by side, as many at a time as there are processors, under GNU parallel where it is
# installed and else xargs. Told are the seconds that went by, how many times faster that is than one after the other, the processors'
# seconds, and the most memory that a process held, which side by side is once for each.
#
# PROGRAM and BRIDGE are the release builds that the gate leaves at crates/rooms_cli/out/rooms_cli and crates/bridge_cli/out/bridge_cli. Two lists
# are measured: rooms whose listeners share their runs, and rooms of a tenth as many who share hardly any. bench/make_session.py makes
# both. Of three runs the one is told in which the least time went by. Every answer is compared. It needs some 2 GB of memory, since `rooms` keeps
# answers to the end, and as much on the disk of the temporary folder.
set -u
cd "$(dirname "$0")/.." || exit 1
program=$(realpath -m "${1:-crates/rooms_cli/out/rooms_cli}")
bridge=$(realpath -m "${2:-crates/bridge_cli/out/bridge_cli}")
rooms=${3:-16}
listeners=${4:-1000}
ticks=${5:-500}
runs=3
command -v python3 >/dev/null || { echo "python3 isn't installed: nothing can be measured"; exit 1; }
[ -x /usr/bin/time ] || { echo "GNU time isn't installed: nothing can be measured"; exit 1; }
for built in "$program" "$bridge"; do
  [ -x "$built" ] || { echo "no program at $built: the gate builds it"; exit 1; }
done
scratch=$(mktemp -d) || exit 1
trap 'rm -rf "$scratch"' EXIT
export bridge
echo "load before: $(cut -d' ' -f1-3 /proc/loadavg), $(nproc) processors"

# Each of these runs the rooms in the scratch folder, their answers into NUMBER.out.
together() { # WORKERS
  "$program" "$1" list 2>told
}
in_turn() {
  for at in $(seq "$rooms"); do "$bridge" alone "$at.roster" <"$at.capture" >"$at.out" 2>>told; done
}
beside() {
  local command='"$bridge" alone {}.roster <{}.capture >{}.out 2>/dev/null'
  if parallel --version 2>/dev/null | grep -q '^GNU parallel'; then
    seq "$rooms" | parallel --no-notice --jobs 100% "$command"
  else
    seq "$rooms" | xargs -P "$(nproc)" -I{} sh -c "$command"
  fi
}
export -f together in_turn beside
export program rooms
row() { # WHAT COMMAND WORDS..
  local what=$1 least="" now at
  shift
  for _ in $(seq "$runs"); do
    (cd "$scratch" && rm -f ./*.out told && /usr/bin/time -f "%e %U %S %M" -o cost bash -c '"$@"' run "$@")
    now=$(tail -1 "$scratch/cost")
    for at in $(seq "$rooms"); do
      [ -f "$scratch/$at.right" ] || cp "$scratch/$at.out" "$scratch/$at.right"
      cmp -s "$scratch/$at.out" "$scratch/$at.right" || { echo "room $at by $what differs" >&2; touch "$scratch/wrong"; }
    done
    if [ -z "$least" ] || awk "BEGIN { exit !(${now%% *} < ${least%% *}) }"; then least=$now; fi
  done
  read -r went user system most <<<"$least"
  [ -n "$first" ] || first=$went
  awk -v what="$what" -v went="$went" -v first="$first" -v user="$user" -v system_="$system" -v most="$most" \
    'BEGIN { printf "| %s | %.2f | %.2f | %.2f | %.1f |\n", what, went, first / went, user + system_, most / 1000 }'
}
measure() { # KIND MEMBERS
  first=""
  rm -f "$scratch"/*.right
  for at in $(seq "$rooms"); do
    python3 bench/make_session.py "$1" "$2" "$ticks" "$scratch/$at.roster" >"$scratch/$at.capture"
    echo "$at.roster $at.capture $at.out"
  done >"$scratch/list"
  echo
  echo "$rooms rooms, each $("$bridge" alone "$scratch/1.roster" <"$scratch/1.capture" 2>&1 >/dev/null)"
  echo
  echo "| | Seconds | Times as fast | Processor seconds | Megabytes |"
  echo "|---|---|---|---|---|"
  row '`alone`, one after the other' in_turn
  row '`alone`, side by side' beside
  for workers in 1 2 4; do row "\`rooms $workers\`" together "$workers"; done
}
measure listeners "$listeners"
measure apart $((listeners / 10))
echo
echo "load after: $(cut -d' ' -f1-3 /proc/loadavg)"
[ ! -f "$scratch/wrong" ]
