#!/usr/bin/env bash
# usage: bench/audit.sh [PROGRAM [BRIDGE]]
# Measures what the program `audit` costs beside `bridge alone` and a `cmp` of the whole answers, on answers of some 10 MB, 100 MB and 1 GB:
# of one listener at 32 kbit/s and of 1,024 of them, who hear silence. Each is judged whole, with its last octet changed, and cut in half.
# Last come octets that are more than are audited.
#
# PROGRAM and BRIDGE are the release builds that the gate leaves at crates/audit_cli/out/audit_cli and crates/bridge_cli/out/bridge_cli.
# Seconds are of the clock; memory is the most that a run held, by GNU time. It needs some 3 GB on the disk of the temporary folder.
set -u
cd "$(dirname "$0")/.." || exit 1
program=${1:-crates/audit_cli/out/audit_cli}
bridge=${2:-crates/bridge_cli/out/bridge_cli}
[ -x "$program" ] || { echo "no program at $program: the gate builds it"; exit 1; }
[ -x "$bridge" ] || { echo "no program at $bridge: the gate builds it"; exit 1; }
[ -x /usr/bin/time ] || { echo "GNU time isn't installed: nothing is measured"; exit 1; }
scratch=$(mktemp -d) || exit 1
trap 'rm -rf "$scratch"' EXIT
echo "load before: $(cut -d' ' -f1-3 /proc/loadavg), $(nproc) processors"
head -c 39 examples/sessions/speech.answer >"$scratch/capture"

# Runs a command over the capture, with its output in $scratch/said; prints its seconds and its memory.
took() { # COMMAND..
  /usr/bin/time -f '%e %M' -o "$scratch/took" "$@" <"$scratch/capture" >"$scratch/said" 2>/dev/null
  tail -1 "$scratch/took"
}
row() { # WHAT COMMAND..
  local what=$1 seconds kilobytes said
  shift
  read -r seconds kilobytes < <(took "$@")
  said=$(head -c 200 "$scratch/said" | tr -d '\0' | head -1)
  case $said in '#!'*) said="" ;; esac
  echo "| $what | $seconds | $((kilobytes / 1000)) | $said |"
}
# A session of listeners who join at once and hear so many ticks of silence.
session() { # LISTENERS TICKS
  for member in $(seq "$1"); do echo "0 join $member - 32 96 $member 0 0"; done
  echo "$((20 * $2)) end"
}
measure() { # LISTENERS TICKS
  session "$1" "$2" >"$scratch/roster"
  "$bridge" alone "$scratch/roster" <"$scratch/capture" >"$scratch/answer" 2>/dev/null
  local size
  size=$(stat -c %s "$scratch/answer")
  echo
  echo "$1 listeners, $2 ticks: $size octets"
  echo
  echo "| | Seconds | Megabytes | Said |"
  echo "|---|---|---|---|"
  row "bridge alone" "$bridge" alone "$scratch/roster"
  cp "$scratch/answer" "$scratch/other"
  row "cmp" cmp "$scratch/answer" "$scratch/other"
  row "audit" "$program" "$scratch/roster" "$scratch/answer"
  printf 'x' | dd of="$scratch/other" bs=1 seek=$((size - 1)) conv=notrunc 2>/dev/null
  row "audit, the last octet changed" "$program" "$scratch/roster" "$scratch/other"
  truncate -s $((size / 2)) "$scratch/other"
  row "audit, half of it" "$program" "$scratch/roster" "$scratch/other"
  rm -f "$scratch/answer" "$scratch/other"
}
measure 1 100000
measure 1 1000000
measure 1024 980
measure 1024 10400

echo
echo "Octets that are too many"
echo
echo "| | Seconds | Megabytes | Said |"
echo "|---|---|---|---|"
truncate -s 1073741825 "$scratch/long"
row "1,073,741,825 octets" "$program" "$scratch/roster" "$scratch/long"
