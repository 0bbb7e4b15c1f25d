#!/usr/bin/env bash
# usage: bench/sharing.sh [PROGRAM [LISTENERS..]] > TABLE.tsv
# Counts the packets and the encoder runs of sessions of three talkers and more and more who only listen, a fourth of all at each rate, over
# 200 ticks, where all join at the same time, and where each four (one at each rate) join a tick later than the four before, so that
# at first no two of a rate share. These are counts, so neither the machine nor its load matters. Of the latter the ticks before the last join
# are left out.
# PROGRAM is crates/bridge_cli/out/bridge_cli where none is named. `bench/draw.py lines TABLE.tsv OUT.svg TITLE log` draws the table.
set -u
cd "$(dirname "$0")/.." || exit 1
program=${1:-crates/bridge_cli/out/bridge_cli}
[ $# -gt 0 ] && shift
[ $# -gt 0 ] || set -- 4 12 32 100 256 512 1024
command -v python3 >/dev/null || { echo "python3 isn't installed" >&2; exit 1; }
[ -x "$program" ] || { echo "no program at $program: build it with 'cd crates/bridge_cli && rt run -- alone x'" >&2; exit 1; }
scratch=$(mktemp -d) || exit 1
trap 'rm -rf "$scratch"' EXIT
counted() { # ROSTER: runs and packets
  "$program" alone "$1" <"$scratch/capture" 2>&1 >/dev/null | sed -n 's/ticks .* runs \(.*\) packets \(.*\) refused .*/\1 \2/p'
}
printf 'listeners\tpackets a tick\truns a tick, joined apart\truns a tick, joined together\n'
for members; do
  steps=$((members / 4))
  python3 bench/make_session.py listeners "$members" $((200 + steps)) "$scratch/together" >"$scratch/capture"
  # the same, each four a tick later than the four before
  awk '$2 == "join" { $1 = 20 * int(($3 - 1) / 4) } { print }' "$scratch/together" >"$scratch/apart"
  sed "s/^[0-9]* end/$((20 * steps)) end/" "$scratch/apart" >"$scratch/begin"
  read -r runs packets < <(counted "$scratch/together")
  read -r all _ < <(counted "$scratch/apart")
  read -r before _ < <(counted "$scratch/begin")
  awk -v n="$members" -v t=$((200 + steps)) -v r="$runs" -v p="$packets" -v a=$((all - before)) \
    'BEGIN { printf "%d\t%.2f\t%.2f\t%.2f\n", n, p / t, a / 200, r / t }'
done
