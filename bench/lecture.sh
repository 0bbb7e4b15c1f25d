#!/usr/bin/env bash
# usage: bench/lecture.sh [RUNS [PROGRAM [CODEC]]]
# What sharing saves in the lecture of examples/sessions: processor time of the whole session, and of the encoder alone where each of the
# 203 listeners has one of its own. For that each listener's payloads are decoded, and what comes out is encoded again at its rate: as
# many runs as packets. Each time is the least of RUNS (5) runs. PROGRAM and CODEC are the release builds that `rt run` and the gate
# leave at crates/bridge_cli/out/bridge_cli and crates/g726_cli/out/g726_cli.
set -u
cd "$(dirname "$0")/.." || exit 1
runs=${1:-5}
program=${2:-crates/bridge_cli/out/bridge_cli}
codec=${3:-crates/g726_cli/out/g726_cli}
for tool in "$program" "$codec"; do
  [ -x "$tool" ] || { echo "no program at $tool: build it by 'rt run' in its crate" >&2; exit 1; }
done
scratch=$(mktemp -d) || exit 1
trap 'rm -rf "$scratch"' EXIT
session=examples/sessions/lecture
TIMEFORMAT="%3U %3S"
least() { # INPUT COMMAND..: milliseconds
  local input=$1 best="" user system took
  shift
  for _ in $(seq "$runs"); do
    read -r user system < <({ time "$@" <"$input" >/dev/null 2>&1; } 2>&1)
    took=$((10#${user/[.,]/} + 10#${system/[.,]/}))
    if [ -z "$best" ] || [ "$took" -lt "$best" ]; then best=$took; fi
  done
  echo "$best"
}
"$program" alone $session.roster <$session.capture >"$scratch/answer" 2>"$scratch/line" || exit 1
read -r _ _ _ shared _ packets _ <"$scratch/line"
whole=$(least $session.capture "$program" alone $session.roster)
tools/bridge-captures to-wav "$scratch/answer" --into "$scratch/heard" --g726 "$codec" >"$scratch/listeners" || exit 1
encoders=0
for rate in 16 24 32 40; do
  grep ", $rate kbit/s," "$scratch/listeners" | cut -d: -f1 | while read -r name; do tail -c +45 "$scratch/heard/$name"; done >"$scratch/$rate.s16"
  encoders=$((encoders + $(least "$scratch/$rate.s16" "$codec" encode $rate)))
done
echo "the whole session, $shared encoder runs for $packets packets: $whole ms"
echo "the encoder alone, $packets runs: $encoders ms"
