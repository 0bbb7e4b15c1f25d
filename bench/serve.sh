#!/usr/bin/env bash
# usage: bench/serve.sh [SECONDS [PROGRAM]]
# Loads the program `serve` over loopback, three talkers and a thousand listeners, in sessions of SECONDS (60): how late its ticks are, what they
# cost, and how much memory it holds, alone and under 50,000 hostile datagrams a second. Then it looks for the most listeners of whom none hears a
# tick more than 20 ms late. bench/serve_load.py says what is what, and bench/serve_load.c receives and floods. All of it takes five to ten minutes,
# and wants a machine with four processors and nothing else to do.
set -u
cd "$(dirname "$0")/.." || exit 1
seconds=${1:-60}
program=$(realpath "${2:-crates/serve_cli/out/serve_cli}")
command -v python3 >/dev/null || { echo "python3 isn't installed: nothing can be measured"; exit 1; }
command -v cc >/dev/null || { echo "no C compiler is installed: nothing can be measured"; exit 1; }
[ -x "$program" ] || { echo "no program at $program: build it with 'cd crates/serve_cli && rt run -- 5004 p r'"; exit 1; }
scratch=$(mktemp -d) || exit 1
trap 'rm -rf "$scratch"' EXIT
cc -O2 -o "$scratch/load" bench/serve_load.c || exit 1
load() { python3 bench/serve_load.py "$program" "$scratch/load" "$@"; }
echo "load before: $(cut -d' ' -f1-3 /proc/loadavg), $(nproc) processors; room of a socket: $(cat /proc/sys/net/core/rmem_default) octets"
echo
load session 1000 "$seconds" | tee "$scratch/row" | cut -d'|' -f1-13
for more in "0 apart" "50000" "50000 apart"; do
  # shellcheck disable=SC2086
  load session 1000 "$seconds" $more | tee -a "$scratch/row" | tail -1 | cut -d'|' -f1-13
done
echo
awk -F' *[|] *' '$14 ~ /^ticks/ { print $2 ": " $14 }' "$scratch/row"
echo
load most 10
load most 10 50000
echo
echo "load after: $(cut -d' ' -f1-3 /proc/loadavg)"
