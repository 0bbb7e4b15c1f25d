#!/usr/bin/env bash
# usage: bench/days.sh [PROGRAM [TICKS..]]
# Measures what sessions of up to a day cost `bridge alone`, each run once: its time and the most memory that it held.
#
# PROGRAM is the release build that `rt run` and the gate leave at crates/bridge_cli/out/bridge_cli. TICKS are the lengths of the session of
# twelve members, of whom four talk at a time (90000 1000000 4320000, which are half an hour, five and a half hours, and a day).
# bench/make_session.py makes the sessions while they are read, through a pipe, so none of them lies on the disk; the answers are dropped. The
# time is the processor's, the program's own and the system's for it, beside the time that went by. All of it takes some ten minutes.
set -u
cd "$(dirname "$0")/.." || exit 1
program=${1:-crates/bridge_cli/out/bridge_cli}
[ $# -gt 0 ] && shift
[ $# -gt 0 ] || set -- 90000 1000000 4320000
command -v python3 >/dev/null || { echo "python3 isn't installed: nothing can be measured"; exit 1; }
[ -x /usr/bin/time ] || { echo "GNU time isn't installed: nothing can be measured"; exit 1; }
[ -x "$program" ] || { echo "no program at $program: build it with 'cd crates/bridge_cli && rt run -- alone x'"; exit 1; }
scratch=$(mktemp -d) || exit 1
trap 'rm -rf "$scratch"' EXIT
roster=$scratch/roster
echo "load before: $(cut -d' ' -f1-3 /proc/loadavg), $(nproc) processors"
echo
echo "| Session | Ticks | Runs | Packets | Refused | Seconds | went by | Megabytes |"
echo "|---|---|---|---|---|---|---|---|"

make() { python3 bench/make_session.py "$@"; }
row() { # NAME < CAPTURE
  local user system went most said
  /usr/bin/time -f "%U %S %e %M" -o "$scratch/cost" "$program" alone "$roster" >/dev/null 2>"$scratch/line"
  read -r user system went most < <(tail -1 "$scratch/cost")
  said=$(sed 's/ticks \(.*\) runs \(.*\) packets \(.*\) refused \(.*\)/\1 | \2 | \3 | \4/' "$scratch/line")
  echo "| $1 | $said | $(python3 -c "print(f'{$user + $system:.1f} | {$went:.1f} | {$most / 1000:.1f}')") |"
}

echo "86400000 end" >"$roster"
head -c 39 examples/answer.rtp | row "a day without members, a bare head"
make skipped 0 180 "$roster" >/dev/null
make skipped 20000000000 180 "$scratch/same" | row "20,000 million octets of which 1,500 packets are heard"
make listeners 1024 0 "$roster" 4 >"$scratch/head"
sed -i "s/^0 end/1800000 end/" "$roster"
make listeners 1024 90000 "$scratch/same" 4 | row "1,024 listeners, packets of four ticks"
for ticks in "$@"; do
  # (the roster is made before its capture is: a session of no tick has the same)
  make day 0 "$roster" >"$scratch/head"
  sed -i "s/^0 end/$((20 * ticks)) end/" "$roster"
  make day "$ticks" "$scratch/same" | row "twelve members"
done
echo
echo "load after: $(cut -d' ' -f1-3 /proc/loadavg)"
