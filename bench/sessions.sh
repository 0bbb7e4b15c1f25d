#!/usr/bin/env bash
# usage: bench/sessions.sh [RUNS [PROGRAM [CODEC]]]
# Measures what whole sessions cost `bridge alone`, and prints a table for each question: what stands beside the encoder's own time, what
# a long session takes, what listeners and sharing cost, and what a capture costs of which next to nothing is heard.
#
# PROGRAM and CODEC are the release builds that `rt run` and the gate leave at crates/bridge_cli/out/bridge_cli and
# crates/g726_cli/out/g726_cli. bench/make_session.py makes the sessions. Times are the processor's, the program's own and the system's for
# it, the least of RUNS (5) runs; all sessions but the demo's are run RUNS/2 times, rounded up. Memory is the most that a run held, by GNU
# time; instructions are counted by valgrind. Where one of the two isn't installed, a word says so and its numbers are left out.
set -u
cd "$(dirname "$0")/.." || exit 1
runs=${1:-5}
program=${2:-crates/bridge_cli/out/bridge_cli}
codec=${3:-crates/g726_cli/out/g726_cli}
command -v python3 >/dev/null || { echo "python3 isn't installed: nothing can be measured"; exit 1; }
[ -x "$program" ] || { echo "no program at $program: build it with 'cd crates/bridge_cli && rt run -- alone x'"; exit 1; }
[ -x "$codec" ] || { echo "no program at $codec: build it with 'cd crates/g726_cli && rt run < stdin'"; exit 1; }
scratch=$(mktemp -d) || exit 1
trap 'rm -rf "$scratch"' EXIT
peaks=yes
[ -x /usr/bin/time ] || { peaks=""; echo "GNU time isn't installed: memory isn't measured"; }
counts=yes
command -v valgrind >/dev/null || { counts=""; echo "valgrind isn't installed: instructions aren't counted"; }
echo "load before: $(cut -d' ' -f1-3 /proc/loadavg), $(nproc) processors"

make() { python3 bench/make_session.py "$@"; }

# The processor time of a command in milliseconds, over an input; what the command writes is dropped, but for its line in $scratch/line.
TIMEFORMAT="%3U %3S"
took() { # INPUT COMMAND..
  local input=$1 user system
  shift
  read -r user system < <({ time "$@" <"$input" >/dev/null 2>"$scratch/line"; } 2>&1)
  echo $((10#${user/[.,]/} + 10#${system/[.,]/}))
}

# The least of several.
least() { # TIMES INPUT COMMAND..
  local times=$1 best="" now
  shift
  for _ in $(seq "$times"); do
    now=$(took "$@")
    if [ -z "$best" ] || [ "$now" -lt "$best" ]; then best=$now; fi
  done
  echo "$best"
}

# The most memory that a command held, in megabytes with one decimal.
peak() { # INPUT COMMAND..
  local input=$1
  shift
  [ -n "$peaks" ] || { echo "-"; return; }
  /usr/bin/time -f %M -o "$scratch/peak" "$@" <"$input" >/dev/null 2>/dev/null
  megabytes "$(tail -1 "$scratch/peak")"
}
megabytes() { echo "$(($1 / 1000)).$(($1 % 1000 / 100))"; }

# Millions of instructions.
instructions() { # INPUT COMMAND..
  local input=$1
  shift
  echo $(($(valgrind --tool=callgrind --callgrind-out-file=/dev/null "$@" <"$input" 2>&1 >/dev/null |
    sed -n 's/.*Collected : \([0-9]*\).*/\1/p') / 1000000))
}

seconds() { printf '%d.%03d' $(($1 / 1000)) $(($1 % 1000)); }
ratio() { echo "$(($1 / $2)).$(printf '%02d' $(($1 % $2 * 100 / $2)))"; }
line() { sed 's/ticks \(.*\) runs \(.*\) packets \(.*\) refused \(.*\)/\1 | \2 | \3 | \4/' "$scratch/line"; }
few=$(((runs + 1) / 2))

echo
echo "The demo session, and the encoder alone over as many frames of its mixes, at their rates"
echo
make demo 1 "$scratch/demo.roster" >"$scratch/demo.capture"
"$program" alone "$scratch/demo.roster" <"$scratch/demo.capture" >"$scratch/demo.answer" 2>"$scratch/line"
# the mixes, as the answer's decoder has them, of the listeners of each rate: SSRC 2001 at 16 kbit/s, 2002 at 24, and so on;
# 15,272 frames in all, one for each run: at 24, 32 and 40 kbit/s 76 fewer than packets
encoder=0
counted=0
for rate in 16 24 32 40; do
  frames=$((4000 - 50 * (rate / 8 - 1) - 76 * (rate > 16)))
  for source in $((1999 + rate / 8)) $((2003 + rate / 8)) $((2007 + rate / 8)); do
    python3 tools/bridge-captures payloads "$scratch/demo.answer" "$source" | "$codec" decode "$rate"
  done >"$scratch/all.s16"
  head -c $((320 * frames)) "$scratch/all.s16" >"$scratch/$rate.s16"
  encoder=$((encoder + $(least "$runs" "$scratch/$rate.s16" "$codec" encode "$rate")))
  [ -n "$counts" ] && counted=$((counted + $(instructions "$scratch/$rate.s16" "$codec" encode "$rate")))
done
alone=$(least "$runs" "$scratch/demo.capture" "$program" alone "$scratch/demo.roster")
echo "| | Seconds | Million instructions |"
echo "|---|---|---|"
if [ -n "$counts" ]; then
  whole=$(instructions "$scratch/demo.capture" "$program" alone "$scratch/demo.roster")
  echo "| the session | $(seconds "$alone") | $whole |"
  echo "| its encoder runs | $(seconds "$encoder") | $counted |"
  echo "| times as much | $(ratio "$alone" "$encoder") | $(ratio "$whole" "$counted") |"
else
  echo "| the session | $(seconds "$alone") | - |"
  echo "| its encoder runs | $(seconds "$encoder") | - |"
  echo "| times as much | $(ratio "$alone" "$encoder") | - |"
fi

row() { # NAME TIMES ROSTER CAPTURE
  local time
  time=$(least "$2" "$4" "$program" alone "$3")
  took "$4" "$program" alone "$3" >/dev/null
  echo "| $1 | $(line) | $(seconds "$time") | $(peak "$4" "$program" alone "$3") |"
}
head_of_rows() {
  echo "| $1 | Ticks | Runs | Packets | Refused | Seconds | Megabytes |"
  echo "|---|---|---|---|---|---|---|"
}

echo
echo "Twelve members, of whom four talk at a time"
echo
make long 90000 "$scratch/long.roster" >"$scratch/long.capture"
sed 's/^1800000 end/900000 end/' "$scratch/long.roster" >"$scratch/half.roster"
head_of_rows "Session"
row "a quarter of an hour" "$few" "$scratch/half.roster" "$scratch/long.capture"
row "half an hour" "$few" "$scratch/long.roster" "$scratch/long.capture"
rm "$scratch/long.capture"

echo
echo "Three who talk and listen, the others only listen, a fourth at each rate"
echo
head_of_rows "Listeners"
for members in 256 512 1024; do
  make listeners "$members" 1500 "$scratch/many.roster" >"$scratch/many.capture"
  row "$members" "$few" "$scratch/many.roster" "$scratch/many.capture"
done
if [ -n "$counts" ]; then
  echo
  for members in 256 512 1024; do
    make listeners "$members" 100 "$scratch/many.roster" >"$scratch/many.capture"
    most=$(instructions "$scratch/many.capture" "$program" alone "$scratch/many.roster")
    sed -i 's/^2000 end/0 end/' "$scratch/many.roster"
    none=$(instructions "$scratch/many.capture" "$program" alone "$scratch/many.roster")
    echo "$members listeners: $(((most - none) * 10)) thousand instructions a tick"
  done
fi

# Octets that are made while they are read, through a pipe.
stream() { # OCTETS SIZE COMMAND..
  local octets=$1 size=$2 user system
  shift 2
  read -r user system < <(make skipped "$octets" "$size" "$scratch/stream.roster" |
    { time "$@" >/dev/null 2>"$scratch/line"; } 2>&1)
  echo $((10#${user/[.,]/} + 10#${system/[.,]/}))
}
least_stream() { # OCTETS SIZE COMMAND..
  local best="" now
  for _ in $(seq "$few"); do
    now=$(stream "$@")
    if [ -z "$best" ] || [ "$now" -lt "$best" ]; then best=$now; fi
  done
  echo "$best"
}
echo
echo "One packet a tick is heard among octets that aren't, through a pipe, and cat over the same"
echo
echo "| Million octets | Octets a record | Ticks | Runs | Packets | Refused | Seconds | Megabytes | cat: seconds |"
echo "|---|---|---|---|---|---|---|---|---|"
make skipped 0 180 "$scratch/stream.roster" >/dev/null
for kind in "10 180" "1000 180" "1000 65535"; do
  read -r million size <<<"$kind"
  time=$(least_stream "${million}000000" "$size" "$program" alone "$scratch/stream.roster")
  said=$(line)
  held="-"
  if [ -n "$peaks" ]; then
    make skipped "${million}000000" "$size" "$scratch/stream.roster" |
      /usr/bin/time -f %M -o "$scratch/peak" "$program" alone "$scratch/stream.roster" >/dev/null 2>/dev/null
    held=$(megabytes "$(tail -1 "$scratch/peak")")
  fi
  echo "| $million | $size | $said | $(seconds "$time") | $held | $(seconds "$(least_stream "${million}000000" "$size" cat)") |"
done
echo
echo "load after: $(cut -d' ' -f1-3 /proc/loadavg)"
