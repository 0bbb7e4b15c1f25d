#!/usr/bin/env bash
# Measures the program `g726`, both ways at the four rates: nanoseconds a sample, and instructions a sample where
# valgrind is installed. Where spandsp's header and library are installed (Debian's libspandsp-dev), its codec is
# measured in the same run over the same input, by the small program beside this script.
#
# usage: bench/codec.sh [PROGRAM]
#
# PROGRAM is the release build that `rt run` and the gate leave at crates/g726_cli/out/g726_cli. Reading, packing and
# writing are measured with the codec. Times are the processor's, the program's own and the system's for it: of seven runs
# the least counts, and the greatest shows how much the machine wavers. Instructions are those of a long run less those of a short one, so the start isn't counted.
set -u
cd "$(dirname "$0")/.." || exit 1
program=${1:-crates/g726_cli/out/g726_cli}
[ -x "$program" ] || { echo "no program at $program: build it with 'cd crates/g726_cli && rt run < stdin'"; exit 1; }
scratch=$(mktemp -d) || exit 1
trap 'rm -rf "$scratch"' EXIT

spandsp=""
if printf '#include <spandsp.h>\n' | cc -E -x c - >/dev/null 2>&1 \
  && cc -O2 -o "$scratch/spandsp" bench/spandsp.c -lspandsp -lm 2>/dev/null; then
  spandsp=$scratch/spandsp
else
  echo "spandsp isn't installed: its columns are left out"
fi
counts=yes
command -v valgrind >/dev/null || { counts=""; echo "valgrind isn't installed: instructions aren't counted"; }

# 96,000 samples of three signals, the first 32,000 and 64,000 of them, and 1,152,000
for _ in 1 2 3 4 5 6 7 8 9 10; do cat examples/codec/*.s16 examples/codec/*.s16; done >"$scratch/unit"
head -c 64000 "$scratch/unit" >"$scratch/short.s16"
head -c 128000 "$scratch/unit" >"$scratch/middle.s16"
for _ in 1 2 3 4 5 6 7 8 9 10 11 12; do cat "$scratch/unit"; done >"$scratch/long.s16"

# the least and the greatest processor time of seven runs, in nanoseconds a sample with one decimal
TIMEFORMAT="%3U %3S"
times() { # SAMPLES INPUT COMMAND..
  local samples=$1 input=$2 least="" most="" user system took
  shift 2
  for _ in 1 2 3 4 5 6 7; do
    read -r user system < <({ time "$@" <"$input" >/dev/null 2>/dev/null; } 2>&1)
    took=$(((10#${user/[.,]/} + 10#${system/[.,]/}) * 10000000 / samples))
    if [ -z "$least" ] || [ "$took" -lt "$least" ]; then least=$took; fi
    if [ -z "$most" ] || [ "$took" -gt "$most" ]; then most=$took; fi
  done
  echo "$((least / 10)).$((least % 10)) to $((most / 10)).$((most % 10))"
}

instructions() { # INPUT COMMAND..
  local input=$1
  shift
  valgrind --tool=callgrind --callgrind-out-file=/dev/null "$@" <"$input" 2>&1 >/dev/null | sed -n 's/.*Collected : \([0-9]*\).*/\1/p'
}

# instructions a sample: 64,000 samples less 32,000
counted() { # SHORT MIDDLE COMMAND..
  local short=$1 middle=$2
  shift 2
  [ -n "$counts" ] || { echo "-"; return; }
  echo $((($(instructions "$middle" "$@") - $(instructions "$short" "$@")) / 32000))
}

samples=$(($(wc -c <"$scratch/long.s16") / 2))
echo "| Rate | Way | ns a sample | instructions a sample | spandsp: ns | spandsp: instructions |"
echo "|---|---|---|---|---|---|"
for rate in 16 24 32 40; do
  for size in short middle long; do
    "$program" encode "$rate" <"$scratch/$size.s16" >"$scratch/$size.g726" || exit 1
  done
  for way in encode decode; do
    kind=s16
    [ "$way" = decode ] && kind=g726
    row="| $rate | $way | $(times "$samples" "$scratch/long.$kind" "$program" "$way" "$rate")"
    row="$row | $(counted "$scratch/short.$kind" "$scratch/middle.$kind" "$program" "$way" "$rate")"
    if [ -n "$spandsp" ]; then
      row="$row | $(times "$samples" "$scratch/long.$kind" "$spandsp" "$way" "$rate")"
      row="$row | $(counted "$scratch/short.$kind" "$scratch/middle.$kind" "$spandsp" "$way" "$rate")"
    else
      row="$row | - | -"
    fi
    echo "$row |"
  done
done
