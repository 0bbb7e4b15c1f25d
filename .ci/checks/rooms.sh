#!/usr/bin/env bash
# usage: .ci/checks/rooms.sh [ROUNDS]
# Has the program `rooms` run sixteen of the sample sessions at once, with 1, 2, 4 and 16 workers, and compares each output and each line with
# what `bridge alone` makes of that session alone; ROUNDS (1) times, each with the sessions in another order. Then come lists, rosters and
# captures that are bad, too long, or aren't there, of which the lines are known.
# It takes the programs that the gate built, and says so and passes where there are none.
set -u
cd "$(dirname "$0")/../.." || exit 1
rounds=${1:-1}
program=$PWD/crates/rooms_cli/out/rooms_cli
bridge=$PWD/crates/bridge_cli/out/bridge_cli
if [ ! -x "$program" ] || [ ! -x "$bridge" ]; then
  echo "rooms: skipped, no programs at crates/rooms_cli/out/rooms_cli and crates/bridge_cli/out/bridge_cli"
  exit 0
fi
scratch=$(mktemp -d)
trap 'rm -rf "$scratch"' EXIT
sessions=$PWD/examples/sessions
passed=0
failed=0
judge() { # WHAT, of the test before: whether it held
  if [ "$2" = 0 ]; then
    passed=$((passed + 1))
  else
    failed=$((failed + 1))
    echo "rooms: $1"
  fi
}
names=(bad_bundle bundles_1 bundles_5 bundles_10 bundles_torn conference gst_pcma_10 hostile_1 hostile_12 lecture_opening lecture loud_and_quiet
  no_ticks noise random_11 speech)
for name in "${names[@]}"; do
  "$bridge" alone "$sessions/$name.roster" <"$sessions/$name.capture" >"$scratch/$name.alone" 2>"$scratch/$name.line"
done
run() { # WORKERS NAMES..
  local workers=$1 at=0 name
  shift
  rm -f "$scratch"/*.out
  for name; do echo "$sessions/$name.roster $sessions/$name.capture $scratch/$name.out"; done >"$scratch/list"
  for name; do
    at=$((at + 1))
    echo "room $at $(cat "$scratch/$name.line")"
  done >"$scratch/right"
  (cd "$scratch" && "$program" "$workers" list 2>told)
  judge "$workers workers: the exit status isn't 0" $?
  cmp -s "$scratch/told" "$scratch/right"
  judge "$workers workers: the lines are others: $(diff "$scratch/right" "$scratch/told" | head -4)" $?
  for name; do
    if [ -s "$scratch/$name.alone" ]; then
      cmp -s "$scratch/$name.out" "$scratch/$name.alone"
    else
      [ ! -s "$scratch/$name.out" ]
    fi
    judge "$workers workers: the output of $name is another" $?
  done
}
for round in $(seq "$rounds"); do
  order=("${names[@]:round % 16}" "${names[@]:0:round % 16}")
  for workers in 1 2 4 16; do run "$workers" "${order[@]}"; done
done

says() { # STATUS LINES WORDS.., of the program in the scratch folder; nothing may be added to the outputs
  local status=$1 lines=$2
  shift 2
  rm -f "$scratch"/*.out
  (cd "$scratch" && "$program" "$@" 2>told)
  [ $? = "$status" ]
  judge "rooms $*: the exit status isn't $status" $?
  printf '%b' "$lines" | cmp -s - "$scratch/told"
  judge "rooms $*: it says $(head -c 300 "$scratch/told")" $?
  [ -z "$(find "$scratch" -name '*.out' -size +0)" ]
  judge "rooms $*: something was written" $?
}
cp "$sessions/noise.roster" "$sessions/noise.capture" "$scratch"
printf 'noise.roster noise.capture 1.out\n#\nnoise.roster noise.capture 1.out\n' >"$scratch/twice"
printf 'noise.roster noise.capture\n' >"$scratch/two_words"
printf '# none\n' >"$scratch/empty"
for at in $(seq 17); do echo "noise.roster noise.capture $at.out"; done >"$scratch/seventeen"
{ cat "$scratch/seventeen" && yes '#' | head -c 65536; } >"$scratch/long"
printf 'noise.roster noise.capture 1.out\nnone noise.capture 2.out\n' >"$scratch/no_roster"
printf 'noise.roster none 1.out\n' >"$scratch/no_capture"
yes '#' | head -c 1048577 >"$scratch/long_roster"
truncate -s 67108865 "$scratch/long_capture"
printf '20 end\n20 end\n' >"$scratch/bad_roster"
printf 'long_roster long_capture 1.out\nbad_roster long_capture 2.out\nnoise.roster long_capture 3.out\nnoise.roster bad_roster 4.out\n' >"$scratch/ends"
usage='usage: rooms N LIST\n'
says 2 "$usage"
says 2 "$usage" 0 twice
says 2 "$usage" 17 twice
says 2 "$usage" 01 twice
says 2 "$usage" 2 twice twice
says 2 "$usage" 2 -twice
says 14 'list line 3\n' 2 twice
says 14 'list line 1\n' 2 two_words
says 14 'list line 2\n' 2 empty
says 14 'list line 17\n' 2 seventeen
says 15 'list longer than 65536 octets\n' 2 long
says 6 'read failed\n' 2 none
says 6 'read failed\n' 2 no_roster
says 6 'read failed\n' 2 no_capture
says 0 'room 1 roster longer than 1048576 octets\nroom 2 roster line 2: after end\nroom 3 dump longer than 67108864 octets\nroom 4 dump at 0: not a dump\n' 2 ends
if [ -c /dev/full ]; then
  printf 'noise.roster noise.capture /dev/full\nnoise.roster noise.capture 2.out\n' >"$scratch/full"
  says 7 'write failed\n' 2 full
fi
# what an output holds stays, and the answer comes behind it
printf 'noise.roster noise.capture 1.out\n' >"$scratch/one"
printf 'here' >"$scratch/1.out"
(cd "$scratch" && "$program" 1 one 2>told)
printf 'here' | cat - "$scratch/noise.alone" | cmp -s - "$scratch/1.out"
judge "an answer isn't added to what its file holds" $?
echo "rooms: $passed passed, $failed failed"
[ "$failed" = 0 ] && [ "$passed" -gt 0 ]
