#!/usr/bin/env bash
# Refuses each allocation of short sessions of the program `bridge` in turn. The program has to end for want of memory with a front
# of the right answer on its output, or to be done with the whole answer; anything else fails. It isn't part of the test command.
#
# usage: .ci/refused_memory.sh
#        .ci/refused_memory.sh FIRST [LAST]
#
# The first refuses all, in the program that the gate leaves at crates/bridge_cli/out/bridge_cli, by the small library beside this
# script; it needs a C compiler, and takes a minute or two. Its sessions by `alone` are three: two listeners who hear silence; one of
# examples/sessions with talkers of G.726 and packets of up to four ticks; and the same so much later that the conference is cut in its
# middle, for which python3 has to be there. Of that one it refuses the last 500 allocations. By `shared 2` they are two: three listeners who
# hear silence at two rates, and the one of examples/sessions. Which thread makes which allocation differs from run to run there. The second
# refuses those with the numbers FIRST to LAST of the first
# session by `rt try --fail-alloc`, which looks at every access to memory as well. It builds the program for each, in half a minute and more;
# without LAST it stops where five in a row changed nothing, since the session makes fewer allocations then.
set -u
cd "$(dirname "$0")/.." || exit 1
scratch=$(mktemp -d) || exit 1
trap 'rm -rf "$scratch"' EXIT

# Octets by their numbers.
octets() { printf "$(printf '\\x%02x' "$@")"; }
# A record of the answer: its offset, the packet's second octet, its number among its listener's packets, the SSRC, and how many octets of
# silence it carries.
record() {
  octets 0 $(($5 + 20)) 0 $(($5 + 12)) 0 0 0 "$1" 128 "$2" 0 "$3" 0 0 $((160 * $3 / 256)) $((160 * $3 % 256)) 0 0 0 "$4"
  for ((at = 0; at < $5; at++)); do octets 255; done
}

# Two listeners at 24 kbit/s hear silence, one of them a tick longer.
session=$scratch/short
line='ticks 3 runs 4 packets 5 refused 0'
printf '0 join 1 - 24 97 11 0 0\n20 join 2 - 24 97 12 0 0\n60 end\n' >"$session.roster"
{ printf '#!rtpplay1.0 0.0.0.0/0\n'; octets 0 0 0 0 0 0 0 0 0 0 0 0 0 0 0 0; } >"$session.capture"
{
  cat "$session.capture"
  record 20 225 0 11 60
  record 40 97 1 11 60
  record 40 225 0 12 60
  record 60 97 2 11 60
  record 60 97 1 12 60
} >"$session.answer"

# Two listeners at 24 kbit/s and one at 32 hear silence, one of the former from a tick later on.
three=$scratch/three
printf '0 join 1 - 24 97 11 0 0\n0 join 2 - 32 96 12 0 0\n20 join 3 - 24 97 13 0 0\n60 end\n' >"$three.roster"
cp "$session.capture" "$three.capture"
{
  cat "$session.capture"
  record 20 225 0 11 60
  record 20 224 0 12 80
  record 40 97 1 11 60
  record 40 96 1 12 80
  record 40 225 0 13 60
  record 60 97 2 11 60
  record 60 96 2 12 80
  record 60 97 1 13 60
} >"$three.answer"

form=alone
refused=0
whole=0
wrong=0
# Judges a run of which the allocation with this number was refused, by its exit status, its answer and its line.
judge() {
  size=$(stat -c %s "$scratch/answer")
  if [ "$2" = 8 ] && head -c "$size" "$session.answer" | cmp -s - "$scratch/answer" && grep -qx 'out of memory' "$scratch/line"; then
    refused=$((refused + 1))
    [ -n "$quiet" ] || echo "allocation $1: out of memory, $size octets"
  elif [ "$2" = 0 ] && cmp -s "$session.answer" "$scratch/answer" && grep -qx "$line" "$scratch/line"; then
    whole=$((whole + 1))
    [ -n "$quiet" ] || echo "allocation $1: done"
  else
    wrong=$((wrong + 1))
    echo "allocation $1: status $2, $size octets, which is wrong"
    cat "$scratch/line"
  fi
}

run() { # NUMBER
  REFUSED=$1 LD_PRELOAD=$scratch/refused.so "$program" $form "$session.roster" \
    <"$session.capture" >"$scratch/answer" 2>"$scratch/line" 3>"$scratch/count"
}
refuse_last() { # MOST, of the session
  run 0
  judge none $?
  count=$(cat "$scratch/count")
  first=$((count < $1 ? 1 : count - $1 + 1))
  echo "$(basename "$session") by $form: $count allocations, of which those from $first on are refused"
  for ((number = first; number <= count; number++)); do
    run "$number"
    judge "$number" $?
  done
}
refuse_all() {
  program=crates/bridge_cli/out/bridge_cli
  [ -x "$program" ] || { echo "no program at $program: the gate builds it"; exit 1; }
  cc -O1 -shared -fPIC -o "$scratch/refused.so" .ci/refused_memory.c || exit 1
  refuse_last 10000
  session=examples/sessions/bundles_2
  line=$(cat "$session.summary")
  refuse_last 10000
  form="shared 2"
  refuse_last 10000
  session=$three
  line='ticks 3 runs 7 packets 8 refused 0'
  refuse_last 10000
  form=alone
  session=examples/sessions/bundles_2
  command -v python3 >/dev/null || { echo "a session over a cut is skipped, python3 isn't installed"; return; }
  read -r _ ticks rest <"$session.summary"
  before=$((9000 - ticks / 2))
  line="ticks $((ticks + before)) $rest"
  python3 .ci/later_session.py $((20 * before)) "$session.roster" "$session.capture" "$session.answer" "$scratch/later" || exit 1
  session=$scratch/later
  refuse_last 500
}

refuse_by_the_toolchain() {
  cd crates/bridge_cli || exit 1
  before=0
  for ((number = $1; number <= $2 && whole < before + 5; number++)); do
    rt try --data "roster=$session.roster" --fail-alloc "$number" -- alone roster \
      <"$session.capture" >"$scratch/answer" 2>"$scratch/line"
    status=$?
    [ "$status" = 0 ] || before=$whole
    judge "$number" "$status"
  done
}

if [ $# = 0 ]; then
  quiet=yes
  refuse_all
else
  quiet=""
  refuse_by_the_toolchain "$1" "${2:-1000000}"
fi
echo "refused memory: $refused out of memory, $whole done, $wrong wrong"
[ "$wrong" = 0 ] && [ "$((refused + whole))" -gt 0 ]
