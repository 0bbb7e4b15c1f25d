#!/usr/bin/env bash
# Runs sessions over the cuts of a conference, which come after each 9,000 ticks: a session of 400 seconds, one of a day without members, and
# each lawful session of examples/sessions at a later time, so that a cut falls into its middle. Its answer has to be the one that an
# independent program made, later by as much. They are run by `alone`, and one of the later ones by `shared 2` as well. It takes the
# program that the gate built, and says so and passes where there is none.
set -u
cd "$(dirname "$0")/../.." || exit 1
program=$PWD/crates/bridge_cli/out/bridge_cli
if [ ! -x "$program" ]; then
  echo "cuts: skipped, no program at crates/bridge_cli/out/bridge_cli"
  exit 0
fi
scratch=$(mktemp -d)
trap 'rm -rf "$scratch"' EXIT
passed=0
failed=0
judge() { # NAME, of the status, the answer and the line; the right ones are beside them
  if [ "$status" = 0 ] && cmp -s "$scratch/answer" "$scratch/right.answer" && [ "$(cat "$scratch/line")" = "$right" ]; then
    passed=$((passed + 1))
  else
    failed=$((failed + 1))
    echo "cuts: $1 differs"
  fi
}
run() { # ROSTER CAPTURE FORM..
  local roster=$1 capture=$2
  shift 2
  "$program" "$@" "$roster" <"$capture" >"$scratch/answer" 2>"$scratch/line"
  status=$?
}

head -c 39 examples/sessions/speech.answer >"$scratch/head"
echo "86400000 end" >"$scratch/roster"
run "$scratch/roster" "$scratch/head" alone
right="ticks 4320000 runs 0 packets 0 refused 0"
cp "$scratch/head" "$scratch/right.answer"
judge "a day without members"

printf '0 join 1 - 32 96 7 0 0\n400000 end\n' >"$scratch/roster"
run "$scratch/roster" "$scratch/head" alone
right="ticks 20000 runs 20000 packets 20000 refused 0"
[ "$(sha256sum <"$scratch/answer")" = "619cf5e2ab388f839a554355651a9f3d8d35acfe9bdd6f81f2f533210c23d1cc  -" ] && cp "$scratch/answer" "$scratch/right.answer"
judge "400 seconds of silence"

if command -v python3 >/dev/null; then
  for roster in examples/sessions/*.roster; do
    name=${roster%.roster}
    [ "$(cat "$name.status")" = 0 ] && [ -f "$name.answer" ] || continue
    read -r _ ticks _ runs _ packets _ refused <"$name.summary"
    before=$((9000 - ticks / 2))
    [ "$before" -gt 0 ] && [ "$ticks" -gt 1 ] || continue
    python3 .ci/later_session.py $((20 * before)) "$roster" "$name.capture" "$name.answer" "$scratch/right" || exit 1
    right="ticks $((ticks + before)) runs $runs packets $packets refused $refused"
    run "$scratch/right.roster" "$scratch/right.capture" alone
    judge "$name, later"
    if [ "$name" = examples/sessions/bundles_2 ]; then
      run "$scratch/right.roster" "$scratch/right.capture" shared 2
      judge "$name, later, by shared 2"
    fi
  done
else
  echo "cuts: sessions at a later time are skipped, python3 isn't installed"
fi
echo "cuts: $passed passed, $failed failed"
[ "$failed" = 0 ] && [ "$passed" -gt 0 ]
