#!/usr/bin/env bash
# Runs a first session, a lecture with hundreds of listeners, compares what comes out with the sample answer, and says what sharing saved.
# usage: ./first_session.sh [NAME]   NAME of another session of examples/sessions, as speech or conference
#
# Where the proved program stands in crates/bridge_cli/out, it runs the whole lecture, in a second. Else the program is built without
# its proofs, in about a minute, by the toolchain's command `rt try`, which hands out answers of up to a million octets: so many has the
# lecture's opening, 1.2 seconds. Nothing is written but what `rt` keeps in crates/*/out, and the file first_session.answer.
#
# The proved program is built by `(cd crates/bridge_cli && rt run -- demo 1)`, which first proves every crate below it, and all that the
# repository promises is checked by `.ci/run`. README.md says how long each takes.
set -u
top=$(cd "$(dirname "$0")" && pwd) || exit 1
program=$top/crates/bridge_cli/out/bridge_cli
name=${1:-lecture}
if [ ! -x "$program" ]; then
  command -v rt >/dev/null || { echo "first_session: the toolchain's command rt is missing; README.md says which toolchain" >&2; exit 1; }
  [ "$name" = lecture ] && name=lecture_opening
fi
session=$top/examples/sessions/$name
[ -f "$session.roster" ] || { echo "first_session: examples/sessions has no $name.roster" >&2; exit 1; }
answer=$top/first_session.answer
messages=$(mktemp) || exit 1
trap 'rm -f "$messages"' EXIT

echo "bridge alone $name.roster < $name.capture > first_session.answer"
started=$SECONDS
if [ -x "$program" ]; then
  "$program" alone "$session.roster" <"$session.capture" >"$answer" 2>"$messages"
else
  echo "(the program is built without its proofs before)"
  cd "$top/crates/bridge_cli" || exit 1
  rt try --data "$name.roster=$session.roster" -- alone "$name.roster" <"$session.capture" >"$answer" 2>"$messages"
fi
took=$((SECONDS - started))

if [ -f "$session.answer" ]; then
  cmp -s "$answer" "$session.answer"
else
  sha256sum <"$answer" | cmp -s - "$session.answer.sha256"
fi
if [ $? -ne 0 ]; then
  cat "$messages" >&2
  echo "first_session: first_session.answer differs from the sample answer of $name" >&2
  exit 1
fi
if ! line=$(grep '^ticks ' "$messages"); then # a session that ends before its first tick
  cat "$messages"
  exit 0
fi
echo "$line"
read -r _ _ _ runs _ packets _ <<<"$line"
[ "$runs" -eq 0 ] || echo "$((packets / runs)) packets for each run of the encoder; with an encoder for each listener there would be $packets runs"
echo "first_session.answer is the sample answer, octet for octet ($took s)"
