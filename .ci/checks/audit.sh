#!/usr/bin/env bash
# Has the program `audit` judge what `bridge alone` wrote for each sample session: it has to say yes, or to end at the session's fault as
# the bridge does. For two sessions it also judges answers with one octet changed, shorter and longer ones, and what it says is compared with
# what audit.py, beside this script, makes of the answer. It takes the programs that the gate built, and says so and passes where there are none.
set -u
cd "$(dirname "$0")/../.." || exit 1
program=$PWD/crates/audit_cli/out/audit_cli
bridge=$PWD/crates/bridge_cli/out/bridge_cli
if [ ! -x "$program" ] || [ ! -x "$bridge" ]; then
  echo "audit: skipped, no programs at crates/audit_cli/out/audit_cli and crates/bridge_cli/out/bridge_cli"
  exit 0
fi
scratch=$(mktemp -d)
trap 'rm -rf "$scratch"' EXIT
passed=0
failed=0
judge() { # NAME STATUS LINE, of the run whose status and line are in `status` and $scratch/line
  if [ "$status" = "$2" ] && [ "$(cat "$scratch/line")" = "$3" ]; then
    passed=$((passed + 1))
  else
    failed=$((failed + 1))
    echo "audit: $1: $(cat "$scratch/line") with status $status"
  fi
}
audit() { # ROSTER OUT CAPTURE
  "$program" "$1" "$2" <"$3" >"$scratch/line"
  status=$?
}
for roster in examples/sessions/*.roster; do
  name=${roster%.roster}
  "$bridge" alone "$roster" <"$name.capture" >"$scratch/answer" 2>"$scratch/told"
  ended=$?
  audit "$roster" "$scratch/answer" "$name.capture"
  if [ "$ended" = 0 ]; then
    judge "$name" 0 yes
  else
    judge "$name" "$ended" "$(cat "$scratch/told")"
  fi
done
"$program" >"$scratch/line"
status=$?
judge "no words" 2 "usage: audit ROSTER OUT"
audit examples/sessions/speech.roster "$scratch/none" examples/sessions/speech.capture
judge "no octets" 6 "read failed"
if command -v python3 >/dev/null; then
  for name in bundles_3 no_ticks; do
    [ "$(cat "examples/sessions/$name.status" 2>/dev/null)" = 0 ] || continue
    if python3 .ci/checks/audit.py "$program" "examples/sessions/$name.roster" "examples/sessions/$name.capture" \
      "examples/sessions/$name.answer" "$scratch"; then
      passed=$((passed + 1))
    else
      failed=$((failed + 1))
    fi
  done
else
  echo "audit: changed answers are skipped, python3 isn't installed"
fi
echo "audit: $passed passed, $failed failed"
[ "$failed" = 0 ] && [ "$passed" -gt 0 ]
