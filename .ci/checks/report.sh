#!/usr/bin/env bash
# Has the program `report` say of each sample session what its summary leaves out, and compares it with what report.py, beside this script,
# works out from the roster, the capture and what `bridge alone` wrote. A session that has no answer has to end as it does for the bridge.
# It takes the programs that the gate built, and says so and passes where there are none.
set -u
cd "$(dirname "$0")/../.." || exit 1
program=$PWD/crates/report_cli/out/report_cli
bridge=$PWD/crates/bridge_cli/out/bridge_cli
if [ ! -x "$program" ] || [ ! -x "$bridge" ]; then
  echo "report: skipped, no programs at crates/report_cli/out/report_cli and crates/bridge_cli/out/bridge_cli"
  exit 0
fi
if ! command -v python3 >/dev/null; then
  echo "report: skipped, python3 isn't installed"
  exit 0
fi
scratch=$(mktemp -d)
trap 'rm -rf "$scratch"' EXIT
passed=0
failed=0
for roster in examples/sessions/*.roster; do
  name=${roster%.roster}
  "$bridge" alone "$roster" <"$name.capture" >"$scratch/answer" 2>"$scratch/told"
  ended=$?
  if [ "$ended" = 0 ]; then
    if python3 .ci/checks/report.py "$program" "$bridge" "$roster" "$name.capture" "$scratch/answer" "$scratch/told" &&
      "$program" json "$roster" <"$name.capture" | python3 -m json.tool >/dev/null; then
      passed=$((passed + 1))
    else
      failed=$((failed + 1))
    fi
  else
    "$program" "$roster" <"$name.capture" >"$scratch/out" 2>"$scratch/line"
    status=$?
    if [ "$status" = "$ended" ] && cmp -s "$scratch/told" "$scratch/line" && [ ! -s "$scratch/out" ]; then
      passed=$((passed + 1))
    else
      failed=$((failed + 1))
      echo "report: $name: status $status: $(cat "$scratch/line")"
    fi
  fi
done
"$program" >"$scratch/out" 2>"$scratch/line"
if [ $? = 2 ] && [ "$(cat "$scratch/line")" = "usage: report ROSTER or report json ROSTER" ]; then
  passed=$((passed + 1))
else
  failed=$((failed + 1))
  echo "report: no words: $(cat "$scratch/line")"
fi
echo "report: $passed passed, $failed failed"
[ "$failed" = 0 ] && [ "$passed" -gt 0 ]
