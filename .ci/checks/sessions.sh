#!/usr/bin/env bash
# Compares the program `bridge` with sessions whose answers an independent program made: what it writes, its line and its exit status, by
# `alone` and by `shared 2`, which has to write the same.
# Of a long answer only the digest is kept. It takes the program that the gate built, and says so and passes where there is none.
set -u
cd "$(dirname "$0")/../.." || exit 1
program=$PWD/crates/bridge_cli/out/bridge_cli
if [ ! -x "$program" ]; then
  echo "sessions: skipped, no program at crates/bridge_cli/out/bridge_cli"
  exit 0
fi
scratch=$(mktemp -d)
trap 'rm -rf "$scratch"' EXIT
passed=0
failed=0
answered() { # NAME
  if [ -f "$1.answer.sha256" ]; then
    sha256sum <"$scratch/answer" | cmp -s - "$1.answer.sha256"
  else
    cmp -s "$scratch/answer" "$1.answer"
  fi
}
run() { # NAME FORM..
  local name=$1 status
  shift
  "$program" "$@" "$name.roster" <"$name.capture" >"$scratch/answer" 2>"$scratch/line"
  status=$?
  if [ "$status" = "$(cat "$name.status")" ] && answered "$name" && cmp -s "$scratch/line" "$name.summary"; then
    passed=$((passed + 1))
  else
    failed=$((failed + 1))
    echo "sessions: $name by $* differs"
  fi
}
for roster in examples/sessions/*.roster; do
  run "${roster%.roster}" alone
  run "${roster%.roster}" shared 2
done
echo "sessions: $passed passed, $failed failed"
[ "$failed" = 0 ] && [ "$passed" -gt 0 ]
