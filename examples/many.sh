#!/usr/bin/env bash
# usage: examples/many.sh FOLDER [AT_A_TIME]
# Runs each session of a folder by `bridge alone`, AT_A_TIME of them side by side (as many as there are processors). A session is a
# NAME.roster beside a NAME.capture; what comes of it is NAME.answer, its line on standard error, NAME.line, and its exit status,
# NAME.status. A session with the status 0 isn't run again, so a run that was broken off goes on where it was: remove NAME.status to run it anew.
# It writes a line for each session that didn't end well, and how many did. It needs GNU parallel.
#
# BRIDGE is the program, crates/bridge_cli/out/bridge_cli or the package's where it isn't set. A helper: nothing of it is proved.
set -u
folder=${1:?usage: examples/many.sh FOLDER [AT_A_TIME]}
at_a_time=${2:-100%}
here=$(cd "$(dirname "$0")/.." && pwd)
BRIDGE=${BRIDGE:-$here/crates/bridge_cli/out/bridge_cli}
[ -x "$BRIDGE" ] || BRIDGE=$(command -v tonvarul-bridge) || { echo "many: no program: set BRIDGE to it" >&2; exit 1; }
parallel --version 2>/dev/null | grep -q '^GNU parallel' || { echo "many: GNU parallel isn't installed" >&2; exit 1; }
export BRIDGE
cd "$folder" || exit 1
names=()
for roster in *.roster; do
  if [ -f "${roster%.roster}.capture" ]; then names+=("${roster%.roster}"); fi
done
[ ${#names[@]} -gt 0 ] || { echo "many: no NAME.roster beside a NAME.capture in $folder" >&2; exit 1; }
ended_well() { # NAME
  [ "$(cat "$1.status" 2>/dev/null)" = 0 ]
}
run() { # NAME
  "$BRIDGE" alone "./$1.roster" <"$1.capture" >"$1.answer" 2>"$1.line"
  echo $? >"$1.status"
}
export -f run
for name in "${names[@]}"; do
  ended_well "$name" || printf '%s\n' "$name"
done | SHELL=$BASH parallel --no-notice --jobs "$at_a_time" run
failed=0
for name in "${names[@]}"; do
  ended_well "$name" && continue
  failed=$((failed + 1))
  echo "$name: $(cat "$name.line")"
done
echo "$((${#names[@]} - failed)) of ${#names[@]} sessions ended well"
[ "$failed" = 0 ]
