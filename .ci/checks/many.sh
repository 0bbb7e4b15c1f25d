#!/usr/bin/env bash
# Has examples/many.sh run copies of sample sessions side by side, and compares each answer and line with the sample's; then removes one answer
# of a session that didn't end well, whose run has to come again while the others' don't.
# It takes the program that the gate built and needs GNU parallel; what is missing is said and passed over.
set -u
cd "$(dirname "$0")/../.." || exit 1
if [ ! -x crates/bridge_cli/out/bridge_cli ]; then
  echo "many: skipped, no program at crates/bridge_cli/out/bridge_cli"
  exit 0
fi
if ! parallel --version 2>/dev/null | grep -q '^GNU parallel'; then
  echo "many: skipped, GNU parallel isn't installed"
  exit 0
fi
scratch=$(mktemp -d)
trap 'rm -rf "$scratch"' EXIT
names="bundles_torn hostile_1 no_ticks noise random_1 speech"
for name in $names; do cp examples/sessions/"$name".{roster,capture} "$scratch"; done
failed=0
compare() {
  for name in $names; do
    if ! cmp -s "$scratch/$name.answer" "examples/sessions/$name.answer" || ! cmp -s "$scratch/$name.line" "examples/sessions/$name.summary"; then
      echo "many: $name differs"
      failed=$((failed + 1))
    fi
  done
}
bad=0
for name in $names; do [ "$(cat "examples/sessions/$name.status")" = 0 ] || bad=$((bad + 1)); done
examples/many.sh "$scratch" 2 >"$scratch/told"
compare
[ "$(tail -1 "$scratch/told")" = "$((6 - bad)) of 6 sessions ended well" ] || { cat "$scratch/told"; failed=$((failed + 1)); }
rm "$scratch/bundles_torn.answer"
touch -d '2000-01-01' "$scratch/speech.answer"
examples/many.sh "$scratch" 2 >"$scratch/again"
compare
cmp -s "$scratch/told" "$scratch/again" || { cat "$scratch/again"; failed=$((failed + 1)); }
[ "$scratch/speech.answer" -ot "$scratch/speech.roster" ] || { echo "many: a session was run twice"; failed=$((failed + 1)); }
echo "many: 6 sessions, $failed failed"
[ "$failed" = 0 ]
