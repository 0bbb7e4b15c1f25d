#!/usr/bin/env bash
# Compares the program `g726` with streams of an independent encoder and decoder, both ways at the four rates.
# It takes the program that the gate built, and says so and passes where there is none.
set -u
cd "$(dirname "$0")/../.." || exit 1
program=$PWD/crates/g726_cli/out/g726_cli
if [ ! -x "$program" ]; then
  echo "codec: skipped, no program at crates/g726_cli/out/g726_cli"
  exit 0
fi
passed=0
failed=0
compare() {
  if "$program" "$1" "$2" <"$3" | cmp -s - "$4"; then
    passed=$((passed + 1))
  else
    failed=$((failed + 1))
    echo "codec: $1 $2 of $3 differs from $4"
  fi
}
for samples in examples/codec/*.s16; do
  name=${samples%.s16}
  for rate in 16 24 32 40; do
    compare encode "$rate" "$samples" "$name.$rate.g726"
    compare decode "$rate" "$name.$rate.g726" "$name.$rate.decoded"
  done
done
echo "codec: $passed passed, $failed failed"
[ "$failed" = 0 ] && [ "$passed" -gt 0 ]
