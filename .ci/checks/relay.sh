#!/usr/bin/env bash
# Runs the example of a bridge behind a bridge: what talkers of G.726 are heard as, against the program `g726` alone.
# It needs python3 and the programs that the gate built; what is missing is said and passed over.
set -u
cd "$(dirname "$0")/../.." || exit 1
command -v python3 >/dev/null || { echo "relay: skipped, python3 isn't installed"; exit 0; }
[ -x crates/bridge_cli/out/bridge_cli ] && [ -x crates/g726_cli/out/g726_cli ] || { echo "relay: skipped, the programs aren't built"; exit 0; }
scratch=$(mktemp -d)
trap 'rm -rf "$scratch"' EXIT
examples/relay.sh "$scratch"
