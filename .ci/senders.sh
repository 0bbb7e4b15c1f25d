#!/usr/bin/env bash
# From real senders over a pcapng to the bridge and back to tshark; and what of recorded speech is silent in an answer, in short.
# It takes the programs that the gate built; what is missing is said and passed over.
set -u
cd "$(dirname "$0")/.." || exit 1
python=python3
/usr/bin/python3 -c 'import dpkt' 2>/dev/null && python=/usr/bin/python3
"$python" -c 'import dpkt' 2>/dev/null || { echo "senders: skipped, dpkt isn't installed"; exit 0; }
failed=0
"$python" .ci/senders.py crates/bridge_cli/out/bridge_cli
case $? in 0 | 77) ;; *) failed=1 ;; esac
if [ -x crates/bridge_cli/out/bridge_cli ] && [ -x crates/g726_cli/out/g726_cli ]; then
  "$python" bench/lost_speech.py --short || { echo "senders: more than 1 % of the speech is silent with --retime"; failed=1; }
fi
exit $failed
