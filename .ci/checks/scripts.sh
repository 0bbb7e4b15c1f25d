#!/usr/bin/env bash
# Tries the scripts of tools/ and bench/: what they make of files that stand here, by its digest.
# It needs python3, and for captures of the network dpkt (Debian's python3-dpkt); what is missing is said and passed over.
set -u
cd "$(dirname "$0")/../.." || exit 1
if ! command -v python3 >/dev/null; then
  echo "scripts: skipped, python3 isn't installed"
  exit 0
fi
scratch=$(mktemp -d)
trap 'rm -rf "$scratch"' EXIT
passed=0
failed=0
digest() { # NAME BEGINNING_OF_THE_DIGEST, of standard input
  case $(sha256sum) in
  "$2"*) passed=$((passed + 1)) ;;
  *)
    failed=$((failed + 1))
    echo "scripts: $1 differs"
    ;;
  esac
}
digest "the demo's capture" e025c06e4e1503b3 < <(python3 bench/make_session.py demo 1 "$scratch/roster")
digest "the demo's roster" 7438e0a54405ab41 <"$scratch/roster"
python=python3
/usr/bin/python3 -c 'import dpkt' 2>/dev/null && python=/usr/bin/python3
captures() { "$python" tools/bridge-captures "$@"; }
digest "a listener's payloads" e98a4c3696b3609c < <(captures payloads examples/sessions/speech.answer 192868483)
digest "payloads out of bundles" a910ffddbac1dff6 < <(captures payloads examples/sessions/bundles_2.answer 432)
digest "listeners of bundles" 2340df8d44323516 < <(captures listeners examples/sessions/bundles_2.answer)
if "$python" -c 'import dpkt' 2>/dev/null; then
  captures from-network examples/speech.pcap --ports 5004 -o "$scratch/capture" 2>/dev/null
  digest "a pcap's capture" 831a8478a0152bd6 <"$scratch/capture"
else
  echo "scripts: a pcap's capture is skipped, dpkt isn't installed"
fi
python3 -c 'import sys, wave
with wave.open(sys.argv[2], "wb") as file, open(sys.argv[1], "rb") as samples:
    file.setnchannels(1)
    file.setsampwidth(2)
    file.setframerate(8000)
    file.writeframes(samples.read())' examples/codec/bursts.s16 "$scratch/bursts.wav"
digest "a sound file's capture" 17d8906802add502 < <(captures from-sound pcmu:1 0 "$scratch/bursts.wav" pcma:2 50 "$scratch/bursts.wav")
program=crates/g726_cli/out/g726_cli
if [ -x "$program" ]; then
  captures from-sound --g726 "$program" g726-24:100:1 0 "$scratch/bursts.wav" -o "$scratch/coded"
  digest "a sound file's codes of G.726" "$(sha256sum <examples/codec/bursts.24.g726)" < <(captures payloads "$scratch/coded" 1)
else
  echo "scripts: a sound file's codes of G.726 are skipped, no program at $program"
fi
# what one plays in real time is what the other receives: the answer of a session of five seconds
port=$(python3 -c 'import socket
one = socket.socket(socket.AF_INET, socket.SOCK_DGRAM)
one.bind(("127.0.0.1", 0))
print(one.getsockname()[1] & ~1)')
printf '0 join 1 g726-32:105:192868483 -\n5000 end\n' >"$scratch/talker"
printf '0 join 791 - 32 105 192868483 11956 2202629233\n5000 end\n' >"$scratch/listener"
echo "791 127.0.0.1 $port" >"$scratch/peers"
python3 examples/live/receive.py "$scratch/listener" "$scratch/peers" -o "$scratch/heard" --idle 60 >"$scratch/told" 2>"$scratch/ready" &
until [ -s "$scratch/ready" ]; do sleep 0.05; kill -0 $! 2>/dev/null || break; done
python3 examples/live/send.py "$scratch/talker" --to "127.0.0.1:$port" --capture examples/sessions/speech.answer >"$scratch/sent"
kill $!
wait $!
digest "what a sender sends" 9bd75728d5f33527 < <(cut -d'(' -f1 "$scratch/sent" | sed 's/:[0-9]* $//')
digest "what a receiver tells" d2f9364287a58bc4 < <(sed 's/jitter [0-9.]* ms/jitter/' "$scratch/told")
digest "what a receiver keeps" e98a4c3696b3609c < <(captures payloads "$scratch/heard" 192868483)
program=crates/bridge_cli/out/bridge_cli
if [ -x "$program" ] && [ -f "$scratch/capture" ]; then
  digest "the answer to a pcap's capture" "$(sha256sum <examples/sessions/speech.answer)" \
    < <("$program" alone examples/sessions/speech.roster <"$scratch/capture" 2>/dev/null)
fi
digest "the conference's picture" "$(sha256sum <docs/pictures/conference.svg)" \
  < <(python3 bench/draw.py session examples/sessions/conference.{roster,capture,answer} /dev/stdout 2>/dev/null)
for table in docs/pictures/*.tsv; do
  title=$(sed -n 's/.*font-weight="bold">\(.*\)<\/text>/\1/p' "${table%.tsv}.svg")
  axes=log
  [ "$table" = docs/pictures/workers.tsv ] && axes=""
  digest "the picture of $table" "$(sha256sum <"${table%.tsv}.svg")" < <(python3 bench/draw.py lines "$table" /dev/stdout "$title" $axes)
done
"$python" .ci/captures_test.py crates/g726_cli/out/g726_cli || failed=$((failed + 1))
echo "scripts: $passed passed, $failed failed"
[ "$failed" = 0 ] && [ "$passed" -gt 0 ]
