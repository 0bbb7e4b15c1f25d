#!/usr/bin/env bash
# Runs the program `serve`: what it says of bad words and files, and a session over loopback in real time (twelve seconds), whose listeners have
# to get, packet for packet, what `bridge alone` sends for the same datagrams. It needs python3 and the programs that the gate built; what is
# missing is said and passed over. SERVE, BRIDGE and G726 name other programs.
set -u
cd "$(dirname "$0")/../.." || exit 1
serve=${SERVE:-$PWD/crates/serve_cli/out/serve_cli}
bridge=${BRIDGE:-$PWD/crates/bridge_cli/out/bridge_cli}
codec=${G726:-$PWD/crates/g726_cli/out/g726_cli}
command -v python3 >/dev/null || { echo "serve: skipped, python3 isn't installed"; exit 0; }
for program in "$serve" "$bridge" "$codec"; do
  [ -x "$program" ] || { echo "serve: skipped, no program at ${program#"$PWD"/}"; exit 0; }
done
scratch=$(mktemp -d)
trap 'rm -rf "$scratch"' EXIT
passed=0
failed=0
says() { # STATUS LINE WORDS..
  local status=$1 line=$2
  shift 2
  timeout 10 "$serve" "$@" >"$scratch/out" 2>"$scratch/err"
  if [ $? = "$status" ] && [ "$(cat "$scratch/err")" = "$line" ] && [ ! -s "$scratch/out" ]; then
    passed=$((passed + 1))
  else
    failed=$((failed + 1))
    echo "serve: $* doesn't end with $status and \`$line\`, but says \`$(head -c 200 "$scratch/err")\`"
  fi
}
cd "$scratch" || exit 1
free() { python3 -c 'import socket; s = socket.socket(socket.AF_INET, socket.SOCK_DGRAM); s.bind(("", 0)); print(s.getsockname()[1])'; }
port=$(free)
echo "0 end" >none.roster
printf '0 join 1 - 32 97 2001 0 0\n0 join 2 - 16 96 2002 0 0\n0 end\n' >two.roster
printf '0 join 1 - 32 97 2001 0\n0 end\n' >bad.roster
printf '1 127.0.0.1 5000\n2 127.0.0.1 5002\n' >two.peers
: >none.peers
printf '1 127.0.0.1 5000\n' >one.peers
printf '1 127.0.0.1\n' >words.peers
printf '# one\n1 127.0.0.1 65535\n' >number.peers
printf '1 127.0.0.256 5000\n' >address.peers
printf '1 127.0.0.1 5000\n1 127.0.0.1 5002\n' >used.peers
head -c 1048577 /dev/zero | tr '\0' '\n' >long
usage="usage: serve PORT PEERS ROSTER"
says 2 "$usage"
says 2 "$usage" "$port" none.peers
says 2 "$usage" "$port" none.peers none.roster more
says 2 "$usage" 0 none.peers none.roster
says 2 "$usage" 65536 none.peers none.roster
says 2 "$usage" "0$port" none.peers none.roster
says 2 "$usage" "$port" -none.peers none.roster
says 0 "ticks 0 runs 0 packets 0 refused 0 unsent 0 reports 0 heard 0" "$port" none.peers none.roster
says 0 "ticks 0 runs 0 packets 0 refused 0 unsent 0 reports 0 heard 0" "$port" two.peers two.roster
says 3 "roster line 1: words" "$port" two.peers bad.roster
says 4 "roster longer than 1048576 octets" "$port" two.peers long
says 6 "read failed" "$port" none.peers missing
says 6 "read failed" "$port" missing none.roster
says 10 "peers line 1: words" "$port" words.peers two.roster
says 10 "peers line 2: number" "$port" number.peers two.roster
says 10 "peers line 1: address" "$port" address.peers two.roster
says 10 "peers line 2: member used" "$port" used.peers two.roster
says 11 "peer missing 2" "$port" one.peers two.roster
says 13 "peers longer than 1048576 octets" "$port" long none.roster
python3 -c 'import socket, sys, time; s = socket.socket(socket.AF_INET, socket.SOCK_DGRAM); s.bind(("", int(sys.argv[1]))); print(flush=True); time.sleep(20)' "$port" >held &
holder=$!
until [ -s held ]; do sleep 0.05; kill -0 $holder 2>/dev/null || break; done
says 12 "link failed" "$port" two.peers two.roster
kill "$holder"
cd "$OLDPWD" || exit 1

if python3 .ci/live_session.py "$serve" "$bridge" "$codec" examples/live/meeting.roster examples/sessions/conference.capture "$scratch" >"$scratch/told" 2>&1; then
  passed=$((passed + 1))
  tail -1 "$scratch/told"
else
  failed=$((failed + 1))
  cat "$scratch/told"
fi
# sessions over a link and a clock that are told, in which each try is known, and the same by `bridge alone`
if command -v cc >/dev/null; then
  if python3 .ci/live_scripts.py --bridge "$bridge" "$serve" examples/live/scripts >"$scratch/told" 2>&1; then
    passed=$((passed + 1))
  else
    failed=$((failed + 1))
  fi
  cat "$scratch/told"
else
  echo "serve: no C compiler is installed, so sessions over a told link are passed over"
fi
echo "serve: $passed passed, $failed failed"
[ "$failed" = 0 ] && [ "$passed" -gt 0 ]
