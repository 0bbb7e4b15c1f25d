#!/usr/bin/env bash
# Makes the Debian package of the programs that the gate built, unpacks it, and runs the sample session from there.
# It needs dpkg-deb; what is missing is said and passed over.
set -u
cd "$(dirname "$0")/../.." || exit 1
for tool in dpkg-deb strip gzip; do
  command -v "$tool" >/dev/null || { echo "package: skipped, $tool isn't installed"; exit 0; }
done
for crate in bridge_cli g726_cli serve_cli audit_cli rooms_cli report_cli; do
  [ -x crates/$crate/out/$crate ] || [ ! -d crates/$crate ] || { echo "package: skipped, the programs aren't built"; exit 0; }
done
scratch=$(mktemp -d)
trap 'rm -rf "$scratch"' EXIT
made=$(packaging/deb.sh "$scratch") || { echo "package: packaging/deb.sh failed"; exit 1; }
dpkg-deb -x "$made" "$scratch/root" || exit 1
examples=$scratch/root/usr/share/doc/tonvarul/examples
failed=0
answered() { # NAME: what was written is the sample answer, of which a long one is kept as its digest
  if [ -f "$1.answer.sha256" ]; then
    sha256sum <"$scratch/answer" | cmp -s - "$1.answer.sha256"
  else
    cmp -s "$scratch/answer" "$1.answer"
  fi
}
for session in speech conference lecture; do
  "$scratch/root/usr/bin/tonvarul-bridge" alone "$examples/$session.roster" <"$examples/$session.capture" >"$scratch/answer" 2>"$scratch/line"
  if ! answered "$examples/$session" || ! cmp -s "$scratch/line" "$examples/$session.summary"; then
    echo "package: the session $session differs"
    failed=$((failed + 1))
  fi
  if [ -x "$scratch/root/usr/bin/tonvarul-audit" ]; then
    "$scratch/root/usr/bin/tonvarul-audit" "$examples/$session.roster" "$scratch/answer" <"$examples/$session.capture" >"$scratch/line"
    if [ "$(cat "$scratch/line")" != yes ]; then
      echo "package: the audit of the session $session differs"
      failed=$((failed + 1))
    fi
  fi
done
unit=$scratch/root/lib/systemd/system/tonvarul-serve@.service
if [ -f "$unit" ] && systemd-analyze --version 2>/dev/null | awk 'NR == 1 { exit $2 < 250 }'; then
  mkdir "$scratch/unit"
  sed "s,/usr/bin/tonvarul-serve,$scratch/root&," "$unit" >"$scratch/unit/tonvarul-serve@5004.service"
  warnings=$(systemd-analyze verify --man=no "$scratch/unit/tonvarul-serve@5004.service" 2>&1)
  [ -z "$warnings" ] || { echo "package: the service: $warnings"; failed=$((failed + 1)); }
  systemd-analyze security --offline=yes --threshold=15 --no-pager "$scratch/unit/tonvarul-serve@5004.service" >"$scratch/exposed" 2>&1 ||
    { tail -1 "$scratch/exposed"; failed=$((failed + 1)); }
fi
if command -v man >/dev/null; then
  for page in packaging/man/*.1; do
    warnings=$(man --warnings -l "$page" 2>&1 >/dev/null)
    [ -z "$warnings" ] || { echo "package: $page: $warnings"; failed=$((failed + 1)); }
  done
fi
if command -v mandoc >/dev/null; then
  said=$(mandoc -T lint packaging/man/*.1 | grep -v 'referenced manual not found')
  [ -z "$said" ] || { echo "package: $said"; failed=$((failed + 1)); }
fi
# what a newcomer types, with the package's programs first in the path, in a folder of its own
typed() { # WORDS THAT HAVE TO COME, COMMAND
  said=$(cd "$scratch/typed" && PATH=$scratch/root/usr/bin:$PATH && eval "$2" 2>&1)
  case $said in
  *"$1"*) ;;
  *) echo "package: $2 says: $said"; failed=$((failed + 1)) ;;
  esac
}
if /usr/bin/python3 -c 'import dpkt' 2>/dev/null; then
  mkdir "$scratch/typed"
  typed "from-network" "bridge-captures --help"
  typed "SSRC 577090038 (0x2265B1F6)" "bridge-captures from-network $examples/speech.pcap --ports 5004 -o call.capture --roster call.roster"
  typed "packets 260 refused 1" "tonvarul-bridge alone call.roster < call.capture > call.answer"
  typed "250 packets taken, 0 late" "bridge-captures heard call.roster call.capture"
  typed "SSRC 1: payload type 97, 32 kbit/s" "bridge-captures listeners call.answer"
  typed "1.wav" "bridge-captures to-wav call.answer --into sound"
  typed "UDP port 20000" "bridge-captures to-pcap call.answer -o call.pcap"
  typed "alike" "tonvarul-bridge shared 2 call.roster < call.capture > two.answer && cmp call.answer two.answer && echo alike"
  typed "yes" "tonvarul-audit call.roster call.answer < call.capture"
  typed "rate rate 32 packets 260" "tonvarul-report call.roster < call.capture"
  typed '"packets_per_100_runs": 100' "tonvarul-report json call.roster < call.capture | python3 -m json.tool"
  typed "room 1 ticks" "echo call.roster call.capture room.answer > list && tonvarul-rooms 2 list"
  typed "alike" "cmp call.answer room.answer && echo alike"
  typed "1 83200" "bridge-captures payloads call.answer 1 > one.g726 && g726 decode 32 < one.g726 > one.s16 && stat -c '1 %s' one.s16"
  typed "packets" "tonvarul-bridge demo 1"
  typed "usage:" "tonvarul-bridge"
  typed "usage:" "tonvarul-serve"
  typed "no such file" "bridge-captures streams none"
fi
completed() { # WORD THAT HAS TO COME, WORDS TYPED..
  said=$(
    PATH=$scratch/root/usr/bin:$PATH
    for file in "$scratch"/root/usr/share/bash-completion/completions/*; do . "$file"; done
    shift
    COMP_WORDS=("$@") COMP_CWORD=$(($# - 1))
    "$(complete -p "$1" | sed 's/.*-F \([^ ]*\).*/\1/')"
    echo " ${COMPREPLY[*]} "
  )
  case $said in
  *" $1 "*) ;;
  *) echo "package: completion of '${*:2}' gives: $said"; failed=$((failed + 1)) ;;
  esac
}
completed alone tonvarul-bridge a
completed from-network bridge-captures from-n
completed heard bridge-captures he
completed --retime bridge-captures from-network --re
completed encode g726 en
completed 16 tonvarul-rooms 1
completed 32 g726 decode 3
if command -v lintian >/dev/null; then
  said=$(lintian --allow-root --fail-on error,warning --tag-display-limit 0 "$made" 2>&1) || { echo "$said"; failed=$((failed + 1)); }
fi
echo "package: $(basename "$made"), $failed failed"
[ "$failed" -eq 0 ]
