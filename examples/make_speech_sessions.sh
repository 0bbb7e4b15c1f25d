#!/usr/bin/env bash
# usage: examples/make_speech_sessions.sh FOLDER
# Makes rosters and captures of two sessions with speech, `conference` and `lecture`, as they stand in examples/sessions. It needs
# espeak-ng, which speaks the sentences below, sox, which brings them to 8,000 samples a second, and python3. Another version of
# espeak-ng may speak otherwise. A helper: nothing of it is proved.
set -eu
folder=${1:?usage: examples/make_speech_sessions.sh FOLDER}
here=$(cd "$(dirname "$0")" && pwd)
for tool in espeak-ng sox python3; do
  command -v "$tool" >/dev/null || { echo "$tool isn't installed: nothing is made" >&2; exit 1; }
done
scratch=$(mktemp -d)
trap 'rm -rf "$scratch"' EXIT

say() { # NAME VOICE SPEED PITCH TEXT
  espeak-ng -v "$2" -s "$3" -p "$4" -w "$scratch/raw.wav" "$5"
  sox -D "$scratch/raw.wav" -r 8000 -c 1 -b 16 "$scratch/$1.wav" gain -n -6 silence 1 0.01 0.5% reverse silence 1 0.01 0.5% reverse
}
anna() { say "$1" en-us+f3 180 60 "$2"; }
bert() { say "$1" en-gb 170 45 "$2"; }
carl() { say "$1" en-gb-scotland+m4 175 40 "$2"; }
dora() { say "$1" en-us+f5 185 55 "$2"; }

bert open "Good morning. Shall we begin?"
anna hear "Yes, I can hear all of you."
carl line "So can I. The line is good."
dora here "Ready here."
bert bye1 "Good bye."
anna bye2 "Good bye, all."
carl bye3 "Until tomorrow."
dora bye4 "Bye now."
cat >"$folder/conference.roster" <<'END'
# four who talk, both laws, all four rates; the fourth comes late, the fifth only listens, the first leaves early
0 join 1 pcmu:1001 16 96 2001 0 0
0 join 2 pcma:1002 24 97 2002 0 0
0 join 3 pcmu:1003 32 98 2003 65500 0
0 join 5 - 32 98 2005 0 4294960000
5000 join 4 pcma:1004 40 99 2004 1000 0
8000 leave 1
8500 end
END
(cd "$scratch" && python3 "$here/../tools/bridge-captures" from-sound pcmu:1001 200 open.wav pcma:1002 2300 hear.wav pcmu:1003 4000 line.wav \
  pcma:1004 6000 here.wav pcmu:1001 6900 bye1.wav pcma:1002 6960 bye2.wav pcmu:1003 7000 bye3.wav pcma:1004 7040 bye4.wav) \
  >"$folder/conference.capture"

bert voices "A bridge sends everybody the voices of the others."
bert share "Those who only listen, at one rate, share one encoder."
anna late "And those who come late?"
bert own "They begin with one of their own, until both agree."
carl thanks "Thank you."
{
  echo "# three who talk, and two hundred who only listen, fifty at each rate; forty of them come later, ten at a time"
  echo "0 join 1 pcmu:1001 32 98 2001 0 0"
  echo "0 join 2 pcma:1002 32 98 2002 0 0"
  echo "0 join 3 pcmu:1003 40 99 2003 0 0"
  rates=(16 24 32 40)
  for member in $(seq 4 203); do
    time=0
    [ "$member" -ge 164 ] && time=$((1000 * ((member - 154) / 10)))
    echo "$time join $member - ${rates[member % 4]} $((96 + member % 4)) $((2000 + member)) $((100 * member)) $((1000 * member))"
  done
  echo "14000 end"
} >"$folder/lecture.roster"
(cd "$scratch" && python3 "$here/../tools/bridge-captures" from-sound pcmu:1001 100 voices.wav pcmu:1001 3300 share.wav pcma:1002 6900 late.wav \
  pcmu:1001 8500 own.wav pcmu:1003 11900 thanks.wav) >"$folder/lecture.capture"
for name in voices share late own thanks; do
  echo "$name: $(python3 -c 'import sys, wave; f = wave.open(sys.argv[1]); print(f.getnframes() / 8, "ms")' "$scratch/$name.wav")" >&2
done
