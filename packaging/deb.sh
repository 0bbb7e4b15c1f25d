#!/usr/bin/env bash
# Makes a Debian package of the programs that the gate built.
# usage: packaging/deb.sh [FOLDER]   the package comes to FOLDER (this one, if none is named): tonvarul_VERSION_amd64.deb
# It needs dpkg-deb, gzip, and the programs in crates/*/out: run `rt ci`, or `rt run` in their crates, before.
set -eu
to=$(cd "${1:-.}" && pwd)
cd "$(dirname "$0")/.."
version=$(sed -n 's/^[[:space:]]*"g726 \([0-9.]*\)\\n"$/\1/p' crates/g726_stream/src/texts.rt)
[ -n "$version" ] || { echo "deb: no version in crates/g726_stream/src/texts.rt" >&2; exit 1; }
programs="bridge_cli:tonvarul-bridge g726_cli:g726"
for name in serve audit rooms report; do # those that are there
  if [ -d crates/${name}_cli ]; then programs="$programs ${name}_cli:tonvarul-$name"; fi
done
root=$(mktemp -d)
trap 'rm -rf "$root"' EXIT
chmod 755 "$root"
doc=$root/usr/share/doc/tonvarul

install -d "$root/usr/bin" "$root/usr/share/man/man1" "$root/usr/share/bash-completion/completions" \
  "$root/usr/share/tonvarul/captures" "$root/usr/share/lintian/overrides" "$doc/examples" "$root/DEBIAN"
for pair in $programs; do
  built=crates/${pair%%:*}/out/${pair%%:*}
  [ -x "$built" ] || { echo "deb: $built is missing: build it by 'rt run' in its crate" >&2; exit 1; }
  install -s -m 755 "$built" "$root/usr/bin/${pair##*:}"
done
packed() { [ -x "$root/usr/bin/$1" ] || [ "$1" = bridge-captures ]; }
# what belongs to a program that isn't there is left out
for page in packaging/man/*.1; do
  if packed "$(basename "$page" .1)"; then gzip -9n <"$page" >"$root/usr/share/man/man1/$(basename "$page").gz"; fi
done
for words in packaging/completion/*; do
  if packed "$(basename "$words")"; then install -m 644 "$words" "$root/usr/share/bash-completion/completions/"; fi
done
for unit in packaging/systemd/*@.service; do
  if packed "$(basename "$unit" @.service)"; then install -D -m 644 -t "$root/lib/systemd/system" "$unit"; fi
done
install -m 644 tools/captures/*.py "$root/usr/share/tonvarul/captures/"
install -m 755 tools/bridge-captures "$root/usr/share/tonvarul/bridge-captures"
sed -i '1s,.*,#!/usr/bin/python3,' "$root/usr/share/tonvarul/bridge-captures"
ln -s ../share/tonvarul/bridge-captures "$root/usr/bin/bridge-captures"
install -m 644 docs/USE.md docs/SCALE.md docs/FORMATS.md docs/PROMISES.md "$doc/"
install -D -m 644 -t "$doc/pictures" docs/pictures/*.svg
install -m 644 examples/speech.pcap "$doc/examples/"
for session in speech conference lecture; do
  install -m 644 examples/sessions/$session.* "$doc/examples/"
done
if packed tonvarul-serve; then
  install -d "$doc/examples/live"
  for script in send receive; do
    sed -e '1s,.*,#!/usr/bin/python3,' -e 's|os.path.join(os.path.dirname(.*"../../tools")|"/usr/share/tonvarul"|' \
      examples/live/$script.py >"$doc/examples/live/$script.py"
    chmod 755 "$doc/examples/live/$script.py"
  done
  install -m 644 examples/live/meeting.roster "$doc/examples/live/"
fi
install -m 644 packaging/copyright "$doc/copyright"
printf 'tonvarul (%s) unstable; urgency=medium\n\n  * The programs as the gate built them.\n\n -- %s  %s\n' "$version" \
  "Tonvarul maintainers <maintainers@users.noreply.tonvarul.example>" "$(git log -1 --format=%aD 2>/dev/null || date -R)" |
  gzip -9n >"$doc/changelog.gz"
install -m 644 packaging/lintian-overrides "$root/usr/share/lintian/overrides/tonvarul"
sed -e "s/@VERSION@/$version/" -e "s/@SIZE@/$(du -sk "$root" | cut -f1)/" packaging/control >"$root/DEBIAN/control"
for name in $(sed -n 's/^  \([a-z0-9-]*\): .*/\1/p' packaging/control); do # the list of programs has those that are packed
  if ! packed "$name"; then sed -i "/^  $name: /d" "$root/DEBIAN/control"; fi
done
(cd "$root" && find . -path ./DEBIAN -prune -o -type f -printf '%P\0' | LC_ALL=C sort -z | xargs -0 md5sum) >"$root/DEBIAN/md5sums"
find "$root" -type d -exec chmod 755 {} +
dpkg-deb --root-owner-group --build "$root" "$to/tonvarul_${version}_amd64.deb" >/dev/null
echo "$to/tonvarul_${version}_amd64.deb"
