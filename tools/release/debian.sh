#!/usr/bin/env bash
# The Debian package of what `tools/release.sh` gathered.
#
#   debian.sh USR DOCUMENTS VERSION PACKAGE
set -euo pipefail
own=$(cd "$(dirname "$0")" && pwd)
work=$(mktemp -d)
trap 'rm -rf "$work"' EXIT
root=$work/root
documents=$root/usr/share/doc/cefindrato

mkdir -p "$root/DEBIAN"
cp -R "$1" "$root/usr"
mkdir -p "$root/usr/share/doc" "$root/usr/share/lintian/overrides"
cp -R "$2" "$documents"
cp "$own/../../debian/copyright" "$documents/"
ln -sf copyright "$documents/LICENSE"
if [[ -f $documents/LICENSE.cadical ]]; then
  { echo && cat "$own/copyright.cadical"; } >> "$documents/copyright"
  rm "$documents/LICENSE.cadical"
fi
maintainer=$(sed -n 's/^Maintainer: //p' "$own/control")
printf 'cefindrato (%s) unstable; urgency=medium\n\n  * See CHANGELOG.md.\n\n -- %s  %s\n' \
  "$3" "$maintainer" "$(date -u -R -d "@$SOURCE_DATE_EPOCH")" | gzip -n -9 > "$documents/changelog.gz"
find "$root/usr/share/man" -type f -exec gzip -n -9 {} +
cp "$own/overrides" "$root/usr/share/lintian/overrides/cefindrato"

# needs: the version of glibc from which on every name is there that a program or the library asks for
needs() {
  find "$root/usr/bin" "$root/usr/lib" -type f -exec objdump -T {} + 2> "$work/said" | grep -o 'GLIBC_2\.[0-9]*' | sort -Vu | tail -n 1 | cut -d _ -f 2
}
size=$(find "$root/usr" -type f -printf '%s\n' | awk '{ n += int($1 / 1024) + 1 } END { print n }')
sed -e "s/@VERSION@/$3/" -e "s/@GLIBC@/$(needs)/" -e "s/@SIZE@/$size/" "$own/control" > "$root/DEBIAN/control"
(cd "$root" && find usr -type f -print0 | sort -z | xargs -0 md5sum) > "$root/DEBIAN/md5sums"
echo activate-noawait ldconfig > "$root/DEBIAN/triggers"
(cd "$root/usr/lib" && for library in lib*.so.0; do
  echo "${library%.so.0} 0 cefindrato (>= $3)"
done) > "$root/DEBIAN/shlibs"
find "$root" -exec touch -h -d "@$SOURCE_DATE_EPOCH" {} +
chmod 755 "$root"
dpkg-deb --root-owner-group -Zxz --build "$root" "$4" > "$work/said"
