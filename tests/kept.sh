#!/usr/bin/env bash
# `tools/kept` over a toolchain and a store that are made here: the newest entry of each crate of the repository is packed, and of no other;
# elsewhere what lacks is added, and what is there stays; another toolchain, a link and a name out of place are not taken.
set -euo pipefail
. "$(dirname "$0")/lib.sh"
here=$work/repository
mkdir -p "$here/tools" "$work"/one/{kit/bin,rattle-kept/edits}
cp "$top/tools/kept" "$here/tools/"
cat > "$work/one/kit/bin/rt" << 'RT'
#!/bin/sh
case $1 in
  doc) echo "${0%/bin/rt}/START-HERE.md" ;;
  version) echo 'kit 1' ;;
esac
RT
chmod +x "$work/one/kit/bin/rt"
printf '%s\n' '# crates' 'low:' 'low_above staticlib: low' > "$here/crates.txt"

# sum N: 64 digits
sum() {
  printf '%064d' "$1"
}

# entry STORE NAME TEXT: one of these, newer than those before it
entry() {
  mkdir "$1/$2"
  echo "$3" > "$1/$2/made.json"
  entries=$((entries + 1))
  touch -d "2026-01-01 12:00:$((entries + 10))" "$1/$2"
}
entries=0
store=$work/one/rattle-kept
entry "$store" "proof-low-$(sum 1)" older
entry "$store" "proof-low-$(sum 2)" newer
entry "$store" "proof-low_above-$(sum 3)" above
entry "$store" "tests-low-$(sum 4)" tests
entry "$store" "proof-other-$(sum 5)" other
echo edit > "$store/edits/$(sum 6)"
RT=$work/one/kit/bin/rt says 0 "packed 3 entries, 1 MB" "$here/tools/kept" pack "$work/file"
same 'what packing leaves' '' "$(find "$store" -name 'rt-new*')"

# listed: what the store of `two` holds
listed() {
  (cd "$work/two/rattle-kept" && find . -type f | sort | xargs grep -H . | sed 's/-\{0,1\}0*\([0-9]\)\(\/made.json\)*:/\1:/')
}
mkdir -p "$work/two/rattle-kept"
cp -a "$work/one/kit" "$work/two/"
entry "$work/two/rattle-kept" "tests-low-$(sum 4)" mine
export RT=$work/two/kit/bin/rt
says 0 "added 3 entries to $work/two/rattle-kept, which had 1 others of the file" "$here/tools/kept" take "$work/file"
same 'what is taken' './edits/6:edit
./proof-low2:newer
./proof-low_above3:above
./tests-low4:mine' "$(listed)"

touch -d 2025-01-01 "$work/two/kit/bin/rt"
says 1 "$work/file is of another toolchain, or of one whose files have other times" "$here/tools/kept" take "$work/file"
cp -a "$work/one/kit" "$work/two/"

# What somebody else may have packed
mkdir "$work/bad"
tar -xf "$work/file" -C "$work/bad"
entry "$work/bad" proof-low-x out
entry "$work/bad" "proof-other-$(sum 7)" other
tar -cf "$work/bad.tar" -C "$work/bad" .
says 0 "added 0 entries to $work/two/rattle-kept, which had 4 others of the file" "$here/tools/kept" take "$work/bad.tar"
ln -s /etc "$work/bad/proof-low-$(sum 8)"
tar -cf "$work/bad.tar" -C "$work/bad" .
says 1 "$work/bad.tar holds a link: nothing is taken" "$here/tools/kept" take "$work/bad.tar"
same 'what is left' 4 "$(listed | wc -l)"
same 'what is left over' '' "$(find "$work/two/rattle-kept" -name 'rt-new*')"

says 2 'usage: tools/kept pack FILE | take FILE' "$here/tools/kept" pack
exit "$wrong"
