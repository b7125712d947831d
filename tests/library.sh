#!/usr/bin/env bash
# Makes what the gate does not: the archive of the library for C.
#
# It is made in a copy, over the libraries that `./test.sh` or an earlier run has left, and what that leaves is taken over. Where that
# can't be done, it says why, and the scripts that want the archive make it. `rt ci` keeps nothing of its check of a static library, and
# `rt lib` compiles what it has proved itself: so that crate is proved once more.
# needs: crates crates.txt HANDLES
set -euo pipefail
cd "$(dirname "$0")/.."
work=$(mktemp -d)
trap 'rm -rf "$work"' EXIT

mkdir "$work/copy"
tar -c --exclude=./.git --exclude=out --exclude=target . | tar -x -C "$work/copy"
find crates -mindepth 3 -maxdepth 3 -path '*/out/rlib' -exec cp -a --parents {} "$work/copy" \;
crate=$(realpath --relative-to . "$(dirname "$(dirname "$(bindings/build.sh --archive)")")")
(cd "$work/copy/$crate" && rt lib) > "$work/said" 2>&1 ||
  echo "not all was built over the gate's libraries: $(tail -n 3 "$work/said")"
for kept in "$work"/copy/crates/*/out/; do
  crate=${kept%/out/}
  crate=${crate##*/}
  if [[ ! -d $kept ]]; then
    continue
  fi
  mkdir -p "crates/$crate/out"
  for made in "$kept"*; do
    # (a library that was copied hence stays: other scripts read it)
    if ! cmp -s "$made/stamp" "crates/$crate/out/${made##*/}/stamp"; then
      rm -rf "crates/$crate/out/${made##*/}"
      cp -a "$made" "crates/$crate/out/"
    fi
  done
done
