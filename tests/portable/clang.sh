#!/usr/bin/env bash
# The compiler CLANG, that does not compile a module twice: what it made of each is kept in the folder MADE.
set -euo pipefail
# (it is the linker too, by a name that a script is not told)
if [[ ${1:-} == -mwasm64 ]]; then
  exec -a wasm-ld "$CLANG" "$@"
elif [[ " $* " != *' -x ir '* ]]; then
  exec "$CLANG" "$@"
fi

# all words but the one behind -o; of the module what it holds
last='' output=''
for word; do
  if [[ $last == -o ]]; then
    output=$word
  elif [[ -f $word ]]; then
    sha256sum < "$word"
  else
    echo "$word"
  fi
  last=$word
done > "$MADE/words.$$"
made=$MADE/$(sha256sum < "$MADE/words.$$" | cut -c 1-64)
rm "$MADE/words.$$"
if [[ ! -f $made ]]; then
  "$CLANG" "$@"
  cp "${output:?}" "$made.$$"
  mv "$made.$$" "$made"
else
  cp "$made" "${output:?}"
fi
