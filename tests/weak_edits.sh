#!/usr/bin/env bash
# Lists the must-fail edits that say little of a contract: those that can't be applied or read, and those that are refused
# only because a proof file names what they took away.
#
# It reads what `rt ci` wrote, from the file that is named, or else tries all edits itself, which takes an hour.
# It exits 1 if there is one, and if the file has not the end of a whole run in which nothing failed.
set -euo pipefail

cd "$(dirname "$0")/.."
work=$(mktemp -d)
trap 'rm -rf "$work"' EXIT
if (($# == 0)); then
  rt must-fail > "$work/tried" 2>&1
fi
told=${1:-$work/tried}
if (($# > 0)) && [[ ! $(tail -n 1 "$told") =~ ^[1-9][0-9]*\ passed,\ 0\ failed$ ]]; then
  echo "$told is no whole run of \`rt ci\`: its last line is: $(tail -n 1 "$told")"
  exit 1
fi
bad=$(sed -n 's/^rt: must-fail \([^:]*: BAD EDIT\).*/\1/p' "$told")
weak=$(sed -n 's/^rt: must-fail \([^:]*\): refused, .*this says \(little\|less\) of the contract.*/\1/p' "$told")
if [[ -n $bad$weak ]]; then
  printf '%s\n' 'edits that say little:' "$bad" "$weak" | sed '/^$/d'
  exit 1
fi
