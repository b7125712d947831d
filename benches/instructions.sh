#!/usr/bin/env bash
# Counts the instructions that the program takes for proofs, and compares them with
# instructions.txt: benches/instructions.sh [FOLDER]
# Its proofs are looked for in tests/data and in FOLDER. A figure that is more than three
# parts in a hundred worse makes the status 1. The program is the one that `rt run` left in out/;
# PROGRAM may name another. It needs valgrind.
set -euo pipefail
top=$(cd "$(dirname "$0")/.." && pwd)
program=${PROGRAM:-$top/crates/varisat_check_main/out/varisat_check_main}
folders=("$top/tests/data" "$@")
log=$(mktemp)
trap 'rm -f "$log"' EXIT

# folder_of PROOF: the folder with the proof, or nothing
folder_of() {
  local folder
  for folder in "${folders[@]}"; do
    if [[ -f $folder/$1.proof ]]; then
      echo "$folder"
      return
    fi
  done
}

# instructions FOLDER PROOF: what the whole program takes, which must find the formula unsatisfiable
instructions() {
  local said
  said=$(valgrind --tool=callgrind --callgrind-out-file=/dev/null \
    "$program" "$1/${2%%.*}.cnf" "$1/$2.proof" 2> "$log") || true
  if [[ $said != 's UNSATISFIABLE' ]]; then
    echo "$2: ${said:-no verdict}" >&2
    tail -5 "$log" >&2
    return 1
  fi
  sed -n 's/^==[0-9]*== Collected : \([0-9]*\)$/\1/p' "$log"
}

status=0
measured=0
printf '%-18s %10s %10s %8s\n' proof 'a hash' 'a step' change
while read -r proof steps hashes before _; do
  folder=$(folder_of "$proof")
  if [[ -z $folder ]]; then
    continue
  fi
  total=$(instructions "$folder" "$proof")
  measured=$((measured + 1))
  change=$((1000 * total / hashes - 1000 * before))
  printf '%-18s %10d %10d %+7d%%\n' "$proof" $((total / hashes)) $((total / steps)) \
    $((change / (10 * before)))
  if ((change > 30 * before)); then
    echo "$proof: more than 3 % worse than $before a hash" >&2
    status=1
  fi
done < <(grep -v '^#' "$top/benches/instructions.txt")
if ((measured == 0)); then
  echo 'no proof of the list was found' >&2
  exit 1
fi
exit $status
