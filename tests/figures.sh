#!/usr/bin/env bash
# Whether the tests are as many as tests/figures.txt says: wrong bodies of each crate, those that
# each run tries, wrong definitions, must-fail edits, rows, vectors of calls, cases of scripts, and
# scripts of ./test.sh. And whether nothing grows above the bounds that stand there as `at most`:
# scripts above 400 lines, their functions above 40, their lines above 100 columns, all their lines,
# and what tests/figures/growth.py counts of the crates.
#
#   tests/figures.sh                  fails where a number is smaller than there, or larger and not written down, where a list is empty,
#                                     and where a bound is exceeded
#   tests/figures.sh --write [WHY]    writes the numbers, and says which are smaller than before; a bound is raised for a reason alone,
#                                     which is written beside it
set -euo pipefail
shopt -s nullglob inherit_errexit
cd "$(dirname "$0")/.."
kept=tests/figures.txt
export LC_ALL=C

# counted KIND PATTERN FILE..: in how many lines of each file this pattern of grep is, by the file's
# crate or name, and in how many of all
counted() {
  local file name number sum=0
  for file in "${@:3}"; do
    name=${file#crates/}
    name=${name%/wrong-bodies/*}
    name=${name##*/}
    number=$(grep -c "$2" "$file" || (($? == 1)))
    # (a script may have no cases)
    if ((number > 0)) || [[ $1 != cases ]]; then
      echo "$1, $name: $number"
    fi
    sum=$((sum + number))
  done
  echo "$1: $sum"
}

# measured FILE..: how large scripts are. A function is what stands further in than its first line.
measured() {
  awk '
    function ended() { functions += body > 40; open = -1; body = 0 }
    FNR == 1 { files += last > 400; ended() }
    { last = FNR; all++; wide += length($0) > 100 }
    match($0, /[^ ]/) {
      if (open >= 0 && RSTART <= open) ended()
      if (open >= 0) body++
      else if ($0 ~ /^ *(def .*|[a-z0-9_]+\(\) [{])$/) open = RSTART
    }
    END {
      files += last > 400
      ended()
      print "at most, scripts above 400 lines: " files
      print "at most, functions of scripts above 40 lines: " functions + 0
      print "at most, lines of scripts above 100 columns: " wide + 0
      print "at most, lines of scripts, in thousands: " int((all + 999) / 1000)
    }' "$@"
}

counts() {
  local scripts=() tools=() edits=(crates/*/must-fail/*.edit)
  counted 'wrong bodies' '^# ' crates/*/wrong-bodies/wrong-bodies.txt
  counted 'wrong bodies of each run' '^[^#]' tests/wrong_bodies/always.txt
  counted 'wrong definitions' '^# ' crates/definition_rows/wrong-definitions.txt
  counted 'rows' '^=> ' tests/rows/*.rows
  counted 'vectors of calls' '^[^#]' crates/check_vectors/data/*
  counted 'cases' '^case_[a-z0-9_]*() {$' tests/*.sh
  ((${#edits[@]} == 0)) || echo "must-fail edits: ${#edits[@]}"
  mapfile -t tools < <(grep -d skip -lm 1 '^#!/' tools/*)
  measured ./*.sh {benches,bindings,docs,lib/*,tests,tests/*,tools/*}/*.{sh,py} "${tools[@]}"
  python3 -B tests/figures/growth.py
  eval "$(sed -n '/^scripts=(/,/)$/p' test.sh)"
  echo "scripts of ./test.sh: ${#scripts[@]}"
}
found=$(counts | sort -u)

# compared KEPT FOUND: the numbers that differ, by kind. Behind a number a reason may stand.
compared() {
  awk -F ': ' -v kept="$1" -v found="$2" '
    function take(text, numbers,   lines, one, n) {
      for (n = split(text, lines, "\n"); n > 0; n--) { split(lines[n], one, ": "); numbers[one[1]] = one[2] + 0; names[one[1]] }
    }
    BEGIN {
      take(kept, old)
      take(found, new)
      for (name in names) {
        is_bound = name ~ /^at most, /
        if (name in new && new[name] == 0 && !is_bound) print "none: " name
        if (new[name] < old[name] && !(is_bound && name in new)) print "fewer: " name ", " new[name] + 0 " for " old[name]
        if (new[name] > old[name]) print (is_bound ? "raised: " : "more: ") name ", " new[name] " for " old[name] + 0
      }
    }' | sort
}

# written KEPT FOUND WHY: what is kept then: a bound that stays has its reason still, one that is
# raised has this one
written() {
  awk -v kept="$1" -v found="$2" -v why="$3" 'BEGIN {
    for (n = split(kept, lines, "\n"); n > 0; n--) {
      split(lines[n], one, ": ")
      old[one[1]] = one[2] + 0
      whole[one[1]] = lines[n]
    }
    count = split(found, lines, "\n")
    for (n = 1; n <= count; n++) {
      split(lines[n], one, ": ")
      if (one[1] !~ /^at most, / || one[2] + 0 < old[one[1]]) print lines[n]
      else if (one[2] + 0 == old[one[1]] && one[1] in old) print whole[one[1]]
      else print lines[n] " (" why ")"
    }
  }'
}

old=
if [[ -f $kept ]]; then
  old=$(< "$kept")
fi
differ=$(compared "$old" "$found")
if [[ ${1:-} == --write ]]; then
  if grep '^raised: ' <<< "$differ" && [[ ! ${2:-} ]]; then
    echo 'A bound is raised for a reason alone: tests/figures.sh --write WHY'
    exit 1
  fi
  text=$(written "$old" "$found" "${2:-}")
  printf '%s\n' "$text" > "$kept"
  differ=$(grep -vE '^(more|raised): ' <<< "$differ" || true)
  [[ -z $differ ]] || printf '%s\n' "$differ"
  ! grep -q '^none: ' <<< "$differ"
elif [[ $differ ]]; then
  printf '%s\n' "$differ" "The numbers are not those of $kept: tests/figures.sh --write writes them, and --write WHY raises a bound."
  exit 1
fi
