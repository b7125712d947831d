#!/usr/bin/env bash
# Receipts that `lrat_check`, `drat_check` and `model_check` write by `--receipt`: their bytes, by the sums of `sha256sum`; that
# `join_check` joins them; that no file gets the name without a verdict, and no verdict has a line if its receipt can't be written; and
# which names are refused.
#
#   tests/receipts.sh
#
# The programs must be built: `rt ci` does it, or `rt run` in their folders.
set -euo pipefail
. "$(dirname "$0")/lib.sh"
on_path drat_check join_check lrat_check model_check
cd "$work"
UNSAT='s VERIFIED UNSAT' SAT='s VERIFIED SAT' PIECE='s VERIFIED PIECE' OPEN='s NOT VERIFIED'

# wants STATUS OUTPUT FAULT COMMAND..: the call must end so, and write this
wants() {
  local status=0
  "${@:4}" > out 2> err || status=$?
  if [[ $status != "$1" || $(cat out) != "$2" || $(cat err) != "$3" ]]; then
    fault "${*:4}: status $status, $(cat out), $(cat err)"
  fi
}

sum() {
  sha256sum < "$1" | cut -d ' ' -f 1
}

# holds TEXT: the receipt must be this line, and no file that was to become one may be left
holds() {
  printf '%s\n' "$1" | cmp -s - receipt || fault "the receipt is $(cat receipt 2>&1), and not $1"
  none_left
}

none_left() {
  local left
  left=$(find . -name '*.new')
  [[ ! $left ]] || fault "left: $left"
}

# limited COMMAND..: a run that can write no byte to a file; what it says goes through pipes
limited() {
  { (trap '' XFSZ && ulimit -f 0 && exec "$@" 2>&1 1>&3 3>&-) | cat >&2; } 3>&1 | cat
}

# on_full_disk COMMAND..: a run beside a folder `small` whose disk is full; `left` gets the names of what lies there behind it
on_full_disk() {
  unshare --mount --map-root-user bash -c 'mount -t tmpfs -o size=4k none small && head -c 4096 /dev/zero > small/full || exit 9
"$@"
status=$?
ls -A small > left
exit "$status"' - "$@"
}

# unwritten LINE COMMAND..: a run that ends with this line, and whose receipt can't be written: nothing is claimed, and an old receipt stays
unwritten() {
  local line=$1
  shift
  wants 1 '' $'error writing: No space left on device (os error 28)\nin /dev/full' "$@" --receipt /dev/full
  echo old > receipt
  wants 1 '' $'error writing: File too large (os error 27)\nin receipt' limited "$@" --receipt receipt
  holds old
  wants 2 '' $'cannot open /proc/self/receipt\nNo such file or directory (os error 2)' "$@" --receipt /proc/self/receipt
  mkdir -p small
  if unshare --mount --map-root-user true 2> err; then
    wants 1 '' $'error writing: No space left on device (os error 28)\nin small/receipt' on_full_disk "$@" --receipt small/receipt
    [[ $(cat left) == full ]] || fault "left on a full disk: $(cat left)"
  else
    not_tried 'no namespaces here, a full disk'
  fi
  # the line comes last, behind a receipt that is whole
  wants 0 "$(cat receipt.wanted)"$'\n'"$line" '' bash -c '"$@" | cat' - "$@" --receipt /dev/stdout
  status=0
  "$@" --receipt receipt > /dev/full 2> err || status=$?
  [[ $status == 1 && $(cat err) == 'error writing: No space left on device (os error 28)' ]] || fault "$*: a line that can't be written: status $status, $(cat err)"
  holds "$(cat receipt.wanted)"
}

# The four clauses over two variables, and three of them.
printf 'p cnf 2 4\n1 2 0\n1 -2 0\n-1 2 0\n-1 -2 0\n' > four
printf '1 2 0\n1 -2 0\n-1 2 0\n' > three
printf '5 1 0 1 2 0\n6 0 5 3 4 0\n' > four.lrat
printf '1 0\n0\n' > four.drat
printf '5 1 0 1 2 0\n' > open.lrat
printf '5 1 0 1 3 0\n' > bad.lrat
printf 's SATISFIABLE\nv 1 2 0\n' > answer
printf 's SATISFIABLE\nv 1 -2 0\n' > other.answer
# what a piece derives, and what it does not
printf '4 1 0 1 2 0\n' > piece.lrat
printf '1 0\n' > piece.drat
printf '1 0\n-1 2 0\n' > next
printf -- '-1 -2 0\n' > missing

# Texts whose lengths lie about the blocks of the hash function and of the readers.
case_lengths() {
  for length in {0..130} 4095 4096 4097 65535 65536 65537 1000001; do
    {
      cat four
      head -c "$length" /dev/zero | tr '\0' 'c'
    } > text
    rm -f receipt
    wants 0 "$UNSAT" '' lrat_check text four.lrat --receipt receipt
    holds "refuted sha256 $(sum text)"
  done
  wants 0 's VERIFIED UNSAT BY 1 RECEIPTS' '' join_check text receipt
}

# kept PROGRAM: by `lrat_check` or `drat_check`, on files of that ending
kept() {
  local program=$1 check=$1_check name status
  for name in four -; do
    rm -f receipt
    wants 0 "$UNSAT" '' "$check" "$name" "four.$program" --receipt=receipt < four
    holds "refuted sha256 $(sum four)"
  done
  wants 0 "$PIECE" '' "$check" three "piece.$program" --holds next --receipt receipt
  holds "carries sha256 $(sum three) sha256 $(sum next)"
  wants 0 "$PIECE" '' "$check" - "piece.$program" --holds next --receipt receipt < three
  holds "carries sha256 $(sum three) sha256 $(sum next)"
  # a piece that comes to a conflict carries to nothing
  wants 0 "$UNSAT" '' "$check" four "four.$program" --holds next --receipt receipt
  holds "refuted sha256 $(sum four)"
  # what was there stays where there is no verdict
  echo old > receipt
  wants 3 "$OPEN" $'clause 1 is not derived by the piece: -1 -2 0\nin missing' \
    "$check" three "piece.$program" --holds missing --receipt receipt
  holds old
  wants 3 "$OPEN" '' "$check" three "piece.$program" --receipt receipt
  holds old
  rm receipt
  wants 3 "$OPEN" '' "$check" three "piece.$program" --receipt receipt
  [[ ! -e receipt ]] || fault 'a receipt of nothing'
  echo "refuted sha256 $(sum four)" > receipt.wanted
  unwritten "$UNSAT" "$check" four "four.$program"
  echo "carries sha256 $(sum three) sha256 $(sum next)" > receipt.wanted
  unwritten "$PIECE" "$check" three "piece.$program" --holds next
  for name in four ./four "four.$program"; do
    wants 2 '' "cannot open $name"$'\nthe output is a file that is read' "$check" four "four.$program" --receipt "$name"
  done
  for name in next ./next; do
    wants 2 '' "cannot open $name"$'\nthe output is a file that is read' \
      "$check" three "piece.$program" --holds next --receipt "$name"
  done
  wants 0 "$PIECE" '' "$check" three "piece.$program" --holds /dev/null --receipt /dev/null
  wants 2 '' $'cannot open -\n- is standard input, and no output' "$check" four "four.$program" --receipt -
  wants 2 '' $'cannot open \nthe name of an output is empty' "$check" four "four.$program" --receipt ''
  none_left
}

case_lrat_check() {
  kept lrat
}

case_drat_check() {
  kept drat
}

case_rejected() {
  wants 1 '' $'proof: line 1: clause of a hint is not unit\nin bad.lrat' lrat_check four bad.lrat --receipt receipt
  [[ ! -e receipt ]] || fault 'a receipt of a rejected proof'
}

case_outputs() {
  for output in --lrat --trim --core; do
    wants 0 "$UNSAT" '' drat_check four four.drat "$output" output --receipt receipt
    holds "refuted sha256 $(sum four)"
    wants 2 '' $'cannot open receipt\nboth outputs are one file' drat_check four four.drat "$output" receipt --receipt receipt
    # no output gets its name where the receipt is not whole
    echo old > output
    wants 1 '' $'error writing: No space left on device (os error 28)\nin /dev/full' \
      drat_check four four.drat "$output" output --receipt /dev/full
    [[ $(cat output) == old ]] || fault "$output has its name, and the receipt is not whole"
    none_left
  done
}

# An answer, and one that is none.
case_answer() {
  wants 0 "$SAT" '' model_check three answer --receipt receipt
  holds "satisfied sha256 $(sum three)"
  wants 3 's NOT VERIFIED' 'no receipts lead from the formula to one that is refuted' join_check three receipt
  echo old > receipt
  wants 3 "$OPEN" 'formula: line 3: clause 3 has no literal of the answer' model_check three other.answer --receipt receipt
  holds old
  wants 2 '' $'cannot open answer\nthe output is a file that is read' model_check three answer --receipt answer
  echo "satisfied sha256 $(sum three)" > receipt.wanted
  unwritten "$SAT" model_check three answer
  none_left
}

# A chain of two pieces: the four clauses carry to three others, which are refuted.
case_chain() {
  printf '1 0\n-1 2 0\n-1 -2 0\n' > between
  printf '4 0 1 2 3 0\n' > end.lrat
  wants 0 "$PIECE" '' lrat_check four open.lrat --holds between --receipt first
  wants 0 "$UNSAT" '' lrat_check between end.lrat --receipt second
  wants 0 's VERIFIED UNSAT BY 2 RECEIPTS' '' bash -c 'cat second first | join_check four -'
  wants 3 "$OPEN" 'no receipts lead from the formula to one that is refuted' join_check four first
  wants 3 "$OPEN" 'no receipts lead from the formula to one that is refuted' join_check four second
}

try_cases
