# shellcheck shell=bash disable=SC2034,SC2154
# What the tests of files that fail share. The programs must be built: `rt ci` does it, or `rt run`
# in their folders. It needs `cc`.
check=$(built varisat_check)
hint_check=$(built hint_check)
lrat_check=$(built lrat_check)
drat_check=$(built drat_check)
model_check=$(built model_check)
drat_cut=$(built drat_cut)
convert=$(built lrat_to_proof)
follows=$(built follows_check)
minimal=$(built minimal_check)
circuit=$(built circuit_check)
data=$top/tests/data
"${CC:-cc}" -O2 -Wall -shared -fPIC -o "$work/fail.so" "$top/tests/failing_files/fail.c" -ldl
runs=0

# failing LIMITS COMMAND..: a run with reads or writes that fail or are short, by the limits
# `NAME=NUMBER ..`. It sets `status`.
failing() {
  status=0
  # shellcheck disable=SC2086
  env $1 LD_PRELOAD="$work/fail.so" "${@:2}" > "$work/out" 2> "$work/err" || status=$?
  runs=$((runs + 1))
}

# wants NAME STATUS OUTPUT ERRORS: what the last run must have done
wants() {
  if [[ $status != "$2" || $(cat "$work/out") != "$3" || $(cat "$work/err") != "$4" ]]; then
    echo "WRONG $1: status $status, output '$(cat "$work/out")', errors '$(cat "$work/err")'"
    wrong=1
  fi
}

# refused NAME FILE ERROR: what it must have done where there is a fault of this file
refused() {
  wants "$1" 1 '' "$3"$'\n'"in $2"
}

# counted NAME: how many runs a part had
counted() {
  echo "$1: $runs runs"
  runs=0
}

# Where a line or the lines of hints can't be written whole, the status is 1 and the fault is told.
# A file is not left then; into a pipe came the lines up to the failed write.
fail_writes() {
  local full='error writing: No space left on device (os error 28)' write reader
  mkfifo "$work/way"
  failing 'FAIL_WRITE=1' "$check" "$cnf" "$proof"
  wants 'the line' 1 '' "$full"
  failing 'FAIL_WRITE=2' "$check" "$cnf" "$proof"
  wants 'the line is one write' 0 's UNSATISFIABLE' ''
  failing 'FAIL_WRITE=1' "$check" "$cnf" "$proof" "$work/hints"
  wants 'the hints' 1 '' "$full"
  for ((write = 1; write <= $(stat -c %s "$work/whole"); write += 97)); do
    failing "SHORT_WRITES=1 FAIL_WRITE=$write" "$check" "$cnf" "$proof" "$work/hints"
    wants "byte $write of the hints" 1 '' "$full"
    if [[ -e $work/hints || $(compgen -G "$work/hints.*.new") ]]; then
      echo "WRONG byte $write of the hints: a file is left"
      wrong=1
    fi
    cat "$work/way" > "$work/begun" &
    reader=$!
    failing "SHORT_WRITES=1 FAIL_WRITE=$write" "$check" "$cnf" "$proof" "$work/way"
    wants "byte $write of the hints into a pipe" 1 '' "$full"
    wait "$reader"
    head -c $((write - 1)) "$work/whole" | cmp "$work/begun" - || wrong=1
  done
  for most in 1 7 1000; do
    failing "SHORT_WRITES=$most" "$check" "$cnf" "$proof" "$work/hints"
    wants "$most bytes a write" 0 's UNSATISFIABLE' ''
    cmp "$work/whole" "$work/hints" || wrong=1
  done
  failing '' "$check" "$cnf" "$proof" /dev/full
  wants 'hints on a full disk' 1 '' "$full"
  failing 'FAIL_WRITE=1' "$hint_check" "$cnf" "$lrat"
  wants 'the line of hints' 1 '' "$full"
  failing 'FAIL_WRITE=2' "$hint_check" "$cnf" "$lrat"
  wants 'the line of hints is one write' 0 's VERIFIED UNSAT' ''
  failing 'FAIL_WRITE=1' "$lrat_check" "$cnf" "$lrat"
  wants 'the line of LRAT' 1 '' "$full"
  failing 'FAIL_WRITE=1' "$drat_check" "$cnf" "$drat"
  wants 'the line of DRAT' 1 '' "$full"
  failing 'FAIL_WRITE=1' "$model_check" "$work/chain.cnf" "$work/answer"
  wants 'the line of an answer' 1 '' "$full"
}

# The program's own output is full, closed, or a pipe that no one reads.
fail_outputs() {
  : > "$work/out"
  runs=$((runs + 3))
  status=0
  "$check" "$cnf" "$proof" > /dev/full 2> "$work/err" || status=$?
  wants 'full output' 1 '' 'error writing: No space left on device (os error 28)'
  status=0
  "$check" "$cnf" "$proof" >&- 2> "$work/err" || status=$?
  wants 'closed output' 1 '' 'error writing: Bad file descriptor (os error 9)'
  mkfifo "$work/pipe"
  exec 8<> "$work/pipe" 7> "$work/pipe" 8>&-
  status=0
  "$check" "$cnf" "$proof" >&7 2> "$work/err" || status=$?
  exec 7>&-
  wants 'closed pipe' 1 '' 'error writing: Broken pipe (os error 32)'
}

# closed MASK COMMAND..: a run without standard input (1), output (2) and error (4), as the mask
# says. It sets `status`.
closed() {
  status=0
  runs=$((runs + 1))
  (
    if (($1 & 1)); then exec <&-; fi
    if (($1 & 2)); then exec >&-; fi
    if (($1 & 4)); then exec 2>&-; fi
    exec "${@:2}"
  ) > "$work/out" 2> "$work/err" < "$work/four.cnf" || status=$?
}

# judged MASK NAME LINE WARNING [STATUS]: what it must have done. A line that can't be written is a
# fault, and standard error has that and the warning.
judged() {
  local wanted=${5:-0} line=$3 errors=$4
  if (($1 & 2)) && [[ $line ]]; then
    wanted=1 line='' errors='error writing: Bad file descriptor (os error 9)'${4:+$'\n'$4}
  fi
  if (($1 & 4)); then
    errors=''
  fi
  wants "$2 without $1" "$wanted" "$line" "$errors"
}

# whole FILE: what was written is that of a run with all three
whole() {
  cmp "$1" "$1.whole" || wrong=1
  rm -f "$1"
}

# Whatever is closed, a file that is written has its own bytes alone.
close_streams() {
  local mask warning='warning: the header of four.cnf is p cnf 1 4, but what was read is p cnf 2 4'
  cd "$work" || exit
  printf '1 0\n0\n' > four.drat
  printf 'p cnf 1 2\n1 2 0\n-1 2 0\n' > two.cnf
  echo '2 0' > two.answer
  "$drat_check" four.cnf four.drat --lrat lrat.whole > out 2> err
  "$convert" four.cnf lrat.whole proof.whole 2> err
  "$check" four.cnf proof.whole hints.whole > out 2> err
  "$drat_cut" four.cnf four.drat piece > piece.line
  mv piece1.cnf piece1.cnf.whole
  mv piece1.drat piece1.drat.whole
  if [[ $("$lrat_check" four.cnf lrat.whole 2> err) != 's VERIFIED UNSAT' || $("$hint_check" four.cnf hints.whole 2> err) != 's VERIFIED UNSAT' ]]; then
    echo 'WRONG what is written with all streams'
    wrong=1
  fi
  for mask in 0 1 2 3 4 5 6 7; do
    closed "$mask" "$drat_check" four.cnf four.drat --lrat lrat
    judged "$mask" drat_check 's VERIFIED UNSAT' "$warning"
    whole lrat
    closed "$mask" "$check" four.cnf proof.whole hints
    judged "$mask" varisat_check 's UNSATISFIABLE' "$warning"
    whole hints
    closed "$mask" "$convert" four.cnf lrat.whole proof
    judged "$mask" lrat_to_proof '' "$warning"
    whole proof
    closed "$mask" "$drat_cut" four.cnf four.drat piece
    judged "$mask" drat_cut "$(cat piece.line)" ''
    whole piece1.cnf
    whole piece1.drat
    closed "$mask" "$lrat_check" four.cnf lrat.whole
    judged "$mask" lrat_check 's VERIFIED UNSAT' "$warning"
    closed "$mask" "$model_check" two.cnf two.answer
    judged "$mask" model_check 's VERIFIED SAT' 'warning: the header of two.cnf is p cnf 1 2, but what was read is p cnf 2 2'
  done
  # from standard input there is one descriptor less to be taken by a file that is read
  closed 6 "$drat_check" - four.drat --lrat lrat
  judged 6 drat_check 's VERIFIED UNSAT' ''
  whole lrat
  # standard output that is closed is no file
  closed 2 "$convert" four.cnf lrat.whole /dev/stdout
  wants 'bytes to no standard output' 2 '' $'cannot open /dev/stdout\nIs a directory (os error 21)'
}

# endless NAME ARGUMENT..: nothing is said of a file that never ends, while it is read and memory is
# free
endless() {
  failing "MEMORY=$work/much" timeout 1 "$check" "${@:2}"
  wants "$1" 124 '' ''
}

# too_large NAME FILE FAULT ARGUMENT..: where little memory is free, a file that never ends is
# refused that is read whole
too_large() {
  failing "MEMORY=$work/little" bash -c 'ulimit -v 1000000; exec "$0" "$@"' "${@:4}"
  wants "$1" 1 '' "$3: file too large"$'\n'"in $2"$'\n''only a regular file may be larger than half of the free memory'
}

# sized BYTES: the clause 1, and comments, in this many bytes
sized() {
  echo '1 0'
  yes c | head -c $(($1 - 4)) || true
}

# Of a pipe or a device half as many bytes are read as memory is free, of a regular file all.
bound_reads() {
  local fault='formula: error reading formula' program bytes
  cd "$work" || exit
  echo '1 0' > one
  : > nothing
  too_large 'an endless formula, by varisat_check' /dev/zero 'error reading formula' "$check" /dev/zero "$proof"
  too_large 'the same with hints' /dev/zero 'error reading formula' "$check" /dev/zero "$proof" "$work/hints"
  too_large 'an endless formula, by hint_check' /dev/zero "$fault" "$hint_check" /dev/zero nothing
  for program in "$lrat_check" "$drat_check" "$model_check"; do
    too_large "an endless formula, by $program" /dev/zero "$fault" "$program" /dev/zero one
  done
  too_large 'an endless answer' /dev/zero 'answer: error reading answer' "$model_check" one /dev/zero
  for program in "$lrat_check" "$drat_check"; do
    too_large "endless target clauses, by $program" /dev/zero "wanted clauses: error reading formula" "$program" one nothing --holds /dev/zero
  done
  mkfifo bounded
  for bytes in 5120 5121; do
    sized "$bytes" > "sized.$bytes"
    failing "MEMORY=$work/little" "$model_check" "sized.$bytes" one
    wants "a regular file of $bytes bytes" 0 's VERIFIED SAT' ''
    failing "MEMORY=$work/little" bash -c '"$0" - one < "$1"' "$model_check" "sized.$bytes"
    wants "standard input of $bytes bytes" 0 's VERIFIED SAT' ''
  done
  cat sized.5120 > bounded &
  failing "MEMORY=$work/little" "$model_check" bounded one
  wants 'a pipe of 5120 bytes' 0 's VERIFIED SAT' ''
  cat sized.5121 > bounded &
  too_large 'a pipe of 5121 bytes' bounded "$fault" "$model_check" bounded one
  wait
}

cnf=$data/par10.cnf
lrat=$data/par10.lrat
size=$(stat -c %s "$cnf")
proof=$data/par10.whole.proof
# the added clauses of the proof, as DRAT text and as binary DRAT
drat=$work/drat
sed '/ d /d;s/^[0-9]* //;s/^0 .*/0/;s/ 0 .*/ 0/' "$lrat" > "$drat"
python3 -B "$top/tests/failing_files/binary.py" < "$drat" > "$work/binary"
# each variable makes the next one true
{
  echo 'p cnf 60 59'
  for ((variable = 1; variable < 60; variable++)); do
    echo "-$variable $((variable + 1)) 0"
  done
} > "$work/chain.cnf"
{
  echo 's SATISFIABLE'
  echo "v $(seq -s ' ' 60) 0"
} > "$work/answer"
echo '1 2 -3 0' > "$work/unmet"
printf 'p cnf 1 4\n1 2 0\n1 -2 0\n-1 2 0\n-1 -2 0\n' > "$work/four.cnf"
printf 'MemTotal:       64 kB\nMemFree:        3 kB\nMemAvailable:   10 kB\n' > "$work/little"
