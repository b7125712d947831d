#!/usr/bin/env bash
# Runs the programs on files that can't be read or written to their end, and those that judge claims
# on all files that fail.
set -euo pipefail
. "$(dirname "$0")/lib.sh"
# shellcheck source=SCRIPTDIR/failing_files/setup.sh
. "$top/tests/failing_files/setup.sh"

# Byte by byte, with a read of the formula failing at some forty places. BEFORE stands before the
# fault.
fail_reads_of_formula() {
  local program=$1 before=$2 size=$3 cnf=$4 proof=$5 read
  for ((read = 1; read <= size + 1; read += size / 40 + 1)); do
    failing "SHORT_READS=1 FAIL_READ=$read" "$program" "$cnf" "$proof"
    refused "$cnf, read $read" "$cnf" "${before}error reading formula: Input/output error (os error 5)"
  done
}

# The same of the proof, at some hundred places. The step is the one at which the proof ends that is
# cut there.
fail_reads_of_proof() {
  local size=$1 cnf=$2 proof=$3 length=$4 place cut
  for ((place = 0; place <= length; place += length / 100 + 1)); do
    head -c "$place" "$proof" > "$work/cut"
    cut=$("$check" "$cnf" "$work/cut" 2>&1) || true
    failing "SHORT_READS=1 FAIL_READ=$((size + 2 + place))" "$check" "$cnf" "$proof"
    if ((place == length)); then
      wants "$proof, after its end" 0 's UNSATISFIABLE' ''
    else
      refused "$proof, byte $place" "$proof" "${cut%%:*}: Error reading proof file: Input/output error (os error 5)"
    fi
  done
}

# The same of a text of hints, at some forty places.
fail_reads_of_hints() {
  local size=$1 cnf=$2 lrat=$3 length=$4 place
  for ((place = 0; place <= length; place += length / 40 + 1)); do
    failing "SHORT_READS=1 FAIL_READ=$((size + 2 + place))" "$hint_check" "$cnf" "$lrat"
    refused "$lrat, byte $place" "$lrat" 'error reading hints: Input/output error (os error 5)'
  done
}

# The same of a proof whose text is read up to what refutes the formula. Where the failed read is
# not met, what stands before it is verified as a proof of its own.
fail_reads_of_text() {
  local program=$1 size=$2 cnf=$3 proof=$4 length=$5 place cut
  for ((place = 0; place <= length; place += length / 40 + 1)); do
    head -c "$place" "$proof" > "$work/cut"
    cut=$("$program" "$cnf" "$work/cut" 2> "$work/err") || true
    failing "SHORT_READS=1 FAIL_READ=$((size + 2 + place))" "$program" "$cnf" "$proof"
    if [[ $status == 0 && $cut == 's VERIFIED UNSAT' ]]; then
      wants "$proof, byte $place" 0 's VERIFIED UNSAT' ''
    else
      refused "$proof, byte $place" "$proof" 'proof: error reading proof: Input/output error (os error 5)'
    fi
  done
}

# The same of an answer, and of the formula that is read after it.
fail_reads_of_answer() {
  local cnf=$1 answer=$2 first last read
  first=$(stat -c %s "$answer")
  last=$((first + 2 + $(stat -c %s "$cnf")))
  for ((read = 1; read <= first + 1; read += first / 40 + 1)); do
    failing "SHORT_READS=1 FAIL_READ=$read" "$model_check" "$cnf" "$answer"
    refused "$answer, read $read" "$answer" 'answer: error reading answer: Input/output error (os error 5)'
  done
  for ((read = first + 2; read <= last; read += (last - first) / 40 + 1)); do
    failing "SHORT_READS=1 FAIL_READ=$read" "$model_check" "$cnf" "$answer"
    refused "$cnf, read $read" "$cnf" 'formula: error reading formula: Input/output error (os error 5)'
  done
  for most in 1 2 7 4095; do
    failing "SHORT_READS=$most" "$model_check" "$cnf" "$answer"
    wants "$answer, $most bytes a read" 0 's VERIFIED SAT' ''
  done
}

# Where a clause is not met, its line is told, and no read comes after those of both files.
name_unmet() {
  local cnf=$1 answer=$2 reads
  reads=$(($(stat -c %s "$answer") + $(stat -c %s "$cnf") + 2))
  for failed in "" "FAIL_READ=$((reads + 1))"; do
    failing "SHORT_READS=1 $failed" "$model_check" "$cnf" "$answer"
    wants 'a clause that is not met' 3 's NOT VERIFIED' 'formula: line 3: clause 2 has no literal of the answer'
  done
}

case_proofs() {
  for name in par10.whole board6.whole grid5.whole grid5.v2; do
    cnf=$data/${name%.*}.cnf
    proof=$data/$name.proof
    size=$(stat -c %s "$cnf")
    fail_reads_of_formula "$check" '' "$size" "$cnf" "$proof"
    fail_reads_of_proof "$size" "$cnf" "$proof" "$(stat -c %s "$proof")"
    for most in 1 2 7 4095; do
      failing "SHORT_READS=$most" "$check" "$cnf" "$proof"
      wants "$proof, $most bytes a read" 0 's UNSATISFIABLE' ''
    done
  done
  counted 'reads of proofs'
}

case_texts() {
  fail_reads_of_hints "$size" "$cnf" "$lrat" "$(stat -c %s "$lrat")"
  fail_reads_of_text "$lrat_check" "$size" "$cnf" "$lrat" "$(stat -c %s "$lrat")"
  for proof in "$drat" "$work/binary"; do
    fail_reads_of_text "$drat_check" "$size" "$cnf" "$proof" "$(stat -c %s "$proof")"
  done
  fail_reads_of_formula "$lrat_check" 'formula: ' "$size" "$cnf" "$lrat"
  fail_reads_of_formula "$drat_check" 'formula: ' "$size" "$cnf" "$drat"
  for most in 1 2 7 4095; do
    failing "SHORT_READS=$most" "$lrat_check" "$cnf" "$lrat"
    wants "$lrat, $most bytes a read" 0 's VERIFIED UNSAT' ''
    for proof in "$drat" "$work/binary"; do
      failing "SHORT_READS=$most" "$drat_check" "$cnf" "$proof"
      wants "$proof, $most bytes a read" 0 's VERIFIED UNSAT' ''
    done
  done
  counted 'reads of texts'
}

case_answers() {
  fail_reads_of_answer "$work/chain.cnf" "$work/answer"
  name_unmet "$work/chain.cnf" "$work/unmet"
  counted 'reads of answers'
}

case_writes() {
  "$check" "$cnf" "$proof" "$work/whole" > "$work/out"
  fail_writes
  fail_outputs
  counted 'writes'
}

case_claims() {
  # shellcheck source=failing_files/claims.sh
  . "$top/tests/failing_files/claims.sh"
  fail_reads_of_claims
  fail_writes_of_claims
  close_streams_of_claims
  bound_reads_of_claims
  counted 'claims'
}

try_cases
