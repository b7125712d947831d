#!/usr/bin/env bash
# Runs `lrat_check` and `lrat_to_proof` on files, and compares what they write and their exit
# statuses with what they must be.
set -euo pipefail
. "$(dirname "$0")/lib.sh"
# shellcheck source=SCRIPTDIR/end_to_end/setup.sh
. "$top/tests/end_to_end/setup.sh"

# LRAT proofs: what the writer of hints wrote of each proof, and a solver's
case_lrat_check() {
  begin
  for proof in "${proofs[@]}"; do
    wanted "$proof" 0 's VERIFIED UNSAT' '' "${proof%%_*}.cnf" "$proof.lrat"
  done

  # turned NAME KIND STATUS OUTPUT ERRORS SCRIPT: a run on the solver's proof, changed by a script
  # of sed
  turned() {
    sed "$6" "$work/files/$1.lrat" > "$work/files/$1.$2.lrat"
    if [[ $3 == 1 ]]; then
      refused "$1_$2" "$1.$2.lrat" "$5" "$1.cnf" "$1.$2.lrat"
    else
      wanted "$1_$2" "$3" "$4" "$5" "$1.cnf" "$1.$2.lrat"
    fi
  }

  # proves NAME LINE: the solver's proof is verified, and so it is with changes that do no harm;
  # with others it is refused. LINE is the first with a hint to the clause of line 1
  proves() {
    local name=$1 line=$2 first last unknown='no clause has the id of a hint'
    first=$(sed 's/ .*//;q' "$work/files/$name.lrat")
    last=$(wc -l < "$work/files/$name.lrat")
    wanted "$name" 0 's VERIFIED UNSAT' '' "$name.cnf" "$name.lrat"
    # without the first hint, and with the literal true, a clause has two literals that are not
    # false
    turned "$name" hint_dropped 1 '' 'proof: line 1: clause of a hint is not unit' '1s/ 0 [0-9]*/ 0/'
    turned "$name" literal_negated 1 '' 'proof: line 1: clause of a hint is not unit' '1{s/ / -/;s/--//}'
    turned "$name" line_dropped 1 '' "proof: line $((line - 1)): $unknown" 1d
    turned "$name" clause_deleted 1 '' "proof: line $((line + 1)): $unknown" "1a 1 d $first 0"
    turned "$name" line_doubled 1 '' 'proof: line 2: id is taken' 1p
    # the hints before the last one make literals true, and falsify no clause
    turned "$name" last_hint_dropped 1 '' "proof: line $last: hints end without a conflict" '$s/ [0-9]* 0$/ 0/'
    turned "$name" last_line_dropped 3 's NOT VERIFIED' '' '$d'
    # hints after the conflict are not followed, and nothing is read after the empty clause
    turned "$name" hints_more 0 's VERIFIED UNSAT' '' '1s/0$/999999 0/'
    turned "$name" lines_more 0 's VERIFIED UNSAT' '' '$a x'
    # a clause that is kept does no harm where no id comes again and no line is judged by groups
    turned "$name" no_deletions 0 's VERIFIED UNSAT' '' '/ d /d'
    head -n 1 "$work/files/$name.lrat" | head -c -3 > "$work/files/$name.half.lrat"
    refused "${name}_half_a_line" "$name.half.lrat" 'proof: line 1: unfinished line' "$name.cnf" "$name.half.lrat"
  }

  proves par10 2
  proves board6 8
  proves grid5 2
  # no line has a hint to the clause of line 107, and its own hints do not ask whether 22 is false
  turned par10 other_line_dropped 0 's VERIFIED UNSAT' '' 107d
  turned par10 other_literal_negated 0 's VERIFIED UNSAT' '' '107s/ 22 / -22 /'

  # groups NAME STATUS OUTPUT ERRORS LINE..: a run on a clause against each pair of values of two
  # variables, and these lines
  groups() {
    local name=groups_$1 status=$2 output=$3 errors=$4
    shift 4
    printf '%s\n' "$@" > "$work/files/$name.lrat"
    if [[ $status == 1 ]]; then
      refused "$name" "$name.lrat" "$errors" four.cnf "$name.lrat"
    else
      wanted "$name" "$status" "$output" "$errors" four.cnf "$name.lrat"
    fi
  }

  pivot=' for a clause with the negation of the pivot'
  groups met 0 's VERIFIED UNSAT' '' '5 3 1 0 0' '6 -3 -1 0 -5 0' '7 1 0 1 2 0' '8 0 7 3 4 0'
  groups none 1 '' 'proof: line 2: hints end without a conflict' '5 3 1 0 0' '6 -3 -1 0 0'
  groups missing 1 '' "proof: line 2: no hints$pivot" '5 3 1 0 0' '6 -3 -1 0 -1 0'
  groups of_the_last_literal 1 '' "proof: line 2: no hints$pivot" '5 3 1 0 0' '6 -1 -3 0 -5 0'
  groups failing 1 '' 'proof: line 2: hints of a candidate end without a conflict' '5 3 0 0' '6 -3 -1 0 -5 0'
  # what holds the negation is deleted, so no group is needed, and one that is there is not read
  groups of_no_clause 0 's VERIFIED UNSAT' '' '5 3 1 0 0' '5 d 5 0' '6 -3 -1 0 -5 9 0' '7 1 0 1 2 0' '8 0 7 3 4 0'

  # files that are no LRAT text: nothing, DRAT text, compressed text, a formula, a byte order mark
  printf '1 0\nd 1 2 0\n0\n' > "$work/files/drat.lrat"
  printf '5 1 0 1 2 0\n' | gzip -n > "$work/files/compressed.lrat"
  printf '\xef\xbb\xbf5 1 0 1 2 0\n' > "$work/files/mark.lrat"
  wanted nothing 3 's NOT VERIFIED' '' four.cnf nothing.proof
  # the empty clause of a formula refutes it, and nothing of the proof is read
  printf '1 2 0\n0\n' > "$work/files/refuted.cnf"
  wanted refuted_formula 0 's VERIFIED UNSAT' '' refuted.cnf nothing.proof
  wanted refuted_formula_unread 0 's VERIFIED UNSAT' '' refuted.cnf drat.lrat
  refused read_malformed malformed.lrat 'proof: line 1: malformed line' four.cnf malformed.lrat
  begun_as read_mark mark.lrat 'text with a byte order mark' 'proof: line 1: malformed line' four.cnf mark.lrat
  wanted read_four 1 '' $'proof: line 1: malformed line\nfour.cnf begins as a formula\narguments in the wrong order?' four.cnf four.cnf
  wanted read_plain 0 's VERIFIED UNSAT' '' four.cnf plain.lrat
  wanted read_doubled 0 's VERIFIED UNSAT' '' four.cnf doubled.lrat
  wanted read_doubled_ids 0 's VERIFIED UNSAT' '' --ids doubled four.cnf doubled.lrat
  begun_as read_other_ids plain.lrat "$binaries" 'proof: line 1: malformed line' --ids=doubled four.cnf plain.lrat
  begun_as read_binary_drat binary.drat "$binaries" 'proof: line 1: id is taken' four.cnf binary.drat
  begun_as read_drat drat.lrat 'DRAT text' 'proof: line 1: malformed line' four.cnf drat.lrat
  begun_as read_compressed compressed.lrat 'a gzip file' 'proof: line 1: malformed line' four.cnf compressed.lrat
  # a formula may begin as DRAT text does
  misspelled read_no_drat malformed.cnf 'formula: line 2: bad number' x malformed.cnf nothing.proof
  wanted swapped 1 '' $'formula: line 24: bad number\nin par10.lrat\nbad number: d\narguments in the wrong order?' par10.lrat par10.cnf
  misspelled malformed_formula malformed.cnf 'formula: line 2: bad number' x malformed.cnf par10.lrat
  # reads that fail: a folder, and a file of the system's
  refused folder / 'formula: error reading formula: Is a directory (os error 21)' / par10.lrat
  refused folder_as_proof / 'proof: error reading proof: Is a directory (os error 21)' four.cnf /
  refused unreadable_proof /proc/self/mem 'proof: error reading proof: Input/output error (os error 5)' four.cnf /proc/self/mem
  misused no_arguments 'no file is named for CNF' 'lrat_check CNF LRAT [--ids WAY] [--holds FILE] [--receipt FILE] [--stats] [--json] [--quiet] [--verbose]'
  wanted example 0 's VERIFIED UNSAT' '' --example
  wanted version 0 'lrat_check 0.4.0 (built from sources)' '' --version
  misused one_argument 'no file is named for LRAT' 'lrat_check CNF LRAT [--ids WAY] [--holds FILE] [--receipt FILE] [--stats] [--json] [--quiet] [--verbose]' four.cnf
  misused three_arguments 'unexpected argument: more.lrat' 'lrat_check CNF LRAT [--ids WAY] [--holds FILE] [--receipt FILE] [--stats] [--json] [--quiet] [--verbose]' four.cnf par10.lrat more.lrat
  misused other_ids '--ids takes plain or doubled' 'lrat_check CNF LRAT [--ids WAY] [--holds FILE] [--receipt FILE] [--stats] [--json] [--quiet] [--verbose]' --ids odd four.cnf par10.lrat
  wanted missing_formula 2 '' $'cannot open absent.cnf\nNo such file or directory (os error 2)' absent.cnf absent.lrat
  wanted missing_proof 2 '' $'cannot open absent.lrat\nNo such file or directory (os error 2)' malformed.cnf absent.lrat
  run_cases lrat_check_main
  compare
}

# LRAT as proof bytes, of which each proof is checked again: the text of other programs, and the
# hints of each proof.
case_lrat_to_proof() {
  # converts NAME CNF LRAT [ARGUMENT..]: the text is converted whole
  converts() {
    local name=$1 cnf=$2 lrat=$3
    shift 3
    wanted "$name" 0 '' '' "$cnf" "$lrat" "$work/files/$name.converted" "$@"
  }

  begin
  lrats=("${proofs[@]}" par10 board6)
  for lrat in "${lrats[@]}"; do
    converts "$lrat" "${lrat%%_*}.cnf" "$lrat.lrat"
  done
  converts narrow par10.cnf par10.lrat --width 20
  converts plain four.cnf plain.lrat
  converts doubled four.cnf doubled.lrat --ids doubled
  begun_as read_other_ids plain.lrat "$binaries" 'proof: line 1: malformed line' --ids=doubled four.cnf plain.lrat "$work/files/refused"
  begun_as read_cut cut.lrat "$binaries" 'proof: line 2: unfinished line' four.cnf cut.lrat "$work/files/refused"
  begun_as read_binary_drat binary.drat "$binaries" 'proof: line 1: id is taken' four.cnf binary.drat "$work/files/refused"
  printf 'c a clause that is only redundant\n2 2 0 -1 0\n' > "$work/files/redundant.lrat"
  printf '2 1 0 7 0\n' > "$work/files/unknown.lrat"
  wanted open 3 '' '' unit.cnf nothing.lrat "$work/files/open.converted"
  refused redundant redundant.lrat "proof: line 2: RAT steps can't be converted" unit.cnf redundant.lrat "$work/files/refused"
  refused unknown unknown.lrat 'proof: line 1: no clause has the id of a hint' unit.cnf unknown.lrat "$work/files/refused"
  misspelled malformed_formula malformed.cnf 'formula: line 2: bad number' x malformed.cnf par10.lrat "$work/files/refused"
  refused malformed_proof malformed.lrat 'proof: line 1: malformed line' unit.cnf malformed.lrat "$work/files/refused"
  wanted version 0 'lrat_to_proof 0.4.0 (built from sources)' '' --version
  convert_call='lrat_to_proof CNF LRAT PROOF [--ids WAY] [--width N]'
  while IFS=: read -r words why; do
    read -ra arguments <<< "$words"
    misused "usage_of_${#names[@]}" "$why" "$convert_call" "${arguments[@]}"
  done << 'END'
:no file is named for CNF
unit.cnf:no file is named for LRAT
unit.cnf nothing.lrat:no file is named for PROOF
unit.cnf nothing.lrat refused --width:--width needs a value
unit.cnf nothing.lrat refused --width 0:--width takes a number from 1 to 64
unit.cnf nothing.lrat refused --width=65:--width takes a number from 1 to 64
unit.cnf nothing.lrat refused --width x:--width takes a number from 1 to 64
unit.cnf nothing.lrat refused --ids odd:--ids takes plain or doubled
unit.cnf nothing.lrat refused --bits 9:there is no option --bits
unit.cnf nothing.lrat refused --width 9 --width=9:--width given twice
unit.cnf nothing.lrat refused --width 9 9:unexpected argument: 9
unit.cnf nothing.lrat refused --example:there is no option --example
END
  wanted missing_formula 2 '' $'cannot open absent.cnf\nNo such file or directory (os error 2)' absent.cnf absent.lrat refused
  wanted missing_proof 2 '' $'cannot open absent.lrat\nNo such file or directory (os error 2)' unit.cnf absent.lrat refused
  wanted missing_folder 2 '' $'cannot open absent/proof\nNo such file or directory (os error 2)' unit.cnf nothing.lrat absent/proof
  run_cases lrat_to_proof_main
  compare

  begin
  for lrat in "${lrats[@]}"; do
    wanted "$lrat" 0 's UNSATISFIABLE' '' "${lrat%%_*}.cnf" "$lrat.converted"
  done
  wanted narrow 0 's UNSATISFIABLE' '' par10.cnf narrow.converted
  wanted plain 0 's UNSATISFIABLE' '' four.cnf plain.converted
  wanted doubled 0 's UNSATISFIABLE' '' four.cnf doubled.converted
  wanted open 3 's NOT SHOWN' '' unit.cnf open.converted
  run_cases varisat_check_main
  compare
}

try_cases
