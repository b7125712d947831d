#!/usr/bin/env bash
# Runs `varisat_check` and `hint_check` on files, and compares what they write and their exit
# statuses with what they must be.
set -euo pipefail
. "$(dirname "$0")/lib.sh"
# shellcheck source=SCRIPTDIR/end_to_end/setup.sh
. "$top/tests/end_to_end/setup.sh"

case_varisat_check() {
  begin
  # without deletions
  refutes par10 derive 113 1 9 fb
  refutes board6 derive 45 1 6 89
  refutes grid5 derive 786 1 9 cd
  # with them
  refutes par10 whole 149 1 9 fb
  refutes board6 whole 52 1 6 89
  refutes grid5 whole 1181 1 9 cd
  # with hashes of 32 bits
  refutes par10 width32 150 2 11 be
  refutes board6 width32 53 2 8 bd
  refutes grid5 width32 1182 2 11 fd
  # in version 2 of the bytes
  refutes par10 v2 149 1 11 7b
  refutes board6 v2 52 1 8 09
  refutes grid5 v2 1181 1 11 cd

  misspelled malformed malformed.cnf 'line 2: bad number' x malformed.cnf end.proof
  wanted added 3 's UNSATISFIABLE WITH 1 ADDED CLAUSES' '' unit.cnf empty_clause.proof
  wanted not_shown 3 's NOT SHOWN' '' unit.cnf end.proof
  refused no_proof nothing.proof 'step 1: Unexpected end of proof file' unit.cnf nothing.proof
  wanted no_arguments 0 's UNSATISFIABLE' ''
  wanted version 0 'varisat_check 0.4.0 (built from sources)' '' --version
  misused one_argument 'no file is named for PROOF' 'varisat_check CNF PROOF [LRAT] [--quiet] [--verbose]' unit.cnf
  misused four_arguments 'unexpected argument: more.lrat' 'varisat_check CNF PROOF [LRAT] [--quiet] [--verbose]' unit.cnf end.proof hints.lrat more.lrat
  wanted hints 0 's UNSATISFIABLE' '' par10.cnf par10.whole.proof hints.lrat
  refused hints_of_a_refused_proof nothing.proof 'step 1: Unexpected end of proof file' unit.cnf nothing.proof hints.lrat
  wanted missing_formula 2 '' $'cannot open absent.cnf\nNo such file or directory (os error 2)' absent.cnf absent.proof
  wanted missing_proof 2 '' $'cannot open absent.proof\nNo such file or directory (os error 2)' malformed.cnf absent.proof
  # odd formulas: a CR is a blank; a byte order mark, a NUL byte and compressed text are no numbers
  four=(1\ 2 1\ -2 -1\ 2 -1\ -2)
  printf 'p cnf 2 4\r\n' > "$work/files/cr_lf.cnf"
  printf '%s 0\r\n' "${four[@]}" >> "$work/files/cr_lf.cnf"
  printf '\x09\x01\x06\x00\x01\x00\x02\x01\x00\x06\x00\x00\x02\x00\x01\x0d' > "$work/files/four.proof"
  printf '\xef\xbb\xbf1 0\n' > "$work/files/byte_order_mark.cnf"
  printf '1 0\n\x00\n-1 0\n' > "$work/files/nul.cnf"
  printf '1 0\n-1 0\n' | gzip -n > "$work/files/compressed.cnf"
  wanted cr_lf 0 's UNSATISFIABLE' '' cr_lf.cnf four.proof
  begun_as byte_order_mark byte_order_mark.cnf 'text with a byte order mark' 'line 1: bad number' byte_order_mark.cnf end.proof
  misspelled nul_byte nul.cnf 'line 2: bad number' '\x00' nul.cnf end.proof
  begun_as compressed compressed.cnf 'a gzip file' 'line 1: bad number' compressed.cnf end.proof
  wanted empty_formula 3 's NOT SHOWN' '' nothing.proof end.proof
  refused folder / 'error reading formula: Is a directory (os error 21)' / end.proof
  # odd proofs
  refused empty_proof nothing.proof 'step 1: Unexpected end of proof file' cr_lf.cnf nothing.proof
  begun_as byte_order_mark_in_proof byte_order_mark.cnf 'text with a byte order mark' 'step 1: Could not parse proof step: unknown step tag' unit.cnf byte_order_mark.cnf
  begun_as compressed_proof compressed.cnf 'a gzip file' 'step 1: Could not parse proof step: unknown step tag' unit.cnf compressed.cnf
  refused nul_bytes_in_proof /dev/zero 'step 1: Could not parse proof step: unknown step tag' unit.cnf /dev/zero
  begun_as text_as_proof unit.cnf 'DRAT text' 'step 1: Could not parse proof step: unknown step tag' unit.cnf unit.cnf
  refused folder_as_proof / 'step 1: Error reading proof file: Is a directory (os error 21)' unit.cnf /
  wanted folder_for_hints 2 '' $'cannot open /\nIs a directory (os error 21)' unit.cnf end.proof /
  run_cases varisat_check_main
  compare
}

case_hint_check() {
  # refuted NAME CNF: the hints are verified; they are not without their last line; and they are
  # refused where the last hint of that line is its first one, whose clause has a true literal by
  # then
  refuted() {
    local lrat=$1.lrat
    wanted "$1_hints" 0 's VERIFIED UNSAT' '' "$2" "$lrat"
    head -n -1 "$work/files/$lrat" > "$work/files/short.$lrat"
    wanted "$1_hints_short" 3 's NOT VERIFIED' '' "$2" "short.$lrat"
    sed '$s/^\([0-9]* 0 \([0-9]*\) .*\) [0-9]* 0$/\1 \2 0/' "$work/files/$lrat" > "$work/files/changed.$lrat"
    refused "$1_hints_changed" "changed.$lrat" \
      "line $(wc -l < "$work/files/$lrat"): hints end without a conflict" "$2" "changed.$lrat"
  }

  begin
  for proof in "${proofs[@]}"; do
    refuted "$proof" "${proof%%_*}.cnf"
  done
  # as other programs write them
  refuted par10 par10.cnf
  refuted board6 board6.cnf
  misspelled malformed_formula malformed.cnf 'formula: line 2: bad number' x malformed.cnf par10.lrat
  refused malformed_hints malformed.lrat 'line 1: malformed line' unit.cnf malformed.lrat
  wanted read_plain 0 's VERIFIED UNSAT' '' four.cnf plain.lrat
  wanted read_doubled 0 's VERIFIED UNSAT' '' four.cnf doubled.lrat
  wanted read_plain_ids 0 's VERIFIED UNSAT' '' --ids plain four.cnf plain.lrat
  begun_as read_other_ids plain.lrat "$binaries" 'line 1: malformed line' --ids=doubled four.cnf plain.lrat
  begun_as read_cut cut.lrat "$binaries" 'line 2: malformed line' four.cnf cut.lrat
  begun_as read_binary_drat binary.drat "$binaries" 'line 1: malformed line' four.cnf binary.drat
  misused no_arguments 'no file is named for CNF' 'hint_check CNF LRAT [--ids WAY] [--quiet] [--verbose]'
  wanted example 0 's VERIFIED UNSAT' '' --example
  wanted help 0 'usage: hint_check CNF LRAT [--ids WAY] [--quiet] [--verbose]

Check lines of hints over a formula, and print the verdict.

operands:
  CNF           the formula, DIMACS text; - is standard input
  LRAT          the lines, LRAT, text or binary; - is standard input

options:
  --ids WAY     encoding of ids in a binary proof, plain or doubled (default: detected)
  --quiet       no progress output, not even on a terminal
  --verbose     print progress to standard error twice a second
  --example     check a small fixed example, in place of files
  --help        show this help
  --version     show the version

exit status:
  0             s VERIFIED UNSAT: no assignment satisfies the formula
  1             no verdict: a file is malformed or rejected, or a read, a write or an allocation failed; the reason is on standard error
  2             wrong arguments, or a file that can'"'"'t be opened
  3             s NOT VERIFIED: no line adds the empty clause

environment:
  RUST_LOG      level of the log on standard error, as info (default: no log)

examples:
  check lines of hints:
      hint_check formula.cnf proof.lrat
  check a proof in varisat'"'"'s format, and once more by its hints:
      varisat_check formula.cnf proof.bytes proof.lrat && hint_check formula.cnf proof.lrat' '' --help
  wanted version 0 'hint_check 0.4.0 (built from sources)' '' --version
  misused one_argument 'no file is named for LRAT' 'hint_check CNF LRAT [--ids WAY] [--quiet] [--verbose]' unit.cnf
  misused three_arguments 'unexpected argument: more.lrat' 'hint_check CNF LRAT [--ids WAY] [--quiet] [--verbose]' unit.cnf par10.lrat more.lrat
  misused other_ids '--ids takes plain or doubled' 'hint_check CNF LRAT [--ids WAY] [--quiet] [--verbose]' --ids odd unit.cnf par10.lrat
  wanted missing_formula 2 '' $'cannot open absent.cnf\nNo such file or directory (os error 2)' absent.cnf absent.lrat
  wanted missing_hints 2 '' $'cannot open absent.lrat\nNo such file or directory (os error 2)' malformed.cnf absent.lrat
  run_cases hint_check_main
  compare
}

try_cases
