# shellcheck shell=bash disable=SC2154,SC2034
# The programs that judge claims, follows_check, minimal_check and circuit_check. Read by tests/failing_files.sh.

# read_everywhere NAME STATUS LINE FAULTS COMMAND..: byte by byte, with each read failing in turn. A run with a failed read says one of the
# faults, `|` between them, and nothing else; each of them comes. Once no read fails, the line does.
read_everywhere() {
  local name=$1 wanted=$2 line=$3 faults=$4 read met='' fault
  for ((read = 1; read < 400; read++)); do
    failing "SHORT_READS=1 FAIL_READ=$read" "${@:5}"
    if [[ $status == "$wanted" ]]; then
      wants "$name, read $read" "$wanted" "$line" ''
      break
    fi
    fault=$(sed -n '1s/: Input\/output error (os error 5)$//p' "$work/err")
    if [[ $status != 1 || -s $work/out || ! $fault || "|$faults|" != *"|$fault|"* ]]; then
      wants "$name, read $read" 1 '' "one of $faults"
    fi
    met+="|$fault"
  done
  while IFS= read -r fault; do
    if [[ "$met|" != *"|$fault|"* ]]; then
      echo "WRONG $name: never '$fault'"
      wrong=1
    fi
  done < <(tr '|' '\n' <<< "$faults")
}

# write_claims: the files that the programs read. No proof is that of a formula which unit propagation refutes.
write_claims() {
  mkdir -p "$work/claims"
  cd "$work/claims" || exit
  printf 'p cnf 2 4\n1 2 0\n1 -2 0\n-1 2 0\n-1 -2 0\n' > cnf
  printf 'p cnf 2 2\n1 0\n2 0\n' > claims
  printf '1 0\n0\n' > proof
  printf -- '-1 -2 0\n-1 2 0\n1 -2 0\n1 2 0\n' > models
  # two inputs, and for each the conjunction of it with its negation; two circuits of one gate
  printf 'aig 4 2 0 2 2\n6\n8\n\3\1\3\1' > never.aig
  printf -- '-4 0\n0\n' > never
  printf 'aig 3 2 0 1 1\n6\n\2\2' | tee one.aig > two.aig
  printf -- '-5 0\n4 0\n3 0\n2 0\n0\n' > same
  printf 'aig 3 2 0 1 1\n0\n\2\2' > none.aig
  printf 's SATISFIABLE\nv 2 3 0\n' > answer
  # a latch that has the input of the last step is bad
  printf 'aig 2 1 1 0 0 1\n2\n4\n' > machine.aig
  printf '1\nb0\n0\n1\n0\n.\n' > stimulus
}

fail_reads_of_claims() {
  local formula='formula: error reading formula' proof='proof: error reading proof'
  write_claims
  read_everywhere 'claims' 20 's VERIFIED FOLLOWS' "$formula|claims: error reading formula|$proof" "$follows" cnf claims proof
  read_everywhere 'minimal' 0 's VERIFIED MINIMAL' "$formula|$proof|models: error reading formula" "$minimal" cnf proof models
  read_everywhere 'never' 0 's VERIFIED NEVER' "circuit: error reading circuit|$proof" "$circuit" never never.aig --proof never
  read_everywhere 'same' 0 's VERIFIED SAME' "circuit: error reading circuit|second circuit: error reading circuit|$proof" \
    "$circuit" same one.aig two.aig --by-position --proof same
  read_everywhere 'possible' 0 $'s VERIFIED POSSIBLE\ni 11\no 1' "circuit: error reading circuit|answer: error reading answer" \
    "$circuit" never one.aig --answer answer
  read_everywhere 'different' 0 $'s VERIFIED DIFFERENT\ni 11\no 1\no 0' \
    "circuit: error reading circuit|second circuit: error reading circuit|answer: error reading answer" \
    "$circuit" same one.aig none.aig --by-position --answer answer
  read_everywhere 'reached' 0 's VERIFIED REACHED' "circuit: error reading circuit|stimulus: error reading stimulus" \
    "$circuit" safe machine.aig --stimulus stimulus
}

# Where a line or the formula for the solver can't be written whole, the status is 1, and no file is left.
fail_writes_of_claims() {
  local space='No space left on device (os error 28)' full write call
  full="error writing: $space"
  failing 'FAIL_WRITE=1' "$follows" cnf claims proof
  wants 'the line of claims' 1 '' "$full"
  failing 'FAIL_WRITE=1' "$minimal" cnf proof models
  wants 'the line of a core' 1 '' "$full"
  failing 'FAIL_WRITE=1' "$circuit" never never.aig --proof never
  wants 'the line of a circuit' 1 '' "$full"
  failing 'FAIL_WRITE=1' "$circuit" same one.aig two.aig --by-position --proof same
  wants 'the line of two circuits' 1 '' "$full"
  failing 'FAIL_WRITE=1' "$circuit" never one.aig --answer answer
  wants 'the lines of an answer' 1 '' "$full"
  failing 'FAIL_WRITE=1' "$circuit" safe machine.aig --stimulus stimulus
  wants 'the line of a stimulus' 1 '' "$full"
  for call in "$follows cnf claims" "$circuit never never.aig" "$circuit same one.aig two.aig --by-position"; do
    # shellcheck disable=SC2086 # several words
    failing '' $call --formula whole
    wants 'a formula for the solver' 0 '' ''
    for ((write = 1; write <= $(stat -c %s whole); write++)); do
      # shellcheck disable=SC2086
      failing "SHORT_WRITES=1 FAIL_WRITE=$write" $call --formula asked
      if [[ $status != 1 || -s $work/out || $(head -n 1 "$work/err") != *"$space" || -e asked || $(compgen -G 'asked.*') ]]; then
        wants "byte $write of a formula for the solver" 1 '' "$full"
      fi
    done
    # shellcheck disable=SC2086
    failing 'SHORT_WRITES=1' $call --formula asked
    cmp asked whole || wrong=1
    rm -f asked
  done
}

# Without standard input, output and error, and with files that never end.
close_streams_of_claims() {
  local mask
  for mask in 0 1 2 3 4 5 6 7; do
    closed "$mask" "$follows" cnf claims proof
    judged "$mask" follows_check 's VERIFIED FOLLOWS' '' 20
    closed "$mask" "$minimal" cnf proof models
    judged "$mask" minimal_check 's VERIFIED MINIMAL' ''
    closed "$mask" "$circuit" never never.aig --proof never
    judged "$mask" circuit_check 's VERIFIED NEVER' ''
    closed "$mask" "$circuit" same one.aig two.aig --by-position --formula asked
    judged "$mask" 'circuit_check --formula' '' ''
    cmp asked whole || wrong=1
    rm -f asked
  done
}

bound_reads_of_claims() {
  local circuits
  too_large 'an endless formula, by follows_check' /dev/zero 'formula: error reading formula' "$follows" /dev/zero claims proof
  too_large 'endless claims' /dev/zero 'claims: error reading formula' "$follows" cnf /dev/zero proof
  too_large 'an endless answer, by follows_check' /dev/zero 'answer: error reading answer' "$follows" cnf claims /dev/zero --answer
  too_large 'an endless core' /dev/zero 'formula: error reading formula' "$minimal" /dev/zero proof models
  failing '' "$circuit" never /dev/zero --proof never
  wants 'an endless circuit' 1 '' 'circuit: line 1: no header of an AIGER file'
  failing '' "$circuit" never one.aig --answer /dev/zero
  wants 'an endless answer, by circuit_check' 1 '' 'answer: line 1: malformed'
  for circuits in '/dev/zero two.aig|circuit' 'one.aig /dev/zero|second circuit'; do
    # shellcheck disable=SC2086 # several words
    failing "MEMORY=$work/little" bash -c 'ulimit -v 1000000; exec "$0" "$@"' "$circuit" same ${circuits%|*} --proof same
    wants "endless circuits: $circuits" 1 '' "${circuits#*|}: error reading circuit: file too large"$'\n''only a regular file may be larger than half of the free memory'
  done
}
