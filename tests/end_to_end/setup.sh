# shellcheck shell=bash disable=SC2034,SC2154
# What the tests of runs on files share: cases, each with what it must write, and the files. The
# programs must be built: `rt ci` does it, or `rt run` in their folders.
mkdir "$work/files"
cp "$top"/tests/data/*.cnf "$top"/tests/data/*.proof "$top"/tests/data/*.lrat "$work/files"
names=()

# begin: no cases yet
begin() {
  names=()
  rm -rf "$work/cases" "$work/want"
  mkdir "$work/cases" "$work/want"
}

# wanted NAME STATUS OUTPUT ERRORS [ARGUMENT..]: a run with these arguments, and what it must do
wanted() {
  local name=$1 status=$2 output=$3 errors=$4
  shift 4
  names+=("$name")
  printf '%s\n' "$status" "$output" "$errors" > "$work/want/$name"
  : > "$work/cases/$name"
  if (($# > 0)); then
    printf '%s\n' "$@" > "$work/cases/$name.args"
  fi
}

# refused NAME FILE ERROR ARGUMENT..: a run with these arguments that is refused for a fault of the
# file
refused() {
  wanted "$1" 1 '' "$3"$'\n'"in $2" "${@:4}"
}

# misspelled NAME FILE ERROR PART ARGUMENT..: the same of a formula, in which this word or header is
# wrong
misspelled() {
  wanted "$1" 1 '' "$3"$'\n'"in $2"$'\n'"${3##*: }: $4" "${@:5}"
}

# misused NAME WHY CALL ARGUMENT..: a call that can't be read, with the words of how it is made
misused() {
  wanted "$1" 2 '' "$2"$'\nusage: '"$3"$'\n'"${3%% *} --help says more" "${@:4}"
}

# begun_as NAME FILE KIND ERROR ARGUMENT..: one that is refused for a file which begins as one of
# this kind
begun_as() {
  wanted "$1" 1 '' "$4"$'\n'"$2 begins as $3" "${@:5}"
}

# run_cases CRATE: runs the program that was built on the cases, each in a folder with the files as
# they were
run_cases() {
  local program="$top/crates/$1/out/$1" name args
  if [[ ! -x "$program" ]]; then
    echo "not built: $program"
    exit 1
  fi
  rm -rf "$work/ran"
  mkdir "$work/ran"
  for name in "${names[@]}"; do
    args=()
    if [[ -e "$work/cases/$name.args" ]]; then
      mapfile -t args < "$work/cases/$name.args"
    fi
    rm -rf "$work/room"
    cp -r "$work/files" "$work/room"
    # both go through a pipe, so that a program that opens one of them as a file does not cut off
    # what stands there
    {
      {
        (cd "$work/room" && exec "$program" "${args[@]}") < "$work/cases/$name" 2>&1 1>&3 && echo 0 > "$work/ran/$name.status" ||
          echo "$?" > "$work/ran/$name.status"
      } | cat > "$work/ran/$name.err"
    } 3>&1 | cat > "$work/ran/$name.out"
  done
}

# compare: each case with what it must do
compare() {
  local name status output errors
  for name in "${names[@]}"; do
    status=$(cat "$work/ran/$name.status")
    output=$(cat "$work/ran/$name.out")
    errors=$(cat "$work/ran/$name.err")
    if printf '%s\n' "$status" "$output" "$errors" | cmp -s - "$work/want/$name"; then
      echo "ok    $name"
    else
      echo "WRONG $name: status $status, output '$output', errors '$errors'"
      wrong=1
    fi
  done
}

# change FILE OFFSET BYTE: a copy of the file with another byte at the offset
change() {
  local copy="$work/files/changed.$1"
  cp "$work/files/$1" "$copy"
  printf "\\x$3" | dd of="$copy" bs=1 seek="$2" conv=notrunc status=none
}

# shorten FILE: a copy of the file without its last byte
shorten() {
  head -c -1 "$work/files/$1" > "$work/files/short.$1"
}

# refutes NAME KIND STEPS AT OFFSET BYTE: the proof of this many steps is accepted, and refused
# where its last byte is missing or where the first hash, in the step AT and at the offset, begins
# with another byte
refutes() {
  local cnf=$1.cnf proof=$1.$2.proof
  wanted "$1_$2" 0 's UNSATISFIABLE' '' "$cnf" "$proof"
  shorten "$proof"
  refused "$1_$2_short" "short.$proof" "step $3: Unexpected end of proof file" "$cnf" "short.$proof"
  change "$proof" "$5" "$6"
  refused "$1_$2_changed" "changed.$proof" "step $4: Checking proof failed: no clause found for hash" \
    "$cnf" "changed.$proof"
}

printf '1 2 0\n1 x 0\n' > "$work/files/malformed.cnf"
printf '1 0\n' > "$work/files/unit.cnf"
printf '\x05\x00\x0d' > "$work/files/empty_clause.proof"
printf '\x0d' > "$work/files/end.proof"
: > "$work/files/nothing.proof"
printf '5 0 1\n' > "$work/files/malformed.lrat"
: > "$work/files/nothing.lrat"
# four clauses, one against each pair of values of two variables; binary LRAT that refutes them,
# with ids of either form, and cut off; and binary DRAT
printf 'p cnf 2 4\n1 2 0\n1 -2 0\n-1 2 0\n-1 -2 0\n' > "$work/files/four.cnf"
printf 'a\x0a\x02\x00\x02\x04\x00a\x0c\x00\x0a\x06\x08\x00' > "$work/files/doubled.lrat"
printf 'a\x05\x02\x00\x02\x04\x00a\x06\x00\x0a\x06\x08\x00' > "$work/files/plain.lrat"
printf 'a\x02\x00a\x00' > "$work/files/binary.drat"
printf 'a\x05\x02\x00\x02\x04\x00a\x06\x00\x0a' > "$work/files/cut.lrat"
binaries='binary LRAT or binary DRAT'

# The hints of each proof, written to standard error.
begin
proofs=()
for file in "$top"/tests/data/*.proof; do
  proof=${file##*/}
  name=${proof%.proof}
  name=${name/./_}
  proofs+=("$name")
  wanted "$name" 0 's UNSATISFIABLE' '' "${proof%%.*}.cnf" "$proof" /dev/stderr
done
run_cases varisat_check_main
for proof in "${proofs[@]}"; do
  grep -E '^[0-9]+ ' "$work/ran/$proof.err" > "$work/files/$proof.lrat"
  if [ "$(cat "$work/ran/$proof.out")" != 's UNSATISFIABLE' ]; then
    echo "WRONG $proof: no verdict beside its hints"
    wrong=1
  fi
done
