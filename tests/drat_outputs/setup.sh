# shellcheck shell=bash disable=SC2034,SC2154
# What the tests of what `drat_check` writes share. The programs must be built: `rt ci` does it, or
# `rt run` in their folders.
check=$(built drat_check)
lrat_check=$(built lrat_check)
cd "$work" || exit

# given: the formula f and the proof p
given() {
  printf 'p cnf 4 5\n1 2 0\n1 -2 0\n-1 2 0\n-1 -2 0\n3 4 0\n' > f
  printf '1 0\nd 1 2 0\n0\n' > p
}

# wants STATUS OUTPUT ERRORS ARGUMENT..: a run over the formula f and the proof p must do this, and
# leave both as they are
wants() {
  local status=0
  given
  cp f f.before
  cp p p.before
  ln -f p hard
  ln -sf f soft
  "$check" "${@:4}" > out 2> err || status=$?
  if [[ $status == "$1" && $(cat out) == "$2" && $(cat err) == "$3" ]] && cmp -s f f.before && cmp -s p p.before; then
    echo "ok    ${*:4}"
  else
    fault "${*:4}: status $status, output '$(cat out)', errors '$(cat err)'"
  fi
}

# empty FILE..: the files are there, and nothing is in them
empty() {
  local file
  for file; do
    [[ -f $file && ! -s $file ]] || fault "$file is not there, or not empty"
  done
}

# keep FILE..: something stands in the files
keep() {
  local file
  for file; do
    printf kept > "$file"
  done
}

# kept WHAT FILE..: that stands there still
kept() {
  local file
  for file in "${@:2}"; do
    [[ $(cat "$file") == kept ]] || fault "$1: $file is not as it was"
  done
}

# alone WHAT FILE..: no file stands beside these that is not whole
alone() {
  local file
  for file in "${@:2}"; do
    [[ -z $(compgen -G "$file.*.new") ]] || fault "$1: $(compgen -G "$file.*.new") is left"
  done
}

# clauses FILE: the clauses of a text with one on each line, in the order of their text
clauses() {
  grep -v '^[pc]' "$1" | sort
}

# counts: what the lines and the core that were written have
counts() {
  awk '
    $2 != "d" {
      lemmas++
      redundant = given = 0
      for (i = 2; $i != "0"; i++);
      for (i++; $i != "0"; i++) {
        hints++
        if ($i < 0) redundant = 1
        given = 1
      }
      # without hints nothing follows: no clause has the negation of the first literal
      if (!given) redundant = 1
      all_redundant += redundant
    }
    END { printf "c lemmas %d\nc rat_lemmas %d\nc hints %d\n", lemmas, all_redundant, hints }
  ' lrat
  echo "c core_clauses $(clauses core | wc -l)"
}

# outputs NAME CNF PROOF: both outputs, and each alone, say what they should
outputs() {
  local name=$1 said
  rm -f lrat trim core lrat.alone trim.alone core.alone
  said=$("$check" "$2" "$3" --lrat lrat --trim trim --core core --stats 2> err) || true
  [[ $said == 's VERIFIED UNSAT' ]] || fault "$name: $said $(cat err)"
  [[ $(grep -Ev '^c (steps|seconds|memory_kb) ' err) == "$(counts)" ]] || fault "$name: counted $(cat err), and not $(counts)"
  said=$("$lrat_check" "$2" lrat 2> err) || true
  [[ $said == 's VERIFIED UNSAT' ]] || fault "$name, its lines: $said $(cat err)"
  [[ -z $(comm -13 <(clauses "$2") <(clauses core)) ]] || fault "$name: the core has clauses of its own"
  [[ $(awk '$1 == "p" { print $4 }' core) == $(clauses core | wc -l) ]] || fault "$name: the core's header"
  said=$("$check" core "$3" 2> err) || true
  [[ $said == 's VERIFIED UNSAT' ]] || fault "$name, its core by the same proof: $said $(cat err)"
  python3 -B "$top/tests/drat/trimmed.py" "$2" lrat | cmp -s - trim || fault "$name: the steps are not those of the lines"
  said=$("$check" "$2" trim 2> err) || true
  [[ $said == 's VERIFIED UNSAT' ]] || fault "$name, its steps: $said $(cat err)"
  said=$("$check" core trim --trim trim.alone 2> err) || true
  [[ $said == 's VERIFIED UNSAT' ]] || fault "$name, its steps after the core: $said $(cat err)"
  (($(grep -vc '^d' trim.alone) <= $(grep -vc '^d' trim))) || fault "$name: more steps than those that were given"
  said=$("$check" "$2" "$3" --trim trim.alone 2> err) || true
  [[ $said == 's VERIFIED UNSAT' ]] && cmp -s trim trim.alone || fault "$name, the steps alone: $said $(cat err)"
  said=$("$check" "$2" "$3" --core core.alone 2> err) || true
  [[ $said == 's VERIFIED UNSAT' ]] && cmp -s core core.alone || fault "$name, the core alone: $said $(cat err)"
  said=$("$check" "$2" "$3" --lrat lrat.alone 2> err) || true
  [[ $said == 's VERIFIED UNSAT' ]] && cmp -s lrat lrat.alone || fault "$name, the lines alone: $said $(cat err)"
}

# binary_lines NAME CNF PROOF: after `outputs`, the same lines as bytes
binary_lines() {
  local name=$1 said
  said=$("$check" "$2" "$3" --lrat lrat.binary --binary 2> err) || true
  [[ $said == 's VERIFIED UNSAT' ]] || fault "$name, as bytes: $said $(cat err)"
  python3 -B "$top/tests/lrat_fuzz/as_binary.py" lrat | cmp - lrat.binary || fault "$name: the bytes are not those of the text's lines"
  said=$("$lrat_check" "$2" lrat.binary 2> err) || true
  [[ $said == 's VERIFIED UNSAT' ]] || fault "$name, its bytes: $said $(cat err)"
  if (($(stat -c %s lrat) > 10000 && 2 * $(stat -c %s lrat.binary) > $(stat -c %s lrat))); then
    fault "$name: $(stat -c %s lrat.binary) bytes, and $(stat -c %s lrat) of text"
  fi
}

given
printf '1 x 0\n' > malformed
printf '1 2 0\n1 -2 0\n-1 3 0\n' > three
printf '1 0\nd 1 2 0\n' > piece
printf '3 -1 0\n1 0\n' > next
printf '1 0\n1 2 0\n' > gone
