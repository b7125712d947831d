#!/usr/bin/env bash
# Runs the programs with files of other kinds than they read, with words that are none, with headers
# that say something else than the formula, and with all that an answer or a claim may be.
set -euo pipefail
. "$(dirname "$0")/lib.sh"
# shellcheck source=SCRIPTDIR/named_files/setup.sh
. "$top/tests/named_files/setup.sh"

# A file of another kind is named, as a formula and as a proof; a proof that begins with a is read
# as a binary one.
case_kinds() {
  while IFS='|' read -r text fault step kind; do
    printf '%b' "$text" > other
    wants 1 '' "formula: $fault"$'\n'"other begins as $kind" "$drat_check" other ends
    wants 1 '' "proof: step 1: $step"$'\n'"other begins as $kind" "$drat_check" f other
  done << 'END'
aag 1 1 0 1 0\n2\n2\n|line 1: bad number|unfinished|an AIGER circuit
<!DOCTYPE html>\n|line 1: bad number|malformed|an HTML page
(set-logic QF_BV)\n|line 1: bad number|malformed|SMT-LIB text
# formula\np cnf 1 1\n1 0\n|line 1: bad number|malformed|text with # comments
\xef\xbb\xbfp cnf 1 1\n1 0\n|line 1: bad number|malformed|text with a byte order mark
c cubes\np inccnf\n1 0\na 1 0\n|line 2: bad header|malformed|a formula with cubes (p inccnf)
p wcnf 1 1 2\n2 1 0\n|line 1: bad header|malformed|a weighted formula (p wcnf)
p knf 2 1\nk 1 1 2 0\n|line 1: bad header|malformed|a formula with cardinality constraints (p knf)
p cnf 2 1\nx1 2 0\n|line 2: bad number|malformed|a formula with XOR clauses
c solver\nc\ns UNSATISFIABLE\n|line 3: bad number|malformed|what a solver prints
s SATISFIABLE\nv 1 0\n|line 1: bad number|malformed|what a solver prints
END
  printf 's UNSATISFIABLE\n' > other
  wants 1 '' $'proof: line 1: malformed line\nother begins as what a solver prints' "$lrat_check" f other
  wants 1 '' $'answer: line 1: the answer is UNSATISFIABLE\nin other' "$model_check" units other
  printf '5 1 0 1 2 0\n5 d 1 0\n' > other
  wants 1 '' $'proof: step 3: malformed\nother begins as LRAT text' "$drat_check" f other
  wants 1 '' $'step 1: Could not parse proof step: unknown step tag\nother begins as LRAT text' "$check" f other
  wants 1 '' $'proof: line 1: id is taken\nin other' "$lrat_check" f other
  wants 1 '' $'formula: line 2: bad number\nin other\nbad number: d' "$drat_check" other ends
}

# The word or the header that is wrong in a formula, as far as it can be read again.
case_wrong_words() {
  while IFS='|' read -r text fault part; do
    printf '%b' "$text" > wrong
    wants 1 '' "formula: $fault"$'\nin wrong\n'"${fault#*: }: $part" "$drat_check" wrong ends
    wants 1 '' "formula: $fault"$'\nin standard input' from wrong "$drat_check" - ends
  done << 'END'
p cnf 2 1\n1 2 x3 0\n|line 2: bad number|x3
1 2 0\n1 -0 y 0\n|line 2: bad number|-0
1\t+2 0|line 1: bad number|+2
1 2 0 c at most\n|line 1: bad number|c
1 2-3 0\n|line 1: bad number|2-3
1 \x01\xff\x22 0\n|line 1: bad number|\x01\xff\"
1 0\n-00268435456 268435457 0\n|line 2: variable too large|268435457
-99999999999999999999999 x 0\n|line 1: variable too large|-99999999999999999999999
1 aaaaaaaaabbbbbbbbbbccccccccccddddddddddeeeeeeeeeefffffffff 0|line 1: bad number|aaaaaaaaabbbbbbbbbbccccccccccddddddddddeeeeeeeeeefffffffff
1 aaaaaaaaaabbbbbbbbbbccccccccccddddddddddeeeeeeeeeeffffffffff 0|line 1: bad number|aaaaaaaaaabbbbbbbbbbccccccccccddddddddddeeeeeeeeeeffffffffff
1 aaaaaaaaaabbbbbbbbbbccccccccccddddddddddeeeeeeeeeeffffffffffg 0|line 1: bad number|aaaaaaaaaabbbbbbbbbbccccccccccddddddddddeeeeeeeeeeffffffffff..
c\n p cnf 2 \r\n|line 2: bad header|p cnf 2
p cnf 1 1\np show 1 0\n|line 2: late header|p show 1 0
END
  printf '1 x 0\n' > wrong
  wants 1 '' $'line 1: bad number\nin wrong\nbad number: x' "$check" wrong ends
  for program in "$hint_check" "$lrat_check"; do
    wants 1 '' $'formula: line 1: bad number\nin wrong\nbad number: x' "$program" wrong ends
  done
  echo '1 0' > answer
  wants 1 '' $'formula: line 1: bad number\nin wrong\nbad number: x' "$model_check" wrong answer
  wants 1 '' $'formula: line 1: bad number\nin wrong\nbad number: x' "$convert" wrong ends new
  wants 1 '' $'formula: line 1: bad number\nin wrong\nbad number: x' "$(built drat_cut)" wrong ends new
  printf '1 2' > wrong
  wants 1 '' $'formula: line 1: unterminated clause\nin wrong' "$lrat_check" wrong ends
}

# A word that is no text.
case_no_text() {
  for word in $'f\xff' $'\xc3'; do
    shown=$(printf '%s' "$word" | sed 's/\xff/\\xff/;s/\xc3/\\xc3/')
    wants 2 '' "word 2 of the call is not UTF-8: $shown"$'\ninvalid data\nusage: lrat_check CNF LRAT [--ids WAY] [--holds FILE] [--receipt FILE] [--stats] [--json] [--quiet] [--verbose]\nlrat_check --help says more' \
      "$lrat_check" l "$word"
  done
}

# A header that says something else than what was read is told of on standard error, after all else,
# and changes nothing.
case_headers() {
  for said in '27 74' '28 73' '28 75' '0 0' '99 1'; do
    retold "p cnf $said"
    lies "$said" '28 74' f.told
    wants 0 's UNSATISFIABLE' "$warning" "$check" f.told p
    wants 0 's UNSATISFIABLE' "$warning" "$check" f.told p new
    wants 0 's VERIFIED UNSAT' "$warning" "$lrat_check" f.told l
    wants 0 's VERIFIED UNSAT' "$warning" "$hint_check" f.told new
    wants 0 's VERIFIED UNSAT' "$warning" "$drat_check" f.told d
    wants 0 '' "$warning" "$convert" f.told l bytes
    wants 0 's UNSATISFIABLE' '' "$check" f bytes
  done
  lies '99 1' '28 74' 'standard input'
  for way in from piped; do
    wants 0 's VERIFIED UNSAT' "$warning" "$way" f.told "$lrat_check" - l
  done
  # more variables may be said than there are, and a header may be absent
  retold 'p cnf 29 74'
  wants 0 's VERIFIED UNSAT' '' "$lrat_check" f.told l
  retold 'c none'
  wants 0 's VERIFIED UNSAT' '' "$lrat_check" f.told l
  # no verdict, a refused proof, and a formula that is not read to its end, whose header nothing is
  # said of
  retold 'p cnf 28 75'
  lies '28 75' '28 74' f.told
  wants 3 's NOT VERIFIED' "$warning" "$lrat_check" f.told nothing
  wants 3 's NOT VERIFIED' "$warning" "$hint_check" f.told nothing
  wants 3 's NOT VERIFIED' "$warning" "$drat_check" f.told nothing
  wants 1 '' $'proof: line 1: malformed line\nin x\n'"$warning" "$lrat_check" f.told x
  echo x >> f.told
  wants 1 '' $'formula: line 77: bad number\nin f.told\nbad number: x' "$lrat_check" f.told l
}

# The same of a formula with an answer; a clause that is not met is named with its line, wherever
# the formula comes from.
case_answers() {
  mkfifo pipe
  through_pipe() {
    local status=0
    cat f.told > pipe &
    "$@" || status=$?
    wait
    return "$status"
  }
  for said in '1 2' '2 1' '9 0'; do
    printf 'c\np cnf %s\n1 -2 0 2\n-1 0\n' "$said" > f.told
    unmet='formula: line 4: clause 2 has no literal of the answer'
    lies "$said" '2 2' f.told
    wants 0 's VERIFIED SAT' "$warning" "$model_check" f.told a
    wants 3 's NOT VERIFIED' "$unmet"$'\n'"$warning" "$model_check" f.told b
    wants 1 '' $'answer: line 1: malformed\nin x' "$model_check" f.told x
    lies "$said" '2 2' pipe
    wants 3 's NOT VERIFIED' "$unmet"$'\n'"$warning" through_pipe "$model_check" pipe b
    lies "$said" '2 2' 'standard input'
    for way in from piped; do
      wants 0 's VERIFIED SAT' "$warning" "$way" f.told "$model_check" - a
      wants 3 's NOT VERIFIED' "$unmet"$'\n'"$warning" "$way" f.told "$model_check" - b
    done
  done
  # a formula that has fewer clauses than its header says, or neither a header nor a clause, has no
  # verdict
  cut='formula: it ends after 2 of 3 clauses'
  printf 'c\np cnf 2 3\n1 -2 0 2\n-1 0\n' > f.told
  for answer in a b; do
    wants 1 '' "$cut"$'\nin f.told' "$model_check" f.told "$answer"
    for way in from piped; do
      wants 1 '' "$cut"$'\nin standard input' "$way" f.told "$model_check" - "$answer"
    done
  done
  wants 1 '' $'formula: it has neither a header nor a clause\nin nothing' "$model_check" nothing a
  printf 'p cnf 0 0\n' > f.told
  wants 0 's VERIFIED SAT' '' "$model_check" f.told a
  printf '1 0\n' > f.told
  wants 0 's VERIFIED SAT' '' "$model_check" f.told a
  printf 'p cnf 2 1\n1 2 0\n' > f.told
  for way in from piped; do
    wants 0 's VERIFIED SAT' '' "$way" a "$model_check" f.told -
  done
  cp f.told f.right
  echo x >> f.told
  wants 1 '' $'formula: line 3: bad number\nin f.told\nbad number: x' "$model_check" f.told a

  ln -sf a soft_a
  wants 0 's VERIFIED SAT' '' "$model_check" f.right soft_a
  wants 2 '' $'cannot open absent\nNo such file or directory (os error 2)' "$model_check" absent a
}

# Claims: the formula for the solver is no file that is read, nor one of standard output or error;
# standard input is one of two files; and headers that say something else are told of, each of its
# file.
case_claims() {
  printf 'p cnf 2 2\n1 2 0\n-1 2 0\n' > options
  printf 'p cnf 2 1\n2 0\n' > claims
  printf 'p cnf 1 2\n1 0\n-1 0\n' > core
  printf -- '-1 0\n1 0\n' > models
  printf '0\n' > refuted
  printf '1 x 0\n' > wrong
  ln -f claims hard_claims
  ln -sf options soft_options
  for output in options claims ./claims "$PWD/options" hard_claims soft_options; do
    wants 2 '' "cannot open $output"$'\n''the output is a file that is read' "$follows" options claims --formula "$output"
  done
  wants 2 '' $'cannot open out\nthe output is the file of standard output' "$follows" options claims --formula out
  wants 2 '' $'cannot open err\nthe output is the file of standard error' "$follows" options claims --formula err
  wants 2 '' $'cannot open -\n- is standard input, and no output' "$follows" options claims --formula -
  wants 2 '' $'cannot open absent\nNo such file or directory (os error 2)' "$follows" options absent --formula never
  wants 2 '' $'cannot open absent\nNo such file or directory (os error 2)' "$minimal" core refuted absent
  wants 2 '' $'cannot open absent\nNo such file or directory (os error 2)' "$circuit" never absent --formula never
  if [[ -e never || $(cat claims options) != $'p cnf 2 1\n2 0\np cnf 2 2\n1 2 0\n-1 2 0' ]]; then
    echo 'WRONG a file is made or changed where an output is refused'
    wrong=1
  fi
  for way in from piped; do
    wants 20 's VERIFIED FOLLOWS' '' "$way" options "$follows" - claims refuted
    wants 20 's VERIFIED FOLLOWS' '' "$way" refuted "$follows" options claims -
    wants 0 's VERIFIED MINIMAL' '' "$way" core "$minimal" - refuted models
    wants 0 's VERIFIED MINIMAL' '' "$way" refuted "$minimal" core - models
  done
  wants 2 '' "$no_input" closed "$follows" - claims refuted
  wants 2 '' "$no_input" closed "$minimal" core - models
  wants 2 '' "$twice" from options "$follows" - claims -
  wants 2 '' "$twice" from options "$minimal" - - models
  printf 'p cnf 1 3\n1 2 0\n-1 2 0\n' > options
  lies '1 3' '2 2' options
  wants 20 's VERIFIED FOLLOWS' "$warning" "$follows" options claims refuted
  printf 'p cnf 9 9\n2 0\n' > ./more
  wants 1 '' $'claims: there are fewer than the header says\nin more\n'"$warning"$'\nwarning: the header of more is p cnf 9 9, but what was read is p cnf 2 1' \
    "$follows" options more refuted
  wants 1 '' $'formula: line 1: bad number\nin wrong\nbad number: x' "$follows" wrong claims refuted
  wants 1 '' $'claims: line 1: bad number\nin wrong\nbad number: x' "$follows" claims wrong refuted
  wants 1 '' $'formula: line 1: bad number\nin wrong\nbad number: x' "$minimal" wrong refuted models
  wants 1 '' $'models: line 1: bad number\nin wrong' "$minimal" core refuted wrong
}

try_cases
