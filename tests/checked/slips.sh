# shellcheck shell=bash disable=SC2154,SC2034
# Calls that are nearly right, each answered with the right one, and options by one letter. Read by
# tests/checked.sh.

# answered STATUS WORDS CALL..: in one line, which has these words, and none is of the length of a
# usage line
answered() {
  ends "$1" '' "${@:3}"
  because "$2"
  if awk '{ exit length($0) <= 200 }' err || [[ $1 == 2 && $(wc -l < err) != 1 ]]; then
    printf '%s: %s\n' "${*:3}" "$(cat err)"
    wrong=1
  fi
}

# operands the other way round, and words behind the formula
answered 2 'cannot run four.cnf: the solver comes first, as in: checked refuter four.cnf' \
  checked four.cnf refuter
answered 2 'cannot run four.cnf: the solver comes first, and the formula last' \
  checked four.cnf other.cnf
order='options of the solver come before the formula, and those of checked before the solver'
answered 2 "cannot open -q: $order" checked refuter four.cnf -q
answered 2 'cannot open -q: options of the solver' checked --same refuter one.aig two.aig -q
answered 2 'cannot open 5: the formula comes last, also if it is four.cnf' \
  checked refuter four.cnf --limit 5
answered 2 'cannot open none.cnf' checked refuter --limit none.cnf
if grep -q 'comes last' err; then
  echo "a formula that is not there is blamed on the order of words: $(cat err)"
  wrong=1
fi
cp four.cnf ./-q
ends 20 "$unsat" checked refuter -q

# solvers that write no proof, and one that could
others='proof that can be checked: cadical, kissat, glucose, picosat and cryptominisat5 do'
for name in minisat clasp z3-4.8 lingeling; do
  solver "$name" << 'END'
exit 20
END
  answered 1 "and $name writes no $others" checked "$name" four.cnf
done
answered 1 'was asked for no proof: SOLVER FORMULA' checked --no-proof refuter four.cnf

# LRAT where DRAT is read: as cadical writes it, with a deletion first, and a proof that only looks
# so
solver lrat_writer << 'END'
printf '5 1 0 1 2 0\n6 0 5 3 4 0\n' > "$2"; exit 20
END
solver deleter << 'END'
printf '4 d 1 0\n5 1 0 1 2 0\n6 0 5 3 4 0\n' > "$2"; exit 20
END
for name in lrat_writer deleter; do
  answered 1 'the proof begins as LRAT text: with --lrat, lrat_check checks it' \
    checked "$name" four.cnf
done
ends 20 "$unsat" checked --lrat lrat_writer four.cnf
ends 1 '' checked --lrat deleter four.cnf
ends 1 '' checked --lrat refuter four.cnf
ends 1 '' checked refuter other.cnf
if grep -q LRAT err; then
  echo "a DRAT proof is said to be LRAT: $(cat err)"
  wrong=1
fi
ends 20 "$unsat" checked --lrat cadical four.cnf
ends 20 "$unsat" env LRAT_CHECK="$(type -P lrat_check)" checked --lrat --verbose cadical four.cnf
because "runs: cadical --lrat $PWD/four.cnf"
ends 2 '' checked --lrat --while lrat_writer four.cnf
because '--lrat excludes --no-proof, --while and claims'

# a letter for an option; with -q nothing of a solver is seen, nor a program that runs
solver talking << 'END'
echo 'loud and long' >&2; exec refuter "$@"
END
for option in -v --verbose; do
  ends 20 "$unsat" checked "$option" talking four.cnf
  because 'runs: talking'
  because 'loud and long'
done
for option in -q --quiet; do
  ends 20 "$unsat" checked "$option" talking four.cnf
  same "what $option leaves" '' "$(cat err)"
  ends 1 '' checked "$option" talking other.cnf
  because 'the proof that the solver wrote is not verified'
  same "a reason with $option" '' "$(grep loud err || true)"
done
ends 20 's UNSATISFIABLE' verified -q talking four.cnf
for option in -V --version; do
  ends 0 "$(drat_check --version | sed '1s/^drat_check/verified/')" verified "$option"
done
