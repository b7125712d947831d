# shellcheck shell=bash disable=SC2034,SC2154
# What the tests of pieces share: helpers, a small formula with its proof, which is cut into two
# pieces that are verified, and a larger one. Operands are COUNT [SEED], of random proofs. The
# programs must be built: `rt ci` does it, or `rt run` in their folders.
on_path drat_cut drat_check lrat_check model_check join_check pieces checked
mkdir "$work/room"
export TMPDIR=$work/room
count=${1:-300} seed=${2:-1}
cd "$work" || exit

# fails STATUS WORDS COMMAND..: the call must end so, and these words be in what it writes
fails() {
  local status=0 said
  said=$("${@:3}" 2>&1) || status=$?
  if [[ $status != "$1" || $said != *"$2"* ]]; then
    printf '%s: status %d, without "%s" it wrote:\n%s\n' "${*:3}" "$status" "$2" "$said"
    wrong=1
  fi
}

# ends STATUS PATTERN COMMAND..: it must end so, and write what matches to standard output
ends() {
  local status=0 said
  said=$("${@:3}" 2> err) || status=$?
  # shellcheck disable=SC2053 # the pattern is one
  if [[ $status != "$1" || $said != $2 || $(ls room) ]]; then
    printf '%s: status %d, it wrote: %s %s, and left: %s\n' "${*:3}" "$status" "$said" "$(cat err)" "$(ls room)"
    wrong=1
  fi
}

# solver NAME: a program of this name, which is this script
solver() {
  { echo '#!/bin/sh'; cat; } > "bin/$1"
  chmod +x "bin/$1"
}

# All clauses over three variables, and a tautology; they are resolved pair by pair, and what was
# resolved is deleted. A deletion of what is not there takes no effect, nor does a lemma that is a
# tautology; a literal that comes again is written once.
printf 'c eight\np cnf 3 9\n1 2 3 0\n1 2 -3 0\n1 -2 3 0\n1 -2 -3 0\n-1 2 3 0\n-1 2 -3 0\n-1 -2 3 0\n-1 -2 -3 0\n1 -1 0\n' > eight.cnf
cat > eight.drat << 'END'
1 2 0
1 2 2 -2 0
d 1 2 3 0
d 1 2 -3 0
1 -2 -2 0
d -2 3 1 0
d 1 -2 -3 0
-1 2 0
d 2 3 0
d -1 2 3 0
d -1 2 -3 0
-1 -2 0
1 0
0
END
printf '1 2 0\n1 -2 0\n-1 3 0\n' > three.cnf
echo x > malformed.cnf
# one clause less, and a proof that does not come to its end
sed 5d eight.cnf > seven.cnf
head -n 12 eight.drat > weak.drat
printf 'o 1 1 2 3 0\na 9 1 2 0\n' > text.frat
# one that is cut off, and malformed there
head -n 9 eight.drat > short
printf '1 x' >> short
# its two pieces, by `drat_cut`, and verified by `pieces`
drat_cut eight.cnf eight.drat cut. --lemmas 1 > said
cut=(pieces cut eight.cnf eight.drat two --lemmas 1)
"${cut[@]}" > said
pieces check eight.cnf two 1 2
# and a proof by definitions, Cook's, of the pigeonhole
python3 -B "$top/tests/drat/formulas.py" pigeons 8 > formula.cnf
python3 -B "$top/tests/drat/formulas.py" extended 8 > cook.drat
unsat='s VERIFIED UNSAT'
whole='s VERIFIED UNSAT BY 2 RECEIPTS'
