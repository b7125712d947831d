# shellcheck shell=bash disable=SC2034,SC2154
# What the tests of cubes share: four clauses and two cubes, whose parts have proofs by hand and are
# verified. Operands are COUNT [SEED], of random formulas. The programs must be built: `rt ci` does
# it, or `rt run` in their folders.
on_path drat_check join_check lrat_check model_check cubes
count=${1:-100} seed=${2:-1}
cd "$work" || exit

# The four clauses over two variables, with all that a text may have around them.
printf 'c four\np cnf 2 4\n1 2 0 1\n-2 0\nc of two\n-1 2 0\n -1 -2 00\n%%\n0\n' > four.cnf
printf 'c by the first variable\na 1 0\n-1 0\n' > two.txt
printf 'a 1 0\n-1 0\n' > same.txt
printf 'p inccnf\n1 2 0\n-1 2 0\na 1 0\n1 -2\n0\na -1 0\n' > both.icnf
printf '1 2 0\n1 -2 0\n-1 2 0\n' > three.cnf
# One that can be satisfied where the first variable is true.
printf '1 2 0\n-1 2 0\n' > open_at_2.cnf
# What is kept of its parts, which are verified.
cubes parts four.cnf two.txt four
echo '6 0 5 3 4 0' > four/1.lrat
echo '6 0 5 1 2 0' > four/2.lrat
echo '7 0 5 6 0' > four/closing.lrat
cubes check four.cnf two.txt four 1 2 closing
all='s VERIFIED UNSAT BY 3 RECEIPTS'
