# shellcheck shell=bash disable=SC2154,SC2034
# Claims: what follows from a formula, and circuits. Read by tests/checked.sh.

follows='s VERIFIED FOLLOWS'
printf 'p cnf 2 2\n1 2 0\n-1 2 0\n' > options.cnf
printf 'p cnf 2 1\n2 0\n' > forced.cnf
printf 'p cnf 2 2\n2 0\n1 0\n' > both.cnf
# an input, and the conjunction of it with its negation; two inputs, and their conjunction, and their disjunction
printf 'aig 2 1 0 1 1\n4\n\1\1' > never.aig
printf 'aig 3 2 0 1 1\n6\n\2\2' | tee one.aig > two.aig
printf 'aig 3 2 0 1 1\n7\n\1\2' > or.aig

# solvers that refute what is asked of them, or say an assignment of it
solver refutes << 'END'
printf -- '-5 0\n4 0\n3 0\n2 0\n0\n' > "$2"; exit 20
END
solver assigns << 'END'
printf 's SATISFIABLE\nv -1 2 3 4 5 6 0\n'; exit 10
END
solver differs << 'END'
printf 's SATISFIABLE\nv -1 2 -3 -4 5 6 0\n'; exit 10
END
solver open_proof << 'END'
: > "$2"; exit 20
END
ends 20 "$follows" checked --follows forced.cnf refutes options.cnf
ends 20 's VERIFIED NEVER' checked --never refutes never.aig
ends 20 's VERIFIED SAME' checked --same refutes one.aig two.aig
ends 10 's VERIFIED NOT FOLLOWS' checked --follows both.cnf assigns options.cnf
because 'claims: line 3: claim 2 fails'

# with the answer that is wanted
ends 0 "$follows" checked --want holds --follows=forced.cnf refutes options.cnf
ends 1 "$follows" checked --want fails --follows forced.cnf refutes options.cnf
because 'the other answer is verified: --want fails'
ends 0 's VERIFIED NOT FOLLOWS' checked --want=fails --follows both.cnf assigns options.cnf
ends 0 's VERIFIED SAME' checked --same --want holds refutes one.aig two.aig
ends 2 '' checked --want unsat --same refutes one.aig two.aig
because 'with --same, --want takes holds or fails'
ends 2 '' checked --want holds refuter four.cnf
because '--want takes sat or unsat'

# wrong answers: of a claim that does not follow, of circuits that differ, and of a proof that ends early
ends 1 '' checked --follows both.cnf refutes options.cnf
because 'the proof that the solver wrote is not verified'
ends 1 '' checked --follows forced.cnf assigns options.cnf
because 'the answer that the solver wrote is not verified'
ends 1 '' checked --never refutes one.aig
ends 1 '' checked --same refutes one.aig or.aig
ends 1 '' checked --same open_proof one.aig two.aig
ends 1 '' checked --never assigns never.aig
ends 1 '' checked --same assigns one.aig two.aig
because 'the answer that the solver wrote is not verified'
ends 1 '' checked --same --no-proof refutes one.aig two.aig
because 'was asked for no proof'
ends 3 '' checked --never quiet never.aig
ends 3 '' checked --limit 1 --same sleepy one.aig two.aig
because 'there is no verdict after 1 seconds'
# an answer that is right of circuits
ends 10 $'s VERIFIED POSSIBLE\ni 11\no 1' checked --never assigns one.aig
ends 10 $'s VERIFIED DIFFERENT\ni 10\no 0\no 1' checked --same differs one.aig or.aig

# the program of the claim, which says the line, and what stands for it
ends 1 '' env FOLLOWS_CHECK=true checked --follows forced.cnf refutes options.cnf
solver lies << 'END'
case "$*" in *--formula*) exec circuit_check "$@" ;; esac
echo 's VERIFIED NEVER'
END
ends 1 '' env CIRCUIT_CHECK=lies checked --same refutes one.aig two.aig
ends 2 '' env CIRCUIT_CHECK=./none checked --same refutes one.aig two.aig
because 'cannot run ./none'
ends 20 "$follows" env DRAT_CHECK=./none MODEL_CHECK=./none checked --follows forced.cnf refutes options.cnf

# the solver gets the formula that the program writes, after its options
solver wary << 'END'
[ "$1 $#" = '--one 3' ] && grep -qx -- '-3 -2 0' "$2" && head -n 1 "$2" | grep -qx 'p cnf 3 4' || exit 1
shift; exec refutes "$@"
END
ends 20 "$follows" checked --follows forced.cnf wary --one options.cnf
solver two_options << 'END'
[ "$1 $2 $#" = '--one two words 4' ] || exit 1
shift 2; exec refutes "$@"
END
ends 20 's VERIFIED SAME' checked --same two_options --one 'two words' one.aig two.aig
# no LRAT of a solver that has it
solver cadical << 'END'
[ "$*" != --help ] || exec printf '  --lrat=bool  use LRAT proof format [false]\n'
[ $# = 2 ] && exec refutes "$@"
END
ends 20 's VERIFIED SAME' checked --same cadical one.aig two.aig

# files as they are found
if has gzip; then
  gzip -k forced.cnf options.cnf one.aig
  ends 20 "$follows" checked --follows forced.cnf.gz refutes options.cnf.gz
  ends 20 's VERIFIED SAME' checked --same refutes one.aig.gz two.aig
  gzip -kc never.aig > never.aig.gz
  ends 20 's VERIFIED NEVER' checked --never refutes never.aig.gz
fi
ends 20 "$follows" checked --follows forced.cnf refutes - < options.cnf
ends 20 "$follows" checked --follows - refutes options.cnf < forced.cnf
ends 20 's VERIFIED SAME' checked --same refutes one.aig - < two.aig
ends 20 's VERIFIED NEVER' checked --never refutes <(cat never.aig)

# files at fault, before the solver runs, by the names of the call
rm -f ran
head -c 17 one.aig > cut.aig
printf 'p cnf 2 1\n2 x 0\n' > bad_claims.cnf
ends 2 '' checked --never tracing cut.aig
because 'circuit: gate of variable 3: the text ends too early'
ends 2 '' checked --same tracing one.aig cut.aig
because 'second circuit: '
ends 2 '' checked --same tracing one.aig never.aig
because 'the circuits have different numbers of inputs'
ends 2 '' checked --follows bad_claims.cnf tracing options.cnf
because 'claims: line 2: bad number'
because 'in bad_claims.cnf'
ends 2 '' checked --follows forced.cnf tracing - < bad_claims.cnf
because 'formula: line 2: bad number'
ends 2 '' checked --follows none.cnf tracing options.cnf
because 'cannot open none.cnf'
ends 2 '' checked --same tracing one.aig none.aig
because 'cannot open none.aig'
if [[ -e ran ]]; then
  echo "a solver runs on a claim that the program does not read"
  wrong=1
fi

# what is kept, and what no file is written over
ends 20 's VERIFIED SAME' checked --keep kept --same refutes one.aig two.aig
keeps $'-5 0\n4 0\n3 0\n2 0\n0'
if [[ $(circuit_check same one.aig two.aig --proof kept) != 's VERIFIED SAME' ]]; then
  echo "a kept proof is not that of the claim"
  wrong=1
fi
ends 1 '' checked --keep kept --keep-rejected kept_too --follows both.cnf refutes options.cnf
rm -f kept_too
keeps ''
for name in one.aig two.aig; do
  ends 2 '' checked --keep "$name" --same refutes one.aig two.aig
  because 'is an input'
done
ends 2 '' checked --keep forced.cnf --follows forced.cnf refutes options.cnf
because 'is an input'

# wrong calls
ends 2 '' checked --never --same refutes one.aig two.aig
because '--follows, --never, --same, --safe and --minimal exclude each other'
ends 2 '' checked --same refutes one.aig
because '--same needs a solver and two circuits'
ends 2 '' checked --follows forced.cnf
ends 2 '' checked --follows
because '--follows needs a value'
ends 2 '' checked --never=yes refutes never.aig
because '--never takes no value'
for option in --answer --while; do
  ends 2 '' checked --never "$option" refutes never.aig
  because '--never excludes --answer and --while'
done
stopped TERM 143 checked --same slow one.aig two.aig
stopped INT 130 checked --follows forced.cnf slow options.cnf

# a machine and its invariant: three formulas, one after the other. The latch stays 0, and the invariant says so; the other one does not.
printf 'aig 1 0 1 0 0 1\n2\n2\n' > machine.aig
printf 'aig 1 1 0 1 0\n3\n' > invariant.aig
printf 'aig 1 1 0 1 0\n2\n' > other.aig
solver machines << 'END'
[ "$1 $2 $3 $#" = "safe $PWD/machine.aig $PWD/invariant.aig 9" ] || exec circuit_check "$@"
shift 3
case $1 in
  --init-formula) for file in "$2" "$4" "$6"; do printf 'p cnf 2 4\n1 2 0\n1 -2 0\n-1 2 0\n-1 -2 0\n' > "$file"; done ;;
  --init-proof) for file in "$2" "$4" "$6"; do grep -qx "${file%.proof} 0" "$file" || exit 3; done; echo 's VERIFIED SAFE' ;;
esac
END
# (its proofs name the formula that they are of)
solver refutes_parts << 'END'
name=${1##*/}
echo "${name%.cnf} 0" > "$2"; exit 20
END
solver refutes_first << 'END'
case $1 in */bad.cnf) exit 10 ;; esac
exec refutes_parts "$@"
END
if circuit_check --help | grep -q -- '--init-formula'; then
  ends 20 's VERIFIED SAFE' checked --safe refutes machine.aig invariant.aig
  ends 1 '' checked --safe refutes machine.aig other.aig
  ends 2 '' checked --safe refutes machine.aig one.aig
fi
sed -i 's|\$PWD|'"$PWD"'|g' bin/machines
export CIRCUIT_CHECK=machines
ends 20 's VERIFIED SAFE' checked --safe refutes_parts machine.aig invariant.aig
ends 0 's VERIFIED SAFE' checked --want holds --safe refutes_parts machine.aig invariant.aig
ends 1 '' checked --safe refutes machine.aig invariant.aig
because 'the proof that the solver wrote is not verified'
ends 1 '' checked --safe refutes_first machine.aig invariant.aig
because 'the solver finds an answer to the formula of --bad-formula'
ends 3 '' checked --safe quiet machine.aig invariant.aig
ends 1 '' checked --safe without machine.aig invariant.aig
because 'the solver wrote no proof'
unset CIRCUIT_CHECK
ends 2 '' checked --safe refutes_parts machine.aig
because '--safe needs a solver and two circuits'
ends 2 '' checked --safe --keep kept refutes_parts machine.aig invariant.aig
because '--safe keeps no proof'
ends 2 '' checked --safe --no-proof refutes_parts machine.aig invariant.aig
because '--safe needs a solver that writes proofs'

# equal gates: circuit_sweep beside a solver that takes long, whichever ends first
ends 2 '' checked --sweep-after 1 --follows forced.cnf refutes options.cnf
because '--sweep-after needs circuits, and a solver that writes proofs'
ends 2 '' checked --sweep-after 1 --same --no-proof refutes one.aig two.aig
ends 2 '' checked --sweep-after x --same refutes one.aig two.aig
because '--sweep-after takes a number of seconds, not x'
ends 2 '' env CIRCUIT_SWEEP=./none checked --sweep-after 1 --same refutes one.aig two.aig
because 'cannot run ./none'
if ! PATH=$reach type -P python3 > where; then
  ends 2 '' checked --sweep-after 1 --same refutes one.aig two.aig
  ends 20 's VERIFIED SAME' checked --same refutes one.aig two.aig
  return
fi
# stand-ins, which are called with --call, a call, the solver, the formula and a name for a proof
solver sweeps << 'END'
[ "$1 $2 $3 $4 ${5##*/} $#" = '--call SOLVER FORMULA PROOF sleepy --one asked.cnf 6' ] || exit 2
exec refutes "$5" "$6"
END
solver sweeps_wrongly << 'END'
for proof; do :; done
: > "$proof"; exit 20
END
solver sweeps_to_nothing << 'END'
echo 's UNKNOWN'
END
solver sweeps_slowly << END
$slow
END
solver refutes_late << 'END'
sleep 1; exec refutes "$@"
END
ends 20 's VERIFIED SAME' env CIRCUIT_SWEEP=sweeps checked --sweep-after 0 --same sleepy --one one.aig two.aig
ends 20 's VERIFIED NEVER' env CIRCUIT_SWEEP=sweeps checked --sweep-after=0.1 --never sleepy --one never.aig
ends 1 '' env CIRCUIT_SWEEP=sweeps_wrongly checked --sweep-after 0 --same sleepy one.aig two.aig
ends 1 '' env CIRCUIT_SWEEP=assigns checked --sweep-after 0 --same sleepy one.aig two.aig
ends 20 's VERIFIED SAME' env CIRCUIT_SWEEP=sweeps_to_nothing checked --sweep-after 0 --same refutes_late one.aig two.aig
ends 20 's VERIFIED SAME' env CIRCUIT_SWEEP=sweeps_slowly checked --sweep-after 0 --same refutes_late one.aig two.aig
ends 3 '' env CIRCUIT_SWEEP=sweeps_to_nothing checked --sweep-after 0 --same quiet one.aig two.aig
ends 3 '' env CIRCUIT_SWEEP=sweeps_slowly checked --sweep-after 0 --limit 1 --same sleepy one.aig two.aig
ends 20 's VERIFIED SAME' checked --verbose --jobs 2 --same refutes one.aig two.aig
because "circuit_sweep --call SOLVER FORMULA PROOF refutes $work/room/checked."
ends 20 's VERIFIED SAME' checked --verbose --jobs 1 --same refutes one.aig two.aig
if grep -q circuit_sweep err; then
  echo "equal gates are looked for by one processor"
  wrong=1
fi
stopped TERM 143 env CIRCUIT_SWEEP=sweeps_slowly checked --sweep-after 0 --same sleepy one.aig two.aig
