# shellcheck shell=bash disable=SC2154,SC2034
# Formulas as they are found, how solvers are called, what is printed, and where programs are. Read by tests/checked.sh.

# a compressed formula, and one that comes by a pipe
for packer in 'gzip gz' 'xz xz' 'xz lzma --format=lzma' 'bzip2 bz2' 'zstd zst -q'; do
  read -r tool ending option <<< "$packer"
  if has "$tool"; then
    # shellcheck disable=SC2086
    "$tool" $option -c four.cnf > "four.cnf.$ending"
    if PATH=$reach type -P "$tool" > where; then
      ends 20 "$unsat" checked refuter "four.cnf.$ending"
      head -c 20 "four.cnf.$ending" > "cut.cnf.$ending"
      ends 2 '' checked refuter "cut.cnf.$ending"
      because "cannot read cut.cnf.$ending"
    else
      ends 2 '' checked refuter "four.cnf.$ending"
      because "cannot run $tool, which unpacks four.cnf.$ending"
    fi
  fi
done
ends 20 "$unsat" checked refuter - < four.cnf
ends 10 "$sat" checked finder <(cat other.cnf)
# as another name of a descriptor, which is another file where the solver runs
solver looking << 'END'
cmp -s "$1" four.cnf && exec refuter "$@"
END
ends 20 "$unsat" checked looking /dev/stdin < four.cnf
ends 20 "$unsat" checked looking /dev/fd/7 7< four.cnf
ends 20 "$unsat" bash -c 'cat four.cnf | checked looking /dev/stdin'
cp four.cnf $'odd\n name\n'
ends 20 "$unsat" checked looking $'odd\n name\n'
ln -s four.cnf ./-link
ends 20 "$unsat" checked looking -link

# SATLIB's end is not for the solver
solver strict << 'END'
! grep -q % "$1" && exec "${0%strict}$(grep -q '^1 -2' "$1" && echo refuter || echo finder)" "$@"
END
for name in four other; do
  { cat "$name.cnf"; printf '%%\n0\n\n'; } > "$name.satlib"
done
ends 20 "$unsat" checked strict four.satlib
ends 10 "$sat" checked strict other.satlib
# what stands behind it is no clause for the checker either
{ cat other.cnf; printf '%%\n-1 0\n1 0\n'; } > behind
ends 1 '' checked refuter behind

# a formula that is at fault, before the solver runs
printf 'p cnf 2 1\n1 x 0\n' > bad.cnf
gzip -k bad.cnf
for name in bad.cnf bad.cnf.gz; do
  ends 2 '' checked tracing "$name"
  because 'formula: line 2: bad number'
  because "in $name"
done
ends 2 '' checked tracing - < bad.cnf
ends 2 '' verified tracing bad.cnf
if [[ -e ran ]]; then
  echo "a solver runs on a formula that the checker does not read"
  wrong=1
fi

# one that is cut off, which only model_check does not take
sed 's/^p cnf 3 3/p cnf 3 4/' other.cnf > short.cnf
ends 2 '' checked finder short.cnf
because 'formula: it ends after 3 of 4 clauses'
because 'in short.cnf'

# options are the solver's, in their order, and its formula is the one that is checked
solver choosy << 'END'
[ "$1 $2 $3 $#" = '--one two words --three 5' ] && cmp -s "$4" four.cnf || exit 1
shift 3; exec refuter "$@"
END
ends 20 "$unsat" checked choosy --one 'two words' --three four.cnf
ends 3 '' checked choosy --one two --three four.cnf

# solvers that are called in their own way
solver glucose << 'END'
[ "$1 $2" = '-model -certified' ] && cmp -s "$4" four.cnf || exit 1
printf '1 0\n0\n' > "${3#-certified-output=}"; exit 20
END
ends 20 "$unsat" checked glucose four.cnf
solver picosat-965 << 'END'
[ "$1 $2 $4" = "--all -R $PWD/four.cnf" ] || exit 1
printf '1 0\n0\n' > "$3"; exit 20
END
ends 20 "$unsat" checked picosat-965 --all four.cnf
solver kissat << 'END'
[ "$# $1" = "2 $PWD/four.cnf" ] || exit 1
printf '1 0\n0\n' > "$2"; exit 20
END
ends 20 "$unsat" checked kissat four.cnf
solver minisat_static << 'END'
[ "$# $1" = "2 $PWD/other.cnf" ] || exit 1
echo SATISFIABLE; printf 'SAT\n1 -2 3 0\n' > "$2"; exit 10
END
ends 10 "$sat" checked minisat_static other.cnf
# the last 0 is left out, and the status is 0
solver z3 << 'END'
[ "$#" = 2 ] && [ "$1" = -dimacs ] || exit 1
printf 's SATISFIABLE\nv 1 -2 3 \n'
END
ends 10 "$sat" checked z3 other.cnf
# all models were found
solver clasp << 'END'
[ $# = 1 ] && printf 's SATISFIABLE\nv 1 -2 3 0\n'; exit 30
END
ends 10 "$sat" checked clasp other.cnf
solver lingeling << 'END'
[ $# = 1 ] && printf 's SATISFIABLE\nv 1 -2 3 0\n'; exit 10
END
ends 10 "$sat" checked lingeling other.cnf
ends 1 '' checked lingeling four.cnf
because 'the answer that the solver wrote is not verified'

# LRAT of a solver that has it, and DRAT of the same one where its checker is not there, or the call says how
ends 20 "$unsat" checked --verbose cadical four.cnf
because "runs: cadical --lrat $PWD/four.cnf"
because "lrat_check $PWD/four.cnf proof"
ends 20 "$unsat" env LRAT_CHECK=./none checked --verbose cadical four.cnf
because "drat_check $PWD/four.cnf proof"
ends 20 "$unsat" checked --call 'SOLVER FORMULA PROOF' cadical four.cnf
ends 20 "$unsat" checked --call 'SOLVER FORMULA PROOF' cadical --lrat four.cnf
solver cadical-1.5 << 'END'
[ "$*" != --help ] || exec echo '  --lratless'
printf '1 0\n0\n' > "$2"; exit 20
END
ends 20 "$unsat" checked cadical-1.5 four.cnf
# where one of its own options names a format, that one is checked
solver cadical-2 << 'END'
[ "$*" != --help ] || exec printf '  --frat=0..2  use FRAT\n  --lrat=bool  use LRAT proof format [false]\n'
for proof; do :; done
case " $*" in
  *' --lrat '* | *' --lrat=1 '*) printf '5 1 0 1 2 0\n6 0 5 3 4 0\n' > "$proof" ;;
  *) printf '1 0\n0\n' > "$proof" ;;
esac
exit 20
END
for option in --no-lrat --lrat=0 --frat=2; do
  ends 20 "$unsat" checked --verbose cadical-2 "$option" four.cnf
  because "drat_check $PWD/four.cnf proof"
done
ends 20 "$unsat" checked --verbose cadical-2 --lrat=1 four.cnf
because "lrat_check $PWD/four.cnf proof"
ends 20 "$unsat" checked --call 'SOLVER FORMULA PROOF' cadical-2 --lrat=1 four.cnf

# one that is called as the caller says
solver odd << 'END'
[ "$1 $2 $#" = "--fast $PWD/four.cnf 3" ] || exit 1
printf '1 0\n0\n' > "${3#--proof=}"; exit 20
END
ends 20 "$unsat" checked --call 'SOLVER FORMULA --proof=PROOF' odd --fast four.cnf
mkdir 'room with blank' 'FORMULA'
cp four.cnf FORMULA/PROOF
TMPDIR='room with blank' ends 20 "$unsat" checked refuter FORMULA/PROOF
TMPDIR=room ends 20 "$unsat" checked --call='SOLVER FORMULA PROOF' refuter four.cnf
solver filing << 'END'
printf 'SAT\n1 -2 3 0\n' > "$2"; exit 10
END
ends 10 "$sat" checked --call 'SOLVER FORMULA ANSWER' filing other.cnf
ends 10 "$sat" checked --no-proof finder other.cnf
ends 1 '' checked --no-proof refuter four.cnf
because 'was asked for no proof'
ends 2 '' checked --call 'refuter FORMULA PROOF' refuter four.cnf
because '--call takes SOLVER and then words, one of them with FORMULA'
ends 2 '' checked --call 'SOLVER PROOF' refuter four.cnf
ends 2 '' checked --call 'SOLVER FORMULA' --no-proof refuter four.cnf

# in the solver's place: its answer alone, once it is verified
ends 20 's UNSATISFIABLE' verified refuter four.cnf
ends 10 $'s SATISFIABLE\nv 1 -2 3 0' verified finder other.cnf
solver bare << 'END'
printf 's SATISFIABLE\nc v 2 0\nv\n1 -2\n 3 0\n'; exit 10
END
ends 10 $'s SATISFIABLE\nv 1 -2\nv  3 0' verified bare other.cnf
ends 1 '' verified finder four.cnf
ends 1 '' verified refuter other.cnf
ends 3 '' verified sh four.cnf
ends 0 's UNSATISFIABLE' checked --want unsat --answer refuter four.cnf

# with the answer that is wanted
ends 0 "$unsat" checked --want unsat refuter four.cnf
ends 0 "$sat" checked --want=sat finder other.cnf
ends 1 "$sat" checked --want unsat finder other.cnf
because 'the other answer is verified: --want unsat'
ends 1 "$unsat" checked --want sat refuter four.cnf
ends 1 '' checked --want unsat refuter other.cnf
ends 2 '' checked --want maybe refuter four.cnf
because '--want takes sat or unsat'

# programs beside the script, ahead of those on PATH
mkdir -p 'un packed/bin' false
cp "$top"/tools/{checked,verified} 'un packed/bin'
mv bin/{drat_check,model_check} 'un packed/bin'
printf '#!/bin/sh\nexit 1\n' > false/drat_check
chmod +x false/drat_check
ends 20 "$unsat" env PATH="$work/false:$reach" "${shell[@]}" 'un packed/bin/checked' refuter four.cnf
ends 20 's UNSATISFIABLE' env PATH="$reach" "${shell[@]}" 'un packed/bin/verified' refuter four.cnf
ln -s 'un packed/bin/checked' linked
ends 20 "$unsat" env PATH="$reach" "${shell[@]}" linked refuter four.cnf
mv 'un packed/bin/'*_check bin
ends 2 '' env DRAT_CHECK=drat_chekc checked refuter four.cnf
because 'cannot run drat_chekc'
