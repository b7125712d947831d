# shellcheck shell=bash disable=SC2154,SC2034
# Several processors: one pass over the whole proof, and its pieces beside it. Read by tests/checked.sh.

# one_line WORDS CALL..: it ends with status 2, and says so in one line
one_line() {
  ends 2 '' "${@:2}"
  because "$1"
  if (($(wc -l < err) != 1)); then
    printf '%s: not one line: %s\n' "${*:2}" "$(cat err)"
    wrong=1
  fi
}
for number in 0 x -1 2.5 '' 12345; do
  one_line '--jobs takes a number from 1 to 9999' checked --jobs "$number" refuter four.cnf
done
one_line '--jobs needs a value' checked --jobs
one_line '--pieces-from takes a number of bytes, not 3M' checked --pieces-from=3M refuter four.cnf

# beside WORDS CALL..: with --verbose it says so that these words are run, or with ! before them that they are not
beside() {
  ends 20 "$unsat" checked --verbose "${@:2}"
  if [[ $1 == !* ]] && grep -qF "${1#!}" err; then
    printf '%s: it runs %s\n' "${*:2}" "${1#!}"
    wrong=1
  elif [[ $1 != !* ]]; then
    because "$1"
  fi
}
# eight clauses over three variables, in two pieces
printf 'p cnf 3 8\n1 2 3 0\n1 2 -3 0\n1 -2 3 0\n1 -2 -3 0\n-1 2 3 0\n-1 2 -3 0\n-1 -2 3 0\n-1 -2 -3 0\n' > eight.cnf
printf '%s 0\n' '1 2' 'd 1 2 3' 'd 1 2 -3' '1 -2' 'd 1 -2 3' 'd 1 -2 -3' '-1 2' 'd -1 2 3' 'd -1 2 -3' '-1 -2' 1 > eight.drat
echo 0 >> eight.drat
solver long << END
cat '$work/eight.drat' > "\$2"; exit 20
END
solver cuts << END
exec '$top/tools/pieces' "\$@" --lemmas 1 --live 1000
END
export PIECES=cuts
beside '!cuts' long eight.cnf
beside '!cuts' --jobs 3 long eight.cnf
for number in 1 2; do
  beside '!cuts' --jobs "$number" --pieces-from 0 long eight.cnf
done
cut=(--jobs 3 --pieces-from 0)
if ! PATH=$reach type -P python3 > where; then
  # without it there is one pass
  unset PIECES
  beside '!pieces' "${cut[@]}" long eight.cnf
  return
fi
beside "cuts run $PWD/eight.cnf proof $work/room/checked." "${cut[@]}" long eight.cnf
beside 'pieces --jobs 2' "${cut[@]}" long eight.cnf
beside 'pieces --jobs 6' --jobs=7 --pieces-from "$(wc -c < eight.drat)" long eight.cnf
beside '!cuts' --jobs 7 --pieces-from "$(($(wc -c < eight.drat) + 1))" long eight.cnf
if has taskset; then
  processor=$(taskset -pc $$ | sed 's/.*: \([0-9]*\).*/\1/')
  ends 20 "$unsat" taskset -c "$processor" "$work/bin/checked" --verbose --pieces-from 0 long eight.cnf
  if grep -q cuts err; then
    echo "two ways at once by one processor"
    wrong=1
  fi
fi

# judges PASS PIECE: in place of `drat_check`, for the whole proof and for its second piece. The pass waits until the pieces have an end.
judges() {
  solver judge << END
case \$2 in
  proof) until [ -e ended ]; do sleep 0.05; done; $1 ;;
  */2.drat) $2 ;;
esac
exec drat_check "\$@"
END
  export DRAT_CHECK=judge
}
joined='s VERIFIED UNSAT BY 2 RECEIPTS'
judges 'sleep 60' ''
ends 20 "$joined" checked "${cut[@]}" long eight.cnf
ends 20 's UNSATISFIABLE' checked --answer "${cut[@]}" long eight.cnf
ends 0 "$joined" checked --want unsat "${cut[@]}" long eight.cnf
ends 20 "$joined" checked --keep kept "${cut[@]}" long eight.cnf
cmp kept eight.drat || wrong=1
rm -f kept
# a pass that does not heed its end, and one that was killed by others: the pieces speak for it
judges "trap '' TERM; sleep 60; sleep 60" ''
ends 20 "$joined" checked "${cut[@]}" long eight.cnf
# one that is killed by others before they have an end
solver judge << 'END'
case $2 in
  proof) kill -KILL $$ ;;
  */1.drat) sleep 1 ;;
esac
exec drat_check "$@"
END
ends 20 "$joined" checked "${cut[@]}" long eight.cnf

# A piece that is killed, lies or ends early is named, and claims nothing; the pass alone has the verdict.
for piece in 'kill -KILL $$' 'exit 0' 'echo s VERIFIED; exit 0' 'echo s VERIFIED PIECE; exit 1' 'echo s VERIFIED PIECE; echo; exit 0' 'exit 3'; do
  judges 'exit 1' "$piece"
  ends 1 '' checked "${cut[@]}" long eight.cnf
  because 'its pieces are not verified: 2: '
  because 'the proof that the solver wrote is not verified'
  judges 'kill -KILL $$' "$piece"
  ends 1 '' checked "${cut[@]}" long eight.cnf
  judges 'exit 0' "$piece"
  ends 1 '' checked "${cut[@]}" long eight.cnf
  judges '' "$piece"
  ends 20 "$unsat" checked "${cut[@]}" long eight.cnf
  because 'its pieces are not verified: 2: '
done
# the same of what cuts, and of what checks pieces
judges '' ''
for pieces in 'exit 0' 'exit 20' "echo $joined; exit 20" "echo $joined; exit 1" 'echo s VERIFIED UNSAT' "echo $joined; echo more" 'kill -KILL $$'; do
  solver lying <<< "$pieces"
  PIECES=lying ends 20 "$unsat" checked "${cut[@]}" long eight.cnf
  judges 'exit 1' ''
  PIECES=lying ends 1 '' checked "${cut[@]}" long eight.cnf
  judges '' ''
done
solver cut_short <<< 'drat_cut "$@" > cut.said; head -n 1 cut.said'
DRAT_CUT=cut_short ends 20 "$unsat" checked "${cut[@]}" long eight.cnf
judges 'exit 1' ''
DRAT_CUT=cut_short ends 1 '' checked "${cut[@]}" long eight.cnf
unset DRAT_CHECK
PIECES=./none ends 20 "$unsat" checked "${cut[@]}" long eight.cnf
DRAT_CUT=./none ends 20 "$unsat" checked "${cut[@]}" long eight.cnf
JOIN_CHECK=./none ends 20 "$unsat" checked "${cut[@]}" long eight.cnf

# what is refused as a whole, and what is not cut
ends 1 '' checked "${cut[@]}" refuter other.cnf
because 'in proof'
ends 1 '' checked "${cut[@]}" --keep-rejected kept damaged four.cnf
cmp kept <(printf 'a\202') || wrong=1
rm kept
solver fratter << 'END'
printf 'o 1 1 2 0\no 2 1 -2 0\no 3 -1 2 0\no 4 -1 -2 0\na 5 1 0\na 6 0\n' > "$2"; exit 20
END
ends 20 "$unsat" checked "${cut[@]}" fratter four.cnf
beside '!cuts' "${cut[@]}" cadical four.cnf
because "lrat_check $PWD/four.cnf proof"
unset PIECES

# as many verdicts as by one pass, of random proofs, right and wrong ones
if [[ ${shell[0]} == */sh ]]; then
  python3 -B "$top/tests/checked/cores.py" "$top/tools" 200 1 || wrong=1
fi
