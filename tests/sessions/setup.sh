# shellcheck shell=bash disable=SC2034,SC2154
# What the tests of sessions share: a session by hand, and what changes or records one.
# The programs must be built: `rt ci` does it, or `rt run` in their folders.
on_path drat_check lrat_check model_check sessions
cd "$work" || exit

# checks STATUS OUTPUT COMMAND..: says that, and with the proof in binary too, if it is `sessions
# check` of a proof that has such a form
twins=0

checks() {
  says "$@"
  if [[ $# == 6 && $3 == sessions && $4 == check && -f $6 ]] && python3 -B "$top/tests/sessions/binary.py" "$6" binary.proof; then
    says "$1" "${2//"$6"/binary.proof}" sessions check "$5" binary.proof
    twins=$((twins + 1))
  fi
}

# Two that exclude each other: one can be had, both fail; then the first is given, and the second
# fails alone.
cat > two.icnf << 'END'
p icnf
c one of two
i -1 -2 0
q 1 0
s SATISFIABLE
v -2 0
q 1 2 0
s UNSATISFIABLE
f 1 2 0
i 1 0
q 0
s UNKNOWN
q 2 0
s UNSATISFIABLE
i -2 0
END
cat > two.idrup << 'END'
p idrup
i -2 -1 0
q 1 0
s SATISFIABLE
m 1 -2 0
q 1 2 0
s UNSATISFIABLE
u 2 1 0
i 1 0
q 0
s UNKNOWN
l -2 0
q 2 0
s UNSATISFIABLE
u 2 0
i -2 0
END
cat > two.lidrup << 'END'
p lidrup
i 1 -2 -1 0
q 1 0
s SATISFIABLE
m 1 -2 0
q 1 2 0
s UNSATISFIABLE
u 2 1 0 1 0
i 4 1 0
q 0
s UNKNOWN
l 5 -2 0 4 1 0
q 2 0
s UNSATISFIABLE
u 2 0 5 0
i 6 -2 0
END
all='all answers are shown: 1 satisfiable, 2 unsatisfiable, 1 unknown'
layers=$top/bindings/sessions
unfinished='the session has not ended, or was not recorded to its end'

# in_binary COUNT: so many proofs of the case were tried in binary too
in_binary() {
  if ((twins != $1)); then
    echo "$twins proofs were tried in binary too, and not $1"
    wrong=1
  fi
}

# edit FILE SCRIPT: a copy with one thing changed
edit() {
  sed "$2" "$1" > "changed.${1##*.}"
  if cmp -s "$1" "changed.${1##*.}"; then
    echo "nothing is changed by $2"
    wrong=1
  fi
}

# records FOLDER COUNTS SESSIONS COMMAND..: a command finds with a record what it finds without one,
# and all of it is shown
records() {
  mkdir "$1"
  if [[ $(SESSION_RECORD=$1/it "${@:4}") != "$2" ]]; then
    echo "${*:4}: with a record it finds something else"
    wrong=1
  fi
  checks 0 "all answers are shown: $2, 0 unknown, in $3" sessions check "$1"
}

# lies FOLDER FROM TO: an answer of the record is turned around, and that is found
lies() {
  rm -rf lies
  cp -R "$1" lies
  sed -i "0,/^s $2\$/s//s X/; s/^s X\$/s $3/" lies/it.*
  if sessions check lies > said 2>&1 || ! grep -q '^lies/it' said; then
    echo "$1: an answer that was turned around is shown"
    wrong=1
  fi
}
