# shellcheck shell=bash disable=SC2034,SC2154
# What the tests of named files share. The programs must be built: `rt ci` does it, or `rt run` in
# their folders.
check=$(built varisat_check)
hint_check=$(built hint_check)
lrat_check=$(built lrat_check)
convert=$(built lrat_to_proof)
drat_check=$(built drat_check)
model_check=$(built model_check)
follows=$(built follows_check)
minimal=$(built minimal_check)
circuit=$(built circuit_check)
cd "$work" || exit

# given: the formula and both proofs, as they are
given() {
  cp "$top/tests/data/par10.cnf" f
  cp "$top/tests/data/par10.whole.proof" p
  cp "$top/tests/data/par10.lrat" l
  ln -f p hard
  ln -sf p soft
}

# wants STATUS OUTPUT ERRORS COMMAND..: the run must do this, and leave the formula and both proofs
# as they are
wants() {
  local status=0
  given
  "${@:4}" > out 2> err || status=$?
  if [[ $status == "$1" && $(cat out) == "$2" && $(cat err) == "$3" ]] &&
    cmp -s f "$top/tests/data/par10.cnf" && cmp -s p "$top/tests/data/par10.whole.proof" &&
    cmp -s l "$top/tests/data/par10.lrat"; then
    echo "ok    ${*:4}"
  else
    echo "WRONG ${*:4}: status $status, output '$(cat out)', errors '$(cat err)'"
    wrong=1
  fi
}

given
printf 'p cnf 1 2\n1 0\n-1 0\n' > units
printf '3 0 1 2 0\n' > ends
sed '/ d /d;s/^[0-9]* //;s/^0 .*/0/;s/ 0 .*/ 0/' "$top/tests/data/par10.lrat" > d
printf 's SATISFIABLE\nv 1 2 0\n' > a
echo '1 -2 0' > b
echo x > x
: > nothing
chmod 755 .
no_input=$'cannot open -\nBad file descriptor (os error 9)'
twice='- given twice: only one file can be standard input'
no_space='error writing: No space left on device (os error 28)'

# standard output that is a full disk
full() {
  "$@" > /dev/full
}

# standard input, from a file and from a pipe
from() {
  "${@:2}" < "$1"
}

piped() {
  cat "$1" | "${@:2}"
}

# standard input that is closed
closed() {
  "$@" <&-
}

# retold LINE: the formula with this line in place of its header
retold() {
  sed "2s/.*/$1/" "$top/tests/data/par10.cnf" > f.told
}

# lies SAID READ PLACE: the warning of a header
lies() {
  local said=$1 read=$2 place=$3
  warning="warning: the header of $place is p cnf $said, but what was read is p cnf $read"
}
