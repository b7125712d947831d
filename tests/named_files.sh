#!/usr/bin/env bash
# Runs the programs with outputs that are inputs, with standard input of each kind and with standard
# output, and with a full disk as output.
set -euo pipefail
. "$(dirname "$0")/lib.sh"
# shellcheck source=SCRIPTDIR/named_files/setup.sh
. "$top/tests/named_files/setup.sh"

# An output that is a file that is read: by its name, by another path, by a link.
case_read_files() {
  for output in f p ./f ./p "$PWD/p" hard soft; do
    wants 2 '' "cannot open $output"$'\n'"the output is a file that is read" "$check" f p "$output"
  done
  for output in f l ./f ./l; do
    wants 2 '' "cannot open $output"$'\n'"the output is a file that is read" "$convert" f l "$output"
  done
  # others: a new file, one that is there, and one that is no regular file
  wants 0 's UNSATISFIABLE' '' "$check" f p new
  wants 0 's UNSATISFIABLE' '' "$check" f p new
  wants 0 's VERIFIED UNSAT' '' "$hint_check" f new
  wants 0 's UNSATISFIABLE' '' "$check" f p /dev/null
  wants 0 '' '' "$convert" f l new
  wants 0 's UNSATISFIABLE' '' "$check" f new
}

# Standard input, from a file and from a pipe.
case_standard_input() {
  for way in from piped; do
    wants 0 's VERIFIED UNSAT' '' "$way" l "$lrat_check" f -
    wants 0 's VERIFIED UNSAT' '' "$way" f "$hint_check" - l
    wants 0 's UNSATISFIABLE' '' "$way" p "$check" f -
  done

  # standard input is descriptor 0, from where it stands: a file that was read in part, a pipe whose
  # writer is done, a socket, and a file that the program itself could not open
  cut_off() {
    (dd bs=1 count=14 of=/dev/null status=none && "$@") < units
  }
  mkfifo finished
  left() {
    local status=0
    cat "$1" > finished &
    exec 5< finished
    wait
    timeout 20 "${@:2}" <&5 || status=$?
    exec 5<&-
    return "$status"
  }
  socket() {
    python3 -c '
import socket, subprocess, sys
one, other = socket.socketpair()
one.sendall(open(sys.argv[1], "rb").read())
one.shutdown(socket.SHUT_WR)
sys.exit(subprocess.run(sys.argv[2:], stdin=other, timeout=20).returncode)' "$@"
  }
  foreign() {
    local status=0
    install -m 600 "$1" mine
    install -m 755 "$2" program
    python3 -c '
import os, sys
os.dup2(os.open("mine", os.O_RDONLY), 0)
os.chmod("mine", 0)
if os.geteuid() == 0:
    os.setgroups([])
    os.setuid(65534)
try:
    open("mine")
except PermissionError:
    os.execv(sys.argv[1], sys.argv[1:])
sys.exit("the file can be opened")' ./program "${@:3}" || status=$?
    rm -f mine
    return "$status"
  }
  unknown=$'line 1: no clause has the id of a hint\nin ends'
  wants 0 's VERIFIED UNSAT' '' from units "$lrat_check" - ends
  wants 1 '' "proof: $unknown" cut_off "$lrat_check" - ends
  wants 0 's VERIFIED UNSAT' '' from units "$hint_check" - ends
  wants 1 '' "$unknown" cut_off "$hint_check" - ends
  for way in left socket foreign; do
    wants 0 's VERIFIED UNSAT' '' "$way" l "$lrat_check" f -
    wants 0 's VERIFIED UNSAT' '' "$way" f "$lrat_check" - l
    wants 0 's UNSATISFIABLE' '' "$way" p "$check" f -
  done
}

# Where descriptor 0 is closed, no file that is opened takes its place; and it is read once.
case_closed_input() {
  for program in "$lrat_check" "$hint_check" "$drat_check" "$model_check" "$check"; do
    wants 2 '' "$no_input" closed "$program" - l
    wants 2 '' "$no_input" closed "$program" f -
    wants 2 '' "$twice" from f "$program" - -
  done
  wants 2 '' "$no_input" closed "$convert" f - never
  wants 2 '' "$twice" from f "$convert" - - never
  wants 0 's VERIFIED UNSAT' '' closed "$lrat_check" f l
  # an output that is standard input's file
  for output in f ./f; do
    wants 2 '' "cannot open $output"$'\n'"the output is a file that is read" from f "$check" - p "$output"
    wants 2 '' "cannot open $output"$'\n'"the output is a file that is read" from f "$convert" - l "$output"
  done
  if [[ -e never ]]; then
    echo 'WRONG a file is made where nothing can be read'
    wrong=1
  fi
}

# Inputs by links, one that leads to nothing, and an empty name; where only files are read, `-` is
# one; help comes before all else.
case_links() {
  ln -sf f soft_f
  ln -sf absent nowhere
  printf 'aig 0 0 0 1 0\n0\n' > ./-
  printf '0' > zero
  wants 0 's VERIFIED UNSAT' '' "$lrat_check" soft_f l
  for name in nowhere ''; do
    wants 2 '' "cannot open $name"$'\nNo such file or directory (os error 2)' "$lrat_check" "$name" l
    wants 2 '' "cannot open $name"$'\nNo such file or directory (os error 2)' "$lrat_check" f "$name"
  done
  wants 3 's NOT VERIFIED' '' "$circuit" never - --answer zero
  rm ./-
  wants 0 "$("$lrat_check" --help)" '' "$lrat_check" -h f
  wants 0 "$("$lrat_check" --help)" '' "$lrat_check" --help -V
}

# An output is no file that standard output or standard error goes to, by its name, by another path
# or by a link; a pipe may be one. Here the two are `out` and `err`.
case_standard_outputs() {
  : > out
  ln -sf out soft_out
  ln -f out hard_out
  # refuses NAME WHY: no program writes a file of this name, and those that have two make neither
  refuses() {
    local errors="cannot open $1"$'\n'$2
    wants 2 '' "$errors" "$check" f p "$1"
    wants 2 '' "$errors" "$convert" f l "$1"
    wants 2 '' "$errors" "$drat_check" f d --lrat "$1"
    wants 2 '' "$errors" "$drat_check" f d --core "$1"
    wants 2 '' "$errors" "$drat_check" f d --lrat "$1" --core never
    wants 2 '' "$errors" "$drat_check" f d --core "$1" --lrat never
  }
  for output in out ./out "$PWD/out" soft_out hard_out /dev/stdout; do
    refuses "$output" 'the output is the file of standard output'
  done
  refuses err 'the output is the file of standard error'
  refuses - '- is standard input, and no output'
  for output in f ./f d; do
    wants 2 '' "cannot open $output"$'\n'"the output is a file that is read" "$drat_check" f d --lrat never --core "$output"
  done
  if [[ -e - || -e never ]]; then
    echo 'WRONG a file is made where an output is refused'
    wrong=1
  fi
  converted() {
    "$convert" f l /dev/stdout | "$check" f -
  }
  wants 0 's UNSATISFIABLE' '' converted
  wants 1 '' 'error writing: No space left on device (os error 28)' full "$convert" f l /dev/stdout
}

# What was asked for and can't be written.
case_unwritten() {
  for program in "$check" "$hint_check" "$lrat_check" "$convert" "$drat_check" "$model_check" "$follows" "$minimal" "$circuit"; do
    for option in --help --version; do
      wants 1 '' 'error writing: No space left on device (os error 28)' full "$program" "$option"
    done
  done

  # what nobody reads on, as behind head
  unread() {
    local status=0
    { sleep 0.1 && "$@"; } | true || status=${PIPESTATUS[0]}
    return "$status"
  }
  for option in --help --version; do
    wants 0 '' '' unread "$lrat_check" "$option"
  done
}

# Each file is the one that its name says: of two that are read and two that are written none is
# taken for another, and they are opened before anything is made.
case_outputs() {
  "$drat_check" f d --lrat lines --core kept > out
  if [[ $(cat out) != 's VERIFIED UNSAT' ]] || ! grep -q '^p cnf' kept || grep -q '^p cnf' lines; then
    echo 'WRONG the lines and the core'
    wrong=1
  fi
  wants 0 's VERIFIED UNSAT' '' "$lrat_check" f lines
  for output in '--lrat never' '--trim never' '--core never' '--lrat never --core never.too'; do
    read -r -a words <<< "$output"
    wants 2 '' $'cannot open absent\nNo such file or directory (os error 2)' "$drat_check" f absent "${words[@]}"
    wants 2 '' $'cannot open absent\nNo such file or directory (os error 2)' "$drat_check" absent d "${words[@]}"
  done
  wants 2 '' $'cannot open absent\nNo such file or directory (os error 2)' "$check" f absent never
  wants 2 '' $'cannot open absent\nNo such file or directory (os error 2)' "$convert" f absent never
  if [[ -e never || -e never.too ]]; then
    echo 'WRONG a file is made where a file that is read is absent'
    wrong=1
  fi
}

# An output has its name once it is whole: a run that fails, that is killed before it writes, or
# whose file may not be longer, leaves what stood there. What a killed one wrote stays beside it,
# and no other run leaves anything.
case_whole_outputs() {
  kept() {
    if [[ $(cat new) != kept || -s out ]]; then
      echo "WRONG $*: the output is not as it was, or there is a verdict"
      wrong=1
    fi
  }
  printf 'kept' > new
  for signal in INT KILL; do
    timeout -s "$signal" 0.5 "$check" f - new < <(sleep 1) > out 2> err || true
    kept varisat_check "$signal"
    timeout -s "$signal" 0.5 "$convert" f - new < <(sleep 1) > out 2> err || true
    kept lrat_to_proof "$signal"
  done
  (ulimit -c 0 -f 1 && exec "$check" f p new) > out 2> err || true
  kept varisat_check cut off
  (ulimit -c 0 -f 1 && exec "$convert" f l new) > out 2> err || true
  kept lrat_to_proof cut off
  unfinished=(new.*.new)
  wants 1 '' $'proof: line 1: id is taken\nin ends' "$convert" f ends new
  kept lrat_to_proof refused
  wants 0 's UNSATISFIABLE' '' "$check" f p new
  wants 0 's VERIFIED UNSAT' '' "$hint_check" f new
  wants 0 '' '' "$convert" f l new
  wants 0 's UNSATISFIABLE' '' "$check" f new
  rm "${unfinished[@]}"
  if [[ $(compgen -G 'new.*.new') ]]; then
    echo 'WRONG a file is left that is not whole'
    wrong=1
  fi
}

# Names that were exchanged are asked about, where a file begins as the other one should.
case_exchanged() {
  order='arguments in the wrong order?'
  printf 'a\x02\x00' > binary
  printf '1 0\nd 1 0\n0\n' > deletes
  begins=$'units begins as a formula\n'$order
  wants 1 '' $'proof: line 1: malformed line\n'"$begins" "$lrat_check" ends units
  wants 1 '' $'line 1: malformed line\n'"$begins" "$hint_check" ends units
  wants 1 '' $'proof: line 1: malformed line\n'"$begins" "$convert" ends units new
  wants 1 '' $'proof: step 1: malformed\n'"$begins" "$drat_check" ends units
  wants 1 '' $'answer: line 1: malformed\n'"$begins" "$model_check" ends units
  wants 1 '' $'formula: line 2: bad number\nin deletes\nbad number: d\n'"$order" "$drat_check" deletes units
  wants 1 '' $'formula: line 1: bad number\nbinary begins as binary LRAT or binary DRAT\n'"$order" "$drat_check" binary ends
  wants 1 '' $'formula: line 2: bad number\nin deletes\nbad number: d' "$drat_check" deletes ends
}

# Standard input and a pipe give their bytes once: what would open one again, by whatever name, is
# refused.
case_once() {
  again=$'cannot open /dev/stdin\na pipe gives its bytes once'
  for program in "$check" "$lrat_check" "$hint_check" "$drat_check" "$model_check"; do
    wants 2 '' "$again" piped f "$program" - /dev/stdin
    wants 2 '' "$again" piped f "$program" /dev/stdin -
    wants 2 '' "$again" piped f "$program" /dev/stdin /dev/stdin
  done
  wants 2 '' "$again" piped f "$lrat_check" - l --holds /dev/stdin
  wants 2 '' "$again" piped f "$drat_check" - d --holds /dev/stdin
  # two names of one pipe, which a writer holds open
  mkfifo way
  ln -s way other
  held() {
    local status=0
    exec 6<> way
    timeout 20 "$@" || status=$?
    exec 6>&-
    return "$status"
  }
  wants 2 '' $'cannot open other\na pipe gives its bytes once' held "$lrat_check" way other
  # a device may be read twice
  wants 3 's NOT VERIFIED' '' "$lrat_check" /dev/null /dev/null
}

# A full disk: nothing is claimed, and no run ends well.
case_full_disk() {
  printf 'p cnf 2 1\n1 2 0\n' > f.right
  printf 'p cnf 2 1\n2 0\n' > claims
  printf 'p cnf 1 2\n1 0\n-1 0\n' > core
  printf -- '-1 0\n1 0\n' > models
  printf '0\n' > refuted
  wants 1 '' "$no_space" full "$check" f p
  wants 1 '' "$no_space" full "$lrat_check" f l
  wants 1 '' "$no_space" full "$hint_check" f l
  wants 1 '' "$no_space" full "$model_check" f.right a
  wants 1 '' "$no_space" full "$follows" claims claims refuted
  wants 1 '' "$no_space" full "$minimal" core refuted models
  wants 1 '' "$no_space"$'\nin /dev/full' "$follows" claims claims --formula /dev/full
  wants 1 '' "$no_space" "$check" f p /dev/full
  wants 1 '' "$no_space" "$convert" f l /dev/full
}

try_cases
