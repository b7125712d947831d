#!/usr/bin/env bash
# Proofs that are checked while they are written: by `lrat_check` line by line from a pipe, from C++ and Python too; and where
# cadical is there, by `drat_check` from the solver and from a program that has the solver's library (Debian: cadical,
# libcadical-dev).
#
# The programs must be built: `rt ci` does it, or `rt run` in their folders.
set -euo pipefail
. "$(dirname "$0")/lib.sh"
lrat_check=$(built lrat_check)
drat_check=$(built drat_check)
cd "$work"

# wants STATUS OUTPUT NAME: what the checker has ended with, in `status` and the file `said`
wants() {
  if [[ $status != "$1" || $(cat said) != "$2" ]]; then
    printf '%s: status %s, %s %s\n' "$3" "$status" "$(cat said)" "$(cat err)"
    wrong=1
  fi
}

# ends PID: waits for the checker, some seconds at most
ends() {
  for _ in {1..200}; do
    kill -0 "$1" 2> null || break
    sleep 0.1
  done
  if kill "$1" 2> null; then
    echo "the checker waits for more"
  fi
  status=0
  wait "$1" || status=$?
}

printf 'p cnf 1 9\n1 2 0 1 -2 0 -1 2 0 -1 -2 0' > four.cnf
compiled=(c++ -std=c++17 -O2 -Wall -Wextra -Werror -pthread -I"$top/bindings/c" -I"$top/bindings/cpp")
formula pigeons 6 > pigeons.cnf
formula multiplier 5 > multiplier.cnf
grep -v '^1 2 3 4 5 6 0$' pigeons.cnf | sed 's/^p cnf 42 133$/p cnf 42 132/' > six.cnf

# Lines through a pipe that stays open. The checker ends at the first line that is refused, and at the empty clause. The
# header is wrong, so that there may be a warning beside the answer.
case_lines() {
  for last in '6 0 5 3 0' '6 0 5 3 4 0'; do
    mkfifo lines
    "$lrat_check" four.cnf lines > said 2> err &
    pid=$!
    exec 3> lines
    echo '5 1 0 1 2 0' >&3
    sleep 0.3
    if ! kill -0 "$pid" 2> null; then
      echo "the checker has ended before the pipe's last line"
      wrong=1
    fi
    echo "$last" >&3
    ends "$pid"
    exec 3>&-
    rm lines
    if [[ $last == '6 0 5 3 0' ]]; then
      wants 1 '' 'a wrong line'
      if [[ $(head -n 1 err) != 'proof: line 2: hints end without a conflict' ]]; then
        cat err
        wrong=1
      fi
    else
      wants 0 's VERIFIED UNSAT' 'the empty clause'
    fi
  done
}

case_libraries() {
  if has c++; then
    "${compiled[@]}" -o running "$top/tests/bindings/running.cpp"
    ./running "$lrat_check" four.cnf || wrong=1
  fi
  PYTHONPATH=$top/bindings/python python3 -B "$top/tests/bindings/running.py" "$lrat_check" four.cnf || wrong=1
}

case_solver() {
  only_with cadical
  for name in pigeons multiplier; do
    mkfifo steps
    cadical -q "$name.cnf" steps > solved 2>&1 &
    solver=$!
    status=0
    "$drat_check" "$name.cnf" steps > said 2> err || status=$?
    # The checker reads up to the first conflict. What is written after it meets no reader, and ends the solver by a signal.
    solved=0
    wait "$solver" || solved=$?
    if ((solved != 20 && solved != 141)); then
      echo "cadical $name: status $solved"
      wrong=1
    fi
    wants 0 's VERIFIED UNSAT' "cadical $name, by a named pipe"
    rm steps
  done
}

case_solver_library() {
  echo '#include <cadical.hpp>' > has.cpp
  only_with c++
  c++ -E has.cpp > null 2>&1 || untried 'the header cadical.hpp is not installed'
  "${compiled[@]}" -o with_cadical "$top/bindings/cpp/with_cadical.cpp" -lcadical
  # run STATUS OUTPUT ARGUMENT..: the program with the solver's library must end so
  run() {
    status=0
    ./with_cadical "$drat_check" "${@:3}" > said 2> err || status=$?
    wants "$1" "$2" "with_cadical ${*:3}"
  }
  run 0 verified pigeons.cnf
  run 0 verified multiplier.cnf
  # there is a model; and the solver gives up
  run 3 'not verified' six.cnf
  run 3 'not verified' pigeons.cnf 10
  # a checker that is not there
  drat_check=./none
  run 2 '' pigeons.cnf
}

try_cases
