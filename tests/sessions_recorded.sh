#!/usr/bin/env bash
# Where the solvers are there (Debian: libcadical-dev, picosat, python3-pycosat), the recorders of
# `bindings/sessions`: bounded model checking of a circuit, and resolvers of versions.
set -euo pipefail
. "$(dirname "$0")/lib.sh"
# shellcheck source=SCRIPTDIR/sessions/setup.sh
. "$top/tests/sessions/setup.sh"

case_circuits() {
  only_with c++
  if c++ -x c++ -std=c++17 -O2 -Wall -Wextra -Werror -c -o ipasir_cadical.o "$layers/ipasir_cadical.cpp" 2> err; then
    cc -O2 -Wall -Wextra -Werror -I "$layers" -c -o circuit.o "$top/tests/sessions/circuit.c"
    c++ -o circuit circuit.o ipasir_cadical.o -lcadical
    records circuits "$(./circuit 5 50)" "1 session" ./circuit 5 50
    lies circuits UNSATISFIABLE SATISFIABLE

    # A run that breaks leaves no session, and what it leaves is refused.
    mkdir broken
    SESSION_RECORD=broken/it bash -c 'timeout -s KILL 0.2 ./circuit 12 200; true' > said 2>&1
    if compgen -G 'broken/*.icnf' > said || ! compgen -G 'broken/*.icnf.part' > said || sessions check broken > said 2>&1; then
      echo "circuit: a run that was killed has left a session"
      wrong=1
    fi
  elif grep -q 'cadical.hpp' err; then
    untried 'libcadical-dev is not installed'
  else
    cat err
    wrong=1
  fi
}

case_resolvers() {
  only_with c++
  [[ -e /usr/include/picosat/picosat.h ]] || untried "$(missing picosat)"
  c++ -std=c++17 -O2 -Wall -Wextra -Werror -shared -fPIC -o picosat_preload.so "$layers/picosat_preload.cpp" -ldl
  cc -O2 -Wall -Wextra -Werror -o resolver "$top/tests/sessions/resolver.c" -lpicosat
  records resolvers "$(./resolver 80 300)" "1 session" env LD_PRELOAD=./picosat_preload.so ./resolver 80 300
  lies resolvers UNSATISFIABLE SATISFIABLE
  lies resolvers SATISFIABLE UNSATISFIABLE

  # A solver that is there before the process forks; and one whose session can't be recorded, which
  # is not passed over.
  cc -O2 -Wall -Wextra -Werror -o forked "$top/tests/sessions/forked.c" -lpicosat
  records forks "$(./forked)" "2 sessions" env LD_PRELOAD=./picosat_preload.so ./forked
  mkdir contexts
  SESSION_RECORD=contexts/it LD_PRELOAD=./picosat_preload.so ./forked contexts 2> err
  if sessions check contexts > said 2>&1 || ! grep -q "idrup.part: $unfinished" said; then
    echo "a session with contexts is shown: $(cat said)"
    wrong=1
  fi

  # Two runs whose processes have one number: names that are taken stay as they are. In a name `%p`
  # is the process.
  own=(unshare --user --map-root-user --pid --fork)
  if "${own[@]}" true 2> err; then
    mkdir again
    for _ in 1 2; do
      "${own[@]}" env SESSION_RECORD=again/%p-it LD_PRELOAD=./picosat_preload.so ./resolver 20 20 > counts
    done
    if [[ $(cat again/sessions.index) != $'1-it.1\n1-it.2' || $(sessions check again) != *', in 2 sessions' ]]; then
      echo "two runs as process 1: $(ls again)"
      wrong=1
    fi
  else
    not_tried 'no namespaces here'
  fi
  if /usr/bin/python3 -c 'import pycosat' 2> err; then
    recorded=(env LD_PRELOAD=./picosat_preload.so /usr/bin/python3 -B)
    records python "$(/usr/bin/python3 -B "$top/tests/sessions/versions.py")" "1 session" "${recorded[@]}" "$top/tests/sessions/versions.py"
    # Eight queries in four processes: none is lost, and a quarter that is deleted is missed.
    records pool '3 satisfiable, 5 unsatisfiable' '8 sessions' "${recorded[@]}" "$top/tests/sessions/pool.py"
    head -n 2 pool/sessions.index | sed 's|.*|pool/&.icnf\npool/&.idrup|' | xargs rm
    if sessions check pool > said 2> err || [[ $? != 1 || -s said || $(grep -c ' is not there$' err) != 4 ]]; then
      echo "a quarter of the sessions is missing: $(cat said err)"
      wrong=1
    fi
  else
    not_tried 'python3-pycosat is not installed'
  fi
}

try_cases
