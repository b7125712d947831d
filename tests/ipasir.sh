#!/usr/bin/env bash
# The layer between an application and its solver, as `bindings/build.sh` builds it: bounded model checking and a resolver of versions;
# random sessions against all assignments; solvers that lie, of which no lie may come through; several solvers, threads and forks; what
# `verified --run` says of all processes of a program; all of this over CaDiCaL 2, if its packages are to be had; and the form of the
# layer for it over a stand-in, which has the types of later versions too.
#
# The library is built if it is not there, and the programs must be: `rt ci` does it. Without CaDiCaL (Debian: libcadical-dev) the
# stand-in alone is tried. IS_CADICAL2 is set where this script runs itself over CaDiCaL 2.
# needs: crates/c_library/out/libc_library.a
set -euo pipefail
. "$(dirname "$0")/lib.sh"
own=$top/tests/ipasir
layer=$top/bindings/ipasir/ipasir_checked.cpp
cd "$work"

# shown COUNTS: the line of a process whose answers all are shown: `A satisfiable, B unsatisfiable`, and `, C unknown` if there are any
shown() {
  local yes no open
  read -r yes _ no _ open _ <<< "$1 0"
  open=${open:-0}
  echo "cefindrato: $((yes + no + open)) answers, all shown: $yes satisfiable, $no unsatisfiable, $open unknown"
}

# agrees COMMAND..: all answers are shown, as many as the program counts itself
agrees() {
  local said
  said=$("$@" 2> err) || wrong=1
  if [[ $(cat err) != "$(shown "$said")" ]]; then
    printf '%s: it wrote:\n%s\n%s\n' "$*" "$said" "$(cat err)"
    wrong=1
  fi
}

# lies LIE COMMAND..: each answer that the program was told is right, some are 0, and as many are not shown; strict ends the program at
# the first; and what is let through is wrong
lies() {
  local said hidden
  export LIE=$1
  said=$("${@:2}" 2> err) || wrong=1
  read -r _ _ _ _ hidden _ <<< "$said"
  if [[ $hidden == 0 || $(wc -l <<< "$said") != 1 || $(cat err) != "cefindrato: $hidden of "* ]]; then
    printf '%s with a wrong %s: it wrote:\n%s\n%s\n' "${*:2}" "$1" "$said" "$(cat err)"
    wrong=1
  fi
  if SESSION_CHECK=strict "${@:2}" > said 2> err || [[ $? != 1 || -s said || $(cat err) != 'cefindrato: answer '*' is not shown: '* ]]; then
    printf '%s with a wrong %s, strict: it wrote:\n%s\n%s\n' "${*:2}" "$1" "$(cat said)" "$(cat err)"
    wrong=1
  fi
  SESSION_CHECK=count "${@:2}" > said 2> err || true
  if [[ $(tail -n 1 said) != *', 0 unknown' || $(cat err) != "cefindrato: $hidden of "* ]]; then
    printf '%s with a wrong %s, let through: it wrote:\n%s\n%s\n' "${*:2}" "$1" "$(tail -n 1 said)" "$(cat err)"
    wrong=1
  fi
  unset LIE
}

only_with c++
"$top/bindings/build.sh" --built lib 2> err || cat err
warned=(c++ -std=c++17 -O2 -Wall -Wextra -Werror -I "$top/bindings/c")
client=(-I "$top/bindings/sessions" -I "$own")
"${warned[@]}" "${client[@]}" -c "$own/random_sessions.cpp"
"${warned[@]}" "${client[@]}" -c "$own/several.cpp"
is_cadical=yes
c++ -x c++ -include cadical.hpp -fsyntax-only /dev/null 2> said || is_cadical=

# over_cadical: the case ends here without CaDiCaL
over_cadical() {
  [[ $is_cadical ]] || untried 'libcadical-dev is not installed'
}

# What several cases run over it: programs, and an application that asks a library of IPASIR, whichever it is. The layer that `verified --run` puts
# in its place stands elsewhere than that of the test, with a blank in its name.
run=("$work/a place/bin/verified" --run)
if [[ $is_cadical ]]; then
  ln -s libcefindrato_ipasir.so lib/libcefindrato_ipasir.so.0
  cc -O2 -Wall -Wextra -Werror "${client[@]}" -c "$top/tests/sessions/circuit.c"
  "${warned[@]}" -c -o checked.o "$layer"
  "${warned[@]}" -DDEAD_LITERALS=1000 -c -o forgets.o "$layer"
  for program in random_sessions several; do
    c++ -o "$program" "$program.o" checked.o lib/libcefindrato.a -lcadical
  done
  c++ -o random_forgets random_sessions.o forgets.o lib/libcefindrato.a -lcadical
  c++ -o circuit_forgets circuit.o forgets.o lib/libcefindrato.a -lcadical
  place="$work/a place"
  mkdir -p "$place/bin" "$place/lib/cefindrato"
  cp "$top"/tools/{checked,sessions,verified} "$place/bin"
  cp "$top"/lib/cefindrato/*.py "$place/lib/cefindrato"
  for program in drat_check lrat_check model_check; do
    built=$top/crates/${program}_main/out/${program}_main
    if [[ -x $built ]]; then
      ln -s "$built" "$place/bin/$program"
    fi
  done
  c++ -shared -fPIC -x c++ -I "$top/bindings/sessions" -o lib/libother.so - << 'END'
#include "ipasir.h"
extern "C" {
const char *ipasir_signature(void) { return "none"; }
void *ipasir_init(void) { return nullptr; }
void ipasir_release(void *) {}
void ipasir_add(void *, int) {}
void ipasir_assume(void *, int) {}
int ipasir_solve(void *) { return 20; }
int ipasir_val(void *, int) { return 0; }
int ipasir_failed(void *, int) { return 0; }
void ipasir_set_terminate(void *, void *, int (*)(void *)) {}
void ipasir_set_learn(void *, void *, int, void (*)(void *, int *)) {}
}
END
  c++ -o other several.o -Llib -lother -Wl,-rpath,"$work/lib" -pthread
fi

# Itself, over CaDiCaL 2: its cases but the two that stand first.
case_cadical2() {
  "$own/cadical2.sh" "$work/two" > said || untried 'CaDiCaL 2 is not to be had'
  for name in "${case_names[@]:2}"; do
    others+=(--case "$name")
  done
  part_ended env IS_CADICAL2=1 PATH="$work/two/bin:$PATH" "$top/tests/ipasir.sh" "${others[@]}"
}

case_stand_in() {
  for version in '' -DLATER; do
    "${warned[@]}" ${version:+"$version"} -I "$own/tracer" -c -o traced.o "$layer"
    c++ -o traced random_sessions.o traced.o lib/libcefindrato.a
    agrees ./traced 1 60 9
    for lie in lemma chain core model; do
      lies "$lie" ./traced 1 60 9
    done
  done
}

case_names() {
  over_cadical
  for name in add assume failed init release set_learn set_terminate signature solve val; do
    echo "ipasir_$name"
  done > names
  for names in 'nm -g lib/libcefindrato_ipasir.a' 'nm -D lib/libcefindrato_ipasir.so'; do
    if [[ $($names --defined-only | awk 'NF == 3 { print $3 }' | sort) != "$(cat names)" ]]; then
      echo "visible by $names: $($names --defined-only)"
      wrong=1
    fi
  done
  loads=$(readelf -d lib/libcefindrato_ipasir.so | grep NEEDED | grep -vE 'lib(c|m|dl)\.so|ld-linux' || true)
  if [[ $loads ]]; then
    echo "the layer loads $loads"
    wrong=1
  fi
}

# Clients: in C by the shared library, and by the static one. Each depth of the circuit has a query for each bit that fails, and one that
# can be satisfied, since an input times five, which is odd, can have all bits set.
case_clients() {
  over_cadical
  cc -O2 -Wall -Wextra -Werror "${client[@]}" -c "$top/tests/sessions/resolver.c"
  for program in circuit resolver; do
    cc -o "$program" "$program.o" -Llib -lcefindrato_ipasir -Wl,-rpath,"$work/lib"
    c++ -o "${program}_alone" "$program.o" lib/libcefindrato_ipasir.a
  done
  found='50 satisfiable, 250 unsatisfiable'
  expect 0 "$found" "$(shown "$found")" -- ./circuit 5 50
  expect 0 "$found" "$(shown "$found")" -- ./circuit_alone 5 50
  agrees ./resolver 80 300
  agrees ./resolver_alone 80 300
  SESSION_CHECK=strikt expect 2 '' 'cefindrato: SESSION_CHECK is neither strict nor count' -- ./circuit 2 2
}

# Random sessions, small ones each against all assignments; large ones where much is deleted, eliminated and restored, and the layer
# forgets what is dead at once.
case_random() {
  over_cadical
  for seed in 1 2; do
    agrees ./random_sessions "$seed" "${SESSIONS:-300}" 13
    for options in CADICAL_ELIMINT=2000 'CADICAL_ELIMINT=20 CADICAL_PROBEINT=20 CADICAL_REDUCEINT=20 CADICAL_SUBSUMEINT=20'; do
      for program in random_sessions random_forgets; do
        # shellcheck disable=SC2086 # several words
        agrees env $options "./$program" "$seed" 3 110
      done
    done
  done
  agrees ./circuit_forgets 6 30
}

# Solvers that lie.
case_lying() {
  over_cadical
  "${warned[@]}" -I "$own/lying" -c -o lying.o "$layer"
  c++ -o lying random_sessions.o lying.o lib/libcefindrato.a -lcadical
  agrees ./lying 1 100 13
  for lie in core model lemma status ${IS_CADICAL2:+chain}; do
    lies "$lie" ./lying 1 100 13
  done
}

# Several solvers. What a forked child counts is its own; one that ends by itself says nothing on standard error.
case_several() {
  over_cadical
  expect 0 '' "$(shown '6 satisfiable, 6 unsatisfiable')" -- ./several threads
  expect 0 '' "$(shown '2 satisfiable, 2 unsatisfiable')" -- ./several orders
  expect 0 '' "$(shown '1 satisfiable, 1 unsatisfiable')" -- ./several forked
  expect 0 '' "$(shown '0 satisfiable, 1 unsatisfiable, 1 unknown')" -- ./several calls
  expect 0 '' "$(shown '4 satisfiable, 7 unsatisfiable')" -- ./several edges
}

case_sanitized() {
  over_cadical
  for checks in thread address,undefined; do
    sanitized=(-std=c++17 -g -O1 -pthread "-fsanitize=$checks" -fno-sanitize-recover=all)
    c++ "${sanitized[@]}" -DDEAD_LITERALS=1000 -I "$top/bindings/c" -c -o sanitized.o "$layer"
    for program in several random_sessions; do
      c++ "${sanitized[@]}" "${client[@]}" -o "${program}_sanitized" "$own/$program.cpp" sanitized.o lib/libcefindrato.a -lcadical
    done
    expect 0 '' "$(shown '6 satisfiable, 6 unsatisfiable')" -- ./several_sanitized threads
    if [[ $checks != thread ]]; then
      expect 0 '' "$(shown '4 satisfiable, 7 unsatisfiable')" -- ./several_sanitized edges
      agrees ./random_sessions_sanitized 3 30 13
      agrees ./random_sessions_sanitized 3 2 90
    fi
  done
}

case_valgrind() {
  only_with valgrind
  over_cadical
  for call in './several edges' './circuit_forgets 3 5'; do
    # shellcheck disable=SC2086 # several words
    valgrind -q --leak-check=full --error-exitcode=9 $call > said 2> err || {
      cat err
      wrong=1
    }
  done
}

# A program that asks a library of IPASIR, whichever it is, by `verified --run`: one line for all its processes. The layer stands in
# another place than that of the test, with a blank in its name.
case_run() {
  over_cadical
  expect 1 'wrong: no clause, and a variable that none has' '' -- ./other edges
  expect 2 '' "verified: no layers in $place/bin/../lib" -- "${run[@]}" ./other edges
  cp lib/libcefindrato_ipasir.so "$place/lib/"
  expect 0 '' "$(shown '4 satisfiable, 7 unsatisfiable')" -- "${run[@]}" ./other edges
  expect 0 '' "$(shown '2 satisfiable, 2 unsatisfiable')" -- "${run[@]}" ./other forked
  expect 5 '' "$(shown '8 satisfiable, 14 unsatisfiable')" -- "${run[@]}" bash -c './other edges & ./other edges; wait; exit 5'
  expect 3 '' 'cefindrato: no answer was seen' -- "${run[@]}" true
  expect 2 '' 'verified: --run takes a program and its words (verified --help says how it is called)' -- "${run[@]}"
  # (a process that is killed has said what it counted)
  expect 4 '' "$(shown '4 satisfiable, 7 unsatisfiable')" -- "${run[@]}" bash -c '{ ./other killed; } 2> /dev/null; exit 4'
}

# The same over a solver that lies.
case_run_lying() {
  over_cadical
  echo '{ global: ipasir_*; local: *; };' > only
  "${warned[@]}" -fPIC -I "$own/lying" -c -o lying_shared.o "$layer"
  c++ -r -nostdlib -Wl,--force-group-allocation -o whole.o lying_shared.o lib/libcefindrato.a -lcadical
  objcopy --wildcard --keep-global-symbol='ipasir_*' whole.o
  c++ -shared -Wl,--version-script=only -o "$place/lib/libcefindrato_ipasir.so" whole.o
  c++ -o other_random random_sessions.o -Llib -lother -Wl,-rpath,"$work/lib"
  if LIE=core "${run[@]}" ./other_random 1 10 9 > said 2> err || [[ $? != 1 || $(tail -n 1 err) != 'cefindrato: not all answers are shown' ]] ||
    ! grep -qE '^cefindrato: process [0-9]+, answer [0-9]+ \((propagation finds no conflict for the core|the core: .*)\)$' err; then
    echo "verified --run over a solver that lies: $(cat said err)"
    wrong=1
  fi
}

# picosat's answers with it, by its recorder.
case_picosat() {
  over_cadical
  [[ -e /usr/include/picosat/picosat.h && -x $place/bin/drat_check ]] || untried 'picosat or drat_check is not there'
  cp lib/libcefindrato_ipasir.so "$place/lib/"
  c++ -std=c++17 -O2 -shared -fPIC -o "$place/lib/cefindrato/picosat_preload.so" "$top/bindings/sessions/picosat_preload.cpp" -ldl
  cc -O2 -o picosat_resolver "$top/tests/sessions/resolver.c" -lpicosat
  IFS=' ' read -r yes _ no _ <<< "$(./picosat_resolver 20 20)"
  # shellcheck disable=SC2016 # the shell that is run expands it
  expect 0 '' "$(shown "$((yes + 4)) satisfiable, $((no + 7)) unsatisfiable")" -- "${run[@]}" bash -c './picosat_resolver 20 20 > /dev/null; ./other edges'
}

try_cases
