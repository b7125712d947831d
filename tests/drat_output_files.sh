#!/usr/bin/env bash
# Which files `drat_check` writes, and which it refuses to write: links, files of others, files of
# two runs at once, and what a run leaves that is killed or meets a full disk.
set -euo pipefail
. "$(dirname "$0")/lib.sh"
# shellcheck source=SCRIPTDIR/drat_outputs/setup.sh
. "$top/tests/drat_outputs/setup.sh"

# What is written has its name once it is whole: a run that is killed leaves what stood there, and
# beside it what it wrote, which nobody takes away; here nothing is written yet.
case_killed() {
  mkfifo hold
  exec 6<> hold
  for signal in INT KILL; do
    keep l c
    rm -f l.*.new c.*.new
    # in the background a shell has a program ignore INT
    env --default-signal=INT "$check" f - --lrat l --core c < hold > out 2> err &
    run=$!
    for ((tries = 0; tries < 200; tries++)); do
      [[ ! -e l.$run.new || ! -e c.$run.new ]] || break
      sleep 0.05
    done
    kill -s "$signal" "$run"
    wait "$run" 2> said || true
    kept "$signal" l c
    left=$(compgen -G '[lc].*.new' | sort) || true
    [[ $left == c.*.new*l.*.new && ! -s out ]] || fault "$signal: no run was killed"
    wants 0 's VERIFIED UNSAT' '' f p --lrat l --core c
    [[ $(compgen -G '[lc].*.new' | sort) == "$left" ]] || fault "after $signal: $(compgen -G '[lc].*.new') in place of $left"
    [[ $("$lrat_check" f l) == 's VERIFIED UNSAT' ]] || fault "the lines after $signal"
  done
  # here the lines are written in part, and here whole, and the clauses in part: a file may not be
  # longer, and a pipe is full. Each clause makes the next variable true, so one step is the proof,
  # and its lines and the core are long.
  awk 'BEGIN { n = 20000; print "p cnf", n, n + 1; print "1 0"; for (i = 1; i < n; i++) print -i, i + 1, 0; print -n, 0 }' > chain.cnf
  printf '0\n' > end
  keep l c
  (ulimit -c 0 -f 16 && exec "$check" chain.cnf end --lrat l --core c) > out 2> err || true
  kept 'cut off' l c
  [[ ! -s out ]] || fault 'a verdict beside lines that are cut off'
  rm -f l.*.new c.*.new
  for signal in INT KILL; do
    keep l
    rm -f l.*.new
    env --default-signal=INT "$check" chain.cnf end --lrat l --core hold > out 2> err &
    run=$!
    for ((tries = 0; tries < 200; tries++)); do
      [[ ! -s l.$run.new || $(tail -n 1 "l.$run.new") != *' 0' ]] || break
      sleep 0.05
    done
    kill -s "$signal" "$run"
    wait "$run" 2> said || true
    kept "$signal at the core" l
    [[ $("$lrat_check" chain.cnf "l.$run.new") == 's VERIFIED UNSAT' && ! -s out ]] || fault "$signal: the run was not killed at the core"
  done
  exec 6>&-
  rm -f l.*.new
  "$check" chain.cnf end --lrat l > out
  [[ $("$lrat_check" chain.cnf l) == 's VERIFIED UNSAT' ]] || fault 'the lines of the chain'
  alone 'the chain' l
}

# Links lead to the file that is written, which keeps its permissions.
case_links() {
  rm -f l real
  keep real
  chmod 600 real
  ln -s real l
  wants 0 's VERIFIED UNSAT' '' f p --lrat l
  [[ -L l && $("$lrat_check" f real) == 's VERIFIED UNSAT' && $(stat -c %a real) == 600 ]] || fault 'the lines behind a link'
  alone 'a link' l real
  rm l
}

# Two runs that write one name at once have a file each, and the name is that of the later one.
case_two_runs() {
  printf '2 0\n0\n' > other.p
  "$check" f other.p --lrat other.l > out
  mkfifo slow
  "$check" f slow --lrat l > out.slow 2> err.slow &
  run=$!
  exec 7> slow
  for ((tries = 0; tries < 200; tries++)); do
    [[ -z $(compgen -G 'l.*.new') ]] || break
    sleep 0.05
  done
  sleep 0.5
  wants 0 's VERIFIED UNSAT' '' f p --lrat l
  [[ $("$lrat_check" f l) == 's VERIFIED UNSAT' ]] && ! cmp -s l other.l || fault 'the lines of the first of two runs at once'
  cat other.p >&7
  exec 7>&-
  status=0
  wait "$run" || status=$?
  [[ $status == 0 && $(cat out.slow) == 's VERIFIED UNSAT' && ! -s err.slow ]] || fault "two runs at once: status $status, $(cat out.slow err.slow)"
  cmp -s l other.l || fault 'the lines of the second of two runs at once'
  alone 'two runs at once' l
}

# A file that is not of this run stays, also one of the name that the run would take first.
case_strangers() {
  # numbered ARGUMENT..: such a file is there, and the program has the number in its name
  numbered() {
    printf kept > "l.$BASHPID.new"
    exec "$check" "$@"
  }
  for proof in p malformed.p; do
    printf '1 x 0\n' > malformed.p
    keep l.new
    (numbered f "$proof" --lrat l) > out 2> err || true
    kept "a stranger's file" l.new l.*.new
    rm l.*.new l.new
  done
}

# A beginning of the lines is no proof, and one of the clauses is not what its header says.
case_beginnings() {
  "$check" f p --lrat l --core c > out
  head -n -1 l > begun.lines
  head -n -1 c > begun.clauses
  said=$("$lrat_check" f begun.lines) || true
  [[ $said == 's NOT VERIFIED' ]] || fault "a beginning of the lines: $said"
  "$check" begun.clauses p > out 2> err || true
  grep -q '^warning: the header of begun.clauses is ' err || fault "a beginning of the clauses: $(cat out err)"
}

# An output that is a file that is read, or the other output.
case_refused_outputs() {
  for output in f p ./f ./p "$PWD/p" hard soft; do
    for option in --lrat --core; do
      wants 2 '' "cannot open $output"$'\n'"the output is a file that is read" f p "$option" "$output"
    done
    printf 'kept' > l
    for arguments in "--lrat l --core $output" "--core l --lrat $output"; do
      # shellcheck disable=SC2086
      wants 2 '' "cannot open $output"$'\n'"the output is a file that is read" f p $arguments
      [[ $(cat l) == kept ]] || fault "the other output is emptied: $arguments"
    done
  done
  printf 'kept' > same
  ln -f same other
  for output in same ./same other; do
    wants 2 '' "cannot open $output"$'\n'"both outputs are one file" f p --lrat same --core "$output"
    [[ $(cat same) == kept ]] || fault "one file is emptied: $output"
  done
  wants 2 '' $'cannot open ./new\nboth outputs are one file' f p --lrat new --core ./new
  kept 'names in conflict' same
  cp p same.new
  wants 0 's VERIFIED UNSAT' '' f same.new --lrat same
  cmp -s p same.new || fault 'a proof is taken away'
  wants 0 's VERIFIED UNSAT' '' f p --lrat same --core same.new
  [[ $("$lrat_check" f same) == 's VERIFIED UNSAT' && $("$check" same.new p) == 's VERIFIED UNSAT' ]] || fault 'the names same and same.new'
  alone 'outputs that are refused' l same same.new new
  # a name that is empty, and links that lead to nothing: nothing is read, made or taken away
  keep .new
  ln -s nowhere dangling
  ln -s itself itself
  for option in --lrat --trim --core; do
    wants 2 '' $'cannot open \nthe name of an output is empty' f p "$option" ''
    wants 2 '' $'cannot open \nthe name of an output is empty' f p "$option="
    for output in dangling itself; do
      wants 2 '' "cannot open $output"$'\nthe output is a link that leads to nothing' f p "$option" "$output"
    done
  done
  kept 'a name that is empty' .new
  [[ -L dangling && -L itself && ! -e nowhere && -z $(compgen -G '*.*.new') ]] || fault "links to nothing: $(ls -A)"
  wants 2 '' $'cannot open /dev/null\nboth outputs are one file' f p --lrat /dev/null --core /dev/null
  wants 0 's VERIFIED UNSAT' '' f p --lrat /dev/null --core c
}

# A disk that is full: no line of a verdict, and the file is named.
case_full_disk() {
  wants 1 '' $'error writing: No space left on device (os error 28)\nin /dev/full' f p --lrat /dev/full --core c
  wants 1 '' $'error writing: No space left on device (os error 28)\nin /dev/full' f p --core /dev/full --lrat l
  wants 1 '' $'error writing: No space left on device (os error 28)\nin /dev/full' f p --trim /dev/full --lrat l
  alone 'no verdict' l c
}

try_cases
