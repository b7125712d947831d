# shellcheck shell=bash disable=SC2154,SC2034
# Names of formulas, wrong calls, and where programs are. Read by tests/checked_all.sh.

# names: a folder, patterns, and whatever a name has
mkdir -p 'names/be low/deep'
cp four.cnf names/a.cnf
cp four.cnf 'names/be low/b [1].cnf'
cp four.cnf 'names/be low/deep/c.dimacs'
gzip -c four.cnf > names/d.cnf.gz
cp four.cnf names/e.txt
cp other.cnf $'names/odd\n\xc3\xbc.cnf'
cp other.cnf ./-dash.cnf
cp other.cnf ./-
all() {
  ends 0 "$(counts "$1" "$2" 0 0)" checked_all "${@:3}" --solver right --json names.json --jobs 2
}
all 4 1 names
all 4 1 'names/**/*.cnf*' 'names/**/*.dimacs'
all 1 0 names/e.txt names/e.txt
all 1 0 'names/be low/b [1].cnf'
all 0 1 ./-dash.cnf
ends 0 "$(counts 0 2 0 0)" checked_all --solver right --json names.json -- -dash.cnf -
ends 0 "all rows fit: $(wc -l < names.json)" checked_all --audit names.json
same 'a name that breaks a line' '"names/odd\n\u00fc.cnf"' "$(checked_all --report --json names.json | grep -o '^"names.*cnf"')"

# rows alone, on standard output
ends 0 "$(grep '"names/a.cnf"' names.json | python3 -c 'import json, sys; print(json.loads(sys.stdin.readline())["outcome"])')" \
  bash -c 'checked_all names/a.cnf --solver right --json - | "$@"' bash "${judged[@]}" last /dev/stdin outcome
ends 0 "$(counts 1 0 0 0)" checked_all four.cnf --solver right --verbose
because '1 of 1: four.cnf: s VERIFIED UNSAT'

# wrong calls, each named in one line
wrong_call() {
  ends 2 '' checked_all "${@:2}"
  because "$1"
  same "lines of ${*:2}" 1 "$(wc -l < err)"
}
wrong_call 'no formula is named'
wrong_call 'no formula is named' --solver right
wrong_call 'no formula is named' --report
wrong_call 'no formula is named' --report --json -
wrong_call 'no --solver is named' four.cnf
wrong_call 'there is no formula none.cnf' none.cnf --solver right
wrong_call 'there is no formula names/*.none' 'names/*.none' --solver right
wrong_call 'there is no formula room' room --solver right
mkfifo names/pipe
wrong_call 'names/pipe is no regular file' names/pipe --solver right
wrong_call 'cannot run no_such_solver' four.cnf --solver no_such_solver
wrong_call 'cannot run a solver without a name' four.cnf --solver ''
wrong_call '--solver: No closing quotation' four.cnf --solver "right '"
wrong_call 'argument --limit' four.cnf --solver right --limit 0
wrong_call 'argument --limit' four.cnf --solver right --limit nan
wrong_call 'argument --limit' four.cnf --solver right --limit soon
wrong_call 'argument --jobs' four.cnf --solver right --jobs 0
wrong_call 'argument --json: expected one argument' four.cnf --solver right --json
wrong_call 'unrecognized arguments: --fast' four.cnf --solver right --fast
wrong_call '--audit takes no other argument' --audit names.json four.cnf
wrong_call '--call and --no-proof exclude each other' four.cnf --solver right --no-proof --call 'SOLVER FORMULA'
wrong_call '--while keeps no proof' four.cnf --solver right --while --keep-proofs kept
wrong_call '--json - prints the rows, and no report' four.cnf --solver right --json - --report
DRAT_CHECK=./none wrong_call 'cannot run ./none' four.cnf --solver right
type -P srun > said || wrong_call 'cannot run srun' four.cnf --solver right --slurm
version=$(sed -n 's/^const VERSION: &str = "\([^"]*\).*/\1/p' "$top/crates/command/src/status.rt")
for flag in -V --version; do
  ends 0 "checked_all $version" checked_all "$flag"
done
for flag in -h --help; do
  ends 0 "$(python3 -c 'import ast, sys; print(ast.get_docstring(ast.parse(open(sys.argv[1]).read()), False))' "$top/tools/checked_all")" checked_all "$flag"
  ends 0 "$(checked_all --help)" checked --all "$flag"
done

# each run has one processor, also for a long proof
solver lengthy << 'END'
yes '1 0' | head -n 1100000 > "$2"; exit 20
END
solver cutting << END
echo > '$work/is_cut'; exit 1
END
PIECES=cutting ends 0 "$(counts 1 0 0 0)" checked_all four.cnf --solver lengthy
if [[ -e is_cut ]]; then
  echo "checked_all: a proof is cut"
  wrong=1
fi
PIECES=cutting ends 20 's VERIFIED UNSAT' checked --jobs 3 --verbose lengthy four.cnf
because 'cutting run'

# by `checked`: first of all, and with python3
ends 2 '' checked --while --all four.cnf --solver right
because '--all comes before all other options'
ends 2 '' checked --all=four.cnf --solver right
because '--all takes no value'
mkdir few
for name in sh realpath; do
  ln -s "$(type -P "$name")" few
done
ends 2 '' env PATH="$work/few" "$top/tools/checked" --all four.cnf --solver right
because "cannot run python3, which $top/tools/checked_all needs"
as_installed checked
ends 2 '' env PATH="$work/few" alone/bin/checked --all four.cnf --solver right
because 'cannot run checked_all'
# programs beside the script, ahead of those on PATH
cp "$top/tools/checked_all" alone/bin
cp -L bin/{drat_check,lrat_check,model_check} alone/bin
mkdir false
for name in checked drat_check model_check; do
  printf '#!/bin/sh\nexit 1\n' > "false/$name"
  chmod +x "false/$name"
done
ends 0 "$(counts 1 0 0 0)" env PATH="$work/false:$PATH" alone/bin/checked --all four.cnf --solver right
# a status without its line is no verdict
for said in '' 's VERIFIED SAT' 's VERIFIED UNSAT\nmore'; do
  printf '#!/bin/sh\nprintf "%s\\n"\nexit 20\n' "$said" > alone/bin/checked
  ends 3 "$(counts 0 0 1 0)" alone/bin/checked_all four.cnf --solver right
done
# and one that does not end when it is asked to is killed with its group
printf '#!/bin/sh\ntrap "" TERM\necho $$ >> pids; sleep 90 & echo $! >> pids; wait\n' > alone/bin/checked
: > pids
began=$SECONDS
ends 3 "$(counts 0 0 1 0)" alone/bin/checked_all four.cnf --solver right --limit 1
if ((SECONDS - began > 60)); then
  echo "a checked that is stuck is ended after $((SECONDS - began)) s"
  wrong=1
fi
ended 'a checked that is stuck'
