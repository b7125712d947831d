#!/usr/bin/env bash
# `tools/checked` and `tools/verified` with what is there: the recipes of README.md, docs/USING.md and `checked --help`, word for word, by
# make, `bash -e`, `sh -e` and the two shells of GitHub's jobs; solvers (Debian: cadical, picosat, cryptominisat, minisat, clasp, z3), also by
# pipes, as docs/USING.md has them; and programs whose formulas they solve (Debian: yosys, berkeley-abc). `tests/checked.sh` has the rest.
#
# The programs must be built: `rt ci` does it, or `rt run` in their folders.
set -euo pipefail
. "$(dirname "$0")/lib.sh"
mkdir "$work/bin" "$work/recipes"
for program in drat_check lrat_check model_check; do
  built=$top/crates/${program}_main/out/${program}_main
  if [[ ! -x $built ]]; then
    echo "not built: $built"
    exit 1
  fi
  ln -s "$built" "$work/bin/$program"
done
ln -s "$top"/tools/{checked,verified} "$work/bin"
export PATH=$work/bin:$PATH
cd "$work"

unsat='s VERIFIED UNSAT'
sat='s VERIFIED SAT'
printf 'p cnf 2 4\n1 2 0\n1 -2 0\n-1 2 0\n-1 -2 0\n' > four.cnf
printf 'p cnf 3 3\n1 2 0\n-1 3 0\n-2 -3 0\n' > other.cnf
python3 -B "$top/tests/drat/formulas.py" pigeons 6 > pigeons.cnf
python3 -B "$top/tests/drat/formulas.py" random 100 3.5 1 > loose.cnf
# a formula as SATLIB has it, with an end that solvers do not read
{ cat loose.cnf; printf '%%\n0\n\n'; } > satlib.cnf

# asks STATUS SOLVER FORMULA: a program that calls a solver, as a line of a shell, and believes it: it finds the answer's lines alone,
# and a model is one. What calls a solver by its name writes such a line.
asks() {
  python3 -B - "$@" << 'END' || wrong=1
import subprocess, sys
wanted, solver, formula = sys.argv[1:]
ran = subprocess.run(f"{solver} {formula}", shell=True, capture_output=True, text=True)
first, *rest = ran.stdout.splitlines() or [""]
clauses = [[int(it) for it in line.split()[:-1]] for line in open(formula) if line.strip() and line.strip()[0] not in "cp"]
model = [int(it) for line in rest for it in line.removeprefix("v").split()]
right = {
    10: first == "s SATISFIABLE" and all(it.startswith("v") for it in rest) and model[-1:] == [0] and model.count(0) == 1
    and len({abs(it) for it in model}) == len(model) and all(set(clause) & set(model) for clause in clauses),
    20: ran.stdout == "s UNSATISFIABLE\n",
}
if ran.returncode != int(wanted) or not right.get(ran.returncode, ran.stdout == ""):
    sys.exit(f"{solver} {formula}: status {ran.returncode}, {ran.stdout[:200]} {ran.stderr}")
END
}

# The recipes, by all programs that they are shown for. They end well where the solver refutes the formula, and badly where it finds an
# answer, rightly or not, or has none. What stands behind them runs only then.
case_recipes() {
  # recipe FILE: what a text has of these lines
  recipe() {
    grep -o 'checked --want [^`]*formula\.cnf' "$1" | sort -u
  }
  checked --help > help
  recipe "$top/README.md" > readme_recipes
  recipe "$top/docs/USING.md" > using_recipes
  recipe help > help_recipes
  for name in readme using help; do
    if [[ ! -s ${name}_recipes ]]; then
      echo "no recipe: $name"
      wrong=1
    fi
  done
  if grep -E '\|\| *test|test \$' "$top/README.md" "$top/docs/USING.md" help; then
    echo "a recipe that make reads otherwise"
    wrong=1
  fi
  cat > refutes << 'END'
#!/bin/sh
[ "$1" != --help ] || exit 0
printf '1 0\n0\n' > "$2"; exit 20
END
  cat > finds << 'END'
#!/bin/sh
printf 's SATISFIABLE\nv 1 -2 3 0\n'; exit 10
END
  chmod +x refutes finds
  # by SOLVER FORMULA STATUS OUTPUT: the recipe `line` by each program, with this solver as cadical
  by() {
    local shell
    cp "$1" bin/cadical
    cp "$2" recipes/formula.cnf
    printf '%s\necho on\n' "$line" > recipes/script
    printf 'all: formula.cnf\n\t@%s\n\t@echo on\n' "$line" > recipes/Makefile
    for shell in 'bash -e' 'bash --noprofile --norc -eo pipefail' 'sh -e'; do
      # shellcheck disable=SC2086
      expect "$3" "$4" -- env -C recipes $shell script
    done
    if has make; then
      expect "$(($3 * 2))" "$4" -- env -C recipes make -s
    fi
  }
  while read -r line; do
    by refutes four.cnf 0 "$unsat"$'\n'on
    by finds other.cnf 1 "$sat"
    by refutes other.cnf 1 ''
    by finds four.cnf 1 ''
  done < <(sort -u readme_recipes using_recipes help_recipes)
}

# Solvers that are there.
case_solvers() {
  for solver in cadical picosat cryptominisat5 kissat glucose; do
    if has "$solver"; then
      expect 20 "$unsat" -- checked "$solver" pigeons.cnf
      expect 10 "$sat" -- checked "$solver" loose.cnf
      expect 10 "$sat" -- checked "$solver" satlib.cnf
    fi
  done
  # what they write no proof of, or none that is always right
  for solver in minisat clasp z3 lingeling; do
    if has "$solver"; then
      expect 10 "$sat" -- checked "$solver" loose.cnf
      expect 10 "$sat" -- checked "$solver" satlib.cnf
      expect 1 '' -- checked "$solver" pigeons.cnf
    fi
  done
}

# The backbone: of three options the second one is needed by both others, of which one is needed.
case_backbone() {
  on_path follows_check
  only_with cadical
  printf 'p cnf 4 4\n1 3 0\n-1 2 0\n-3 2 0\n-2 -4 0\n' > options.cnf
  awk '$0 == "```sh backbone.sh" { on = 1; next } /^```/ { on = 0 } on' "$top/docs/USING.md" > backbone.sh
  expect 0 $'2 is forced\n-4 is forced' '' -- sh -e backbone.sh
}

case_called() {
  for solver in cadical picosat cryptominisat5 minisat clasp z3; do
    if has "$solver"; then
      asks 10 "verified $solver" loose.cnf
    fi
  done
  if has cadical; then
    asks 20 'verified cadical' pigeons.cnf
    asks 20 'verified timeout 60 cadical' pigeons.cnf
  fi
}

# Formulas of other programs: two adders are equal, and one with a wrong carry is not.
case_adders() {
  cat > adders.v << 'END'
module plain(input [3:0] a, b, output [4:0] s);
  assign s = a + b;
endmodule
module ripple(input [3:0] a, b, output [4:0] s);
  wire [4:0] c;
  assign c[0] = 0;
  genvar i;
  generate for (i = 0; i < 4; i = i + 1) begin
    assign s[i] = a[i] ^ b[i] ^ c[i];
    assign c[i+1] = (a[i] & b[i]) | (c[i] & (a[i] ^ b[i]));
  end endgenerate
  assign s[4] = c[4];
endmodule
END
  sed 's/| (c/\& (c/' adders.v > wrong_adders.v
  miter='proc; miter -equiv -flatten plain ripple both; hierarchy -top both; flatten; opt; techmap; opt'
  only_with yosys cadical
  for name in adders wrong_adders; do
    status=$([[ $name == adders ]] && echo 20 || echo 10)
    yosys -q -p "read_verilog $name.v; $miter; sat -set trigger 1 -dump_cnf $name.cnf both" > said 2>&1 || cat said
    asks "$status" 'verified cadical' "$name.cnf"
    if has berkeley-abc; then
      yosys -q -p "read_verilog $name.v; $miter; aigmap; write_aiger $name.aig" > said 2>&1 || cat said
      berkeley-abc -q "read_aiger $name.aig; strash; write_cnf $name.abc.cnf" > said 2>&1 || cat said
      asks "$status" 'verified cadical' "$name.abc.cnf"
    fi
  done
}

case_pipes() {
  # In two steps, as docs/USING.md has them: by pipes, and by the words that other solvers need.
  # piped LINE COMMANDS: it must write this line; `pipefail` is off, since the solver ends with 10 or 20
  piped() {
    local said
    said=$(bash -c "$2" 2> err) || true
    if [[ $said != "$1" ]] || ! grep -qF -- "$(sed 's/pigeons.cnf/formula.cnf/g; s/loose.cnf/formula.cnf/g; s/|/\\|/g' <<< "$2")" using; then
      printf '%s: %s %s, or docs/USING.md does not have it\n' "$2" "$said" "$(cat err)"
      wrong=1
    fi
  }
  # outside of tables a bar stands by itself
  sed 's/\([^\\]\)|/\1\\|/g' "$top/docs/USING.md" > using
  if has cadical; then
    piped "$unsat" 'cadical -q pigeons.cnf - | drat_check pigeons.cnf -'
    piped "$sat" 'cadical loose.cnf | model_check loose.cnf -'
    cadical -q pigeons.cnf proof.drat > said || true
    if has xz; then
      xz -k proof.drat
      piped "$unsat" 'xz -dc proof.drat.xz | drat_check pigeons.cnf -'
    fi
  fi
  if has minisat; then
    minisat loose.cnf result > said 2> err || true
    piped "$sat" 'model_check loose.cnf result'
  fi
  if has z3; then
    piped "$sat" "{ z3 -dimacs loose.cnf; echo 'v 0'; } | model_check loose.cnf -"
  fi
}

try_cases
