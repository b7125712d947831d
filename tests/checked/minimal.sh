# shellcheck shell=bash disable=SC2154,SC2034
# `checked --minimal`: a formula none of whose clauses is too many, and ones that are not so. Read
# by tests/checked.sh.

printf 'c a core\np cnf 3 3\n1 2\n 0 -1\t0\n-2 0\n' > core.cnf
printf 'p cnf 2 4\n1 2 0\n-1 0\n-2 0\n1 -2 0\n' > fat.cnf
# It solves formulas of two variables by all assignments; a clause may have several lines.
cat > bin/two << 'SCRIPT'
#!/bin/sh
exec awk -v proof="$2" '
  /^[cp]/ { next }
  { for (i = 1; i <= NF; i++) if ($i == 0) clauses++; else has[clauses, $i] = 1 }
  END {
    for (model = 0; model < 4; model++) {
      one = model % 2 ? 1 : -1
      two = model > 1 ? 2 : -2
      fails = 0
      for (k = 0; k < clauses; k++) fails += !((k, one) in has || (k, two) in has)
      if (!fails) { print "s SATISFIABLE"; print "v " one " " two " 0"; exit 10 }
    }
    print "0" > proof
    exit 20
  }' clauses=0 "$1"
SCRIPT
chmod +x bin/two
minimal='s VERIFIED MINIMAL'
ends 20 "$minimal" checked --minimal two core.cnf
ends 0 "$minimal" checked --want holds --minimal two core.cnf
ends 20 "$minimal" checked --keep kept --minimal two core.cnf
keeps $'-1 -2 0\n1 -2 0\n-1 2 0'
rm -f kept
cp core.cnf satlib.cnf
printf '%%\n0\n' >> satlib.cnf
ends 20 "$minimal" checked --minimal two satlib.cnf
ends 20 "$minimal" checked --minimal two - < core.cnf
ends 1 '' checked --minimal two fat.cnf
because 'the solver finds the formula unsatisfiable without clause 3: it is not minimal'
printf 'p cnf 2 1\n1 2 0\n' > open.cnf
ends 1 '' checked --minimal two open.cnf
because 'the solver finds the formula satisfiable'
# a solver that lies on a part, on the whole, or says nothing of a part
solver lies << 'END'
case $1 in *part.cnf) printf 's SATISFIABLE\nv 1 2 0\n'; exit 10 ;; esac
printf '0\n' > "$2"; exit 20
END
ends 1 '' checked --minimal lies core.cnf
because 'is not verified'
printf 'p cnf 2 2\n1 2 0\n-1 0\n' > loose.cnf
ends 1 '' checked --minimal lies loose.cnf
solver half << 'END'
case $1 in *part.cnf) exit 0 ;; esac
printf '0\n' > "$2"; exit 20
END
ends 3 '' checked --minimal half core.cnf
ends 1 '' checked --minimal without core.cnf
because 'the solver wrote no proof'
ends 1 '' env MINIMAL_CHECK=true checked --minimal two core.cnf
# wrong calls, and a formula at fault before the solver runs
ends 2 '' checked --minimal --no-proof two core.cnf
because '--minimal needs a solver that writes proofs'
ends 2 '' checked --minimal --never two core.cnf
because '--follows, --never, --same, --safe and --minimal exclude each other'
ends 2 '' checked --minimal --keep-rejected it two core.cnf
because '--minimal excludes --keep-rejected'
printf 'p cnf 2 1\n1 x 0\n' > bad.cnf
rm -f ran
ends 2 '' checked --minimal tracing bad.cnf
because 'formula: line 2: bad number'
[[ ! -e ran ]] || fault "a solver runs on a formula that minimal_check does not read"
stopped TERM 143 checked --minimal slow core.cnf
for name in cadical picosat; do
  if path=$(PATH=${PATH#"$work/bin:"} type -P "$name"); then
    ends 20 "$minimal" checked --minimal "$path" core.cnf
  fi
done
