# shellcheck shell=bash disable=SC2154,SC2034
# `checked --safe berkeley-abc`: machines whose invariant or whose run ABC finds, by yosys and by
# tests/circuit_check/search.py; and stand-ins for ABC that are wrong. Read by tests/checked.sh.

if ! PATH=$reach type -P python3 > where; then
  ends 2 '' checked --safe refuter-abc machine.aig
  printf '#!/bin/sh\n' > bin/abc
  chmod +x bin/abc
  printf 'aig 1 0 1 1 0\n2\n2\n' > machine.aig
  ends 2 '' checked --safe --refuter refuter abc machine.aig
  because 'cannot run python3'
  return
fi
on_path circuit_pdr
# a latch that keeps its 0; one that keeps its 1, which the form of ABC turns; and one that takes
# its input, by what it is next
printf 'aig 1 0 1 1 0\n2\n2\n' > kept.aig
printf 'aig 1 0 1 1 0\n2 1\n3\n' > turned.aig
printf 'aig 2 1 1 1 0\n2\n4\n' > taken.aig
# the same with a constraint, that the input is 0; and with two bad outputs, of which the second one
# is reached
printf 'aig 2 1 1 0 0 1 1\n2\n4\n3\n' > granted.aig
printf 'aig 2 1 1 0 0 2\n2\n0\n4\n' > second.aig
# (a machine without a reset)
printf 'aig 1 0 1 1 0\n2 2\n2\n' > unset.aig

# stand-ins: an invariant, or a run, that is wrong or right
pla() {
  printf '#!/bin/sh\nprintf "%s" > invariant.pla\n' "$1" > bin/abc
  chmod +x bin/abc
}
run_of() {
  printf '#!/bin/sh\nprintf "%s" > run.cex\n' "$1" > bin/abc
  chmod +x bin/abc
}
solver refutes << 'END'
grep -q '^p cnf' "$1" || exit 1
printf '0\n' > "$2"; exit 20
END
safe='s VERIFIED SAFE'
reached='s VERIFIED REACHED'
pla '1- 1\n'
ends 20 "$safe" checked --refuter refutes --safe abc kept.aig
ends 20 "$safe" checked --refuter refutes --safe abc turned.aig
pla '.ilb lo1 lo0\n-1 1\n'
ends 20 "$safe" checked --refuter refutes --safe abc kept.aig
# no cube, the wrong one, and one of a run that does not meet the constraints
for cube in '' '0- 1\n' '11 1\n'; do
  pla "$cube"
  ends 1 '' checked --refuter refutes --safe abc kept.aig
  because 'the proof that the solver wrote is not verified'
done
pla '1- 1\n'
ends 1 '' checked --refuter refutes --safe abc taken.aig
run_of '00\n1\n0\n# DONE\n'
ends 10 "$reached" checked --keep run --safe --refuter refutes abc taken.aig
holds run $'1\nb0\n0\n1\n0\n.'
ends 10 "$reached" checked --keep run --safe --refuter refutes abc second.aig
holds run $'1\nb1\n0\n1\n0\n.'
ends 0 "$reached" checked --want fails --safe --refuter refutes abc taken.aig
ends 1 "$reached" checked --want holds --safe --refuter refutes abc taken.aig
# runs that reach nothing, or do not meet the constraints, and nothing at all
for machine in kept granted; do
  ends 3 '' checked --safe --refuter refutes abc "$machine.aig"
  because 'abc found neither an invariant nor a run'
done
for run in '00\n0\n0\n# DONE\n' '00\n11\n00\n# DONE\n' ''; do
  run_of "$run"
  ends 3 '' checked --safe --refuter refutes abc taken.aig
done
printf '#!/bin/sh\n' > bin/abc
ends 3 '' checked --safe --refuter refutes abc kept.aig
solver lying << 'END'
printf '1\nb0\n0\n\n.\n' > "$4"; exit 10
END
ends 1 '' env CIRCUIT_PDR=lying checked --safe --refuter refutes abc kept.aig
because 'the run that abc found is not verified'

# wrong calls and machines
ends 2 '' checked --safe --refuter refutes abc unset.aig
because 'a latch has no reset'
head -c 8 kept.aig > cut.aig
ends 2 '' checked --safe --refuter refutes abc cut.aig
because 'cut.aig'
ends 2 '' checked --safe --refuter none abc kept.aig
because 'cannot run none, which refutes the formulas of the invariant'
ends 2 '' checked --refuter refutes --safe refutes kept.aig kept.aig
because '--refuter needs --safe and berkeley-abc'
ends 2 '' checked --safe abc -q kept.aig
because 'abc takes no options here: -q'
ends 2 '' checked --safe --keep-rejected kept --refuter refutes abc kept.aig
because '--safe excludes --keep-rejected'
printf '#!/bin/sh\n%s\n' "$slow" > bin/abc
sed -i "s|pids|$work/pids|g; s|begun|$work/begun|g" bin/abc
stopped TERM 143 checked --safe --refuter refutes abc kept.aig
rm bin/abc

# ABC itself: small machines, against a search of all their states; and designs by yosys with a
# synchronous reset, word for word
only_with berkeley-abc
real=$(PATH=${PATH#"$work/bin:"} type -P cadical) || untried "$(missing cadical)"
search=("$top/tests/circuit_check/search.py" "${MACHINES:-12}" 1 "$real")
PATH=$PATH python3 -B "${search[@]}" > said || fault "$(cat said)"
only_with yosys
awk '/^for name in/ { on = 0 } /write_aiger -zinit/ { print }' "$top/docs/USING.md" > recipe
same 'recipes for machines' 1 "$(wc -l < recipe)"
cat > fifo.v << 'END'
module fifo(input clk, rst, push, pop, output bad);
  reg [3:0] n = 0;
  always @(posedge clk)
    if (rst) n <= 0;
    else if (push && !pop && n < 8) n <= n + 1;
    else if (pop && !push && n > 0) n <= n - 1;
  assign bad = n > 8;
endmodule
END
for limit in 8 10; do
  sed "s/n < 8/n < $limit/" fifo.v > machine.v
  PATH=$PATH bash recipe > said 2>&1 || cat said
  call=(checked --safe --refuter "$real" berkeley-abc machine.aig)
  if ((limit == 8)); then
    ends 20 "$safe" "${call[@]}"
  else
    ends 10 "$reached" "${call[@]}"
  fi
done
