#!/usr/bin/env bash
# Proves, tests and runs everything, from nothing: the gate, and then the programs on files, on files that fail, and
# where memory is refused. The scripts after the gate run side by side, and each one's lines are shown once it has ended.
#
#   ./test.sh [--anew]
#
# A script that has passed on this machine over the files that it depends on (tests/run/keys.py) is not run again, except that of wrong
# bodies, unless with `--anew`, nor if it left something untried. What was not tried, and what failed, is told at the end.
set -euo pipefail
cd "$(dirname "$0")"
told=$(mktemp -d)
trap 'rm -rf "$told"' EXIT
passed=${XDG_CACHE_HOME:-${HOME:-/var/tmp}/.cache}/cefindrato/passed
if [[ ${1:-} == --anew ]]; then
  passed=$told/passed
fi
mkdir -p "$passed"
tests/documents.sh
# (what it leaves untried is told with that of the scripts)
tests/layout.sh || (($? == 77))
tests/figures.sh
python3 -B tests/run/guards.py tests/*.sh tests/*/*.sh
tests/wrong_bodies.sh --records
tests/wrong_definitions.sh --records

# `rt ci` puts libraries of an earlier run back in place of its own. Without them, all that follows is built over those of this run.
# What checks have kept, in out/incremental, stays.
rm -rf crates/*/out/rlib
# The module of each program that is built is kept: tools/portable.sh makes others of it.
tools/portable.sh --keeper "$told/keep.so"
proved=0
LD_PRELOAD=$told/keep.so rt ci 2>&1 | tee "$told/gate" || proved=$?
python3 -B tests/wrong_bodies/toolchain.py .
((proved == 0)) || exit "$proved"
# What `tools/changed` compares a change with.
tools/changed --passed
tests/weak_edits.sh "$told/gate"

archive=$(bindings/build.sh --archive)
waiting='bindings install ipasir release'
. tests/run/scripts.sh
scripts=(library layout 'wrong_bodies --asked' portable listed_files release slurm refused_growths
  sessions sessions_files sessions_recorded session_check cubes cubes_files cubes_machines pieces
  pieces_run pieces_solvers ipasir failing_files endless_files drat_fuzz drat_growth lrat_fuzz
  drat_outputs drat_output_files install bindings log_lines end_to_end end_to_end_lrat rows
  drat_solvers frat large_formulas named_files named_kinds examples records checked checked_all
  verified definitions proof_picture solver_runs prove_and_run memory model_check follows join
  receipts circuit_check circuits dist packages python_package test_run test_counts test_tools
  changed kept)
# (two more than there are processors, since at first two wait for the library)
run_scripts "$(($(nproc) + 2))" "${scripts[@]}"
