#!/usr/bin/env bash
# Measures the first commands of a newcomer, `tools/prove_and_run PROGRAM`: as a row for each program, how many crates are proved from
# nothing, and how many processor minutes and minutes by the clock it takes.
#
#   benches/first_commands.sh [PROGRAM ..]
#
# Each program is built in a clone of the last commit. A row counts only if `rt` had kept nothing of earlier checks: the folder
# `rattle-kept` beside the toolchain must be set aside before. RT may name another `rt`. It needs GNU time.
set -euo pipefail
top=$(cd "$(dirname "$0")/.." && pwd)
work=$(mktemp -d)
trap 'rm -rf "$work"' EXIT
programs=("$@")
(($#)) || programs=(first_example model_check lrat_check hint_check lrat_to_proof varisat_check drat_check)
rt=$(command -v "${RT:-rt}")

# An `rt` that notes what each call spends and says.
cat > "$work/rt" << END
#!/usr/bin/env bash
set -o pipefail
/usr/bin/time -q -a -o "$work/spent" -f '%U %S' "$rt" "\$@" 2>&1 | tee -a "$work/said"
END
chmod +x "$work/rt"

status=0
echo '| program | crates | processor minutes | minutes |'
echo '|---|---|---|---|'
for program in "${programs[@]}"; do
  rm -rf "$work/clone" "$work/spent" "$work/said"
  git clone -q "$top" "$work/clone"
  begin=$(date +%s.%N)
  if ! RT=$work/rt "$work/clone/tools/prove_and_run" --build "$program" 2> "$work/told"; then
    echo "$program was not built: $(tail -n 1 "$work/told")" >&2
    status=1
    continue
  fi
  end=$(date +%s.%N)
  if grep -q 'begins with what a check kept' "$work/said"; then
    echo "$program: not from nothing, since rt had kept checks" >&2
    status=1
  fi
  awk -v program="$program" -v clock="$begin $end" '{ spent += $1 + $2 } END {
    split(clock, times)
    printf "| `%s` | %d | %.1f | %.1f |\n", program, NR, spent / 60, (times[2] - times[1]) / 60
  }' "$work/spent"
done
exit "$status"
