# shellcheck shell=bash disable=SC2154,SC2034
# What is not written over. Read by tests/checked_all.sh.

mkdir inputs
cp four.cnf other.cnf inputs
cp bin/right inputs/solver
cp -L "$(type -P model_check)" inputs/checker
echo 'a text of mine' > inputs/mine
printf 'no line end' > inputs/short
ln inputs/four.cnf inputs/hard.json
ln -s four.cnf inputs/soft.json
mkfifo inputs/pipe
(cd inputs && sha256sum four.cnf other.cnf solver checker mine short) > inputs.sums

# refused NAME REASON: this is no file for rows
refused() {
  ends 2 '' env MODEL_CHECK=inputs/checker checked_all 'inputs/*.cnf' --solver inputs/solver --json "$1"
  because "$2"
}
for name in inputs/four.cnf ./inputs/four.cnf inputs/hard.json inputs/soft.json "$work/inputs/four.cnf"; do
  refused "$name" "cannot write $name: it is a file that is read, inputs/four.cnf"
done
refused inputs/solver 'it is a file that is read'
refused inputs/checker 'it is a file that is read'
refused inputs/mine 'inputs/mine: line 1: it is no row of checked_all'
refused inputs/short 'inputs/short: the last line is no row of checked_all'
refused inputs/pipe 'it is no regular file'
refused /dev/full 'it is no regular file'
refused inputs 'cannot write inputs: Is a directory'
refused none/rows 'cannot write none/rows: No such file or directory'
ends 0 "$(counts 1 1 0 0)" checked_all 'inputs/*.cnf' --solver right --json inputs/rows.json
ends 2 '' checked_all inputs/four.cnf inputs/rows.json --solver right --json inputs/rows.json
because 'it is a file that is read'

# a kept proof is no file that is read, nor that of the rows
checked_all inputs/four.cnf --solver right --keep-proofs proofs > said || wrong=1
proof=$(echo proofs/four.cnf.*)
cp other.cnf "$proof"
ends 2 '' checked_all inputs/four.cnf "$proof" --solver right --keep-proofs proofs
because "cannot write $proof: it is $proof"
cmp other.cnf "$proof" || wrong=1
cp inputs/rows.json "$proof"
ends 2 '' checked_all inputs/four.cnf --solver right --keep-proofs proofs --json "$proof"
because "cannot write $proof: it is $proof"
cmp inputs/rows.json "$proof" || wrong=1
(cd inputs && sha256sum --quiet -c ../inputs.sums) || wrong=1

# where the summary or the rows can't be written
ends 2 '' bash -c 'checked_all four.cnf --solver right > /dev/full'
ends 2 '' bash -c 'checked_all four.cnf --solver right >&-'
ends 2 '' bash -c 'checked_all four.cnf --solver right --json - > /dev/full'
ends 0 "$(counts 1 0 0 0)" bash -c 'checked_all four.cnf --solver right <&- 2>&-'
