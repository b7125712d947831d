#!/usr/bin/env bash
# `tools/changed` over a repository of three crates that is made here: a body that changes is proved, and nothing above it; its program is
# linked anew, and the script that names it runs; a clause more is loaded by all above; a clause less fails where it was needed;
# and where the interfaces of the commit are not noted, all above is proved.
set -euo pipefail
. "$(dirname "$0")/lib.sh"
has rt || exit 0
export XDG_CACHE_HOME=$work/cache
here=$work/repository
mkdir -p "$here/tools" "$here/tests" "$here"/crates/{low,middle,app_main}/src
cp "$top/tools/changed" "$top/tools/prove_and_run" "$here/tools/"
cd "$here"
git init -q
git config user.name tests
git config user.email tests@example.org
printf 'out/\nran\nsaid\ntold\n' > .gitignore
touch crates.txt
git add -A
git commit -qm 'no crate'

printf '%s\n' 'app_main: middle check' 'low:' 'middle: low' > crates.txt
cat > crates/low/src/lib.rt << 'LIBRARY'
#![tactic(auto)]

ghost use Rattle.std.specs.Prelude.{◌≤◌};

pub fn half(x: u8) -> u8
    ensures { result ≤ x }
{
    x / 2
}
LIBRARY
cat > crates/middle/src/lib.rt << 'LIBRARY'
#![tactic(auto)]

ghost use Rattle.std.specs.Prelude.{◌≤◌};

pub fn quarter(x: u8) -> u8
    ensures { result ≤ x }
{
    low::half(low::half(x))
}
LIBRARY
cat > crates/app_main/src/main.rt << 'PROGRAM'
#![tactic(auto)]

fn main() {
    check::expect(middle::quarter(8) <= 8);
}
PROGRAM
printf '#!/bin/sh\ncrates/app_main/out/app_main && echo app >> ran\n' > tests/app.sh
printf '#!/bin/sh\necho other >> ran\n' > tests/other.sh
chmod +x tests/*.sh

# call STATUS PROVED UNREACHED WORD..: the call has to end so, and say that it proved these crates, and that the change does not reach those
call() {
  local status=0 before=$wrong
  wrong=0
  tools/changed "${@:4}" > said 2> told || status=$?
  same "status of ${*:4}" "$1" "$status"
  same "what ${*:4} proved" "$2" "$(sed -n 's/^proved: //p' said)"
  same "what ${*:4} left" "$3" "$(sed -n 's/^which the change does not reach: //p' said)"
  [[ $wrong == 0 ]] || cat said told
  wrong=$((wrong + before))
}

# low CLAUSE BODY: another text of that crate
low() {
  sed -i -e "s/ensures.*/ensures { $1 }/" -e "s|^    x / .*|    $2|" crates/low/src/lib.rt
}

call 0 'low middle app_main' 'no crate above' --proofs
git add -A
git commit -qm 'three crates'
call 0 'nothing anew' 'no crate above' --proofs

low 'result ≤ x' 'x / 3'
call 0 low middle --base HEAD
same 'what is linked' 'app_main: linked' "$(sed -n 's/linked, .*/linked/p' told)"
same 'the scripts that ran' app "$(cat ran)"
call 0 'nothing anew' 'low middle app_main' --proofs

XDG_CACHE_HOME=$work/none call 0 'low middle app_main' 'no crate above' --proofs

low '(result ≤ x) × (result ≤ 85)' 'x / 3'
call 0 'low middle app_main' 'no crate above' --proofs

low 'result ≤ 200' 'x / 3'
call 1 '' '' --proofs
same 'what fails' 'middle was not built' "$(tail -n 1 told)"
grep -q '^fn middle::quarter: no' told || fault 'the function that fails is not named'
exit "$wrong"
