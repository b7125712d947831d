#!/usr/bin/env bash
# Whether `tests/wrong_bodies.sh --records` says what has changed since the wrong bodies were tried: of two small crates, one above the
# other, of which now this and now that is changed.
set -euo pipefail
. "$(dirname "$0")/lib.sh"
cd "$work"
mkdir -p tests crates/{low,high}/{src,specs} crates/high/wrong-bodies
cp -r "$top"/tests/wrong_bodies{,.sh} tests
printf 'low:\nhigh: low\n' > crates.txt
printf 'high one\n' > tests/wrong_bodies/always.txt
: > tests/wrong_bodies/waiting.txt
cat > crates/low/src/lib.rt << 'END'
//! Numbers.
use std::alloc::Global;

/// A number.
pub fn number() -> u64
    ensures { result ≡ 7 }
{
    let seven = own();
    seven
}

pub trait Counts {
    fn count(&self) -> u64
        ensures { result ≡ counted self.now };

    fn is_empty(
        &self,
    ) -> bool
        ensures { result ≡ wanting self.now }
    {
        false
    }
}

fn own() -> u64
    ensures { result ≡ 5 + 2 }
{
    7
}

/// A number that nobody calls.
pub fn uncalled() -> u64
    ensures { result ≡ nine }
{
    9
}
END
printf 'use Rattle.low.specs.Units.{unit}\npub seven : ℕ\n' > crates/low/specs/Numbers.antt
echo 'pub unit : ℕ' > crates/low/specs/Units.antt
echo 'pub nine : ℕ' > crates/low/specs/Unused.antt
cat > crates/high/src/lib.rt << 'END'
ghost use Rattle.low.specs.Numbers.{seven};

use low::{Counts, number};

pub fn two() -> u64
    ensures { result ≡ seven }
{
    let two = number();
    two
}
END
echo 'pub two : ℕ' > crates/high/specs/Twos.antt
printf '# %s\nfile: src/lib.rt\nold: = number();\nnew: = %s;\n\n' one 1 three 3 > crates/high/wrong-bodies/wrong-bodies.txt
python3 -B -c 'import sys
sys.path.insert(0, "tests/wrong_bodies")
from records import Record
Record("crates/high").note({"one": "clause", "three": "proof"})'
cp -r crates kept

# changed STATUS WORDS WHAT FILE FROM TO: what is said, and with which status, where this is changed in the file.
changed() {
  local status=0
  sed -i "s/$5/$6/" "crates/$4"
  if cmp -s "crates/$4" "kept/$4"; then
    fault "$3: nothing was changed"
  fi
  tests/wrong_bodies.sh --records > said || status=$?
  if [[ $status != "$1" || $(cut -d: -f1 said) != "$2" ]]; then
    fault "$3: status $status, with these words: $(cat said)"
  fi
  cp "kept/$4" "crates/$4"
}
own='wrong bodies were not tried since these changed; run'
below='wrong bodies are to be tried again over the definitions and clauses below, by --stale'

case_below() {
  changed 0 '' 'a comment below' low/src/lib.rt 'A number' 'One number'
  changed 0 '' 'a body below' low/src/lib.rt 'let seven = own();' 'let seven = 7;'
  changed 0 '' 'the body of a method below' low/src/lib.rt false true
  changed 0 '' 'an import of code below' low/src/lib.rt 'use std::alloc' 'use std::mem'
  changed 0 '' 'a private contract below' low/src/lib.rt '5 + 2' '4 + 3'
  changed 0 '' 'a contract that is not called' low/src/lib.rt nine ten
  changed 0 '' 'a definition that is not cited' low/specs/Unused.antt nine ten
  changed 1 "$below" 'a contract below' low/src/lib.rt 'result ≡ 7' 'result ≡ 8'
  changed 1 "$below" 'a contract of a trait below' low/src/lib.rt counted tallied
  changed 1 "$below" 'a contract of a method with a body' low/src/lib.rt wanting lacking
  changed 1 "$below" 'a definition below' low/specs/Numbers.antt 'seven :' 'eight :'
  changed 1 "$below" 'a definition that one below cites' low/specs/Units.antt unit one
  changed 1 "$below" 'a definition below that is imported from elsewhere' low/specs/Numbers.antt Units Unused
}

# A crate that waits to be tried anew is let pass while it does, and no longer.
case_waiting() {
  echo high >> tests/wrong_bodies/waiting.txt
  changed 0 '' 'a contract below' low/src/lib.rt 'result ≡ 7' 'result ≡ 8'
  changed 0 '' 'a body of the crate' high/src/lib.rt 'let two' 'let deux'
  changed 1 'these are tried over what stands now, and tests/wrong_bodies/waiting.txt is not to name them' 'a comment below' \
    low/src/lib.rt 'A number' 'One number'
}

case_own() {
  changed 1 "$own" 'a body of the crate' high/src/lib.rt 'let two' 'let deux'
  changed 1 "$own" 'a definition of a clause that is imported from elsewhere' high/src/lib.rt specs.Numbers specs.Unused
  changed 1 "$own" 'a definition of the crate' high/specs/Twos.antt two three
  changed 1 "$own" 'a wrong body' high/wrong-bodies/wrong-bodies.txt 'new: = 3' 'new: = 4'
  changed 1 "$own" 'a new wrong body' high/wrong-bodies/wrong-bodies.txt '# three' '# four\nold: = number();\nnew: = 4;\n\n# three'
  changed 1 "$own" 'a heading that is gone' high/wrong-bodies/wrong-bodies.txt '# three' ''
  changed 1 "$own
wrong bodies that each run tries are not there" 'one of each run that is gone' high/wrong-bodies/wrong-bodies.txt '# one' '# eins'
}

try_cases
