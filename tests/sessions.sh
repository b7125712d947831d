#!/usr/bin/env bash
# Sessions of queries, by `tools/sessions`: one by hand with its formula and all that can be wrong
# with it, those that were judged by others, and random ones against brute force, each proof in
# binary too.
set -euo pipefail
. "$(dirname "$0")/lib.sh"
# shellcheck source=SCRIPTDIR/sessions/setup.sh
. "$top/tests/sessions/setup.sh"

case_check() {
  checks 0 "$all" sessions check two.icnf two.idrup
  for words in '--no-deletions check two.icnf two.idrup' 'check --no-deletions two.icnf two.idrup' 'check two.icnf two.idrup --no-deletions'; do
    # shellcheck disable=SC2086
    checks 0 "$all" sessions $words
  done
  checks 0 "$all" sessions check two.icnf two.lidrup
  # As CaDiCaL writes them: without a header, which the name stands for.
  for kind in idrup lidrup; do
    sed 1d "two.$kind" > "plain.$kind"
    gzip -k "plain.$kind"
    checks 0 "$all" sessions check two.icnf "plain.$kind"
    checks 0 "$all" sessions check two.icnf "plain.$kind.gz"
  done
  cp plain.lidrup plain
  checks 1 'proof: line 1: no header, and the name does not end in .idrup or .lidrup' sessions check two.icnf plain
  sed '1s/^i/x/' plain.lidrup > wrong.lidrup
  checks 1 "$(for query in 1:4 2:7 3:11 4:13; do
    echo "query ${query%:*} of line ${query#*:}: no answer to it: proof: line 1: not expected here"
  done)
4 of 4 answers are not shown" sessions check two.icnf wrong.lidrup
  in_binary 2
}

# Answers that are wrong, by the interaction or by the proof: each alone, the others are shown.
case_wrong_answers() {
  edit two.icnf 's/^f 1 2 0/f 1 0/'
  checks 1 $'query 2 of line 7: its core is more than what was told in line 9 (proof: line 8)\n1 of 4 answers are not shown' \
    sessions check changed.icnf two.idrup
  edit two.icnf 's/^f 1 2 0/f 1 2 3 0/'
  checks 1 $'query 2 of line 7: not all that was told in line 9 was assumed (proof: line 8)\n1 of 4 answers are not shown' \
    sessions check changed.icnf two.idrup
  for values in 2 '-2 3 -3'; do
    edit two.icnf "s/^v -2 0/v $values 0/"
    checks 1 $'query 1 of line 4: its model does not have all that was told in line 6 (proof: line 5)\n1 of 4 answers are not shown' \
      sessions check changed.icnf two.idrup
  done
  # (a variable that the solver does not know has the value that was told)
  edit two.icnf 's/^v -2 0/v -2 -3 0/'
  checks 0 "$all" sessions check changed.icnf two.idrup
  edit two.icnf 's/^v -2 0/v 2 0/'
  edit two.idrup 's/^m 1 -2 0/m 1 2 0/'
  checks 1 $'query 1 of line 4: its model does not satisfy line 3\n1 of 4 answers are not shown' \
    sessions check changed.icnf changed.idrup
  edit two.idrup 's/^m 1 -2 0/m 1 -1 -2 0/'
  checks 1 $'query 1 of line 4: its model has both signs of a variable (proof: line 5)\n1 of 4 answers are not shown' \
    sessions check two.icnf changed.idrup
  edit two.idrup 's/^m 1 -2 0/m -2 0/'
  edit two.icnf 's/^v -2 0//'
  checks 1 $'query 1 of line 4: its model does not satisfy line 4\n1 of 4 answers are not shown' sessions check two.icnf changed.idrup
  sed 's/^i -1 -2 0/i -1 -2 3 0/' two.icnf > changed.icnf
  sed 's/^i -2 -1 0/i -2 -1 3 0/' two.idrup > changed.idrup
  refused='drat_check: proof: step 1: clause is neither RUP nor RAT on its first literal'
  checks 1 "query 2 of line 7: its core is not shown: $refused
query 4 of line 13: its core is not shown: $refused
2 of 4 answers are not shown" sessions check changed.icnf changed.idrup
  in_binary 9
}

# The proof and the interaction differ, or one of them stops.
case_differences() {
  edit two.idrup 's/^i 1 0/i 1 2 0/'
  differs='no answer to it: proof: line 9: it is not the clause of line 10 of the interaction'
  checks 1 "query 3 of line 11: $differs"$'\n'"query 4 of line 13: $differs"$'\n''2 of 4 answers are not shown' \
    sessions check two.icnf changed.idrup
  head -n 13 two.idrup > changed.idrup
  checks 1 $'query 4 of line 13: no answer to it: the proof ends before that\n1 of 4 answers are not shown' \
    sessions check two.icnf changed.idrup
  head -n 15 two.idrup > changed.idrup
  checks 1 'after the last answer: the proof ends before that' sessions check two.icnf changed.idrup
  head -c -2 two.icnf > changed.icnf
  checks 1 'interaction: line 15: cut off, it has no line end' sessions check changed.icnf two.idrup
  edit two.icnf 's/^s UNKNOWN//'
  checks 1 'interaction: line 13: the query of line 11 has no answer' sessions check changed.icnf two.idrup
  edit two.icnf 's/^q 0/q 0 1/'
  checks 1 'interaction: line 11: malformed' sessions check changed.icnf two.idrup
  edit two.icnf 's/^v -2 0/f -2 0/'
  checks 1 'interaction: line 6: not expected here' sessions check changed.icnf two.idrup
  : > empty
  checks 1 'interaction: line 1: no header' sessions check empty two.idrup
  checks 1 'proof: line 1: the header is neither p idrup nor p lidrup' sessions check two.icnf two.icnf
  in_binary 8
}

# An answer that gets no conclusion is not shown, and the reading goes on.
case_no_conclusion() {
  edit two.idrup '/^m /d'
  checks 1 $'query 1 of line 4: the proof has no conclusion of it (proof: line 5)\n1 of 4 answers are not shown' \
    sessions check two.icnf changed.idrup
  edit two.idrup '0,/^u /{/^u /d}'
  checks 1 $'query 2 of line 7: the proof has no conclusion of it (proof: line 8)\n1 of 4 answers are not shown' \
    sessions check two.icnf changed.idrup
  edit two.lidrup '/^m /d; /^u /d'
  checks 1 $'query 1 of line 4: the proof has no conclusion of it (proof: line 5)
query 2 of line 7: the proof has no conclusion of it (proof: line 7)
query 4 of line 13: the proof has no conclusion of it (proof: line 13)\n3 of 4 answers are not shown' \
    sessions check two.icnf changed.lidrup
  edit two.idrup '0,/^s /{/^s /d}'
  unexpected='no answer to it: proof: line 4: not expected here'
  checks 1 "query 1 of line 4: $unexpected
query 2 of line 7: $unexpected
query 3 of line 11: $unexpected
query 4 of line 13: $unexpected
4 of 4 answers are not shown" sessions check two.icnf changed.idrup
  in_binary 4
}

# A trail after an unknown answer says nothing, even a wrong one; it comes nowhere else.
case_trails() {
  edit two.idrup 's/^s UNKNOWN/&\ne 1 -2 0/'
  checks 0 "$all" sessions check two.icnf changed.idrup
  edit two.lidrup 's/^s UNKNOWN/&\ne -1 2 -2 0/'
  checks 0 "$all" sessions check two.icnf changed.lidrup
  edit two.idrup 's/^i 1 0/&\ne 1 0/'
  unexpected='no answer to it: proof: line 10: not expected here'
  checks 1 "query 3 of line 11: $unexpected
query 4 of line 13: $unexpected
2 of 4 answers are not shown" sessions check two.icnf changed.idrup
  in_binary 3
}

# Of several conclusions one has to be a core, in whichever place: the others have the literals of a
# clause that held for this query alone. With none there is no answer, and neither where fewer come
# than were announced.
case_conclusions() {
  edit two.idrup 's/^u 2 1 0/U 3\nu 1 2 3 0\nu 2 1 0\nu 1 -3 0/'
  checks 0 "$all" sessions check two.icnf changed.idrup
  edit two.lidrup 's/^u 2 1 0.*/U 2\nu 1 2 3 0 1 0\nu 2 1 0 1 0/'
  checks 0 "$all" sessions check two.icnf changed.lidrup
  edit two.idrup 's/^u 2 1 0/U 2\nu 1 3 0\nu 2 -3 0/'
  checks 1 $'query 2 of line 7: its core is more than what was told in line 9 (proof: line 10)\n1 of 4 answers are not shown' \
    sessions check two.icnf changed.idrup
  edit two.idrup 's/^u 2 1 0/U 2\nu 1 3 0/'
  checks 1 $'query 2 of line 7: its core is more than what was told in line 9 (proof: line 10)\n1 of 4 answers are not shown' \
    sessions check two.icnf changed.idrup
  edit two.idrup 's/^u 2 1 0/U 2\nu 2 1 0/'
  checks 0 "$all" sessions check two.icnf changed.idrup
  edit two.idrup 's/^u 2 1 0/U 2/'
  checks 1 $'query 2 of line 7: the proof has no conclusion of it (proof: line 9)\n1 of 4 answers are not shown' \
    sessions check two.icnf changed.idrup
  # The first core counts, so a wrong one is not made good by a right one after it.
  printf 'p icnf\ni -1 -2 0\nq 1 2 3 0\ns UNSATISFIABLE\n' > core.icnf
  printf 'p idrup\ni -1 -2 0\nq 1 2 3 0\ns UNSATISFIABLE\nU 2\nu 1 3 0\nu 1 2 0\n' > core.idrup
  checks 0 'all answers are shown: 0 satisfiable, 1 unsatisfiable, 0 unknown' sessions check core.icnf core.idrup
  for line in 'U 2' 'u 1 2 0' 'e 0'; do
    edit two.idrup "s/^m 1 -2 0/$line/"
    unexpected='no answer to it: proof: line 5: not expected here'
    checks 1 "query 1 of line 4: $unexpected
query 2 of line 7: $unexpected
query 3 of line 11: $unexpected
query 4 of line 13: $unexpected
4 of 4 answers are not shown" sessions check two.icnf changed.idrup
  done
  in_binary 10
}

# An application that was told two cores of one query: which one is meant is not known, and the
# other queries are shown.
case_two_cores() {
  edit two.icnf 's/^f 1 2 0/f 1 0\nf 2 0/'
  checks 1 $'query 2 of line 7: another core was told in line 10 (proof: line 8)\n1 of 4 answers are not shown' \
    sessions check changed.icnf two.idrup
  in_binary 1
}

# Without a query no answer is shown, here as by `verified --run`; what is wrong with the files is
# told first.
case_no_query() {
  printf 'p icnf\ni 1 0\n' > none.icnf
  printf 'p idrup\ni 1 0\n' > none.idrup
  says 3 'no answer was seen' sessions check none.icnf none.idrup
  printf 'p idrup\n' > short.idrup
  says 1 'after the last answer: the proof ends before that' sessions check none.icnf short.idrup
  mkdir recorded
  cp none.* recorded
  echo none > recorded/sessions.index
  says 3 'no answer was seen' sessions check recorded
  # a program that leaves this record, with a layer that sees nothing
  as_installed verified sessions
  cp -L bin/*_check alone/bin
  cc -shared -o alone/lib/libcefindrato_ipasir.so -x c /dev/null
  printf '#!/bin/sh\ncp recorded/* "${SESSION_RECORD%%/*}"\n' > program
  chmod +x program
  says 3 'cefindrato: no answer was seen' alone/bin/verified --run ./program
  # one of two sessions has answers
  cp two.icnf recorded/two.icnf
  cp two.idrup recorded/two.idrup
  echo two >> recorded/sessions.index
  says 0 "$all, in 2 sessions" sessions check recorded
  says 0 'cefindrato: 4 answers, all shown: 1 satisfiable, 2 unsatisfiable, 1 unknown' alone/bin/verified --run ./program
  edit two.icnf 's/^v -2 0/v 2 0/'
  cp changed.icnf recorded/two.icnf
  says 1 'cefindrato: two.icnf: query 1 of line 4: its model does not have all that was told in line 6 (proof: line 5)
cefindrato: two.icnf: 1 of 4 answers are not shown
cefindrato: 1 of 2 sessions have answers that are not shown
cefindrato: not all answers are shown' alone/bin/verified --run ./program
}

# Deletions are advice: the only lemma goes before the core that needs it. With it kept the answer
# is shown.
case_deletions() {
  printf 'p icnf\ni 1 2 3 0\ni 1 2 -3 0\ni 1 -2 3 0\ni 1 -2 -3 0\nq -1 0\ns UNSATISFIABLE\ni 4 0\nq -4 0\ns UNSATISFIABLE\n' > gone.icnf
  sed 's/icnf/idrup/; s/^q -1 0/&\nl 1 2 0\nd 2 1 0/' gone.icnf > gone.idrup
  sed -i '0,/^s .*/s//&\nu -1 0/; $s/$/\nu -4 0/' gone.idrup
  checks 0 'all answers are shown: 0 satisfiable, 2 unsatisfiable, 0 unknown' sessions check gone.icnf gone.idrup
  sessions write gone.icnf gone.idrup made
  checks 1 $'proof: step 3: clause is neither RUP nor RAT on its first literal\nin made/session.drat' \
    drat_check made/session.cnf made/session.drat
  sessions write --no-deletions gone.icnf gone.idrup made
  checks 0 's VERIFIED UNSAT' drat_check made/session.cnf made/session.drat
  in_binary 1
}

case_judged() {
  only_with xz
  mkdir judged
  tar -xJf "$top/tests/sessions/judged.tar.xz" -C judged
  python3 -B "$top/tests/sessions/judged.py" "$top/tools/sessions" judged || wrong=1
}

case_random() {
  python3 -B "$top/tests/sessions/fuzz.py" "$top/tools/sessions" 1 "${SESSIONS:-100}" || wrong=1
}

try_cases
