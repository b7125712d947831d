# shellcheck shell=bash disable=SC2154,SC2034
# What solver and checker take apart, a limit for each, PAR2, and the files that are made of rows.
# Read by tests/checked_all.sh.

# A solver that takes a second of a processor and 100 MB, and a checker that takes two seconds.
cat > bin/heavy << 'END'
#!/usr/bin/env python3
import sys, time
block = b"1" * 100_000_000
while time.process_time() < 1:
    pass
with open(sys.argv[2], "w") as proof:
    proof.write("1 0\n0\n")
sys.exit(20)
END
printf '#!/bin/sh\n[ "$2" = /dev/null ] || sleep 2\nexec drat_check "$@"\n' > bin/slow_check
chmod +x bin/heavy bin/slow_check
ends 0 "$(counts 1 0 0 0)" \
  env DRAT_CHECK=slow_check checked_all four.cnf --solver heavy --json apart.json --limit 60
"${judged[@]}" apart apart.json 'solving 1 1 100' 'checking 2 0 0' || wrong=1

# Two limits: of the solver alone, and of the checker alone; together they are longer than either.
limited=(env DRAT_CHECK=slow_check checked_all four.cnf --json limited.json)
ends 3 "$(counts 0 0 0 0 0 1)" "${limited[@]}" --solver right --limit 30 --check-limit 0.5
same 'what is not checked' $'not checked\ncheck limit\n30.0\n0.5' \
  "$("${judged[@]}" last limited.json outcome reason limit check_limit)"
ends 0 "$(counts 1 0 0 0)" "${limited[@]}" --solver right --limit 30 --check-limit 30
solver sleepy << 'END'
exec sleep 60
END
ends 3 "$(counts 0 0 1 0)" "${limited[@]}" --solver sleepy --limit 0.5 --check-limit 60
same 'what has no answer' $'no answer\nlimit' "$("${judged[@]}" last limited.json outcome reason)"
# what fits other limits is not run again, and what does not is
lines_before=$(wc -l < limited.json)
ends 0 "$(counts 1 0 0 0)" "${limited[@]}" --solver right --limit 25 --check-limit 25
same 'rows that fit' "$lines_before" "$(wc -l < limited.json)"
ends 3 "$(counts 0 0 0 0 0 1)" "${limited[@]}" --solver right --limit 25 --check-limit 1
same 'rows that do not' "$((lines_before + 1))" "$(wc -l < limited.json)"

# PAR2 of rows with known seconds: 1.5 and 2.5 s of two that were solved, and two that were not,
# with 10 s as the limit: 44 / 4. A malformed formula counts as none.
"${judged[@]}" table made.json 'a.cnf|s VERIFIED UNSAT||1.5' 'b.cnf|s VERIFIED SAT||2.5' \
  'c.cnf|no answer|limit|' 'd.cnf|not checked|check limit|9' 'e.cnf|malformed|formula: line 1: bad|'
status=0
checked_all --report --json made.json --csv made.csv --plot made.svg > said || status=$?
same 'the status of a report' 3 "$status"
same 'its summary' "$(counts 1 1 1 0 1 1)"$'\nPAR2: 11.000 s, with 10 s as the limit' "$(tail -n 2 said)"
holds made.csv 'instance,solver,result,solver_seconds,solver_cpu,solver_memory,check_seconds,check_cpu,check_memory,limit,check_limit,reason
a.cnf,made,UNSAT,1.5,1.5,1000000,0.5,0.5,1000000,10.0,20.0,
b.cnf,made,SAT,2.5,2.5,1000000,0.5,0.5,1000000,10.0,20.0,
c.cnf,made,TIMEOUT,,,,,,,10.0,20.0,limit
d.cnf,made,CHECK_TIMEOUT,9.0,9.0,1000000,0.5,0.5,1000000,10.0,20.0,check limit
e.cnf,made,MALFORMED,,,,,,,10.0,20.0,formula: line 1: bad'
# the plot is XML, with a point for each verified answer, and the second one is as much higher as it
# took longer
python3 - << 'END' || wrong=1
import sys
import xml.etree.ElementTree as tree

circles = [it for it in tree.parse("made.svg").iter() if it.tag.endswith("circle")]
grounds = [it for it in tree.parse("made.svg").iter() if it.tag.endswith("text") and it.text == "0"]
base = max(float(it.get("y")) for it in grounds if it.get("text-anchor") == "end") - 4
heights = [base - float(it.get("cy")) for it in circles]
if len(circles) != 2 or abs(heights[1] / heights[0] - 2.5 / 1.5) > 0.01:
    sys.exit(f"the plot: {heights}")
END
# without a limit, or with rows of another time, there is no PAR2
for edit in 's/"limit": 10.0/"limit": null/' 's/"limit": 10.0/"limit": 2.0/'; do
  "${judged[@]}" table plain.json 'a.cnf|s VERIFIED UNSAT||2.5' 'c.cnf|no answer|limit|'
  "${judged[@]}" again plain.json "$edit"
  checked_all --report --json plain.json > said || true
  same 'lines of a report without PAR2' 4 "$(wc -l < said)"
done

# rows of a version that did not measure apart go on counting
"${judged[@]}" old made.json old.json
status=0
checked_all --report --json old.json --csv old.csv > said || status=$?
same 'the status of old rows' 3 "$status"
same 'the summary of old rows' "$(counts 1 1 1 0 1 1)" "$(tail -n 1 said)"
same 'an old row' 'a.cnf,made,UNSAT,,,,,,,10.0,,' "$(sed -n 2p old.csv)"
sed -i 's/"status": 20/"status": 10/' old.json
checked_all --report --json old.json > said || true
grep -q '^a.cnf .* no answer: this row was edited$' said || fault "an edited old row: $(cat said)"

# files that are not written over
for option in --csv --plot; do
  ends 2 '' checked_all four.cnf --solver right "$option" four.cnf
  because 'cannot write four.cnf: it is four.cnf, which is read'
  ends 2 '' checked_all --report --json made.json "$option" made.json
  because 'cannot write made.json: it is made.json, which is read'
  ends 2 '' checked_all four.cnf --solver right "$option" none/file
  because 'cannot write '
done
ends 2 '' checked_all four.cnf --solver right --csv both --plot both
because 'twice'
ends 2 '' checked_all four.cnf --solver right --while --check-limit 5
because '--while has one limit: it excludes --check-limit'
