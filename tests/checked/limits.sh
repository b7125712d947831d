# shellcheck shell=bash disable=SC2154,SC2034
# A limit for both, or one for the solver and one for the checker; and what measures them. Read by
# tests/checked.sh.

# Where nothing but the header is asked of the formula, before the solver runs, it takes no time.
cat > slow_check << 'END'
#!/bin/sh
[ "$2" = /dev/null ] || sleep "${SLEEP:-60}"
exec drat_check "$@"
END
chmod +x slow_check
solver slow_refuter << 'END'
sleep 3; exec refuter "$@"
END

# over CAUSE REASON CALL..: there is no verdict, since a limit is over
over() {
  local status=0 said
  said=$("${@:3}" 2> err) || status=$?
  if [[ $status != 3 || $said != *"\"status\": 3, \"cause\": \"$1\", \"reason\": [\"$2\"]}" ]]; then
    printf '%s: status %d, it wrote: %s %s\n' "${*:3}" "$status" "$said" "$(cat err)"
    wrong=1
  fi
  because "$2"
  clean "${*:3}"
}

# one limit is for both together, and two count apart
over limit 'there is no verdict after 5 seconds' \
  env DRAT_CHECK=./slow_check SLEEP=4 checked --json --limit 5 slow_refuter four.cnf
ends 20 "$unsat" \
  env DRAT_CHECK=./slow_check SLEEP=4 checked --limit 60 --check-limit 60 refuter four.cnf
over limit 'the solver gave no answer within 4 seconds' \
  checked --json --limit 4 --check-limit 60 sleepy four.cnf
for limits in '--limit 60 --check-limit=2' '--check-limit=2'; do
  # shellcheck disable=SC2086
  over 'check limit' 'the checker gave no verdict within 2 seconds' \
    env DRAT_CHECK=./slow_check checked --json $limits refuter four.cnf
done
ends 20 "$unsat" checked --limit 60 --check-limit 60 refuter four.cnf
stopped - 3 checked --limit 4 --check-limit 60 slow four.cnf
for value in 0 x 1.2.3 ''; do
  ends 2 '' checked --check-limit "$value" refuter four.cnf
  because '--check-limit takes a number'
done
ends 2 '' checked --check-limit 5 --while refuter four.cnf
because '--while has one limit: it excludes --check-limit'

# solver and checker are run by what measures them, each by its name, and nothing else is
printf '#!/bin/sh\necho "$1 ${2##*/}" >> measured\nshift\nexec "$@"\n' > measuring
sed -i "s|>> measured|>> '$work/measured'|" measuring
chmod +x measuring
ends 20 "$unsat" env MEASURE="$work/measuring" checked refuter four.cnf
ends 10 "$sat" env MEASURE="$work/measuring" checked finder other.cnf
ends 20 "$unsat" env MEASURE="$work/measuring" checked --lrat cadical four.cnf
same 'what was measured' 'solver refuter
checker drat_check
solver finder
checker model_check
solver cadical
checker lrat_check' "$(cat measured)"

# a signal while a program runs whose outputs are in files: the reason is seen, and the line of JSON
printf '#!/bin/sh\nexec sleep 60\n' > stuck
chmod +x stuck
printf 'aig 2 1 0 1 1\n4\n\1\1' > never.aig
over limit 'there is no verdict after 2 seconds' \
  env MODEL_CHECK=./stuck checked --json --limit 2 finder other.cnf
over limit 'there is no verdict after 2 seconds' \
  env DRAT_CHECK=./stuck checked --json --limit 2 refuter four.cnf
over limit 'there is no verdict after 2 seconds' \
  env CIRCUIT_CHECK=./stuck checked --json --limit 2 --never refuter never.aig
over limit 'there is no verdict after 2 seconds' \
  env MINIMAL_CHECK=./stuck checked --json --limit 2 --minimal refuter four.cnf
