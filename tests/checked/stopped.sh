# shellcheck shell=bash disable=SC2154,SC2034
# Interrupts. Read by tests/checked.sh.

solver stubborn << END
trap '' INT TERM HUP
printf '1 0\n0\n' > "\$2"; $slow
END
# (of the empty proof it says nothing)
solver slow_check << END
cd '$work'; [ "\$2" = /dev/null ] || { $slow; }
END
for signal in 'INT 130' 'QUIT 131' 'TERM 143' 'HUP 129'; do
  # shellcheck disable=SC2086
  stopped $signal checked --keep kept slow four.cnf
  keeps ''
  # shellcheck disable=SC2086
  DRAT_CHECK=slow_check stopped $signal checked --keep kept refuter four.cnf
  keeps ''
done
stopped TERM 143 checked --keep kept stubborn four.cnf
keeps ''
stopped TERM 143 verified slow four.cnf

# the limit, for solver and checker together
expired() {
  stopped - 3 checked "$@"
  because 'there is no verdict after '
}
expired --limit 2 --keep kept slow four.cnf
keeps ''
expired --limit=1.5 --want unsat stubborn four.cnf
DRAT_CHECK=slow_check expired --limit 2 refuter four.cnf
DRAT_CHECK=slow_check PIECES="$top/tools/pieces" expired --limit 2 --jobs 3 --pieces-from 0 refuter four.cnf
solver quick << 'END'
sleep 1; exec refuter "$@"
END
DRAT_CHECK=slow_check expired --limit 3 quick four.cnf
# one that has ended leaves nothing behind that waits for the limit
ends 20 "$unsat" checked --limit "98765.$$" quick four.cnf
# (what was killed can be seen a moment longer)
for ((tries = 0; tries < 50; tries++)); do
  grep -aqz "98765.$$" /proc/[0-9]*/cmdline 2> null || break
  sleep 0.1
done
if ((tries == 50)); then
  echo "it still waits for the limit"
  wrong=1
fi
for seconds in 0 0.0 x 1e3 -1 1.2.3 ''; do
  ends 2 '' checked --limit "$seconds" refuter four.cnf
  because '--limit takes a number'
done

# while it waits for a formula
mkfifo never
solver opening << 'END'
{ sleep 1; echo > begun; } & exec checked refuter never
END
stopped TERM 143 opening
