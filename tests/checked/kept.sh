# shellcheck shell=bash disable=SC2154,SC2034
# What is kept, and what no file is written over. Read by tests/checked.sh.

ends 20 "$unsat" checked --keep kept refuter four.cnf
keeps $'1 0\n0'
ends 10 "$sat" checked --keep kept finder other.cnf
keeps $'c found\ns SATISFIABLE\nv 1 -2 3 0'
ends 1 '' checked --keep kept early four.cnf
keeps ''
ends 3 '' checked --keep kept crashing four.cnf
keeps ''

# a rejected one, where it is asked for, and else no file is named that will be gone
ends 1 '' checked --keep-rejected kept --keep other_kept refuter other.cnf
keeps $'1 0\n0'
because "it is kept as $PWD/kept"
ends 1 '' checked --keep-rejected kept finder four.cnf
keeps $'c found\ns SATISFIABLE\nv 1 -2 3 0'
ends 20 "$unsat" checked --keep-rejected kept refuter four.cnf
keeps ''
ends 1 '' checked damaged four.cnf
because 'in proof'
if grep -F "$work/room" err || [[ -e other_kept ]]; then
  echo "a file is named that is gone, or kept that is rejected"
  wrong=1
fi

# what is kept takes the place of no other file, nor of what is read
umask 027
ends 20 "$unsat" checked --keep kept refuter four.cnf
if [[ $(stat -c %a kept) != 640 ]]; then
  stat kept
  wrong=1
fi
umask 022
rm kept
cp four.cnf mine.new
ends 20 "$unsat" checked --keep mine refuter mine.new
cp four.cnf first.cnf
ln first.cnf hard.cnf
ln -s first.cnf soft.cnf
for name in ./first.cnf hard.cnf soft.cnf; do
  for option in --keep --keep-rejected; do
    ends 2 '' checked "$option" "$name" refuter first.cnf
    because 'is an input'
  done
done
ends 2 '' checked --keep first.cnf refuter - < hard.cnf
ends 2 '' checked --keep first.cnf refuter first.cnf four.cnf
ends 2 '' checked --keep bin/refuter refuter four.cnf
mkfifo pipe
ends 2 '' checked --keep pipe refuter four.cnf
because 'is no regular file'
if [[ ! -p pipe || ! -x bin/refuter ]] || ! cmp four.cnf first.cnf || ! cmp four.cnf mine.new; then
  echo "a file is lost"
  wrong=1
fi

# where the verdict can't be written there is none, and nothing is left
ends 1 '' bash -c 'checked refuter four.cnf > /dev/full'
solver late << 'END'
sleep 1; exec finder "$@"
END
for tool in checked verified; do
  { "$tool" late other.cnf 2> err || echo $? > status; } | true
  clean "$tool, read by nobody"
  if [[ $(cat status) == 10 ]]; then
    echo "$tool: a verdict that is not written"
    wrong=1
  fi
done
