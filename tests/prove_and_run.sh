#!/usr/bin/env bash
# `tools/prove_and_run` over an `rt` that is written here: each library is built once, after those below it, several at a time; what was
# built comes together in the repository; the program runs without proof beside the first libraries, in a folder of its own, and its
# answer is told as not proved; the proved program gets its words and standard input, and writes alone to standard output; and a library
# that is not built is told.
set -euo pipefail
. "$(dirname "$0")/lib.sh"
mkdir "$work/room" "$work/tools" "$work/elsewhere"
cp "$top/tools/prove_and_run" "$work/tools/"
cd "$work"
cat > crates.txt << 'END'
app_main: low left right high log
low:
left: low
right: low log
high: left right
other: low
app: high
END
for crate in app app_main low left right high other; do
  mkdir -p "crates/$crate/src"
  touch "crates/$crate/src/lib.rt"
done
mv crates/app_main/src/lib.rt crates/app_main/src/main.rt

# Builds a library if those below it are there, and left and right each only while the other is being built. Runs a program without
# proof once a library is being built.
cat > rt << 'END'
#!/usr/bin/env bash
set -euo pipefail
crate=${PWD##*/}
echo "$1 $crate" >> "$WORK/calls"

# until_begun NAME..: waits until these are being built
until_begun() {
  local name
  for name; do
    for ((tries = 0; tries < 100; tries++)); do
      [[ ! -e $WORK/$name.begun ]] || continue 2
      sleep 0.1
    done
    exit 1
  done
}

case $1 in
  try)
    until_begun low
    echo "$$" > "$WORK/tried"
    [[ ! ${IS_SLOW:-} ]] || exec sleep 1000
    echo "answer to ${*:2}"
    cat
    echo 'checked: ended status=1'
    echo "${LAST:-run=ended status=1 runners=1 proved=no}"
    exit 1
    ;;
  run)
    [[ ! ${FAILS_TO_RUN:-} ]] || exit 1
    mkdir -p out
    cat > out/app_main << 'PROGRAM'
#!/bin/sh
(cd "${0%/*}/.." && find .. -name library | sort | tr '\n' ' ')
echo "words: $* in ${PWD##*/}"
[ "$1" != - ] || cat
exit 7
PROGRAM
    chmod +x out/app_main
    [[ ${*: -1} == --version ]]
    echo 'app 1.0'
    exit
    ;;
esac
touch "$WORK/$crate.begun"
for named in $(sed 's/:.*//' ../../crates.txt); do
  cat "../$named/src/"*.rt
done
for below in $(sed -n "s/^$crate://p" ../../crates.txt); do
  [[ ! -d ../$below ]] || cat "../$below/out/rlib/library" "../$below/out/rlib/stamp"
done
if [[ $crate == left || $crate == right ]]; then
  until_begun left right
fi
# (what is asked without proof is answered before anything is proved, except where it is slow)
if [[ $crate == low && ! ${IS_SLOW:-} ]] && grep -q '^try' "$WORK/calls"; then
  for ((tries = 0; tries < 100; tries++)); do
    ! grep -q '^not proved yet: ' "$WORK/err" || break
    sleep 0.1
  done
fi
echo "words about $crate"
[[ $crate != "${FAILS:-}" ]] || exit 1
mkdir -p out/rlib out/incremental
touch out/rlib/library out/rlib/stamp out/incremental/kept
END
chmod +x rt
unset RT_JOBS
export WORK=$work RT=$work/rt TMPDIR=$work/room

# is WHAT FOUND EXPECTED
is() {
  if [[ $2 != "$3" ]]; then
    printf '%s: %s, and not %s\n' "$1" "$2" "$3"
    wrong=1
  fi
}

# runs STATUS WORD..: the call has to end so, and leave nothing where it works. It is made in another folder than that of the program.
runs() {
  local status=0
  rm -f calls ./*.begun
  (cd elsewhere && timeout 300 ../tools/prove_and_run "${@:2}" > ../out 2> ../err) || status=$?
  is "status of ${*:2}" "$status" "$1"
  is "what ${*:2} leaves" "$(ls room)" ""
}

# unproved: what is told of the run without proof
unproved() {
  sed -n 's/^not proved yet: //p' err
}

libraries='../high/out/rlib/library ../left/out/rlib/library ../low/out/rlib/library ../right/out/rlib/library'

case_run() {
  runs 7 app --example 'two words'
  is 'what is written' "$(cat out)" "$libraries words: --example two words in elsewhere"
  is 'the calls' "$(sort calls | tr '\n' ' ')" 'lib high lib left lib low lib right run app_main try app_main '
  is 'what is kept' "$(find crates -name kept | wc -l)" 4
  is 'without proof' "$(unproved)" 'answer to -- --example two words'
  is 'what is told' "$(grep -v '^not proved' err | sed -E 's/, [0-9]+\.[0-9] minutes so far$/ M/; s/(of 5 crates: |^)(left|right)/\1SIDE/')" \
    'proving 1 of 5 crates: low M
low: proved and built M
proving 2 of 5 crates: SIDE M
proving 3 of 5 crates: SIDE M
SIDE: proved and built M
SIDE: proved and built M
proving 4 of 5 crates: high M
high: proved and built M
proving 5 of 5 crates: app_main M
app_main: proved and built M'
}

# The run without proof writes no file that is named, and reads copies.
case_named_files() {
  mkdir folder
  touch elsewhere/near folder/near folder/far
  runs 7 app near ../folder/near "$work/folder/far" ../folder/far --lrat=../folder/written --holds=near plain stdout --ids=way
  is 'the words without proof' "$(unproved)" "answer to --data near=$work/elsewhere/near --data 1-near=$work/folder/near \
--data far=$work/folder/far --data 3-far=$work/folder/far -- near 1-near far 3-far --lrat=written --holds=near plain stdout --ids=way"
  is 'the proved words' "$(cat out)" \
    "$libraries words: near ../folder/near $work/folder/far ../folder/far --lrat=../folder/written --holds=near plain stdout --ids=way in elsewhere"
  touch elsewhere/stdout
  runs 7 app stdout /=
  is 'names that are taken' "$(unproved)" "answer to --data 0-stdout=$work/elsewhere/stdout -- 0-stdout -"
}

# Standard input: both read it all, or neither.
case_standard_input() {
  printf 'a\nb\n' | runs 7 app -
  is 'standard input without proof' "$(unproved)" $'answer to -- -\na\nb'
  is 'proved' "$(cat out)" "$libraries words: - in elsewhere"$'\na\nb'
  printf 'a\nb\n' | {
    runs 7 app
    is 'what is left of it' "$(cat)" $'a\nb'
  }
  is 'without proof and input' "$(unproved)" 'answer to --'
}

# A run without proof that gives no answer, and one that is not over when all is proved.
case_no_answer() {
  LAST='run=none proved=no' runs 7 app
  is 'no answer' "$(unproved)" $'answer to --\nrun=none proved=no'
  IS_SLOW=1 runs 7 app
  is 'what is slow' "$(unproved)" ''
  is 'what is slow still runs' "$(kill -0 "$(< tried)" 2> said && echo yes)" ''
}

# Without a run.
case_build() {
  runs 0 --build app
  is 'what is built' "$(cat out) $(cd crates/app_main && find .. -name library | sort | tr '\n' ' ')" " $libraries "
  is 'the calls of a build' "$(sort calls | tr '\n' ' ')" 'lib high lib left lib low lib right run app_main '
  FAILS_TO_RUN=1 runs 1 --build app
  is 'a program that is not built' "$(tail -n 1 err)" 'app_main was not built'
}

case_failing_library() {
  FAILS=right runs 1 app
  is 'what is said of a library that is not built' "$(tail -n 2 err)" $'words about right\nright was not built'
  is 'what is built above it' "$(grep -c 'high\|run' calls || true)" 0
}

case_words() {
  usage='usage: tools/prove_and_run [--build] PROGRAM [ARGUMENT..]'
  for words in other '' --build '--build other' '--build app word'; do
    # shellcheck disable=SC2086
    runs 2 $words
    is "what is said of '$words'" "$(cat err)" "$usage"
  done
  RT=$work/none runs 1 app
  is 'what is said of no rt' "$(cat err)" "$work/none is not on the path: it comes with the toolchain"
}

try_cases
