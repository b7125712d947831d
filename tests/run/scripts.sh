# shellcheck shell=bash
# How ./test.sh runs scripts: side by side, each at once where it has passed on this machine
# already, by a note that its key names.
#
# It has `told`, a folder for what this run tells; `passed`, the folder of notes; `archive`, which
# the script `library` makes and `waiting` want; and it works in the folder of the repository. A
# failure is an exit status, here and of what is called here: what is written into files is for
# reading alone, and where it can't be written that is a failure too.

# run_scripts LANES LINE..: each line is a script and its words. What was not tried, and what
# failed, is told at the end. It fails if a script does.
run_scripts() {
  local status=0
  describe_machine || return 1
  printf '%s\n' "${@:2}" | xargs -P "$1" -I LINE bash -c 'run LINE || exit 1' || status=1
  tell_end "${@:2}" || status=1
  return "$status"
}

# describe_machine: what scripts depend on beside the repository
describe_machine() {
  local name
  {
    rt version || true
    dpkg-query -W || true
    for name in python3 "${CC:-cc}"; do
      "$name" --version || true
    done
    bash --version
    uname -srm
    ulimit -a
    umask
    nproc
    for name in PATH LANG LC_ALL LC_CTYPE LANGUAGE TZ CC RT SESSIONS FORMULAS; do
      echo "$name=${!name:-}"
    done
  } > "$told/.machine" 2> "$told/.absent"
}

# await_archive: until the script `library` has ended, but not for ever
await_archive() {
  local waited
  for ((waited = 0; waited < 1800; waited++)); do
    [[ ! -e $told/library.ended ]] || return 0
    sleep 1
  done
}

# key_of SCRIPT
key_of() {
  python3 -B "$keys" "$told/.machine" "$1"
}

# run SCRIPT [WORD ..]: its lines, its name and its seconds, together. It fails if the script does.
run() {
  local status=0
  run_or_pass "$@" || status=1
  if [[ ! -e $told/$1.ended ]]; then
    echo 1 > "$told/$1.ended" || status=1
  fi
  return "$status"
}

# run_or_pass SCRIPT [WORD ..]: it is not run where it has passed. `rt ci` takes the archive away:
# what is noted of `library` is a copy of it.
run_or_pass() {
  local key
  if [[ " $waiting " == *" $1 "* ]]; then
    await_archive || return 1
  fi
  key=$(key_of "$1") || return 1
  if [[ $key && -e $passed/$1.$key && $1 != wrong_bodies ]]; then
    echo "tests/$1.sh has passed on this machine over the same files"
    if [[ $1 == library ]]; then
      mkdir -p "${archive%/*}" && cp "$passed/$1.$key" "$archive" || return 1
    fi
    echo 0 > "$told/$1.ended"
  else
    run_now "$key" "$@"
  fi
}

# run_now KEY SCRIPT [WORD ..]
run_now() {
  local key=$1 name=$2 status=0
  SECONDS=0
  "tests/$name.sh" "${@:3}" > "$told/$name" 2>&1 || status=$?
  # (a script without tests/lib.sh says so by its lines alone)
  if [[ $status == 0 ]] && grep -q 'not tried' "$told/$name"; then
    status=77
  fi
  times > "$told/$name.times" || status=1
  echo "tests/$name.sh ended with status $status after $SECONDS s, $(awk -F '[ms ]+' 'NR == 2 { printf "%d", 60 * ($1 + $3) + $2 + $4 }' "$told/$name.times") of a processor" \
    >> "$told/$name" || status=1
  cat "$told/$name" || status=1
  if [[ $status == 0 && $key && $key == "$(key_of "$name")" ]]; then
    note "$name" "$passed/$name.$key" || status=1
  fi
  echo "$status" > "$told/$name.ended" || status=1
  [[ $status == 0 || $status == 77 ]]
}

# note SCRIPT FILE: that it has passed
note() {
  if [[ $1 != library ]]; then
    : > "$2"
  elif [[ -e $archive ]]; then
    rm -f "$passed"/library.* && cp "$archive" "$2"
  fi
}

# tell_end LINE..: what was not tried, and what failed, with its last lines. It fails if a script
# has not ended well.
tell_end() {
  local line name status failed=0
  for line in "$@"; do
    name=${line%% *}
    if [[ -e $told/$name ]]; then
      sed -n "/^- /d; s|^\\(.*\\): not tried\$|tests/$name.sh: \\1|p" "$told/$name"
    fi
  done | sort -u > "$told/.untried" || failed=1
  if [[ -s $told/.untried ]]; then
    echo 'Not tried:'
    cat "$told/.untried"
    name=$(sed -n 's/.*(Debian: \([^)]*\)).*/\1/p' "$told/.untried" | sort -u | paste -s -d ' ')
    echo "Packages that are missing: ${name:-none that is known}"
  fi
  for line in "$@"; do
    name=${line%% *} status=none
    read -r status 2> "$told/.absent" < "$told/$name.ended" || true
    if [[ $status != 0 && $status != 77 ]]; then
      failed=1
      echo "tests/$name.sh failed; its last lines:"
      tail -n 30 "$told/$name" || true
    fi
  done
  return "$failed"
}

# (a test has its own folder of scripts)
keys=$(cd "$(dirname "${BASH_SOURCE[0]}")" && pwd)/keys.py
export keys told passed archive waiting
export -f await_archive key_of note run run_now run_or_pass
