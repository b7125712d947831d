#!/usr/bin/env bash
# Whether sources and scripts keep one layout. In sources an operator begins its line, comments have
# at most 100 columns, and what stands before an item is its documentation. In scripts shellcheck
# finds nothing to warn of, and pyflakes3 nothing. Where there are no sources, or no scripts, that
# is said too.
# needs: all
set -euo pipefail
. "$(dirname "$0")/lib.sh"
cd "$top"

# scripts_of ENDING WORD: the files with this ending, and those whose first line calls an
# interpreter of this name
scripts_of() {
  git ls-files -z --cached --others --exclude-standard | LC_ALL=C xargs -0 awk -v ending="[.]$1\$" -v call="^#!.*[/ ]$2\$" '
    FNR == 1 { if (FILENAME ~ ending || $0 ~ call) print FILENAME; nextfile }'
}

# clean ENDING WORD CALL..: the call finds no fault in these scripts
clean() {
  local scripts=()
  mapfile -t scripts < <(scripts_of "$1" "$2")
  if ((${#scripts[@]} == 0)); then
    fault "there is no script in .$1"
  else
    printf '%s\n' "${scripts[@]}" | xargs -d '\n' -P "$(nproc)" -n 20 "${@:3}" || wrong=1
  fi
}

case_sources() {
  git ls-files -z 'crates/*.rt' | xargs -0 awk '
    FNR == 1 { comment = documented = 0 }
    /^ *\/\// && length($0) > 100 { print FILENAME ":" FNR ": a comment of more than 100 columns"; wrong = 1 }
    !/^ *\/\// && / (→|≡)$/ { print FILENAME ":" FNR ": a line that ends with an operator"; wrong = 1 }
    comment && /^ *(pub(\([a-z]+\))? )?(const |unsafe |ghost )?(fn|struct|enum|const|static|trait|type) / {
      print FILENAME ":" FNR ": an item after a comment that is not its documentation"; wrong = 1
    }
    { comment = (/^ *\/\/( |$)/ && !documented) || (comment && /^ *#\[/); documented = /^ *\/\/\// || (documented && /^ *\/\//) }
    END {
      if (NR == 0) { print "there are no sources"; wrong = 1 }
      exit wrong
    }' || wrong=1
}

case_shell() {
  only_with shellcheck
  clean sh '(ba)?sh' shellcheck -S warning -f gcc
}

case_python() {
  only_with pyflakes3
  clean py python3 pyflakes3
}

try_cases
