#!/usr/bin/env bash
# Builds packages by the recipes action.yml, debian/ and packaging/, and runs what was built; and `./install.sh --dist`, which most of them
# call.
#
#   tests/packages.sh [DIST]
#
# DIST is a folder that tools/dist.sh made, by default `dist/`. Without one, substitutes that a C compiler builds from
# tests/packages/stand_in.c take the programs' place. The test names each tool that is not installed (dpkg-buildpackage with debhelper,
# lintian, buildah, nix-instantiate, ruby, guile), and tries the rest.
# needs: all
set -euo pipefail
. "$(dirname "$0")/lib.sh"
own=$top/tests/packages
dist=$(realpath -m "${1:-$top/dist}")

# well WHAT WORD..: this call must end with status 0; if not, the end of its output is shown
well() {
  "${@:2}" > "$work/said" 2>&1 || {
    echo "$1: status $?"
    tail -n 20 "$work/said"
    wrong=1
  }
}

# The programs as assembly text
mkdir "$work/text"
if [[ -f $dist/PROVED ]]; then
  (cd "$dist" && cp ./*.S rt.c Makefile PROVED "$work/text/")
elif (($#)); then
  echo "no $dist/PROVED"
  exit 1
else
  echo 'dist/ is not made yet: substitutes take the place of its programs'
  cp "$top"/tools/release/{rt.c,dist/Makefile} "$work/text/"
  echo 'stand-ins' > "$work/text/PROVED"
fi
read -r -a names < <(sed -n 's/^PROGRAMS = //p' "$work/text/Makefile")
if [[ ! -f $dist/PROVED ]]; then
  for name in "${names[@]}"; do
    cc -O1 -fPIC -S -DNAME="\"$name\"" -o "$work/text/$name.S" "$own/stand_in.c"
  done
fi
version=$(sed -n 's/^const VERSION: &str = "\([^ "]*\).*/\1/p' "$top/crates/command/src/status.rt")
mapfile -t all < <(printf '%s\n' "${names[@]}" checked checked_all circuit_pdr circuit_sweep cubes pieces proof_picture sessions verified | LC_ALL=C sort)

# checkout FOLDER: a copy of this checkout without crates/, and with dist/
checkout() {
  mkdir -p "$1"
  (cd "$top" && git ls-files -z --cached --others --exclude-standard -- . ':!crates' ':!dist' | tar -c --null -T -) | tar -x -C "$1"
  cp -R "$work/text" "$1/dist"
}

# An unsatisfiable and a satisfiable formula, and a solver that claims each formula to be unsatisfiable
mkdir "$work/bin"
printf 'p cnf 2 4\n1 2 0\n1 -2 0\n-1 2 0\n-1 -2 0\n' > "$work/four.cnf"
printf 'p cnf 2 1\n1 2 0\n' > "$work/one.cnf"
printf '1 0\n0\n' > "$work/four.drat"
cat > "$work/bin/solver" << 'END'
#!/bin/sh
[ $# = 3 ] && [ "$1" = --option ] || exit 5
printf '1 0\n0\n' > "$3"
echo 's UNSATISFIABLE'
exit 20
END
printf '#!/bin/sh\nexec "%s/bin/solver" --option "$@"\n' "$work" > "$work/bin/calls_solver"
chmod +x "$work"/bin/*solver

# verdicts FOLDER: what the programs in a folder print, and their statuses
verdicts() {
  local program status
  for program in varisat_check "drat_check $work/four.cnf $work/four.drat" "drat_check $work/one.cnf $work/four.drat" \
    "checked solver --option $work/four.cnf" "checked solver --option $work/one.cnf" \
    "checked --all $work/four.cnf --solver $work/bin/calls_solver"; do
    status=0
    # shellcheck disable=SC2086 # several words
    PATH=$1:$work/bin:$PATH "$1"/$program 2> "$work/said" || status=$?
    echo "$status"
  done
}
right=$'s UNSATISFIABLE\n0\ns VERIFIED UNSAT\n0\n1\ns VERIFIED UNSAT\n20\n1'
right+=$'\n1 formula: 1 s VERIFIED UNSAT, 0 s VERIFIED SAT, 0 no answer, '
right+=$'0 not checked, 0 rejected, 0 malformed\n0'

place="$work/a checkout"
checkout "$place"

# Installed and uninstalled; and without dist/.
case_install() {
  well 'install.sh --dist' "$place/install.sh" --dist "$work/a prefix"
  same 'the programs' "$(printf '%s\n' "${all[@]}")" "$(cd "$work/a prefix/bin" && LC_ALL=C ls)"
  same 'their pages' "$(printf '%s.1\n' "${all[@]}")" "$(cd "$work/a prefix/share/man/man1" && LC_ALL=C ls)"
  same 'what was proved' "$(cat "$work/text/PROVED")" "$(cat "$work/a prefix/share/doc/cefindrato/PROVED")"
  same 'verdicts' "$right" "$(verdicts "$work/a prefix/bin")"
  well 'install.sh --uninstall' "$place/install.sh" --uninstall "$work/a prefix"
  same 'what is left' '' "$(find "$work/a prefix" 2> "$work/said" || true)"
  rm -r "$place/dist"
  status=0
  said=$("$place/install.sh" --dist "$work/a prefix" 2>&1) || status=$?
  same 'without dist/' "1 no $place/dist/PROVED: tools/dist.sh makes dist/" "$status $said"
  cp -R "$work/text" "$place/dist"
}

case_action() {
  # action WHAT STATUS LINE INPUT=VALUE..: the steps of the action with these inputs, in a folder that has the formulas
  action() {
    local status=0 said
    rm -rf "$work/runner"
    mkdir "$work/runner"
    said=$(cd "$work" && PATH="$work/bin:$PATH" python3 -B "$own/action.py" "$place" "$work/runner" "${@:4}" 2> "$work/faults") || status=$?
    same "the action $1" "$2 $3" "$status $(grep -v ' scripts are in \|^no module yaml' <<< "$said" || true)"
  }
  # (this `sudo` records how it was called, and installs nothing)
  printf '#!/bin/sh\nprintf "%%s\\n" "$*" >> "%s/asked"\n' "$work" > "$work/bin/sudo"
  chmod +x "$work/bin/sudo"
  action 'without a formula' 0 ''
  same 'what it installs' "$(printf '%s\n' "${all[@]}")" "$(cd "$work/runner/temp/cefindrato/bin" && LC_ALL=C ls)"
  same 'what it adds to the path' "$work/runner/temp/cefindrato/bin" "$(cat "$work/runner/path")"
  same 'verdicts of the action' "$right" "$(verdicts "$work/runner/temp/cefindrato/bin")"
  same 'packages without the input' '' "$(cat "$work/asked" 2> "$work/said" || true)"
  action 'with a formula' 0 's VERIFIED UNSAT' formula=four.cnf 'solver=solver --option'
  action 'with the other answer' 1 's VERIFIED UNSAT' formula=four.cnf 'solver=solver --option' want=sat
  grep -qx 'the other answer is verified: --want sat' "$work/faults" || {
    cat "$work/faults"
    wrong=1
  }
  action 'with a wrong answer' 1 '' formula=one.cnf 'solver=solver --option'
  action 'with a command in an input' 2 '' formula=four.cnf "solver=none; touch $work/done"
  same 'the command' '' "$(find "$work" -name 'done*')"
  action 'with packages' 0 '' 'packages=cadical picosat'
  same 'the packages' $'apt-get update -qq\napt-get install -y -qq --no-install-recommends cadical picosat' "$(cat "$work/asked")"
}

# The Debian source package and what is built from it, and the verdict of lintian on both.
case_debian() {
  only_with dpkg-buildpackage dh xz
  checkout "$work/debian/cefindrato"
  git init -q "$work/debian/cefindrato"
  before=$(cd "$work/debian/cefindrato" && find . -type f | sort)
  well dpkg-buildpackage env -C "$work/debian/cefindrato" dpkg-buildpackage -us -uc
  same 'what is built' 'cefindrato-checkers_*_amd64.deb' "$(cd "$work/debian" && find . -name '*.deb' -printf '%P\n' | sed 's/_.*_/_*_/')"
  same 'what is not for the source package' '' "$(tar -tJf "$work"/debian/cefindrato_*.tar.xz | grep -E '/(\.git|out)/' || true)"
  dpkg-deb -x "$work"/debian/*.deb "$work/unpacked" || wrong=1
  same 'verdicts of the Debian package' "$right" "$(verdicts "$work/unpacked/usr/bin")"
  for name in "${names[@]}"; do
    same "the logic of $name" "$(readelf -p .comment "$work/debian/cefindrato/dist/$name" | sed -n 's/.*rattle logic=//p')" \
      "$(readelf -p .comment "$work/unpacked/usr/bin/$name" | sed -n 's/.*rattle logic=//p')"
  done
  if has lintian; then
    well lintian lintian --allow-root --fail-on error,warning "$work"/debian/*.changes
  fi
  well 'debian/rules clean' env -C "$work/debian/cefindrato" debian/rules clean
  same 'what the build leaves' '' "$(cd "$work/debian/cefindrato" && find . -type f | sort | diff <(echo "$before") - || true)"
}

# The script of conda, and the commands that Nix and Homebrew would run.
case_builders() {
  well "conda's build.sh" env -C "$place" "PREFIX=$work/conda" bash -e packaging/conda/build.sh
  same 'verdicts of the conda package' "$right" "$(verdicts "$work/conda/bin")"
  if has nix-instantiate; then
    export NIX_STORE_DIR=$work/nix/store NIX_STATE_DIR=$work/nix/state NIX_LOG_DIR=$work/nix/log
    mkdir "$work/nix"
    # (this set has the parts of nixpkgs that the recipe uses)
    stand_in='{ stdenv.mkDerivation = it: it; python3 = "python3"; lib.licenses = { mit = "MIT"; asl20 = "Apache-2.0"; }; }'
    for phase in installPhase installCheckPhase; do
      HOME=$work nix-instantiate --eval --strict --json -E "(import $top/packaging/nix/default.nix { pkgs = $stand_in; }).$phase" \
        2> "$work/said" | python3 -c 'import json, sys; print(json.load(sys.stdin))' > "$work/$phase"
      well "$phase of Nix" env -C "$place" "out=$work/a nix" bash -e "$work/$phase"
    done
    same 'the source of Nix' "\"$top\"" \
      "$(HOME=$work nix-instantiate --eval -E "toString (import $top/packaging/nix/default.nix { pkgs = $stand_in; }).src" 2> "$work/said")"
    same 'verdicts of what Nix runs' "$right" "$(verdicts "$work/a nix/bin")"
  fi
  if has ruby; then
    well "Homebrew's formula" env -C "$place" "HOMEBREW_CEFINDRATO=$place" ruby -w "$own/formula.rb" packaging/homebrew/cefindrato.rb "$work/brew"
    same 'verdicts of what Homebrew runs' "$right" "$(verdicts "$work/brew/bin")"
  fi
}

case_guix() {
  only_with guile
  same 'the expressions of guix.scm' $'use-modules\ndefine\npackage' "$(guile --no-auto-compile -s "$own/read.scm" "$top/packaging/guix.scm" 2>&1)"
}

# The image, from static programs in an archive with the name of a packed release.
case_image() {
  only_with buildah
  packed=cefindrato-$version-linux-x86_64-static
  mkdir -p "$work/release/$packed/bin" "$work/data"
  cp -R "$work/text" "$work/static"
  well 'static programs' make -C "$work/static" LDFLAGS=-static
  cp "${names[@]/#/$work/static/}" "$work/release/$packed/bin/"
  tar -C "$work/release" -czf "$work/release/$packed.tar.gz" "$packed"
  cp "$work"/four.* "$work/data/"
  store=(--root "$work/store" --runroot "$work/run" --storage-driver vfs)
  if buildah "${store[@]}" from --name trial scratch > "$work/said" 2>&1; then
    well 'the image' buildah "${store[@]}" bud --isolation chroot -t cefindrato -f "$top/packaging/oci/Containerfile" "$work/release"
    container=$(buildah "${store[@]}" from cefindrato)
    same 'a verdict in the image' 's VERIFIED UNSAT' \
      "$(buildah "${store[@]}" run --isolation chroot -v "$work/data:/data" "$container" drat_check four.cnf four.drat)"
    buildah "${store[@]}" rm --all > "$work/said"
  else
    not_tried "buildah does not work here, $(tail -n 1 "$work/said")"
  fi
}

# All recipes have the same version and maintainers; and no address, except one that is no mailbox, and that of a form of Debian's.
case_recipes() {
  recipes=("$top"/{packaging,debian,action.yml,tools/release/{control,wheel.py,overrides,debian.sh}}
    "$top"/bindings/{python/{pyproject.toml,build_backend.py},rust/Cargo.toml})
  same 'versions' "$(printf "$version\n%.0s" 1 2 3 4 5 6)" "$(sed -n -E \
    's/^ *version =? ?"([^"]*)";?$/\1/p; s/^ *\(version "(.*)"\)$/\1/p; s/^  version: "(.*)"$/\1/p; s/^cefindrato \((.*)\) unstable.*/\1/p; s/^ARG VERSION=(.*)/\1/p' \
    "$top"/packaging/{guix.scm,conda/meta.yaml,nix/default.nix,oci/Containerfile} "$top/debian/changelog" "$top/bindings/python/pyproject.toml")"
  same 'maintainers' "$(printf 'Cefindrato maintainers\n%.0s' 1 2 3 4 5)" "$(sed -n -E \
    's/^Maintainer: ([^<]*[^< ]).*/\1/p; s/^maintainers = \[\{ name = "(.*)" \}\]$/\1/p' \
    "$top"/{debian/control,tools/release/control,tools/release/wheel.py,bindings/python/pyproject.toml,bindings/python/build_backend.py})"
  same 'addresses' '' "$(grep -rnoE '[a-z]+://[^ ]*|<[^ <>]+@[^ <>]*>' "${recipes[@]}" |
    grep -vE ':(https://www\.debian\.org/doc/packaging-manuals/copyright-format/1\.0/|<nobody@cefindrato\.invalid>)$')"
}

try_cases
