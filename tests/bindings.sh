#!/usr/bin/env bash
# Builds the library for other languages, and calls it from C, C++, Rust and Python, where the tools are there: by the tests of each,
# and from projects that stand outside the repository.
# needs: crates/c_library/out/libc_library.a
set -euo pipefail
. "$(dirname "$0")/lib.sh"
own=$top/tests/bindings
cnf=$top/tests/data/board6.cnf
proof=$top/tests/data/board6.lrat

# quiet COMMAND..: what it says is shown if it fails
quiet() {
  "$@" > "$work/said" 2>&1 || {
    cat "$work/said"
    return 1
  }
}

versions=$(
  sed -n 's/^#define CEFINDRATO_VERSION "\(.*\)"$/\1/p' "$top/bindings/c/cefindrato.h"
  sed -n 's/^version = "\(.*\)"$/\1/p' "$top/bindings/rust/Cargo.toml" "$top/bindings/python/pyproject.toml"
  sed -n 's/^__version__ = "\(.*\)"$/\1/p' "$top/bindings/python/cefindrato/__init__.py"
)
version=${versions%%$'\n'*}

# A folder with what is installed of the library.
prefix=$work/prefix
mkdir -p "$prefix/lib/pkgconfig" "$prefix/include"
"$top/bindings/build.sh" "$prefix/lib"
cp "$top"/bindings/c/*.h "$top"/bindings/cpp/*.hpp "$prefix/include/"
cat > "$prefix/lib/pkgconfig/cefindrato.pc" << END
libdir=$prefix/lib
Name: cefindrato
Description: Proved checkers
Version: $version
Cflags: -I$prefix/include
Libs: -L\${libdir} -lcefindrato
END
export PKG_CONFIG_PATH=$prefix/lib/pkgconfig
library=$prefix/lib/libcefindrato.a
header=$prefix/include

ln -s libcefindrato.so "$prefix/lib/libcefindrato.so.0"
cc -std=c99 -O2 -Wall -Wextra -Werror -pthread -I"$header" -o "$work/c" "$own/test.c" "$library"
for name in session checker; do
  cc -std=c99 -O2 -Wall -Wextra -Werror -I"$header" -o "$work/$name" "$own/$name.c" "$library"
done
cc -std=c99 -O2 -Wall -Wextra -Werror -I"$header" -Wl,--wrap=malloc,--wrap=realloc -o "$work/memory" "$own/memory.c" "$library"
programs=$work/bin
mkdir "$programs"
ln -s "$top/tools/checked" "$programs/"
for program in drat_check lrat_check model_check session_check varisat_check; do
  if [[ -x $top/crates/${program}_main/out/${program}_main ]]; then
    ln -s "$top/crates/${program}_main/out/${program}_main" "$work/bin/$program"
  else
    not_tried "$program is not built"
  fi
done
queries=$'unsatisfiable under -1 and -3: shown\nsatisfiable under -3: shown'
export PYTHONDONTWRITEBYTECODE=1
cd "$work"

# One version everywhere.
case_versions() {
  if [[ $(sort -u <<< "$versions" | wc -l) != 1 || $(wc -l <<< "$versions") != 4 ]]; then
    fault "versions of header, Rust and Python: $versions"
  fi
  if ! grep -q "^const VERSION: &str = \"$version " "$top/crates/command/src/status.rt"; then
    fault "the programs have another version than $version"
  fi
}

# Other libraries of the toolchain define the names that are hidden here.
case_names() {
  checker=cefindrato_checker session=cefindrato_session
  wanted="${checker}_add_clause ${checker}_begin ${checker}_check_step ${checker}_end ${checker}_unsat cefindrato_drat_check \
cefindrato_lrat_check cefindrato_model_check ${session}_begin ${session}_delete ${session}_derive ${session}_end ${session}_fails \
${session}_give ${session}_satisfies cefindrato_version "
  for names in "nm -g $library" "nm -D $prefix/lib/libcefindrato.so"; do
    exported=$($names --defined-only | awk 'NF == 3 { print $3 }' | sort | tr '\n' ' ')
    if [[ $exported != "$wanted" ]]; then
      fault "visible by $names: $exported"
    fi
  done
}

case_c() {
  "$work/c" "$cnf" "$proof"
  cc -g -fsanitize=address,undefined -fno-sanitize-recover=all -pthread -I"$header" -o "$work/checked" "$own/test.c" "$library"
  "$work/checked" "$cnf" "$proof"
}

# What is kept behind a handle, in all orders of calls.
case_handles() {
  for name in session checker; do
    "$work/$name"
    cc -g -fsanitize=address,undefined -fno-sanitize-recover=all -I"$header" -o "$work/${name}_checked" "$own/$name.c" "$library"
    "$work/${name}_checked" 5
    cc -std=c99 -O2 -Wall -Wextra -Werror -I"$header" -o "$work/${name}_example" "$top/bindings/c/${name}_example.c" "$library"
  done
  expect 0 $'unsatisfiable under -2: shown\nsatisfiable: shown' -- "$work/session_example"
  expect 0 "$queries" -- "$work/checker_example"
}

# Each cause of a header has a text of its own, which is that of Python.
case_causes() {
  only_with python3
  for kind in checker session; do
    constants=$(sed -n '/^enum {$/,/^};$/s/^ *CEFINDRATO_\([A-Z_]* = [0-9]*\).*/\1/p' \
      "$header/cefindrato_$kind.h")
    mapfile -t numbers < <(sed '/^STEP_/d; s/.* = //' <<< "$constants")
    cc -std=c99 -Wall -Wextra -Werror -I"$header" -DKIND="$kind" -o causes "$own/causes.c" "$library"
    ./causes "${numbers[@]}" > texts
    if ((${#numbers[@]} < 11)) || grep -q '^$' texts ||
      [[ $(sort -u texts | wc -l) != "${#numbers[@]}" ]]; then
      fault "causes of the $kind: ${numbers[*]} have the texts $(cat texts)"
    fi
    expect 0 '' -- ./causes 0
    CEFINDRATO_LIBRARY=$prefix/lib/libcefindrato.so PYTHONPATH=$top/bindings/python \
      python3 "$own/causes.py" "$kind" texts "${numbers[@]}"
  done
}

case_memory() {
  "$work/memory"
}

case_valgrind() {
  only_with valgrind
  valgrind -q --leak-check=full --error-exitcode=9 "$work/c" "$cnf" "$proof"
  valgrind -q --leak-check=full --error-exitcode=9 "$work/memory"
  for name in session checker; do
    valgrind -q --leak-check=full --error-exitcode=9 "$work/$name" 3
  done
  valgrind -q --tool=helgrind --error-exitcode=9 "$work/c" "$cnf" "$proof"
}

case_cpp() {
  only_with c++
  c++ -O2 -Wall -Werror -pthread -x c++ -I"$header" -o "$work/c_as_cpp" "$own/test.c" -x none "$library"
  "$work/c_as_cpp" "$cnf" "$proof"
  c++ -std=c++17 -g -fsanitize=address,undefined -fno-sanitize-recover=all -Wall -Wextra -Werror -pthread -I"$header" -o "$work/cpp" \
    "$own/test.cpp" "$library"
  "$work/cpp" "$cnf" "$proof"
  for name in session checker; do
    c++ -O2 -Wall -Werror -x c++ -I"$header" -o "$work/${name}_as_cpp" "$own/$name.c" -x none "$library"
    "$work/${name}_as_cpp" 3
    c++ -std=c++17 -g -fsanitize=address,undefined -fno-sanitize-recover=all -Wall -Wextra -Werror -I"$header" -o "$work/${name}_cpp" \
      "$own/$name.cpp" "$library"
    "$work/${name}_cpp"
  done
  c++ -std=c++17 -O2 -Wall -Wextra -Werror -I"$header" -o "$work/cpp_example" "$top/bindings/cpp/checker_example.cpp" "$library"
  expect 0 "$queries" -- "$work/cpp_example"
}

# A project outside the repository, in C by pkg-config, and by the static library alone.
case_project() {
  only_with pkg-config
  local flags=() libraries=()
  eval "flags=($(pkg-config --cflags cefindrato)) libraries=($(pkg-config --libs cefindrato))"
  cc "${flags[@]}" -o project "$own/project.c" "${libraries[@]}"
  LD_LIBRARY_PATH=$prefix/lib ./project
  cc "${flags[@]}" -o project_alone "$own/project.c" "$library"
  ./project_alone
}

# Rust by each cargo on the path, of which one may be the distribution's, for the version that Cargo.toml names.
case_rust() {
  only_with cargo pkg-config
  mapfile -t cargos < <(type -aP cargo | xargs -n 1 dirname | xargs -n 1 realpath | sort -u)
  for folder in "${cargos[@]}"; do
    # (in a condition, commands that fail would be passed over)
    set +e
    (
      set -e
      PATH=$folder:$PATH
      of_cargo "$work/by$folder"
      exit "$wrong"
    )
    status=$?
    set -e
    ((status == 0)) || fault "by $folder/cargo"
  done
  [[ -x /usr/bin/cargo ]] || not_tried "the distribution's cargo is not installed"
  if cargo clippy --version > said 2>&1; then
    upstream_project "$work/linted"
    cd "$work/linted"
    for manifest in crate/Cargo.toml crate/varisat-checker/Cargo.toml; do
      CARGO_TARGET_DIR=$work/lints CARGO_NET_OFFLINE=true quiet \
        cargo clippy -q --manifest-path "$manifest" -- -D clippy::incompatible_msrv
    done
  else
    not_tried 'clippy is not installed, the version of Rust that is needed'
  fi
}

# upstream_project FOLDER: in it the crates, and a project that names those of upstream by their
# versions there, and has them from here.
upstream_project() {
  mkdir -p "$1/upstream" "$1/.cargo"
  cp -R "$top/bindings/rust" "$1/crate"
  find "$1/crate" -name Cargo.lock -delete
  cp "$own"/upstream/*.rs "$own/upstream/Cargo.toml" "$1/upstream/"
  printf '[patch.crates-io]\n' > "$1/.cargo/config.toml"
  for path in varisat-checker offline/{anyhow,varisat-formula,varisat-internal-proof}; do
    printf '%s = { path = "%s/crate/%s" }\n' "${path##*/}" "$1" "$path" >> "$1/.cargo/config.toml"
  done
}

# Programs for the crate varisat-checker, over the library: each item once, what the ported checker
# with processors gives, and proofs as by its program.
of_upstream() {
  local work=$1
  quiet cargo test -q --manifest-path "$work/crate/varisat-checker/Cargo.toml"
  quiet cargo build -q --manifest-path "$work/upstream/Cargo.toml"
  "$work/target/debug/items"
  "$work/target/debug/vectors" "$top"/crates/check_vectors/data/*
  "$work/target/debug/texts"
  if [[ -x $programs/varisat_check ]]; then
    python3 "$own/upstream/compare.py" "$work/target/debug/proofs" "$programs/varisat_check" \
      "$top/tests/data" "${PROOFS:-20}"
  else
    not_tried 'varisat_check is not built'
  fi
  # by other hashes of literals than the library has, as those of upstream are
  hash=$work/crate/offline/varisat-internal-proof/src/lib.rs
  sed -i 's/0x9E37_79B9_7F4A_7C15/0xD1B5_4A32_D192_ED03/' "$hash"
  grep -q 0xD1B5_4A32_D192_ED03 "$hash"
  quiet cargo build -q --manifest-path "$work/upstream/Cargo.toml"
  "$work/target/debug/items"
}

# of_cargo FOLDER: the crate's own tests in a copy, and a project that names it by its path, which runs without the library's folder.
of_cargo() {
  local work=$1
  upstream_project "$work"
  cd "$work"
  export CARGO_TARGET_DIR=$work/target CARGO_NET_OFFLINE=true
  quiet cargo test -q --manifest-path "$work/crate/Cargo.toml"
  mkdir -p "$work/rust_project/src"
  printf '[package]\nname = "project"\nversion = "0.1.0"\nedition = "2021"\n[dependencies]\ncefindrato = { path = "../crate" }\n' \
    > "$work/rust_project/Cargo.toml"
  cp "$own/project.rs" "$work/rust_project/src/main.rs"
  quiet cargo build -q --manifest-path "$work/rust_project/Cargo.toml"
  "$work/target/debug/project"
  # by a folder, with the shared library; and what is said where there is none
  CEFINDRATO_LIBRARY_FOLDER=$prefix/lib CEFINDRATO_SHARED=1 quiet cargo build -q --manifest-path "$work/rust_project/Cargo.toml"
  LD_LIBRARY_PATH=$prefix/lib "$work/target/debug/project"
  if PKG_CONFIG_PATH=$work/none PKG_CONFIG_LIBDIR=$work/none cargo build -q --manifest-path "$work/rust_project/Cargo.toml" > said 2>&1 ||
    ! grep -q '^  libcefindrato is not found: install it' said || grep -q panicked said; then
    fault "without a library: $(cat said)"
  fi
  of_upstream "$work"
}

# Programs for varisat-checker with the true crate anyhow, whose sources the distribution packs.
case_anyhow() {
  only_with cargo pkg-config
  registry=/usr/share/cargo/registry
  compgen -G "$registry/anyhow-1.*" > said || untried 'the crate anyhow is not installed'
  upstream_project "$work"
  cd "$work"
  sed -i '/^anyhow = /d' .cargo/config.toml
  printf '[source.crates-io]\nreplace-with = "packaged"\n[source.packaged]\ndirectory = "%s"\n' \
    "$registry" >> .cargo/config.toml
  CARGO_NET_OFFLINE=true CARGO_TARGET_DIR=$work/target quiet \
    cargo build -q --bin items --manifest-path upstream/Cargo.toml
  grep -q "^source = .*crates.io-index" upstream/Cargo.lock
  target/debug/items
}

# Python: the package as it stands.
case_python() {
  only_with python3
  CEFINDRATO_LIBRARY=$prefix/lib/libcefindrato.so PYTHONPATH=$top/bindings/python python3 "$own/test.py" "$cnf" "$proof"
}

# The same by the programs that were built.
case_programs() {
  only_with python3
  CEFINDRATO_LIBRARY=$prefix/lib/libcefindrato.so PYTHONPATH=$top/bindings/python PATH=$work/bin:$PATH \
    python3 "$top/tests/release/wheel.py" "$top/tests/data"
}

# Sessions of queries by the session, by the ported checker, and by the program.
case_sessions() {
  only_with python3 xz
  [[ -x $work/bin/session_check ]] || untried 'session_check is not built'
  mkdir "$work/judged"
  tar -xJf "$top/tests/sessions/judged.tar.xz" -C "$work/judged"
  CEFINDRATO_LIBRARY=$prefix/lib/libcefindrato.so PYTHONPATH=$top/bindings/python \
    python3 "$top/tests/sessions/handles.py" "$work/bin/session_check" "$work/judged" 1 "${SESSIONS:-300}"
}

# As pip installs it in an environment of its own, without a network.
case_pip() {
  only_with python3 pkg-config
  python3 -m venv "$work/venv" > "$work/said" 2>&1 || untried 'no venv here'
  cp -R "$top/bindings/python" "$work/package"
  quiet "$work/venv/bin/pip" install -q --no-index --no-build-isolation --disable-pip-version-check "$work/package"
  env -u PKG_CONFIG_PATH "$work/venv/bin/python" "$own/test.py" "$cnf" "$proof"
  quiet "$work/venv/bin/pip" uninstall -q -y cefindrato
}

try_cases
