#!/usr/bin/env bash
# Builds the library for C from the archive of bindings/archive.sh, and tests it from outside: the examples compiled as C99 and as
# C++, each run of examples/runs.txt by nb_convert, the stateless calls against values of an independent program, buffers of many
# sizes, four threads, each allocation failing once, random calls for a minute (bench/fuzz.sh), the packages for Python and Rust, and
# a program of each language (examples/live) over what is installed.
#
#   checks/bindings.sh [--archive FILE] [--sanitize] [--valgrind]
#
#   --archive FILE   libnavbridge_c.a (crates/navbridge_c/out/libnavbridge_c.a)
#   --sanitize       the C side with AddressSanitizer and UBSan
#   --valgrind       the stateless calls and one conversion under valgrind
#
# Exit status: 0 all correct; 1 something differs; 2 the arguments are wrong, or a compiler or the archive is missing.
set -u
. "$(dirname "$(readlink -f "$0")")/lib.sh"
archive='' sanitize='' valgrind=''
options '--archive: --sanitize --valgrind' "$@"
archive=$(path_of "${archive:-$top/crates/navbridge_c/out/libnavbridge_c.a}")
[ -f "$archive" ] || fail "no archive $archive: bindings/archive.sh makes it"
[ -z "$sanitize" ] || sanitize='-fsanitize=address,undefined -fno-sanitize-recover=all -g'
[ -z "$valgrind" ] || valgrind='valgrind -q --error-exitcode=9 --leak-check=full'
cd "$top" || exit 2
for tool in cc c++ ar make; do
  command -v "$tool" > /dev/null || fail "no $tool"
done
work_folder
out=$work made=$work/made
if ! make -s -C bindings/c LIB="$archive" OUT="$made" CFLAGS="-O2 $sanitize" > "$out/make.log" 2>&1; then
  cat "$out/make.log"
  echo "bindings: not built" >&2
  exit 1
fi
# where a library below is missing, it is named, with what makes it, and nothing is left
if command -v rt > /dev/null; then
  git clone -q . "$out/clone"
  "$out/clone/bindings/archive.sh" --built > "$out/archive.log" 2>&1
  { [ $? = 2 ] && grep -q 'not built:.* raw_values .*rt ci' "$out/archive.log" && [ ! -e "$out/clone/crates/navbridge_c/out" ]; } \
    || { cat "$out/archive.log"; differs 'bindings/archive.sh --built in a fresh clone'; }
fi
# the header: by each C++ standard, by every compiler that is there
for cxx in c++ clang++; do
  command -v "$cxx" > /dev/null || continue
  for standard in 11 14 17 20; do
    "$cxx" -std=c++$standard -fsyntax-only -Wall -Wextra -Werror -pedantic -Wold-style-cast -Wconversion -Wsign-conversion \
      -Ibindings/c bindings/c/tests/header.cpp || differs "navbridge.h: $cxx, C++$standard"
  done
done
bindings/abi.sh --library "$made/libnavbridge.so" || differs 'what programs rely on'
# installed: the examples of a Makefile and of CMake build and run from there; nothing stays behind
stage=$out/stage
installs() { make -s -C bindings/c LIB="$archive" OUT="$made" CFLAGS="-O2 $sanitize" "$1" PREFIX=/usr LIBDIR=/usr/lib/tried DESTDIR="$stage" > /dev/null; }
listens() {
  LD_LIBRARY_PATH=$stage/usr/lib/tried "$1" 2295 < examples/ephemerides.rtcm3 | cmp -s - examples/expected/ephemerides.heard || differs "$1, as it is installed"
}
# A program of examples/live over what is installed: of a pipe it gives the first ephemeris before the second is sent
lives() { # language, command
  local language=$1 at=$out/live
  shift
  tried=$((tried + 1))
  rm -f "$at" "$at".*
  mkfifo "$at"
  LD_LIBRARY_PATH=$stage/usr/lib/tried timeout 300 "$@" 2295 < "$at" > "$at.rnx" 2> "$at.said" &
  exec 3> "$at"
  head -c 69 examples/ephemerides.rtcm3 >&3
  for _ in $(seq 600); do
    if [ "$(wc -l < "$at.rnx")" -ge 12 ] && [ "$(wc -l < "$at.said")" -ge 1 ]; then break; fi
    sleep 0.1
  done
  [ "$(wc -l < "$at.said"),$(grep -c '^> EPH' "$at.rnx")" = 1,1 ] || differs "examples/live, $language: not the first ephemeris alone before the end"
  tail -c +70 examples/ephemerides.rtcm3 >&3
  exec 3>&-
  wait $! || differs "examples/live, $language: its status"
  cmp -s "$at.said" examples/expected/ephemerides.live || differs "examples/live, $language: its lines"
  diff <(sed '/PGM/d' examples/expected/ephemerides.rnx) <(sed '/PGM/d' "$at.rnx") || differs "examples/live, $language: its file"
}
if [ -z "$sanitize" ]; then
  installs install || differs 'make install'
  cp -r examples/c "$out/example"
  if command -v pkg-config > /dev/null; then
    PKG_CONFIG_PATH=$stage/usr/lib/tried/pkgconfig PKG_CONFIG_SYSROOT_DIR=$stage make -s -C "$out/example" || differs 'examples/c/Makefile'
    listens "$out/example/listen"
  else
    echo 'examples/c/Makefile: not tried, since pkg-config is not there'
  fi
  if command -v cmake > /dev/null; then
    { cmake -S "$out/example" -B "$out/example/cmake" "-Dnavbridge_DIR=$stage/usr/lib/tried/cmake/navbridge" \
      && cmake --build "$out/example/cmake"; } > "$out/cmake.log" 2>&1 || { cat "$out/cmake.log"; differs 'examples/c/CMakeLists.txt'; }
    listens "$out/example/cmake/listen"
  else
    echo 'examples/c/CMakeLists.txt: not tried, since cmake is not there'
  fi
  over=(-Wall -Wextra -Werror -pedantic "-I$stage/usr/include" "-L$stage/usr/lib/tried")
  { cc -std=c99 "${over[@]}" -o "$out/live_c" examples/live/live.c -lnavbridge -lm && lives C "$out/live_c"; } || differs 'examples/live/live.c'
  for standard in 17 20; do
    { c++ -std=c++$standard "${over[@]}" -Wold-style-cast -Wconversion -o "$out/live_cpp" examples/live/live.cpp -lnavbridge -lm && lives "C++$standard" "$out/live_cpp"; } \
      || differs "examples/live/live.cpp, C++$standard"
  done
fi
# The runs of examples/runs.txt by one of the examples in C: of `follow` those that can be pushed
for program in convert convert++ follow follow++; do
  before=$tried
  while IFS='|' read -r status input output report words; do
    case $status in '' | '#'*) continue ;; esac
    case $program,$status$words in
      convert* | *,'0--from stream --to r'* | *,[05]'--from capture'* | *,'0--from=capture'* | *,'0--to count --from capture') ;;
      *) continue ;;
    esac
    eval "set -- $words"
    case $output in -) output=/dev/null ;; *) output=examples/$output ;; esac
    case $report in -) report=/dev/null ;; *) report=examples/$report ;; esac
    (cd examples && "$made/$program" "$@" < "$input" > "$out/output" 2> "$out/report")
    got=$?
    tried=$((tried + 1))
    [ "$got" = "$status" ] || differs "status $got: $program $words < $input"
    cmp -s "$out/output" "$output" || differs "output: $program $words < $input"
    cmp -s "$out/report" "$report" || differs "report: $program $words < $input"
  done < examples/runs.txt
  case $program,$((tried - before)) in follow*,10 | convert*,[1-9]*) ;; *) differs "$((tried - before)) runs of $program" ;; esac
done
vectors=bindings/c/tests/vectors
for suffix in '' ++; do
  $valgrind "$made/statuses$suffix" bindings/c/reasons.txt || differs "statuses$suffix"
  $valgrind "$made/messages$suffix" $vectors/items.txt $vectors/records.txt || differs "messages$suffix"
  $valgrind "$made/parts$suffix" $vectors/lnav_subframes.txt $vectors/inav_words.txt || differs "parts$suffix"
  $valgrind "$made/rows$suffix" $vectors/rows.txt || differs "rows$suffix"
  "$made/rooms$suffix" examples/three.navcap examples/expected/three.rnx examples/expected/three.report --from=capture --to=rinex \
    --week=2295 '--date=20240101 000000 UTC' --leap=18 || differs "rooms$suffix"
  "$made/threads$suffix" examples/station.navcap examples/station.rnx --from=capture --to=rinex '--date=20240101 000000 UTC' \
    --leap=18 || differs "threads$suffix"
  "$made/memory_refused$suffix" examples/station.navcap examples/station.rnx --from=capture --to=rinex \
    '--date=20240101 000000 UTC' --leap=18 || differs "memory_refused$suffix"
  cat examples/ephemerides.rtcm3 examples/beside/*.rtcm3 > "$out/stream"
  $valgrind "$made/push$suffix" "$out/stream" --from=stream --to=rinex --week=2295 '--date=20240101 000000 UTC' \
    --leap=18 || differs "push$suffix"
  $valgrind "$made/push$suffix" examples/three.navcap --from=capture --to=rinex --week=2295 '--date=20240101 000000 UTC' \
    --leap=18 || differs "push$suffix, a capture"
  "$made/push$suffix" examples/station.navcap --from=capture --to=list || differs "push$suffix, a long capture"
  $valgrind "$made/pairs$suffix" $vectors/inav_words.txt || differs "pairs$suffix"
  "$made/deframer$suffix" examples/ephemerides.rtcm3 examples/station.rtcm3 || differs "deframer$suffix"
  "$made/listen$suffix" 2295 < examples/ephemerides.rtcm3 | cmp -s - examples/expected/ephemerides.heard || differs "listen$suffix"
  rm -f "$out/log" "$out/heard"
  mkfifo "$out/log"
  "$made/listen$suffix" 2295 < "$out/log" > "$out/heard" &
  exec 3> "$out/log"
  head -c 69 examples/ephemerides.rtcm3 >&3
  for _ in $(seq 600); do [ ! -s "$out/heard" ] || break; sleep 0.1; done
  head -1 examples/expected/ephemerides.heard | cmp -s - "$out/heard" || differs "listen$suffix, a frame before the end"
  exec 3>&-
  wait $!
  if [ -x "$made/rtklib$suffix" ]; then
    "$made/rtklib$suffix" 2295 < examples/ephemerides.rtcm3 || differs "rtklib$suffix"
    "$made/positions$suffix" 2295 < examples/ephemerides.rtcm3 | cmp -s - examples/expected/ephemerides.places \
      || differs "positions$suffix"
  fi
  "$made/filter$suffix" 2295 < examples/ephemerides.rtcm3 > "$out/passed" 2> /dev/null
  cmp -s examples/ephemerides.rtcm3 "$out/passed" || differs "filter$suffix"
done
for standard in 17 20; do
  $valgrind "$made/values$standard" examples/ephemerides.rtcm3 examples/expected/ephemerides.rnx || differs "navbridge.hpp, C++$standard"
done
if [ -n "$valgrind" ]; then
  $valgrind "$made/convert" --from=stream --to=frames < examples/station.rtcm3 | cmp -s - examples/expected/station.frames \
    || differs 'convert under valgrind'
fi
if command -v python3 > /dev/null && [ -z "$sanitize" ]; then
  export PYTHONDONTWRITEBYTECODE=1
  grep -qx "__version__ = \"$(sed -n 's/^## \([0-9][^ ]*\).*/\1/p;T;q' CHANGELOG.md)\"" bindings/python/navbridge/__init__.py \
    || differs 'the version of the package for Python is not that of CHANGELOG.md'
  # the first that has these modules
  python_with() {
    local it
    for it in python3 /usr/bin/python3; do
      if command -v "$it" > /dev/null && "$it" -c "import $1" 2> /dev/null; then echo "$it" && return; fi
    done
    return 1
  }
  python=$(python_with numpy) || { python=python3 && echo 'arrays in Python: not tried, since numpy is not there'; }
  NAVBRIDGE_LIBRARY=$made/libnavbridge.so.2 "$python" bindings/python/tests.py > "$out/python.log" 2>&1 || { cat "$out/python.log"; differs 'bindings/python/tests.py'; }
  if command -v mypy > /dev/null; then
    MYPYPATH=bindings/python mypy --strict --cache-dir="$out/mypy" bindings/python/navbridge examples/live/live.py > "$out/python.log" 2>&1 \
      || { cat "$out/python.log"; differs 'the types of the package for Python'; }
  else
    echo 'the types of the package for Python: not checked, since mypy is not there'
  fi
  # a wheel, with no network: it has the shared object, and works where nothing else is
  if python=$(python_with setuptools,wheel,pip); then
    cp -r bindings/python "$out/python"
    { NAVBRIDGE_LIBRARY=$made/libnavbridge.so.2 "$python" -m pip wheel -q --no-index --no-build-isolation --no-deps -w "$out/wheels" "$out/python" \
      && "$python" -m pip install -q --no-index --no-deps --target "$out/site" "$out"/wheels/navbridge-*-py3-none-linux_*.whl; } > "$out/python.log" 2>&1 \
      || { cat "$out/python.log"; differs 'pip wheel'; }
    PYTHONPATH=$out/site "$python" bindings/python/tests.py --installed > "$out/python.log" 2>&1 || { cat "$out/python.log"; differs 'bindings/python/tests.py, of the wheel'; }
    PYTHONPATH=$out/site lives Python "$python" examples/live/live.py
  else
    echo 'the wheel: not tried, since pip, setuptools or wheel is not there'
  fi
  echo 'the package for Python: its example and its tests were run'
fi
if command -v cargo > /dev/null && [ -z "$sanitize" ]; then
  # over what is installed, by the compiler that is found first and by Debian's
  export NAVBRIDGE_LIB_DIR=$stage/usr/lib/tried
  declare -A tools
  for it in "$(command -v cargo)" /usr/bin/cargo; do
    if [ ! -x "$it" ] || [ -n "${tools[$it]:-}" ]; then continue; fi
    tools[$it]=1
    export CARGO_TARGET_DIR=$out/cargo/${#tools[@]}
    # Debian's with its own compiler, not the first of the path
    if [ "$it" = /usr/bin/cargo ] && [ -x /usr/bin/rustc ] && [ -x /usr/bin/rustdoc ]; then export RUSTC=/usr/bin/rustc RUSTDOC=/usr/bin/rustdoc; fi
    rust=$("$it" --version)
    "$it" test -q --offline --locked --manifest-path bindings/rust/Cargo.toml > "$out/rust.log" 2>&1 || { cat "$out/rust.log"; differs "bindings/rust: cargo test, $rust"; }
    RUSTDOCFLAGS='-D warnings' "$it" doc -q --offline --locked --manifest-path bindings/rust/Cargo.toml > "$out/rust.log" 2>&1 \
      || { cat "$out/rust.log"; differs "bindings/rust: cargo doc, $rust"; }
    "$it" build -q --offline --locked --example live --manifest-path bindings/rust/Cargo.toml > "$out/rust.log" 2>&1 || { cat "$out/rust.log"; differs "bindings/rust: the example, $rust"; }
    lives "Rust, $rust" "$CARGO_TARGET_DIR/debug/examples/live"
  done
  unset RUSTC RUSTDOC
  grep -qx "version = \"$(sed -n 's/^## \([0-9][^ ]*\).*/\1/p;T;q' CHANGELOG.md)\"" bindings/rust/Cargo.toml \
    || differs 'the version of bindings/rust is not that of CHANGELOG.md'
  echo 'the crate for Rust: its example and its tests were run'
fi
if [ -z "$sanitize" ]; then
  installs uninstall || differs 'make uninstall'
  [ -z "$(find "$stage" ! -type d)" ] || differs "make uninstall leaves $(find "$stage" ! -type d)"
fi
if [ -z "$sanitize" ]; then
  bench/fuzz.sh --archive "$archive" --minutes 1 --seed 1 --corpus "$out/corpus" || differs 'bench/fuzz.sh'
fi
ended bindings
