#!/usr/bin/env bash
# Fuzzes the library for C: random orders of its calls over truncated and changed samples, compared with what navbridge.h states.
#
#   bench/fuzz.sh [--minutes N] [--archive FILE] [--seed N] [--corpus DIR]
#
#   --minutes N     how long, of all parts together (60)
#   --archive FILE  libnavbridge_c.a (crates/navbridge_c/out/libnavbridge_c.a)
#   --seed N        of the inputs (the seconds of the clock)
#   --corpus DIR    where libFuzzer keeps the inputs that reached something new (bench/build/corpus)
#
# The parts: each buffer at a page that may not be touched, with AddressSanitizer and UBSan in the C code; two threads, each with
# states of its own, with ThreadSanitizer; valgrind's memcheck, with buffers of exact size, and two threads under its helgrind;
# libFuzzer. One whose tool is missing is skipped with a line. A finding is printed with its --seed or its input; the same --seed
# finds it again.
#
# Exit status: 0 no finding; 1 a finding; 2 the arguments are wrong, or a compiler or the archive is missing.
set -u
. "$(dirname "$(readlink -f "$0")")/../checks/lib.sh"
minutes=60 archive='' seed='' corpus=''
options '--minutes: --archive: --seed: --corpus:' "$@"
archive=$(path_of "${archive:-$top/crates/navbridge_c/out/libnavbridge_c.a}")
[ -f "$archive" ] || fail "no archive $archive: bindings/archive.sh makes it"
[[ $minutes =~ ^[0-9]+(\.[0-9]+)?$ ]] || fail "--minutes $minutes is no number"
seed=${seed:-$(date +%s)}
[[ $seed =~ ^[0-9]+$ ]] || fail "--seed $seed is no number"
for tool in cc make; do
  command -v "$tool" > /dev/null || fail "no $tool"
done
cd "$top" || exit 2
work_folder
make -s -C bindings/c LIB="$archive" OUT="$work/made" "$work/made/libnavbridge.a" > "$work/log" 2>&1 || { cat "$work/log"; fail 'the library is not built'; }
SAMPLES=$(printf '%s:' examples/*.rtcm3 examples/beside/*.rtcm3 examples/*.rnx examples/*.navcap)
export SAMPLES=${SAMPLES%:}
while read -r name _; do
  grep -q "\b$name(" bench/fuzz.c || differs "bench/fuzz.c does not call $name"
done < bindings/c/symbols.txt

# The driver by this compiler and with these options
compiled() { # name, compiler, options
  local name=$1 compiler=$2
  shift 2
  "$compiler" -std=gnu99 -Wall -Wextra -Werror -g -Ibindings/c -Ibindings/c/tests -pthread "$@" -o "$work/$name" bench/fuzz.c \
    "$work/made/libnavbridge.a" -lm > "$work/log" 2>&1
}

# A part: its share of the time in percent, its program with the words before it
part() { # name, percent, threads, words
  local name=$1 seconds threads=$3
  seconds=$(awk -v m="$minutes" -v p="$2" 'BEGIN { print m * 60 * p / 100 }')
  shift 3
  tried=$((tried + 1))
  if "$@" "$seed" "$seconds" "$threads" > "$work/log" 2>&1; then
    echo "$name: $(tail -n 1 "$work/log")"
  else
    cat "$work/log"
    differs "$name, seed $seed"
  fi
}

compiled plain cc -O1 -DALONE || { cat "$work/log"; fail 'not compiled'; }
if compiled guarded cc -O1 -DALONE -fsanitize=address,undefined -fno-sanitize-recover=all; then
  part 'AddressSanitizer and UBSan, guard pages' 30 1 "$work/guarded"
else
  part 'guard pages alone, since cc has no AddressSanitizer' 30 1 "$work/plain"
fi
if compiled threads cc -O1 -DALONE -fsanitize=thread; then
  part 'ThreadSanitizer' 15 2 "$work/threads"
else
  echo 'ThreadSanitizer: skipped, since cc has none'
fi
if command -v valgrind > /dev/null; then
  compiled heap cc -O1 -DALONE -DHEAP || { cat "$work/log"; fail 'not compiled'; }
  part 'memcheck' 15 1 valgrind -q --error-exitcode=9 --leak-check=full "$work/heap"
  part 'helgrind' 10 2 valgrind -q --error-exitcode=9 --tool=helgrind "$work/heap"
else
  echo 'memcheck, helgrind: skipped, since valgrind is not installed'
fi
if command -v clang > /dev/null && compiled fuzzer clang -O1 -fsanitize=fuzzer,address,undefined -fno-sanitize-recover=all; then
  seconds=$(awk -v m="$minutes" 'BEGIN { print int(m * 60 * 30 / 100) + 1 }')
  corpus=$(path_of "${corpus:-$top/bench/build/corpus}")
  mkdir -p "$corpus"
  tried=$((tried + 1))
  if "$work/fuzzer" -max_total_time="$seconds" -max_len=2048 -len_control=0 -timeout=60 -seed="$seed" -print_final_stats=1 -artifact_prefix="$corpus/../" \
    "$corpus" > "$work/log" 2>&1; then
    echo "libFuzzer: $(sed -n 's/^stat::number_of_executed_units: *//p' "$work/log") inputs, $(find "$corpus" -type f | wc -l) kept"
  else
    tail -n 40 "$work/log"
    differs 'libFuzzer, an input in bench/build'
  fi
else
  echo 'libFuzzer: skipped, since clang or its runtime is not installed'
fi
ended fuzz
