# shellcheck shell=bash
# What the scripts of bench/ share; they source it: options, programs and counts of checks/lib.sh, a program over some crates, the
# least time of some runs. It goes to the top of the checkout.
# shellcheck source=../checks/lib.sh
. "$(dirname "$(readlink -f "${BASH_SOURCE[0]}")")/../checks/lib.sh"
cd "$top" || exit 2
# what is made and kept between runs
here=bench/build
mkdir -p "$here"

# Compiles plain programs of bench/ into bench/build, where they are older than their sources, for the processors that the programs
# are compiled for
plain() {
  local name
  for name; do
    if [ ! -x "$here/$name" ] || [ -n "$(find "bench/$name.c" bench/*.h -newer "$here/$name")" ]; then
      ${CC:-cc} -O3 -march=x86-64-v2 -w -o "$here/$name" "bench/$name.c"
    fi
  done
}

# An input in bench/build: its name, and the command that makes it where it is not there yet
made() {
  local file=$here/$1
  shift
  if [ ! -e "$file" ]; then
    "$@" > "$file.part"
    mv "$file.part" "$file"
  fi
}
# The lines behind the first one of a file in an order of their own, always the same
shuffled() {
  python3 -c '
import random, sys
lines = open(sys.argv[1], "rb").read().splitlines(keepends=True)
rest = lines[1:]
random.Random(7).shuffle(rest)
sys.stdout.buffer.write(lines[0] + b"".join(rest))' "$here/$1"
}

# The libraries of the repository that a crate stands on by crates.txt, itself among them, into the array `found`
below() {
  local it list
  case " ${found[*]} " in *" $1 "*) return ;; esac
  [ -d "crates/$1" ] || return 0
  found+=("$1")
  read -r -a list <<< "$(sed -n "s/#.*//;s/^$1://p" crates.txt)"
  for it in "${list[@]}"; do below "$it"; done
}
# `over NAME CRATE..`: a repository in the folder `work`, which goes at the end, with these crates and all below them, without what
# was built of them, and a crate NAME over them, whose sources the script then writes into $work/crates/NAME
over() {
  local name=$1 it part
  shift
  [ -n "${work:-}" ] || work_folder
  mkdir -p "$work/.git" "$work/crates/$name/src"
  [ -e "$work/HANDLES" ] || cp HANDLES "$work"
  found=()
  for it; do below "$it"; done
  for it in "${found[@]}"; do
    if [ -d "$work/crates/$it" ]; then continue; fi
    sed -n "s/#.*//;/^$it:/p" crates.txt >> "$work/crates.txt"
    mkdir "$work/crates/$it"
    for part in src specs proofs; do [ ! -d "crates/$it/$part" ] || cp -r "crates/$it/$part" "$work/crates/$it"; done
  done
  echo "$name: $*" >> "$work/crates.txt"
}
# Proves and builds that crate: `build NAME [INPUT]`; its program is $work/crates/NAME/out/NAME
build() {
  local status=0
  rm -f "$work/crates/$1/out/$1"
  (cd "$work/crates/$1" && rt run < "${2:-/dev/null}") > "$work/$1.log" 2>&1 || status=$?
  [ -x "$work/crates/$1/out/$1" ] || { tail -n 20 "$work/$1.log"; fail "$1 is not built (status $status)"; }
}

# The least time of some runs, in nanoseconds: how many, the input, the command, whose output goes nowhere
least() {
  local runs=$1 input=$2 best='' from to
  shift 2
  while [ "$runs" -gt 0 ]; do
    from=$(date +%s%N)
    "$@" < "$input" > /dev/null 2>&1 || true
    to=$(date +%s%N)
    if [ -z "$best" ] || [ $((to - from)) -lt "$best" ]; then best=$((to - from)); fi
    runs=$((runs - 1))
  done
  echo "$best"
}
