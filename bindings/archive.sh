#!/usr/bin/env bash
# Makes crates/navbridge_c/out/libnavbridge_c.a, from which bindings/c/Makefile makes the library for C.
#
#   bindings/archive.sh [--built]
#
#   --built   uses the libraries in crates/*/out, which an `rt ci` at the top leaves
#
# It proves navbridge_c and compiles it, over the crates below. Without --built these are proved first, in a copy that has only
# them: from scratch an hour or more, most of the time of a complete `rt ci` (bench/README.md); minutes if this machine has proved
# them before. It prints each crate as it is proved, and how many there are. With --built it takes some minutes.
#
# Exit status: 0 the archive exists; 1 something is not proved; 2 the arguments are wrong, or a library below or the toolchain is
# missing.
set -u
built=''
case ${1-} in
  '') ;;
  --built) built=1 ;;
  -h | --help)
    sed -n '2,/^set /{/^set /d;s/^# \{0,1\}//;p}' "$0"
    exit 0
    ;;
  *)
    echo "archive: $1 is no option; --help" >&2
    exit 2
    ;;
esac
top=$(dirname "$(readlink -f "$0")")/..
cd "$top" || exit 2
top=$PWD
kit=$(rt doc 2> /dev/null) || { echo 'archive: no toolchain: rt is not installed' >&2; exit 2; }
kit=$(dirname "$kit")

# what a crate stands on by crates.txt, and whether that is ours or the toolchain's
named() { sed -n "s/#.*//;s/^$1\( staticlib\)\{0,1\}://p" "$top/crates.txt"; }
is_ours() { [ -d "$top/crates/$1" ]; }

# our crates below one, into `found`
found=''
below() {
  local it
  for it in $(named "$1"); do
    case " $found " in *" $it "*) continue ;; esac
    is_ours "$it" || continue
    found="$found $it"
    below "$it"
  done
}
below navbridge_c

libraries=$top/crates
if [ -z "$built" ]; then
  copy=$(mktemp -d) || exit 2
  trap 'rm -rf "$copy"' EXIT
  mkdir "$copy/.git" "$copy/crates"
  cp HANDLES "$copy"
  for it in $found; do
    echo "$it:$(named "$it")" >> "$copy/crates.txt"
    mkdir "$copy/crates/$it"
    for part in src specs proofs; do [ ! -d "crates/$it/$part" ] || cp -r "crates/$it/$part" "$copy/crates/$it"; done
  done
  # rt's lines are passed on; before the first that says what became of a crate, how many did
  count=$(wc -w <<< "$found")
  echo "archive: $count crates below navbridge_c, proved, or stored on this machine"
  (cd "$copy" && rt ci) 2>&1 | awk -v all="$count" -v names=" $found " '{
    if ($1 == "rt:" && $3 ~ /^(is|proved|NOT)$/ && index(names, " " $2 " ") && !($2 in seen)) {
      seen[$2] = 1
      printf "archive: crate %d of %d: %s\n", ++n, all, $2
    }
    print
    fflush()
  }'
  [ "${PIPESTATUS[0]}" = 0 ] || { echo "archive: a crate below navbridge_c is not proved" >&2; exit 1; }
  libraries=$copy/crates
fi
lacks=''
for it in $found; do [ -e "$libraries/$it/out/rlib/$it.rlib" ] || lacks="$lacks $it"; done
if [ -n "$lacks" ]; then
  echo "archive: not built:$lacks; \`rt ci\` at the top of the checkout builds them, or bindings/archive.sh without --built" >&2
  exit 2
fi
echo 'archive: navbridge_c is proved and compiled'

words=(--crate-name navbridge_c src/lib.rt --crate-type staticlib --extern "std=$kit/rlibs/std.rlib" -L "dependency=$kit/rlibs")
for it in $(named navbridge_c); do
  if is_ours "$it"; then words+=(--extern "$it=$libraries/$it/out/rlib/$it.rlib"); else words+=(--extern "$it=$kit/rlibs/$it.rlib"); fi
done
for it in $found; do words+=(-L "dependency=$libraries/$it/out/rlib"); done
words+=(--antt-project "$kit/rattle/logic/antt-project.json" --logic-built "$kit/logic_built" --links navbridge_c=)
cd crates/navbridge_c && mkdir -p out || exit 2
"$kit/bin/rattle" build "${words[@]}" --toolchain "$kit/toolchain" --backend llvm -o out/libnavbridge_c.a || exit 1
echo 'archive: crates/navbridge_c/out/libnavbridge_c.a'
