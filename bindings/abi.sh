#!/usr/bin/env bash
# Checks what programs that are linked with the library rely on: its symbols, its return codes with their names and texts, the
# layout of its structs.
#
#   bindings/abi.sh [--library FILE] [--write]
#
#   --library FILE   a shared object whose symbols are compared too
#   --write          writes these files from navbridge.h, after an addition
#
# In bindings: c/symbols.txt; c/reasons.txt, and of it the sources c/statuses.c, python/navbridge/_statuses.py and
# rust/src/statuses.rs; c/columns.c, of the comments of crates/nav_rows/src/links.rt; c/navbridge.abi. They are compared with navbridge.h, the layouts by abidw and abidiff (Debian:
# abigail-tools) if they are installed. If a symbol, the number or name of a reason or a layout has to change, the shared object
# needs a new name (SONAME in bindings/c/Makefile).
#
# Exit status: 0 all is unchanged; 1 something differs; 2 the arguments are wrong, or a tool is missing.
set -u
library='' write=''
while [ $# -gt 0 ]; do
  case $1 in
    -h | --help)
      sed -n '2,/^set /{/^set /d;s/^# \{0,1\}//;p}' "$0"
      exit 0
      ;;
    --write) write=1 ;;
    --library)
      [ $# -ge 2 ] || { echo "abi: $1 needs a value" >&2; exit 2; }
      library=$(readlink -f -- "$2")
      shift
      ;;
    *)
      echo "abi: $1 is no option; --help" >&2
      exit 2
      ;;
  esac
  shift
done
cd "$(dirname "$(readlink -f "$0")")/c" || exit 2
for tool in cc nm; do
  command -v "$tool" > /dev/null || { echo "abi: no $tool" >&2; exit 2; }
done
out=$(mktemp -d) || exit 2
trap 'rm -rf "$out"' EXIT
wrong=0
differs() {
  wrong=1
  echo "differs: $*"
}

symbols() { nm -D --defined-only "$1" | awk '$2 == "T" { sub("@@", " ", $3); print $3 }' | LC_ALL=C sort; }
# a library with the header's calls and no code
{
  echo '#include "navbridge.h"'
  cc -E -P navbridge.h | tr '\n' ' ' | sed 's/[;}]/&\n/g' \
    | sed -n 's/^ *\(nb_status \|uint32_t \|size_t \|_Bool \|void \|const char \*\)\(nb_[a-z_0-9]*\)(\(.*\));$/\1\2(\3) { __builtin_trap(); }/p'
} > "$out/calls.c"
cc -std=c99 -g -fPIC -shared -w -I. -Wl,--version-script=exports.map -o "$out/calls.so" "$out/calls.c" || exit 2
symbols "$out/calls.so" > "$out/symbols.txt"
# a line for each reason: its number, its name, its text
sed -n '/^typedef enum nb_status/,/^}/s,^ *\(NB_[A-Z0-9_]*\) = \([0-9]*\)\,\{0\,1\} *\/\*\*< \(.*\) \*/$,\2 \1 \3,p' navbridge.h > "$out/reasons.txt"
made='Made by bindings/abi.sh --write of navbridge.h'
row() { sed "s,^\([0-9]*\) NB_\([A-Z0-9_]*\) \(.*\),$1," "$out/reasons.txt"; }
{
  printf '/* The names and texts of statuses. %s. */\n#include "navbridge.h"\n\n' "$made"
  printf 'static const struct {\n    nb_status status;\n    const char *name, *text;\n} statuses[] = {\n'
  row '    {NB_\2\, "NB_\2"\, "\3"}\,'
  printf '};\n'
  for it in name text; do
    printf '\nconst char *nb_status_%s(nb_status status) {\n    size_t i;\n' $it
    printf '    for (i = 0; i < sizeof statuses / sizeof *statuses; i++)\n        if (statuses[i].status == status) return statuses[i].%s;\n' $it
    printf '    return "unknown status";\n}\n'
  done
} > "$out/statuses.c"
{
  printf '"""The statuses of the library. %s."""\n\nimport enum\n\n\n' "$made"
  printf 'class Status(enum.IntEnum):\n    """The statuses of the library, as navbridge.h names them."""\n\n'
  row '    \2 = \1  # \3'
} > "$out/_statuses.py"
{
  printf '// The reasons of navbridge.h. %s.\nreasons! {\n' "$made"
  # of the words of a subframe error.rs has one
  awk '$1 != 0 && $2 !~ /_PARITY_/ {
    n = split(substr($2, 4), words, "_")
    name = ""
    for (i = 1; i <= n; i++) name = name substr(words[i], 1, 1) tolower(substr(words[i], 2))
    printf "    %s %s \"%s\"\n", $1, name, substr($0, length($1 $2) + 3)
  }' "$out/reasons.txt"
  printf '}\n'
} > "$out/statuses.rs"
# of each kind in nav_rows its message and its links, whose comments are the names of its columns
rows=../../crates/nav_rows/src
{
  printf '/* The names of the columns of rows. Made by bindings/abi.sh --write of crates/nav_rows. */\n#include "navbridge.h"\n\n'
  printf 'static const struct {\n    uint32_t message;\n    const char *names[NB_COLUMNS_MOST];\n} rows[] = {\n'
  sed -n 's/^ *table: message!(FIELDS_\([A-Z0-9]*\), .*/\1/p; s/^ *links: &\([A-Z0-9_]*\),/\1/p' "$rows/kind.rt" | paste - - | grep "^[0-9]" | sort | while read -r message links; do
    printf '    {%s,\n     {' "$message"
    # the columns of an orbit are those of a macro, which is given the field of the first
    awk -v links="$links" '
      /^macro_rules! with_orbit/ { macro = 1 }
      $1 == "pub" && $3 == links ":" { list = 1 }
      (macro || list) && match($0, /\/\/ [a-z_0-9]+/) {
        name = substr($0, RSTART + 3, RLENGTH - 3)
        if (macro) orbit[++count] = name
        else if ($1 ~ /^[0-9]+,$/) for (i = 1; i <= count; i++) print "\"" orbit[i] "\""
        else print "\"" name "\""
      }
      /^[])}]/ { macro = list = 0 }' "$rows/links.rt" | paste -s -d , | sed 's/,/, /g; s/$/}},/' | fold -s -w 120 | sed 's/ *$//; 2,$s/^/      /'
  done
  printf '};\n\nconst char *nb_row_name(const nb_row *row, uint32_t index) {\n    size_t i;\n'
  printf '    for (i = 0; i < sizeof rows / sizeof *rows; i++)\n'
  printf '        if (rows[i].message == row->message && index < NB_COLUMNS_MOST && rows[i].names[index] != NULL) return rows[i].names[index];\n'
  printf '    return "";\n}\n'
} > "$out/columns.c"
if command -v abidw > /dev/null && command -v abidiff > /dev/null; then
  abidw --no-corpus-path --no-comp-dir-path --no-show-locs --no-architecture "$out/calls.so" > "$out/navbridge.abi" || exit 2
else
  echo 'layouts: not compared, since abidw or abidiff is not installed'
fi
if [ -n "$write" ]; then
  cp "$out/symbols.txt" "$out/reasons.txt" "$out/statuses.c" "$out/columns.c" .
  cp "$out/_statuses.py" ../python/navbridge
  cp "$out/statuses.rs" ../rust/src
  [ ! -e "$out/navbridge.abi" ] || cp "$out/navbridge.abi" .
fi
diff symbols.txt "$out/symbols.txt" || differs 'the calls of navbridge.h are not those of bindings/c/symbols.txt'
diff reasons.txt "$out/reasons.txt" || differs 'the reasons of navbridge.h are not those of bindings/c/reasons.txt'
for it in statuses.c ../python/navbridge/_statuses.py ../rust/src/statuses.rs; do
  diff "$it" "$out/${it##*/}" || differs "the reasons of navbridge.h are not those of bindings/c/$it; bindings/abi.sh --write"
done
diff columns.c "$out/columns.c" || differs 'the columns of crates/nav_rows are not those of bindings/c/columns.c; bindings/abi.sh --write'
[ -z "$(cut -d ' ' -f 1 "$out/reasons.txt" | sort | uniq -d)" ] || differs 'two reasons have one number'
[ ! -e "$out/navbridge.abi" ] || abidiff navbridge.abi "$out/navbridge.abi" || differs 'the layouts of navbridge.h are not those of bindings/c/navbridge.abi'
if [ -n "$library" ]; then
  diff symbols.txt <(symbols "$library") || differs "the symbols of $library are not those of bindings/c/symbols.txt"
fi
exit $wrong
