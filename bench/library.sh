#!/usr/bin/env bash
# Measures the calls of the library for C: ns a call and MB/s; and RTKLIB's decode_rtcm3, input_rtcm3, gen_rtcm3 and decode_frame on the
# same frames, if RTKLIB is installed.
#
#   bench/library.sh [MEGABYTES]      of distinct frames of messages 1019 and 1046; default 10
#
#   ARCHIVE=FILE         libnavbridge_c.a (crates/navbridge_c/out/libnavbridge_c.a, by bindings/archive.sh)
#   RTKLIB=DIRECTORY     of rtklib.h (/usr/include)
#   RTKLIB_LIB, RTKLIB_FLAGS   its library, and the definitions that it was compiled with (those of Debian)
#
# Each row is the least of five runs, in processor time.
set -eu
. "$(dirname "$(readlink -f "$0")")/lib.sh"
options '..' "$@"
megabytes=${arguments[0]:-10}
archive=${ARCHIVE:-$PWD/crates/navbridge_c/out/libnavbridge_c.a}
[ -f "$archive" ] || fail "no archive $archive: bindings/archive.sh makes it"
plain streams captures
cc=${CC:-cc}
"$here/streams" make distinct $((megabytes * 1000000)) > "$here/library.rtcm3"
"$here/captures" make 7 32 2295 > "$here/library.navcap"
words=()
if [ -f "${RTKLIB:=/usr/include}/rtklib.h" ]; then
  [ "$RTKLIB" = /usr/include ] || words+=(-isystem "$RTKLIB")
  read -r -a more <<< "-DWITH_RTKLIB ${RTKLIB_FLAGS:--DENAGLO -DENAQZS -DENAGAL -DENACMP -DENAIRN -DNFREQ=5 -DNEXOBS=3} ${RTKLIB_LIB:--lRTKLib}"
  words+=("${more[@]}")
fi
$cc -O2 -o "$here/library" -Ibindings/c bench/library.c bindings/c/memory.c "$archive" "${words[@]}" -lm
"$here/library" "$here/library.rtcm3" 2295 "$here/library.navcap"
