#!/usr/bin/env bash
# Makes a Debian package of the proved programs, with man pages, completion, systemd units and examples; with --library also those
# of the library.
#
#   packaging/debian.sh [--program PATH].. [--library FILE] [--version VERSION] [--epoch SECONDS] [--maintainer NAME] [--out FOLDER]
#
#   --program PATH     a built program: navbridge, navlog or navconvert; may be given again. The package has all three; the
#                      default is crates/NAME/out/NAME, which `rt ci` and `rt run` leave
#   --library FILE     the library's packages too, libnavbridge2, libnavbridge-dev and python3-navbridge, of this archive
#                      (crates/navbridge_c/out/libnavbridge_c.a, by bindings/archive.sh); needs make and a C compiler
#   --version VERSION  the default is the first in CHANGELOG.md
#   --epoch SECONDS    the time of all files (SOURCE_DATE_EPOCH, otherwise that of the last commit)
#   --maintainer NAME  name and address of the maintainer (the author of the last commit)
#   --out FOLDER       the directory of the package (packaging/build)
#
# The same programs and commit give the same bytes, whatever the umask, the time zone and the number of processors. The programs are
# stripped of symbols (`strip --strip-unneeded`). It prints name and checksum of each package; checks/package.sh tests them.
set -euo pipefail
umask 022
export LC_ALL=C TZ=UTC
. "$(dirname "$(readlink -f "$0")")/../checks/lib.sh"
declare -A programs=([navbridge]='' [navlog]='' [navconvert]='')
program=() library='' maintainer='' version='' epoch=${SOURCE_DATE_EPOCH:-} out=''
options '--program+: --library: --maintainer: --version: --epoch: --out:' "$@"
for it in "${program[@]}"; do
  name=${it##*/}
  [ -n "${programs[$name]+x}" ] || fail "$name is no program of the package: navbridge, navlog, navconvert"
  programs[$name]=$(path_of "$it")
done
if [ -n "$library" ]; then
  library=$(path_of "$library")
  [ -f "$library" ] || fail "no archive $library; bindings/archive.sh makes crates/navbridge_c/out/libnavbridge_c.a"
fi
out=$(path_of "${out:-$top/packaging/build}")
cd "$top"
names=(navbridge navlog navconvert)
for name in "${names[@]}"; do
  : "${programs[$name]:=crates/$name/out/$name}"
  if [ ! -f "${programs[$name]}" ] || [ ! -x "${programs[$name]}" ]; then
    echo "debian: no program ${programs[$name]}; build first: 'rt ci' at the top, or 'rt run' in crates/$name, leaves it there" >&2
    exit 2
  fi
done
for it in dpkg-deb strip gzip md5sum git; do
  command -v "$it" > /dev/null || { echo "debian: $it is not installed" >&2; exit 2; }
done
: "${epoch:=$(git log -1 --format=%ct)}"
: "${maintainer:=$(git log -1 --format='%an <%ae>')}"
: "${version:=$(sed -n 's/^## \([0-9][^ ]*\).*/\1/p;T;q' CHANGELOG.md)}"
export SOURCE_DATE_EPOCH=$epoch

work=$(mktemp -d)
trap 'rm -rf "$work"' EXIT
root=$work/navbridge
install -d -m 755 "$root"
# a file of the package: mode, its path in the package, its path here
put() { install -D -m "$1" "$3" "$root/$2"; }
page() { # a man page
  mkdir -p "$root/usr/share/man/man1"
  gzip -n9 < "$1" > "$root/usr/share/man/man1/${1##*/}.gz"
}
papers() { # copyright and changelog of a package
  local at=$root/usr/share/doc/$1
  mkdir -p "$at"
  {
    cat << 'END'
Format: https://www.debian.org/doc/packaging-manuals/copyright-format/1.0/
Upstream-Name: navbridge

Files: *
END
    echo "Copyright: $(sed -n 's/^Copyright (c) //p' LICENSE-MIT)"
    cat << 'END'
License: Expat or Apache-2.0

License: Expat
END
    sed -n '/^Permission/,$s/^/ /p' LICENSE-MIT | sed 's/^ *$/ ./'
    cat << 'END'

License: Apache-2.0
 On Debian systems the text of the Apache License, version 2.0, is in
 /usr/share/common-licenses/Apache-2.0.
END
  } > "$at/copyright"
  {
    echo "$1 ($version) unstable; urgency=medium"
    echo
    echo "  * Built from the sources at $(git rev-parse --short=12 HEAD); CHANGELOG.md lists the changes."
    echo
    echo " -- $maintainer  $(date -R -d "@$epoch")"
  } | gzip -n9 > "$at/changelog.gz"
}
doc=usr/share/doc/navbridge

for name in "${names[@]}"; do
  put 755 "usr/bin/$name" "${programs[$name]}"
  strip --strip-unneeded "$root/usr/bin/$name"
  [ ! -e "docs/$name.1" ] || page "docs/$name.1"
done
put 755 usr/bin/navbridge-station examples/station/navbridge-station
page examples/station/navbridge-station.1
share=usr/share/navbridge
put 755 $share/merge_archive.sh examples/merge_archive.sh
put 644 $share/merge_archive.py examples/merge_archive.py
sed -i '1s|^#!/usr/bin/env -S python3|#!/usr/bin/python3|' "$root/$share/merge_archive.py"
ln -s ../share/navbridge/merge_archive.sh "$root/usr/bin/merge_archive"
page docs/merge_archive.1
put 755 $share/navreport examples/navreport
sed -i '1s|^#!/usr/bin/env python3|#!/usr/bin/python3|' "$root/$share/navreport"
git ls-files examples/report | while read -r it; do put 644 "$share/report/${it##*/}" "$it"; done
ln -s ../share/navbridge/navreport "$root/usr/bin/navreport"
page docs/navreport.1
put 644 $share/station_status.py examples/station/station_status.py
echo "$version" > "$root/$share/version"
for completion in packaging/*.bash; do
  name=${completion##*/}
  put 644 "usr/share/bash-completion/completions/${name%.bash}" "$completion"
done
for unit in examples/station/*.service examples/station/*.timer; do put 644 "usr/lib/systemd/system/${unit##*/}" "$unit"; done
mkdir -p "$root/usr/share/lintian/overrides"
cat > "$root/usr/share/lintian/overrides/navbridge" << 'END'
# an example of a truncated file for merge_archive
navbridge: broken-gz [usr/share/doc/navbridge/examples/archive/*]
END
for it in README.md CHANGELOG.md; do put 644 "$doc/$it" "$it"; done
for it in docs/*.md docs/pictures/*; do put 644 "$doc/$it" "$it"; done
put 644 "$doc/bench/README.md" bench/README.md
put 755 "$doc/bench/feeder.py" bench/feeder.py # the input of examples/station/trial.sh
ln -s docs/OPERATING.md "$root/$doc/OPERATING.md"
git ls-files examples checks/{archive,lib,runs}.sh | while read -r it; do
  # what is installed already
  case $it in
    examples/station/navbridge-station* | examples/station/*.service | examples/station/*.timer | examples/report/*) continue ;;
    examples/merge_archive.* | examples/navreport)
      mkdir -p "$root/$doc/examples"
      ln -s "../../../navbridge/${it##*/}" "$root/$doc/$it"
      continue
      ;;
  esac
  mode=644
  [ ! -x "$it" ] || mode=755
  put "$mode" "$doc/$it" "$it"
done
papers navbridge

mkdir -p "$root/DEBIAN" "$out"
architecture=$(dpkg --print-architecture)
# instances of the units: restarted by an update, stopped where the package is removed; their files and settings stay
running="'navbridge-station@*.service' 'navbridge-record@*.service' 'navbridge-files@*.timer'"
script() { # a maintainer script: its name, and the text on standard input
  { printf '#!/bin/sh\nset -e\n'; cat; } > "$root/DEBIAN/$1"
  chmod 755 "$root/DEBIAN/$1"
}
script postinst << END
case \$1 in configure | abort-upgrade | abort-deconfigure | abort-remove)
  if [ -z "\$DPKG_ROOT" ] && [ -d /run/systemd/system ]; then
    systemctl --system daemon-reload > /dev/null || true
    [ -z "\$2" ] || deb-systemd-invoke try-restart $running > /dev/null || true
  fi
  ;;
esac
END
script prerm << END
if [ "\$1" = remove ] && [ -z "\$DPKG_ROOT" ] && [ -d /run/systemd/system ]; then
  deb-systemd-invoke stop $running 'navbridge-files@*.service' > /dev/null || true
fi
END
script postrm << 'END'
if [ "$1" = purge ]; then
  # what 'systemctl enable' made, which points to units that no longer exist
  for unit in navbridge-station@ navbridge-record@ navbridge-files@; do
    rm -f "$DPKG_ROOT"/etc/systemd/system/*.target.wants/"$unit"*.service "$DPKG_ROOT"/etc/systemd/system/*.target.wants/"$unit"*.timer
  done
fi
if [ "$1" = remove ] && [ -z "$DPKG_ROOT" ] && [ -d /run/systemd/system ]; then systemctl --system daemon-reload > /dev/null || true; fi
END
# the package of $root, whose name, architecture and further lines of control are given
pack() {
  local name=$1 for=$2 size
  size=$(find "$root" -path "$root/DEBIAN" -prune -o -type f -printf '%s\n' | awk '{ kb += int(($1 + 1023) / 1024) } END { print kb }')
  {
    printf 'Package: %s\nVersion: %s\nArchitecture: %s\nMaintainer: %s\nInstalled-Size: %s\n' "$name" "$version" "$for" "$maintainer" "$size"
    cat
  } > "$root/DEBIAN/control"
  (cd "$root" && find usr -type f -print0 | sort -z | xargs -0 md5sum) > "$root/DEBIAN/md5sums"
  find "$root" -exec touch -h -d "@$epoch" {} +
  dpkg-deb --build --root-owner-group -Zxz "$root" "$out/${name}_${version}_$for.deb" > /dev/null
  sha256sum "$out/${name}_${version}_$for.deb"
}

pack navbridge "$architecture" << END
Depends: libc6, python3 (>= 3.9)
Recommends: rtklib
Suggests: bash-completion, parallel
Section: science
Priority: optional
Description: proved converter of broadcast satellite orbits
 navconvert and navbridge convert ephemerides and ionosphere parameters of GPS
 and Galileo between receiver logs, RTCM 3 messages and RINEX navigation files,
 without changing a bit. navlog reads logs of u-blox and Septentrio receivers.
 They are written in Rattle, which is Rust with contracts, and the conversion is
 proved.
 .
 navbridge-station stores the bytes of a caster or a receiver and makes RINEX
 files by hour and day, with systemd units. merge_archive merges directories of
 navigation files; navreport shows their gaps as web pages.
END
[ -n "$library" ] || exit 0

multiarch=$(dpkg-architecture -qDEB_HOST_MULTIARCH 2> /dev/null || "${CC:-cc}" -print-multiarch)
make_it() {
  make -s -C bindings/c LIB="$library" OUT="$work/made" PREFIX=/usr LIBDIR="/usr/lib/$multiarch" DESTDIR="$work/stage" \
    LDFLAGS=-Wl,-z,relro,-z,now "$@" > "$work/make.log" 2>&1 || { cat "$work/make.log" >&2; exit 1; }
}
make_it install
stage=$work/stage/usr/lib/$multiarch
begin() { # a package
  root=$work/$1
  install -d -m 755 "$root/DEBIAN" "$root/usr/lib/$multiarch"
  papers "$1"
}

begin libnavbridge2
mv "$stage/libnavbridge.so.2" "$root/usr/lib/$multiarch"
strip --strip-unneeded "$root/usr/lib/$multiarch/libnavbridge.so.2"
echo 'activate-noawait ldconfig' > "$root/DEBIAN/triggers"
echo 'libnavbridge 2 libnavbridge2' > "$root/DEBIAN/shlibs"
{
  echo 'libnavbridge.so.2 libnavbridge2 #MINVER#'
  echo " NAVBRIDGE_2@NAVBRIDGE_2 $version"
  sed "s/\(.*\) \(.*\)/ \1@\2 $version/" bindings/c/symbols.txt
} > "$root/DEBIAN/symbols"
pack libnavbridge2 "$architecture" << END
Multi-Arch: same
Depends: libc6
Section: libs
Priority: optional
Description: proved library for broadcast satellite orbits
 libnavbridge reads and writes ephemerides of GPS and Galileo: messages and
 frames of RTCM 3, LNAV subframes, I/NAV pages, records of RINEX navigation
 files, and complete conversions as navbridge does them.
END

begin libnavbridge-dev
mv "$work/stage/usr/include" "$root/usr"
mv "$stage"/* "$root/usr/lib/$multiarch"
strip --strip-debug --enable-deterministic-archives "$root/usr/lib/$multiarch/libnavbridge.a"
shown() { # of a package: the page of the library, and examples
  local name=$1 it
  shift
  put 644 "usr/share/doc/$name/LIBRARY.md" docs/LIBRARY.md
  for it; do put 644 "usr/share/doc/$name/$it" "$it"; done
}
shown libnavbridge-dev examples/c/* examples/live/*.c examples/live/*.cpp
pack libnavbridge-dev "$architecture" << END
Multi-Arch: same
Depends: libnavbridge2 (= $version)
Suggests: pkgconf, cmake
Section: libdevel
Priority: optional
Description: proved library for broadcast satellite orbits (for development)
 The headers of libnavbridge for C and C++, its archive, and its files for
 pkg-config and CMake.
END

begin python3-navbridge
rmdir "$root/usr/lib/$multiarch"
packages=usr/lib/python3/dist-packages
for it in bindings/python/navbridge/*.py bindings/python/navbridge/py.typed; do put 644 "$packages/navbridge/${it##*/}" "$it"; done
mkdir -p "$root/$packages/navbridge-$version.dist-info"
printf 'Metadata-Version: 2.1\nName: navbridge\nVersion: %s\n' "$version" > "$root/$packages/navbridge-$version.dist-info/METADATA"
shown python3-navbridge examples/live/live.py
script postinst << 'END'
if command -v py3compile > /dev/null 2>&1; then py3compile -p python3-navbridge; fi
END
script prerm << 'END'
if command -v py3clean > /dev/null 2>&1; then
  py3clean -p python3-navbridge
else
  find /usr/lib/python3/dist-packages/navbridge -name __pycache__ -prune -exec rm -r {} +
fi
END
pack python3-navbridge all << END
Depends: python3 (>= 3.10), libnavbridge2 (>= $version)
Suggests: python3-numpy
Section: python
Priority: optional
Description: proved library for broadcast satellite orbits (Python)
 Ephemerides of GPS and Galileo as dataclasses, frames of streams as iterators,
 and the conversions of navbridge, by libnavbridge.
END
