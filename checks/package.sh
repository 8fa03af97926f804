#!/usr/bin/env bash
# Tests the Debian package: made twice, the same bytes; lintian; installed, used, verified and removed.
#
#   checks/package.sh [--program PATH].. [--archive FILE]
#
#   --program PATH   the built programs, navbridge, navlog and navconvert (crates/NAME/out/NAME)
#   --archive FILE   libnavbridge_c.a (crates/navbridge_c/out/libnavbridge_c.a); if it exists, the library's packages too
#
# It installs the package on this machine, updates and removes it, so it needs root and a machine without the package. systemd is
# simulated by a mount namespace whose /run has its marks, with a systemctl that records its arguments. Debian packages that it
# uses: lintian, man-db, mandoc, systemd (for systemd-analyze), util-linux (taskset, unshare).
#
# Exit status: 0 all correct, or skipped with a reason; 1 something differs; 2 the arguments are wrong, or a program is missing.
set -uo pipefail
. "$(dirname "$(readlink -f "$0")")/lib.sh"
program=() archive=''
options '--program+: --archive:' "$@"
names=(navbridge navlog navconvert)
declare -A chosen
for name in "${names[@]}"; do chosen[$name]=$top/crates/$name/out/$name; done
for it in "${program[@]}"; do chosen[${it##*/}]=$(path_of "$it"); done
given=()
for name in "${names[@]}"; do given+=(--program "${chosen[$name]}"); done
archive=$(path_of "${archive:-$top/crates/navbridge_c/out/libnavbridge_c.a}")
cd "$top" || exit 2
[ "$(id -u)" = 0 ] || skip "only root may install a package"
! dpkg -s navbridge > /dev/null 2>&1 || skip "a package navbridge is installed already"
for it in dpkg lintian man mandoc systemd-analyze taskset unshare deb-systemd-invoke; do
  command -v "$it" > /dev/null || skip "$it is not installed"
done
work=$(mktemp -d)
installed=
clean() {
  [ -z "$installed" ] || dpkg -P navbridge python3-navbridge libnavbridge-dev libnavbridge2 > /dev/null 2>&1
  rm -rf -- "$work"
}
trap clean EXIT
# A check: what, and the command that wants status 0 and says nothing
silent() {
  local what=$1 said status=0
  shift
  tried=$((tried + 1))
  said=$("$@" 2>&1) || status=$?
  if [ "$status" = 0 ] && [ -z "$said" ]; then
    echo "$what: yes"
  else
    echo "$what: NO (status $status)"
    [ -z "$said" ] || printf '%s\n' "$said" | sed 's/^/  /'
    wrong=$((wrong + 1))
  fi
}

library=()
if [ -f "$archive" ]; then
  library=(--library "$archive")
else
  echo "the library's packages: not tried, since $archive is not there; bindings/archive.sh makes it"
fi
packaging/debian.sh "${given[@]}" "${library[@]}" --out "$work/one" || exit 1
# every program is wanted: one that is not built is named, and there is no package
lacks() {
  local said status=0
  git clone -q . "$work/clone" || return 1
  said=$("$work/clone/packaging/debian.sh" "${given[@]:0:$1}" --out "$work/none" 2>&1) || status=$?
  { [ "$status" = 2 ] && [ ! -e "$work/none" ] && grep -q "no program crates/$2/out/$2" <<< "$said"; } || echo "status $status: $said"
  rm -rf -- "$work/clone"
}
for count in 0 1 2; do
  silent "with $count of three programs there is no package, and the next is named" lacks $((2 * count)) "${names[count]}"
done
sleep 1
(umask 077 && TZ=Asia/Tokyo LC_ALL=C.UTF-8 taskset -c 0 packaging/debian.sh "${given[@]}" "${library[@]}" --out "$work/two" > /dev/null) || exit 1
package=$(echo "$work"/one/navbridge_*.deb)
for one in "$work"/one/*.deb; do
  name=${one##*/}
  silent "${name%%_*}: the same bytes with umask 077, in Tokyo, on one processor, a second later" cmp "$one" "$work/two/$name"
  silent "${name%%_*}: lintian has no error and no warning" lintian --allow-root "$one"
done
dpkg-deb -c "$package" | awk '{ print "  " $1, $2, $6 }' | grep -v '/$' | grep -v 'doc/navbridge/\(examples\|docs\)/'

find /usr /etc /var/lib -xdev -path /var/lib/dpkg -prune -o -print 2> /dev/null | sort > "$work/before"
installed=1
install_it() { dpkg -i "$package" > "$work/dpkg" 2>&1 || cat "$work/dpkg"; }
remove_it() { dpkg -P navbridge > "$work/dpkg" 2>&1 || cat "$work/dpkg"; }
has_page() { man -w "$1" > /dev/null && zcat "/usr/share/man/man1/$1.1.gz" | mandoc -Tlint; }
silent "installed" install_it
silent "dpkg -V" dpkg -V navbridge
silent "six commands" test "$(dpkg -L navbridge | sed -n 's|^/usr/bin/||p' | sort | xargs)" = "merge_archive navbridge navbridge-station navconvert navlog navreport"
for name in $(dpkg -L navbridge | sed -n 's|^/usr/bin/||p'); do
  silent "$name has a man page that mandoc accepts" has_page "$name"
done
mapfile -t units < <(dpkg -L navbridge | grep '\.\(service\|timer\)$')
silent "systemd-analyze verify accepts ${#units[@]} units" systemd-analyze verify "${units[@]}"
lines() { # of a unit: what it must have
  local line
  for line in User=navbridge DynamicUser=yes NoNewPrivileges=yes ProtectHome=yes ProtectSystem=strict PrivateTmp=yes; do
    grep -qx "$line" "$1" || echo "no $line"
  done
}
for unit in "${units[@]}"; do
  case $unit in *.service) ;; *) continue ;; esac
  name=${unit##*/}
  silent "$name has User=, DynamicUser=, NoNewPrivileges=, ProtectHome=, ProtectSystem=, PrivateTmp=" lines "$unit"
  said=$(systemd-analyze security --offline=true --no-pager "${name/@./@STAT00CCC.}" 2>&1 | sed -n 's/.*exposure level for [^:]*: \([0-9.]*\) .*/\1/p')
  silent "systemd-analyze security gives $name ${said:-nothing} of 10, at most 2.5" awk -v it="${said:-10}" 'BEGIN { exit it > 2.5 }'
done

run() {
  PROGRAM=/usr/bin/navbridge NAVLOG=/usr/bin/navlog /usr/share/doc/navbridge/checks/runs.sh > "$work/runs" 2>&1 || cat "$work/runs"
}
merge() { PYTHONDONTWRITEBYTECODE=1 /usr/share/doc/navbridge/checks/archive.sh --program /usr/bin/navbridge > "$work/runs" 2>&1 || cat "$work/runs"; }
silent "the installed program gives each example's output, report and status" run
silent "the installed scripts merge the archive of the examples" merge
is_logged() {
  local log=/usr/share/doc/navbridge/examples/log.ubx
  navlog --from ubx < "$log" 2> /dev/null | navbridge --from capture --to list 2> /dev/null | cmp - "${log%.ubx}.list"
}
silent "the installed navlog makes the capture of the log of the examples" is_logged
has_help() { navbridge-station --help | grep -q -- --source; }
silent "the installed station has its help" has_help
has_version() { [ "$(navbridge-station --version)" = "navbridge-station $(dpkg-query -W -f '${Version}' navbridge)" ]; }
silent "its version is that of the package" has_version
merges() {
  [ "$(merge_archive --version)" = "merge_archive $(dpkg-query -W -f '${Version}' navbridge)" ] || echo "another version"
  merge_archive -q -o "$work/day.rnx" --date '20240101 000000 UTC' /usr/share/doc/navbridge/examples/archive/2024/002 2>&1 | grep -v '^/usr/share/doc/navbridge/examples/archive'
  "$PWD/examples/merge_archive.sh" -q -o "$work/day2.rnx" --date '20240101 000000 UTC' --program /usr/bin/navbridge examples/archive/2024/002 > /dev/null 2>&1
  cmp "$work/day.rnx" "$work/day2.rnx"
}
silent "the installed merge_archive merges a day, with navbridge of the path" merges
reports() {
  [ "$(navreport --version)" = "navreport $(dpkg-query -W -f '${Version}' navbridge)" ] || echo "another version"
  navreport -q -o "$work/site" --date '20240101 000000 UTC' /usr/share/doc/navbridge/examples/archive > /dev/null 2>&1
  [ -s "$work/site/index.html" ] && [ -s "$work/site/report.json" ] || echo "no site"
}
silent "the installed navreport makes a site of an archive" reports
names_options() {
  local option page
  page=$(man merge_archive | col -b)
  for option in $(merge_archive --help | grep -o '^  --*[a-z0-9]*' | tr -d ' '); do
    grep -q -- " $option\b" <<< "$page" || echo "not in the page: $option"
  done
}
silent "its page has each option of its help" names_options
mkdir "$work/fake"
printf '#!/bin/sh\necho $$\n' > "$work/fake/sbatch"
chmod 755 "$work/fake/sbatch"
submits() {
  env -u PROGRAM "PATH=$work/fake:$PATH" /usr/share/doc/navbridge/examples/slurm/submit.sh --date '20240101 000000 UTC' \
    /usr/share/doc/navbridge/examples/archive "$work/slurm" 2>&1 | grep -v '^submitted: '
  [ -s "$work/slurm/state/days" ] || echo 'no days'
}
silent "the scripts for Slurm find navbridge and merge_archive" submits
if command -v parallel > /dev/null; then
  trees() {
    env -u PROGRAM /usr/share/doc/navbridge/examples/slurm/parallel.sh --date '20240101 000000 UTC' \
      /usr/share/doc/navbridge/examples/archive "$work/tree" > "$work/said" 2>&1 || cat "$work/said"
    [ -s "$work/tree/year/2024.rnx" ] || echo 'no year'
  }
  silent "that for GNU parallel makes a year" trees
fi
offered() { # what is wanted, words: the last one is completed
  local want=$1
  shift
  local got
  # shellcheck disable=SC2016
  got=$(bash -c '. "/usr/share/bash-completion/completions/$1"; COMP_WORDS=("$@"); COMP_CWORD=$(($# - 1)); "_${1//-/_}"; echo "${COMPREPLY[*]}"' complete "$@")
  [ "$got" = "$want" ] || echo "of ${*:2}: $got"
}
silent "completion of nothing" offered "--from --to" navbridge ""
silent "completion of forms" offered "capture rinex rinex3 seed stream" navbridge --from ""
silent "completion of what a stream may become" offered "frames rinex rinex3 rtcm" navbridge --from stream --to ""
silent "completion of a job's options" offered "--date --leap --week" navbridge --from=stream --to = rinex --
silent "completion of options that are left" offered "--date --leap" navbridge --from stream --to rinex --week 2446 --
silent "completion of a week" offered $((($(date +%s) - 315964800) / 604800)) navbridge --from stream --to rtcm --week ""
one_word() {
  offered none navbridge --from rinex --to cover --date "" | grep -q " '[0-9]\{8\} [0-9]\{6\} UTC'\$"
}
silent "completion of a date is one word" one_word

silent "completion of navlog's option" offered "--from" navlog ""
silent "completion of navlog's forms" offered "sbf ubx" navlog --from ""
silent "completion of navlog's forms behind =" offered "sbf ubx" navlog --from =
silent "completion of a form that is begun" offered "ubx" navlog --from = u
silent "completion of navconvert's forms" offered "auto capture stream rinex rinex3 rinex2 ubx sbf" navconvert --from ""
silent "completion of the station's jobs" offered "files record run --help --version" navbridge-station ""
silent "completion of the station's options" offered "--leap --letter" navbridge-station run --source x --le

# an update, and the end, where systemd runs
cat > "$work/fake/systemctl" << END
#!/bin/sh
echo "\$*" >> "$work/asked"
END
chmod 755 "$work/fake/systemctl"
under_systemd() { # what systemctl must be asked, and the command
  local want=$1
  shift
  : > "$work/asked"
  # shellcheck disable=SC2016
  PATH=$work/fake:$PATH unshare -m sh -c 'mount -t tmpfs none /run && mkdir -p /run/systemd/system || exit 1
    [ ! -e /usr/sbin/policy-rc.d ] || mount --bind /bin/true /usr/sbin/policy-rc.d || exit 1
    exec "$@"' sh "$@" > "$work/dpkg" 2>&1 || cat "$work/dpkg"
  diff <(echo "$want") "$work/asked"
}
instances='navbridge-station@*.service navbridge-record@*.service navbridge-files@*.timer'
if unshare -m true 2> /dev/null; then
  mkdir -p /etc/navbridge /var/lib/navbridge/TRIED00CCC
  echo NAVBRIDGE_SOURCE=none > /etc/navbridge/TRIED00CCC.conf
  echo bytes > /var/lib/navbridge/TRIED00CCC/raw
  silent "an update reads the units and restarts the instances that run" under_systemd "--system daemon-reload
try-restart $instances" dpkg -i "$package"
  silent "the end stops them" under_systemd "stop $instances navbridge-files@*.service
--system daemon-reload" dpkg -P navbridge
  silent "an installation starts nothing" under_systemd "--system daemon-reload" dpkg -i "$package"
fi
if [ -f "$archive" ]; then
  kinds=(libnavbridge2 libnavbridge-dev python3-navbridge)
  silent "the library: installed" sh -c 'dpkg -i "$@" > /dev/null' sh "$work"/one/libnavbridge*.deb "$work"/one/python3-navbridge*.deb
  silent "dpkg -V ${kinds[*]}" dpkg -V "${kinds[@]}"
  cp -r examples/c "$work/c"
  builds() {
    { make -s -C "$work/c" && cmake -S "$work/c" -B "$work/c/cmake" && cmake --build "$work/c/cmake"; } > "$work/said" 2>&1 || cat "$work/said"
    local it
    for it in "$work/c/listen" "$work/c/cmake/listen"; do
      timeout 20 "$it" 2295 < examples/ephemerides.rtcm3 | cmp - examples/expected/ephemerides.heard
      readelf -d "$it" | grep -q 'NEEDED.*libnavbridge.so.2' || echo "$it is not linked with it"
    done
  }
  silent "a Makefile and CMake build with it, and what they build runs" builds
  imports() {
    (cd "$work" && timeout 20 /usr/bin/python3 -c 'import navbridge, sys
assert navbridge.__file__.startswith("/usr/lib/python3/dist-packages/"), navbridge.__file__
frames = list(navbridge.frames(open(sys.argv[1], "rb")))
assert b"".join(frames) == open(sys.argv[1], "rb").read()' "$OLDPWD/examples/ephemerides.rtcm3")
  }
  silent "Python's finds the frames of a stream" imports
  # the program of each language in examples/live
  lives() {
    timeout 20 "$@" 2295 < examples/ephemerides.rtcm3 2> "$work/said" | sed '/PGM/d' | diff <(sed '/PGM/d' examples/expected/ephemerides.rnx) -
    cmp "$work/said" examples/expected/ephemerides.live
  }
  read -r -a flags < <(pkg-config --cflags --libs navbridge)
  compiles() { "$@" "${flags[@]}"; }
  silent "examples/live: C compiles" compiles cc -o "$work/live_c" /usr/share/doc/libnavbridge-dev/examples/live/live.c
  silent "examples/live: C" lives "$work/live_c"
  silent "examples/live: C++ compiles" compiles c++ -std=c++17 -o "$work/live_cpp" /usr/share/doc/libnavbridge-dev/examples/live/live.cpp
  silent "examples/live: C++" lives "$work/live_cpp"
  silent "examples/live: Python" lives /usr/bin/python3 /usr/share/doc/python3-navbridge/examples/live/live.py
  silent "the library: removed" sh -c 'dpkg -P python3-navbridge libnavbridge-dev libnavbridge2 > /dev/null'
fi
silent "removed" remove_it
installed=
if [ -d /var/lib/navbridge/TRIED00CCC ]; then
  silent "the station's settings and files are there" cmp <(echo NAVBRIDGE_SOURCE=none; echo bytes) <(cat /etc/navbridge/TRIED00CCC.conf /var/lib/navbridge/TRIED00CCC/raw)
  rm -f /etc/navbridge/TRIED00CCC.conf /var/lib/navbridge/TRIED00CCC/raw
  rmdir --ignore-fail-on-non-empty /var/lib/navbridge/TRIED00CCC /var/lib/navbridge /etc/navbridge
fi
find /usr /etc /var/lib -xdev -path /var/lib/dpkg -prune -o -print 2> /dev/null | sort > "$work/after"
# what is new, but for what another package has brought meanwhile
left() { comm -13 "$work/before" "$work/after" | while read -r it; do dpkg -S "$it" > /dev/null 2>&1 || echo "$it"; done; }
silent "nothing is left" left
ended package
