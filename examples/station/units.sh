#!/usr/bin/env bash
# Tries the units under a systemd of their own: the first process of new namespaces, over a copy-on-write view of this machine,
# which is not changed.
#
#   examples/station/units.sh [--package FILE] [--form rtcm3|ubx]
#
#   --package FILE  the Debian package that is installed there (the newest in packaging/build)
#   --form FORMAT   of the simulated caster's bytes: RTCM frames, or the log of a u-blox receiver (rtcm3)
#
# There the package is installed, and a station is started, watched from outside of its sandbox, has a program and its script
# killed, and is stopped; its files are compared with what was sent. Then the recorder, the maker of files and its timer. It needs
# root, str2str, python3, unshare, and systemd, which need not be the first process of this machine. It takes three minutes.
# Exit status: 0 all correct; 1 something differs; 2 it cannot be tried.
set -uo pipefail
self=$(readlink -f "$0")
cd "$(dirname "$self")/../.." || exit 1
unit=STAT00CCC

check() { # what, command
  local what=$1 said
  shift
  if said=$("$@" 2>&1); then echo "  $what: yes"; else
    echo "  $what: NO"
    printf '%s\n' "$said" | sed 's/^/    /'
    wrong=1
  fi
}

# ---- what the new systemd runs
inside() { # form
  local form=$1 wrong=0 main root caster first sent kept
  exec 2>&1
  # shellcheck disable=SC2317 # check calls them
  is() { [ "$(systemctl show -P "$2" "$1")" = "$3" ] || systemctl show "$1" -p "$2" | { cat; false; }; }
  # shellcheck disable=SC2317
  fails() { ! "$@"; }
  ip link set lo up
  check "the package is installed" dpkg -i /usr/local/try/package.deb
  systemctl daemon-reload
  mkdir -p /etc/navbridge /home/somebody
  touch /tmp/of_the_machine
  printf 'NAVBRIDGE_%s\n' SOURCE=tcpcli://127.0.0.1:20140 "FORM=$form" SPAN=60 LAP=5 SILENT=30 > "/etc/navbridge/$unit.conf"
  chmod 600 "/etc/navbridge/$unit.conf"
  mkfifo /run/feed
  str2str -out tcpsvr://:20140 < /run/feed > /dev/null 2>&1 &
  caster=$!
  local feed=(stream)
  [ "$form" = rtcm3 ] || feed=(ubx --satellites 2)
  {
    sleep 6
    exec python3 /usr/local/try/feeder.py "${feed[@]}" --rate 30 --seconds 60 --begin 345600 \
      --week $((($(date +%s) - 315964800) / 604800)) 2> /run/sent
  } > /run/feed &
  sleep 1
  check "the station starts" systemctl start "navbridge-station@$unit"
  sleep 15
  main=$(systemctl show -P MainPID "navbridge-station@$unit")
  root=/proc/$main/root
  check "it is active" is "navbridge-station@$unit" ActiveState active
  check "its user is navbridge, made for it (DynamicUser=)" test "$(ps -o user= -p "$main")" = navbridge
  check "that user is not one of the machine" fails grep -q '^navbridge:' /etc/passwd
  check "NoNewPrivs stands in its status" grep -qx 'NoNewPrivs:.1' "/proc/$main/status"
  check "a filter of system calls too" grep -qx 'Seccomp:.2' "/proc/$main/status"
  check "it has no capability" grep -qx 'CapBnd:.0*' "/proc/$main/status"
  check "it sees nothing in /home (ProtectHome=)" test -z "$(ls "$root/home")"
  check "and nothing in /tmp (PrivateTmp=)" test -z "$(ls "$root/tmp")"
  check "it cannot write /usr (ProtectSystem=)" fails touch "$root/usr/x"
  check "nor /etc" fails touch "$root/etc/x"
  check "its user cannot read its settings" fails setpriv --reuid "$(stat -c %u "/proc/$main")" --clear-groups cat "/etc/navbridge/$unit.conf"
  sleep 10
  check "any user can read its page" setpriv --reuid 65534 --clear-groups grep -q 'receiving</b>: last byte' "/run/navbridge/$unit/status.html"
  check "and its metrics" setpriv --reuid 65534 --clear-groups grep -q '^navbridge_last_byte_timestamp_seconds.* [1-9]' "/run/navbridge/$unit/metrics.prom"
  first=navbridge
  [ "$form" = rtcm3 ] || first=navlog
  kill -KILL "$(pgrep -x "$first" | head -n 1)"
  sleep 5
  check "$first killed: it is started again, and that is said" grep -q "$first was killed by SIGKILL" <(journalctl -u "navbridge-station@$unit" -o cat)
  check "the script is the same" is "navbridge-station@$unit" MainPID "$main"
  kill -KILL "$main"
  sleep 6
  check "the script killed: systemd starts it again" is "navbridge-station@$unit" NRestarts 1
  sleep 40
  check "it stops" systemctl stop "navbridge-station@$unit"
  check "with Result=success" is "navbridge-station@$unit" Result success
  check "no process of it is left" fails pgrep -u "$(stat -c %u "/var/lib/private/navbridge/$unit/files")"
  sleep 10
  check "the maker of files runs" systemctl start "navbridge-files@$unit"
  check "with Result=success" is "navbridge-files@$unit" Result success
  (
    set -a
    # shellcheck source=/dev/null
    . "/etc/navbridge/$unit.conf"
    navbridge-station files --all --station "$unit" --folder "/var/lib/private/navbridge/$unit" 2> /dev/null
  )
  cat "/var/lib/private/navbridge/$unit/files"/*.rnx > /run/all 2> /dev/null
  kept=$(navbridge --from rinex --to merged --date "20240101 000000 UTC" --leap 18 < /run/all 2> /dev/null | grep -c '^> EPH')
  sent=$(sed -n 's/.*ephemerides \([0-9]*\),.*/\1/p' /run/sent)
  check "its files, that of the minute that goes on too, have the $sent ephemerides that were sent" test "$kept" = "$sent"
  check "the recorder starts" systemctl start "navbridge-record@$unit"
  sleep 3
  check "it is active" is "navbridge-record@$unit" ActiveState active
  check "it stops" systemctl stop "navbridge-record@$unit"
  check "with Result=success" is "navbridge-record@$unit" Result success
  check "the timer starts" systemctl start "navbridge-files@$unit.timer"
  check "it is active" is "navbridge-files@$unit.timer" ActiveState active
  [ "$wrong" = 0 ] || journalctl -u 'navbridge*' -o cat --no-pager | sed 's/^/    /'
  kill "$caster"
  echo "$wrong" > /run/wrong
}

# ---- the first process of the new namespaces, before it becomes systemd
boot() { # a folder, the form, the package
  local root=$1/root it
  set -e
  mount --make-rprivate /
  mount -t tmpfs -o size=1g tmpfs "$1"
  mkdir -p "$1"/{up,work,root}
  mount -t overlay overlay -o "lowerdir=/,upperdir=$1/up,workdir=$1/work" "$root"
  mount -t proc proc "$root/proc"
  mount -t sysfs sysfs "$root/sys"
  mount -t tmpfs -o mode=755 tmpfs "$root/dev"
  for it in null zero full random urandom tty; do cp -a "/dev/$it" "$root/dev/"; done
  ln -s /proc/self/fd "$root/dev/fd"
  ln -s pts/ptmx "$root/dev/ptmx"
  mkdir -p "$root"/dev/{shm,pts} "$root/usr/local/try"
  : > "$root/dev/console"
  mount -t tmpfs tmpfs "$root/dev/shm"
  mount -t devpts devpts "$root/dev/pts" -o newinstance,ptmxmode=0666
  mount -t tmpfs -o mode=755 tmpfs "$root/run"
  mount -t tmpfs tmpfs "$root/tmp"
  mount -t tmpfs tmpfs "$root/sys/fs/cgroup"
  mount -t cgroup2 none "$root/sys/fs/cgroup"
  cp -- "$3" "$root/usr/local/try/package.deb"
  cp -- bench/feeder.py "$self" "$root/usr/local/try/"
  # nothing of the machine's own is started
  rm -rf -- "$root"/etc/systemd/system/*.wants
  mkdir -p "$root/etc/systemd/system/try.target.wants"
  printf '[Unit]\nRequires=sysinit.target\n' > "$root/etc/systemd/system/try.target"
  printf '[Service]\nType=oneshot\nExecStart=/bin/bash /usr/local/try/units.sh inside %s\nStandardOutput=file:/run/told\nExecStopPost=/bin/touch /run/over\n' \
    "$2" > "$root/etc/systemd/system/try.service"
  ln -s ../try.service "$root/etc/systemd/system/try.target.wants/"
  exec chroot "$root" /usr/bin/env -i container=other PATH=/usr/sbin:/usr/bin:/sbin:/bin /lib/systemd/systemd --system --unit=try.target --log-target=journal
}

case ${1:-} in
  inside)
    inside "$2"
    exit
    ;;
  boot)
    boot "$2" "$3" "$4"
    exit 1
    ;;
esac
package='' form=rtcm3
while [ $# -gt 0 ]; do
  case $1 in
    -h | --help)
      sed -n '2,/^set /{/^set /d;s/^# \{0,1\}//;p}' "$0"
      exit 0
      ;;
    --package | --form)
      [ $# -ge 2 ] || { echo "units: $1 needs a value" >&2; exit 2; }
      printf -v "${1#--}" %s "$2"
      shift 2
      ;;
    *)
      echo "units: $1 is no option; --help" >&2
      exit 2
      ;;
  esac
done
case $form in rtcm3 | ubx) ;; *) echo "units: $form is neither rtcm3 nor ubx" >&2; exit 2 ;; esac
[ "$(id -u)" = 0 ] || { echo "units: only root may make these namespaces" >&2; exit 2; }
for it in unshare str2str python3 setpriv ip /lib/systemd/systemd; do
  command -v "$it" > /dev/null || { echo "units: $it is not there" >&2; exit 2; }
done
[ -n "$package" ] || package=$(find packaging/build -name 'navbridge_*.deb' -printf '%T@ %p\n' 2> /dev/null | sort -n | tail -n 1 | cut -d ' ' -f 2-)
[ -r "$package" ] || { echo "units: no package; build first: packaging/debian.sh, or --package names one" >&2; exit 2; }
package=$(readlink -f "$package")
room=$(mktemp -d)
systemd=
clean() {
  # the first process of a namespace takes all others of it along
  [ -z "$systemd" ] || kill -KILL "$systemd" 2> /dev/null
  rm -rf -- "$room"
}
trap clean EXIT
trap 'exit 130' INT TERM
unshare --fork --kill-child --pid --mount --uts --ipc --cgroup --net --mount-proc bash "$self" boot "$room" "$form" "$package" > "$room.log" 2>&1 &
parent=$!
for ((i = 0; i < 400; i++)); do
  sleep 1
  systemd=$(pgrep -P "$parent" | head -n 1)
  [ -n "$systemd" ] || { cat "$room.log" >&2; rm -f "$room.log"; echo "units: no systemd came up" >&2; exit 2; }
  [ ! -e "/proc/$systemd/root/run/over" ] || break
done
rm -f "$room.log"
cat "/proc/$systemd/root/run/told"
wrong=$(cat "/proc/$systemd/root/run/wrong" 2> /dev/null)
[ "$wrong" = 0 ]
