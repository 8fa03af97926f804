#!/usr/bin/env bash
# Tries a station on this machine: a simulated caster, days of a minute, and the failures of a station.
#
#   examples/station/trial.sh [--form rtcm3|ubx] [--program PATH] [--navlog PATH] [--folder DIR] [--port N]
#
#   --form FORMAT   of the caster's bytes: RTCM frames, or the log of a u-blox receiver, which goes through navlog (rtcm3)
#   --program PATH  navbridge (NAVBRIDGE_PROGRAM, or crates/navbridge/out/navbridge, or that of the package)
#   --navlog PATH   navlog (NAVBRIDGE_NAVLOG, or crates/navlog/out/navlog, or that of the package)
#   --folder DIR    a directory that is created and left; by default a temporary one
#   --port N        of the caster (20110); str2str listens on all addresses of the machine
#
# bench/feeder.py sends four minutes of 32 GPS and 32 Galileo satellites (of a log 4 and 4) at thirty times the usual rate, with
# lost connections, garbage and inverted bits, through str2str as a caster. `navbridge-station run` and `navbridge-station record`
# receive it. The program (of a log navlog) is killed; the station is stopped and restarted; all its processes are killed and it is
# restarted; at last the caster sends no more. Then the files of both are compared with one run over all that was sent. The
# transmission time of an ephemeris of a log depends on the blocks received in a part, so it is not compared. It takes five
# minutes. Exit status: 0 all correct; 2 the arguments are wrong or something is missing; otherwise 1.
set -uo pipefail
cd "$(dirname "$(readlink -f "$0")")/../.." || exit 1
# beside this script, or where the package has put them
script=examples/station/navbridge-station
[ -x "$script" ] || script=navbridge-station
built() {
  local at=crates/$1/out/$1
  if [ -x "$at" ]; then echo "$at"; else echo "$1"; fi
}
form=rtcm3 program=${NAVBRIDGE_PROGRAM:-$(built navbridge)} navlog=${NAVBRIDGE_NAVLOG:-$(built navlog)} folder='' port=20110
while [ $# -gt 0 ]; do
  case $1 in
    -h | --help)
      sed -n '2,/^set /{/^set /d;s/^# \{0,1\}//;p}' "$0"
      exit 0
      ;;
    --form | --program | --navlog | --folder | --port)
      [ $# -ge 2 ] || { echo "trial: $1 needs a value" >&2; exit 2; }
      printf -v "${1#--}" %s "$2"
      shift 2
      ;;
    *)
      echo "trial: $1 is no option; --help" >&2
      exit 2
      ;;
  esac
done
case $form in
  rtcm3) feed=(stream) needed=("$program") ;;
  ubx) feed=(ubx --satellites 4) needed=("$program" "$navlog") ;;
  *)
    echo "trial: $form is neither rtcm3 nor ubx" >&2
    exit 2
    ;;
esac
for it in "${needed[@]}"; do
  command -v "$it" > /dev/null || { echo "trial: ${it##*/} is not there: build first ('rt ci' at the top, or 'rt run' in its crate), or name it" >&2; exit 2; }
done
for it in "$script" str2str python3; do
  command -v "$it" > /dev/null || { echo "trial: $it is not there" >&2; exit 2; }
done
program=$(readlink -f "$(command -v "$program")")
[ "$form" = rtcm3 ] || navlog=$(readlink -f "$(command -v "$navlog")")
if (: < "/dev/tcp/127.0.0.1/$port") 2> /dev/null; then
  echo "trial: something listens on port $port already" >&2
  exit 2
fi
goes=
if [ -n "$folder" ]; then
  mkdir -p "$folder"
else
  folder=$(mktemp -d)
  goes=1
fi
folder=$(readlink -f "$folder")

# ids of what is started, each the leader of a group of its own
leaders=()
clean() {
  local id
  for id in "${leaders[@]}"; do kill -KILL -- "-$id" 2> /dev/null; done
  [ -z "$goes" ] || rm -rf -- "$folder"
}
of_group() { ps -eo pid=,pgid=,stat=,args= | awk -v group="$1" '$2 == group && $3 !~ /^Z/'; } # what has ended is not looked at
trap clean EXIT
trap 'exit 130' INT TERM
set -m
begin=$EPOCHSECONDS
at() { # the second of the trial
  while [ $((EPOCHSECONDS - begin)) -lt "$1" ]; do sleep 0.2; done
}
tell() { printf '%3d s: %s\n' $((EPOCHSECONDS - begin)) "$*"; }
wrong=0
check() { # what, command
  local what=$1 said
  shift
  if said=$("$@" 2>&1); then echo "  $what: yes"; else
    echo "  $what: NO"
    printf '%s\n' "$said" | sed 's/^/    /'
    wrong=1
  fi
}
nothing_of() { # group: status 0 where no process of it is left; else it says which
  local left
  left=$(of_group "$1")
  printf '%s' "$left"
  [ -z "$left" ]
}

# it is no turn of a minute when the trial begins
[ $(((EPOCHSECONDS + 18) % 60)) -lt 40 ] || sleep $((62 - (EPOCHSECONDS + 18) % 60))
begin=$EPOCHSECONDS
week=$(((begin - 315964800) / 604800))
mkfifo "$folder/feed"
str2str -out "tcpsvr://:$port" < "$folder/feed" 2> "$folder/caster.log" &
caster=$!
leaders+=("$caster")
{
  sleep 3
  exec python3 bench/feeder.py "${feed[@]}" --rate 30 --seconds 240 --week "$week" --begin 345600 2> "$folder/sent"
} > >(exec tee "$folder/whole.$form" > "$folder/feed") &
leaders+=("$!")
sleep 1
words=(--source "tcpcli://127.0.0.1:$port" --span 60 --lap 5 --silent 15 --form "$form" --program "$program" --navlog "$navlog")
station() {
  "$script" run "${words[@]}" --folder "$folder/run" 2>> "$folder/run.log" &
  station=$!
  leaders+=("$station")
}
ended() { # the status of the station
  status=0
  wait "$station" 2> /dev/null || status=$?
}
"$script" record "${words[@]}" --folder "$folder/record" 2> "$folder/record.log" &
record=$!
leaders+=("$record")
station
tell "a caster, a station, a recorder"

at 20
tell "records in live/ so far: $(cat "$folder"/run/live/*.rnx | grep -c '^> EPH')"
killed=$program
[ "$form" = rtcm3 ] || killed=$navlog
victim=$(of_group "$station" | awk -v program="$killed" '$4 == program { print $1; exit }')
kill -KILL "$victim"
tell "${killed##*/} killed (KILL)"
at 70
kill -TERM "$station"
ended
tell "the station stopped (TERM to its script): status $status; started again"
first=$status
station
at 130
kill -KILL -- "-$station"
ended
tell "all of the station killed (KILL to the group): status $status; started again two seconds later"
sleep 2
station
at 243
tell "the caster has nothing more"
ended
tell "the station ended by itself: status $status"
silent=$status
recorded=0
wait "$record" || recorded=$?
tell "the recorder ended by itself: status $recorded"
kill -TERM "$caster"

for kind in run record; do
  "$script" files "${words[@]}" --folder "$folder/$kind" --all 2> "$folder/$kind.files.log"
  tell "the files of $kind that were left: status $?"
done

echo
echo "sent: $(cat "$folder/sent")"
echo "messages of the station:"
sed 's/^/  /' "$folder/run.log"
echo "messages of the recorder:"
sed 's/^/  /' "$folder/record.log"
echo "messages of files on the recorder's parts:"
sed 's/^/  /' "$folder/record.files.log"
merged() { "$program" --from rinex --to merged --date "20240101 000000 UTC" --leap 18 2> /dev/null; }
converted() { # all that was sent
  if [ "$form" = rtcm3 ]; then
    "$program" --from stream --to rinex --week "$week" --date "20240101 000000 UTC" --leap 18 2> /dev/null
  else
    "$navlog" --from "$form" 2> /dev/null | "$program" --from capture --to rinex --date "20240101 000000 UTC" --leap 18 2> /dev/null
  fi
}
# what is compared: of a log the ephemerides without the transmission time, which is the first number of their last line
compared() {
  if [ "$form" = rtcm3 ]; then
    cat
  else
    awk '/^> / { n = 0; is = /^> EPH/ } is { n++; print n == 9 ? substr($0, 24) : $0 }'
  fi
}
what="records"
[ "$form" = rtcm3 ] || what="ephemerides, but for the transmission time"
converted < "$folder/whole.$form" | merged | compared > "$folder/whole.rnx"
echo
for kind in run record; do
  cat "$folder/$kind/files"/*.rnx | merged | compared > "$folder/$kind.rnx"
  # shellcheck disable=SC2012
  echo "$kind: $(ls "$folder/$kind/files" | wc -l) files; records in each: $(grep -c '^> EPH' "$folder/$kind/files"/*.rnx | sed 's/.*://' | paste -s -d ' ')"
  check "all of them merged are the run over all that was sent, merged: $(grep -c '^> EPH' "$folder/whole.rnx") $what" \
    cmp "$folder/$kind.rnx" "$folder/whole.rnx"
  # a run that is killed while it makes a file leaves a folder whose name begins with a point
  check "nothing but files stands in files/" test -z "$(find "$folder/$kind/files" -mindepth 1 ! -path '*/files/.*' ! -name '*_MN.rnx')"
done
check "status 1 of the station whose program was killed" test "$first" = 1
check "status 3 of the station whose source fell silent" test "$silent" = 3
check "status 3 of the recorder whose source fell silent" test "$recorded" = 3
check "no process of the station is left" nothing_of "$station"
[ "$wrong" = 0 ]
