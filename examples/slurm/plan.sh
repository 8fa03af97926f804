#!/usr/bin/env bash
# Shared by submit.sh and parallel.sh, which source it: their arguments, and the lists of steps. Called, it prints this.
if [ "${BASH_SOURCE[0]}" = "$0" ]; then
  sed -n '2s/^# //p' "$0"
  exit 0
fi

# reads the words behind the text of --help, and exports what step.sh wants
read_words() {
  local usage=$1 words=() here
  shift
  here=$(dirname -- "$(readlink -f -- "${BASH_SOURCE[0]}")")
  DATE=$(date -u '+%Y%m%d %H%M%S UTC') LEAP=18 COVER=0 STRICT=0 WAIT=0 HOSTS=
  while [ $# -gt 0 ]; do
    case $1 in
      --help) echo "$usage"; exit 0 ;;
      --date) DATE=${2-}; shift ;;
      --leap) LEAP=${2-}; shift ;;
      --program) PROGRAM=${2-}; shift ;;
      --hosts) HOSTS=${2-}; shift ;;
      --cover) COVER=1 ;;
      --strict) STRICT=1 ;;
      --wait) WAIT=1 ;;
      -*) echo "$(basename "$0"): $1: no such option; --help" >&2; exit 2 ;;
      *) words+=("$1") ;;
    esac
    shift
  done
  [ "${#words[@]}" = 2 ] || { echo "$usage" >&2; exit 2; }
  ARCHIVE=$(readlink -f -- "${words[0]}")
  [ -d "$ARCHIVE" ] || { echo "$(basename "$0"): ${words[0]}: no such directory" >&2; exit 2; }
  # of the repository, or those of the path where the package is installed
  if [ -d "$here/../../crates" ]; then
    PROGRAM=${PROGRAM:-$here/../../crates/navbridge/out/navbridge} MERGE=$here/../merge_archive.sh
  else
    PROGRAM=${PROGRAM:-$(command -v navbridge || echo navbridge)} MERGE=$(command -v merge_archive || echo "$here/../merge_archive.sh")
  fi
  [ -x "$PROGRAM" ] || { echo "$(basename "$0"): $PROGRAM: build it first (rt ci, or rt run in crates/navbridge), or name it by --program" >&2; exit 2; }
  mkdir -p "${words[1]}/state" "${words[1]}/log"
  TREE=$(readlink -f -- "${words[1]}")
  PROGRAM=$(readlink -f -- "$PROGRAM")
  MERGE=$(readlink -f -- "$MERGE")
  export DATE LEAP COVER STRICT ARCHIVE TREE PROGRAM MERGE HOSTS WAIT
}

# writes TREE/state/YYYYMM.days and TREE/state/YYYY.months for the days of the archive, and TREE/state/days, months and years; each is
# written apart and renamed, since steps of an earlier call may be reading
plan() {
  local folder year day month new=$TREE/state/new.$$
  mkdir "$new"
  for folder in "$ARCHIVE"/[0-9][0-9][0-9][0-9]/[0-9][0-9][0-9]; do
    [ -d "$folder" ] || continue
    day=${folder##*/} year=${folder%/*} year=${year##*/}
    month=$(date -u -d "$year-01-01 $((10#$day - 1)) days" +%Y%m)
    echo "$year$day" >> "$new/days"
    if [ ! -e "$new/$month.days" ]; then
      echo "$month" >> "$new/months"
      if [ ! -e "$new/$year.months" ]; then echo "$year" >> "$new/years"; fi
      echo "$month" >> "$new/$year.months"
    fi
    echo "$year$day" >> "$new/$month.days"
  done
  [ -s "$new/days" ] || { rmdir "$new"; echo "$(basename "$0"): $ARCHIVE: no directory of a day in it, as 2023/032" >&2; exit 2; }
  mv "$new"/* "$TREE/state/"
  rmdir "$new"
}
