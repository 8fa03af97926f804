#!/usr/bin/env bash
# Merges an archive by days, months and years, by GNU parallel: on this machine or over hosts.
set -eu
usage=$(cat << 'END'
parallel.sh [options] ARCHIVE TREE

The tree of submit.sh (whose --help explains ARCHIVE and TREE) by GNU parallel: the days, then the months, then the years.

  --hosts FILE            hosts for parallel's --sshloginfile, a line each, as 4/host1; 2/: is two steps at a time on this machine. Without
                          it: this machine, with as many steps as processors. All hosts share ARCHIVE, TREE and navbridge.
  --date TEXT, --leap N   of the headers (now, 18); equal arguments give equal bytes
  --cover, --strict, --program FILE, --help as with submit.sh

If a host is lost, another repeats its steps. A step that fails is named; the steps after it are not made, all others are. The same
command again makes what is missing.

Exit status: 0 all made; 1 some step was not made; 2 wrong arguments, no program, or no GNU parallel.
END
)
here=$(dirname -- "$(readlink -f -- "${BASH_SOURCE[0]}")")
step=$here/step.sh
# shellcheck source=/dev/null
. "$here/plan.sh"
read_words "$usage" "$@"
parallel --version 2> /dev/null | grep -q '^GNU parallel' || { echo "parallel.sh: GNU parallel is not installed" >&2; exit 2; }
plan

if [ -z "$HOSTS" ]; then
  HOSTS=$TREE/state/hosts
  echo "$(nproc)/:" > "$HOSTS"
fi
status=0
for level in day month year; do
  parallel --will-cite --sshloginfile "$HOSTS" --workdir "$TREE" --env PATH,MERGE,ARCHIVE,TREE,DATE,LEAP,PROGRAM,COVER,STRICT \
    --retries 3 --joblog "$TREE/log/$level.joblog" "$step" "$level" '{}' < "$TREE/state/${level}s" || status=1
done
exit "$status"
