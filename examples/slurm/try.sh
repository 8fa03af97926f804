#!/usr/bin/env bash
# Tries submit.sh on a Slurm of four nodes on this machine: a year by days, a node killed while it works, a late file, a failed step.
set -eu
usage=$(cat << 'END'
try.sh [options] DIR

Makes DIR with an archive by bench/year.py, starts a Slurm in it by cluster.sh, merges the archive by submit.sh, kills the second node while
a step runs on it, and compares the year with the output of merge_archive.py for all files at once; then a late file, then a step that
fails. It stops the Slurm and leaves DIR. It is not part of CI: as root, on ports 17000 to 17004, about five minutes for a year.

  --days N, --stations N   of the archive (365, 40)
  --from FOLDER            an archive of bench/year.py instead (it is linked, and unchanged)
  --program FILE           navbridge (crates/navbridge/out/navbridge of this repository)
  --help                   this text

Exit status: 0 all correct; 1 something differs; 2 wrong arguments.
END
)
here=$(dirname -- "$(readlink -f -- "${BASH_SOURCE[0]}")")
days=365 stations=40 program=${PROGRAM:-$here/../../crates/navbridge/out/navbridge} dir='' from=''
while [ $# -gt 0 ]; do
  case $1 in
    --help) echo "$usage"; exit 0 ;;
    --days) days=$2; shift ;;
    --stations) stations=$2; shift ;;
    --from) from=$2; shift ;;
    --program) program=$2; shift ;;
    -*) echo "try.sh: $1: no such option; --help" >&2; exit 2 ;;
    *) dir=$1 ;;
  esac
  shift
done
{ [ -n "$dir" ] && [ ! -e "$dir" ]; } || { echo "try.sh: the name of a new directory is required" >&2; exit 2; }
[ -x "$program" ] || { echo "try.sh: $program: build it first (rt ci, or rt run in crates/navbridge), or name it by --program" >&2; exit 2; }
mkdir -p "$dir"
dir=$(readlink -f -- "$dir")
words=(--date "20240101 000000 UTC" --leap 18 --program "$(readlink -f -- "$program")")
bad=0

say() { printf '%4d s  %s\n' $((SECONDS - began)) "$1"; }
check() {
  if cmp -s "$1" "$2"; then say "$3: the same bytes"; else say "$3: differs"; bad=1; fi
}
tree() { "$here/submit.sh" --wait "${words[@]}" "$@" "$dir/archive" "$dir/tree" 2>&1 | sed 's/^/        /'; }

began=$SECONDS
if [ -n "$from" ]; then cp -al "$(readlink -f -- "$from")" "$dir/archive"; else "$here/../../bench/year.py" "$dir/archive" --days "$days" --stations "$stations" | sed 's/^/        /'; fi
"$here/../merge_archive.py" -o "$dir/once.rnx" "${words[@]}" --cover "$dir/once.cover" -q "$dir/archive"
say "all files at once by merge_archive.py"
"$here/cluster.sh" start "$dir/slurm" > /dev/null
trap '"$here/cluster.sh" stop "$dir/slurm"' EXIT
export SLURM_CONF=$dir/slurm/etc/slurm.conf
say "a Slurm of four nodes: $(sinfo -h -o '%D %t')"

(tree --cover) &
waiting=$!
until [ -e "$dir/tree/day" ]; do sleep 0.2; done
sleep 3
say "$("$here/cluster.sh" kill "$dir/slurm" 2)"
wait "$waiting"
say "the tree is done; by the log of jobs $(grep -c JobState=COMPLETED "$dir/slurm/log/jobs.txt") steps ended well, $(grep -c JobState=NODE_FAIL "$dir/slurm/log/jobs.txt" || true) lost its node"
check "$dir/once.rnx" "$dir/tree/year/2023.rnx" "the year"
check "$dir/once.cover" "$dir/tree/year/2023.cover" "its times covered"
"$here/cluster.sh" back "$dir/slurm" 2

tree --cover
say "submitted again: nothing to do"
late=$dir/archive/2023/002/LATE00XXX_R_20230020000_01D_MN.rnx
cp "$here/../merged.rnx" "$late"
before=$(find "$dir/tree" -path '*.parts' -prune -o -name '*.rnx' -printf '%p %T@\n' | sort)
tree --cover
after=$(find "$dir/tree" -path '*.parts' -prune -o -name '*.rnx' -printf '%p %T@\n' | sort)
say "a late file of a day; made again: $(comm -13 <(echo "$before") <(echo "$after") | sed "s|^$dir/tree/||; s|\.rnx .*||" | tr '\n' ' ')"
"$here/../merge_archive.py" -o "$dir/once.rnx" "${words[@]}" -q "$dir/archive"
check "$dir/once.rnx" "$dir/tree/year/2023.rnx" "the year with it"

echo "no navigation file" > "$dir/archive/2023/003/JUNK00XXX_R_20230030000_01D_MN.rnx"
tree --cover --strict || true
say "a file that is none, with --strict"
rm "$dir/archive/2023/003/JUNK00XXX_R_20230030000_01D_MN.rnx"
tree --cover
check "$dir/once.rnx" "$dir/tree/year/2023.rnx" "the year without it"
exit "$bad"
