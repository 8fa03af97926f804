#!/usr/bin/env bash
# What CI costs from scratch, crate by crate.
set -euo pipefail

usage() {
    cat <<'END'
usage: bench/gate.sh                       prints the table of the last run
       bench/gate.sh run [PROCESSORS]      runs CI from scratch over what is committed, in a clone, and prints
                                           the table; PROCESSORS as taskset has them, such as 0,1

For each crate the processor seconds of its proof, of its tests, of the mutation baseline (with an older kit among
the mutants), of its mutants, and of compiling a program; the number of checks of mutants, and the longest single
check by the clock. The last line has the sums: minutes by the clock and of processor time, and the speed of the
machine meanwhile, by a fixed loop.
END
}

top=$(git -C "$(dirname "$0")" rev-parse --show-toplevel)
record=${XDG_CACHE_HOME:-$HOME/.cache}/navbridge/gate.json

case ${1:-} in
'')
    if [ ! -e "$record" ]; then
        echo "gate.sh: no run is recorded on this machine: bench/gate.sh run" >&2
        exit 1
    fi
    ;;
run)
    room=$(mktemp -d)
    trap 'rm -rf "$room"' EXIT
    git clone -q "$top" "$room/clone"
    cd "$room/clone"
    lanes=${2:-}
    count=$(nproc)
    with=()
    if [ -n "$lanes" ]; then
        with=(taskset -c "$lanes")
        count=$("${with[@]}" nproc)
    fi
    # a kit whose `rt ci` keeps what has passed has a flag for all from nothing; in an older one it does that anyway
    gate=(rt ci)
    if grep -qe --anew "$(readlink -f "$(command -v rt)")"; then
        gate+=(--anew)
    fi
    status=0
    RT_JOBS=$count "${with[@]}" python3 "$top/bench/gate_times.py" run "$record" -- "${gate[@]}" || status=$?
    python3 "$top/bench/gate_times.py" show "$record"
    exit "$status"
    ;;
-h | --help)
    usage
    exit 0
    ;;
*)
    usage >&2
    exit 2
    ;;
esac
python3 "$top/bench/gate_times.py" show "$record"
