#!/usr/bin/env bash
# Makes allocations of the built program fail, one by one, and limits its address space.
#
#   bench/memory.sh [MOST] [--program FILE]      at most MOST allocations of a conversion fail, spread evenly; default 2,000
#
#   --program FILE  navbridge (PROGRAM, or crates/navbridge/out/navbridge)
#
# A library in front of the C library (bench/refuse.c) lets the n-th allocation fail, and in a second pass the n-th and all after it. Each
# run must exit with 6, or with 0 and the output and report of the run with ample memory; with 6 the output must be a prefix of that. Then
# `ulimit -v` is set lower and lower, which also limits what the C library itself allocates.
set -eu
. "$(dirname "$(readlink -f "$0")")/lib.sh"
program=''
options '--program: ..' "$@"
built program navbridge
${CC:-cc} -O2 -fno-builtin -shared -fPIC -o "$here/refuse.so" bench/refuse.c
plain streams captures
echo "what the program takes from the C library: $(nm -D "$program" | awk '$1 == "U" { sub("@.*", "", $2); print $2 }' | tr '\n' ' ')"
cat > "$here/galileo.navcap" <<'CAPTURE'
NAVCAP 1
0 P E11 B 010140000000000000000000000000
1 P E11 B 8000000000000000000038a9288000
2 P E11 B 020140000000000000000000000000
3 P E11 B 8000000000000000000008b5104000
4 P E11 B 030140000000000000000000000000
5 P E11 B 801ac0000000000000001aca444000
6 P E11 B 04014b000000000000000000000000
7 P E11 B 80000000000000000000371c7fc000
8 P E11 B 05000000000000000009ee00010000
9 P E11 B 800000000000000000003ba3d3c000
CAPTURE
# a file as the usual tools write it: version 4.00, CR LF, the exponent letter e, records of other systems between
"$here/streams" make distinct 1000 > "$here/few.stream"
"$here/streams" rinex 2295 '20240101 000000 UTC' 18 < "$here/few.stream" 2> "$here/report" | sed -E '
  1s/4\.01/4.00/
  5i > EPH R01 FDMA\nR01 2024 01 01 00 15 00 0.000000000000e+00 0.000000000000e+00 0.000000000000e+00
  23i > STO G31 LNAV\n    2024 01 01 00 00 00 GPUT\n     0.000000000000e+00
  s/([0-9])D([+-])/\1e\2/g
  s/^(     9\.999000000000e\+08) .*/\1/' | sed 's/$/\r/' > "$here/tools.rinex"
exec python3 - "$program" "$here" "${arguments[0]:-2000}" <<'PYTHON'
import os, resource, subprocess, sys

program, here, most = os.path.abspath(sys.argv[1]), os.path.abspath(sys.argv[2]), int(sys.argv[3])
rinex = ["--date", "20240101 000000 UTC", "--leap", "18"]
week = ["--week", "2295"]
jobs = [
    ("three.navcap to rinex", "examples/three.navcap", ["--from", "capture", "--to", "rinex", *week, *rinex]),
    ("three.navcap to list", "examples/three.navcap", ["--from", "capture", "--to", "list", *week]),
    ("five words of E11 to rinex", here + "/galileo.navcap", ["--from", "capture", "--to", "rinex", *week, *rinex]),
    ("five words of E11 to rtcm", here + "/galileo.navcap", ["--from", "capture", "--to", "rtcm", *week]),
    ("station.navcap to rinex", "examples/station.navcap", ["--from", "capture", "--to", "rinex", *rinex]),
    ("station.navcap to rinex3", "examples/station.navcap", ["--from", "capture", "--to", "rinex3", *rinex]),
    ("few frames to frames", here + "/few.stream", ["--from", "stream", "--to", "frames"]),
    ("few frames to rinex", here + "/few.stream", ["--from", "stream", "--to", "rinex", *week, *rinex]),
    ("a file of the usual tools to rtcm", here + "/tools.rinex", ["--from", "rinex", "--to", "rtcm"]),
    ("the same to rinex", here + "/tools.rinex", ["--from", "rinex", "--to", "rinex", *rinex]),
    ("the same to merged", here + "/tools.rinex", ["--from", "rinex", "--to", "merged", *rinex]),
    ("the same to cover", here + "/tools.rinex", ["--from", "rinex", "--to", "cover"]),
    ("two satellites, seed to capture", "/dev/null",
     ["--from", "seed", "--to", "capture", "--seed", "7", "--sats", "2", *week]),
    ("two satellites, seed to count", "/dev/null",
     ["--from", "seed", "--to", "count", "--seed", "7", "--sats", "2", *week]),
]


def run(source, words, settings=None, limit=None):
    def narrow():
        resource.setrlimit(resource.RLIMIT_AS, (limit, limit))
        resource.setrlimit(resource.RLIMIT_CORE, (0, 0))
    with open(source, "rb") as given:
        done = subprocess.run([program, *words], stdin=given, stdout=subprocess.PIPE, stderr=subprocess.PIPE, timeout=120,
                              env={**os.environ, **(settings or {})}, preexec_fn=narrow if limit else None)
    return done.returncode, done.stdout, done.stderr


def is_right(got, whole):
    return got == whole or (got[0] == 6 and whole[1].startswith(got[1]) and whole[2].startswith(got[2]))


def refuse(source, words, whole, how):
    """Refuses the first request, the second, and so on until a run asks for no more; numbers, answers, wrong ones."""
    told = here + "/told"
    preload = {"LD_PRELOAD": here + "/refuse.so", "REFUSE_TOLD": told}
    answers, wrong, number = {}, [], 1
    requests = count_requests(source, words, preload)
    step = max(1, requests // most)
    while number <= requests:
        if os.path.exists(told):
            os.unlink(told)
        got = run(source, words, {**preload, how: str(number)})
        refused = os.path.exists(told)
        answers[got[0]] = answers.get(got[0], 0) + 1
        if not is_right(got, whole) or not refused:
            wrong.append((number, got[0], len(got[1])))
        number += step
    return requests, answers, wrong


def count_requests(source, words, preload):
    """The number of requests: the least number that is not refused, less one."""
    told = preload["REFUSE_TOLD"]

    def asks(number):
        if os.path.exists(told):
            os.unlink(told)
        run(source, words, {**preload, "REFUSE_AT": str(number)})
        return os.path.exists(told)
    low, high = 0, 1
    while asks(high):
        low, high = high, 2 * high
    while high - low > 1:
        middle = (low + high) // 2
        low, high = (middle, high) if asks(middle) else (low, middle)
    return low


def show(name, what, answers, wrong):
    told = ", ".join(f"{count} with {status}" for status, count in sorted(answers.items()))
    print(f"{name:34} {what:38} {told or '-':32} {'as promised' if not wrong else 'DEVIATES: ' + str(wrong[:5])}", flush=True)


for name, source, words in jobs:
    whole = run(source, words)
    if whole[0] != 0:
        print(f"{name:34} {'not built' if whole[0] == 2 else 'STATUS %d' % whole[0]}")
        continue
    for how in ("REFUSE_AT", "REFUSE_FROM"):
        requests, answers, wrong = refuse(source, words, whole, how)
        show(name, f"{requests} requests, {'one' if how == 'REFUSE_AT' else 'all behind'} refused", answers, wrong)
    # the address space, by 32 kB: from what a run without words needs at least to what the whole job needs
    def fits(limit):
        return run("/dev/null", [], limit=limit)[0] == 2
    low = 1 << 20
    while not fits(low):
        low += 1 << 15
    answers, wrong, limit, right = {}, [], low, 0
    while right < 8 and limit < low + (1 << 28):
        got = run(source, words, limit=limit)
        answers[got[0]] = answers.get(got[0], 0) + 1
        if not is_right(got, whole):
            wrong.append((limit, got[0], len(got[1])))
        right = right + 1 if got == whole else 0
        limit += 1 << 15
    show(name, f"from {low >> 10} to {limit >> 10} kB of addresses", answers, wrong)
PYTHON
