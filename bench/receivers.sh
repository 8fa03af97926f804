#!/usr/bin/env bash
# Measures navlog on receiver logs: an hour of UBX with RXM-RAWX of 100 signals a second and RXM-SFRBX of 15 satellites of GPS and 15 of
# Galileo, and logs of false sync bytes only.
#
#   bench/receivers.sh [--navlog FILE] [--folder DIRECTORY]
#
#   --navlog FILE       navlog (NAVLOG, or crates/navlog/out/navlog)
#   --folder DIRECTORY  of the logs (by default a temporary one)
set -eu
. "$(dirname "$(readlink -f "$0")")/lib.sh"
navlog='' folder=''
options '--navlog: --folder:' "$@"
built navlog navlog
if [ -z "$folder" ]; then
  work_folder
  folder=$work
fi
folder=$(path_of "$folder")
mkdir -p "$folder"

python3 - "$folder" <<'PYTHON'
import os, random, struct, sys

folder = sys.argv[1]
random.seed(7)


def ubx(kind, number, payload):
    body = struct.pack("<BBH", kind, number, len(payload)) + payload
    a = b = 0
    for byte in body:
        a = (a + byte) & 255
        b = (b + a) & 255
    return b"\xb5\x62" + body + bytes((a, b))


def words(system, satellite, signal, count):
    data = b"".join(struct.pack("<I", random.getrandbits(32)) for _ in range(count))
    return ubx(2, 0x13, bytes((system, satellite, signal, 0, count, 1, 2, 0)) + data)


noise = [bytes(random.getrandbits(8) for _ in range(3200)) for _ in range(16)]
with open(os.path.join(folder, "hour.ubx"), "wb") as out:
    for second in range(3600):
        head = struct.pack("<dHbBBBBB", 100000.0 + second - 0.001, 2295, 18, 100, 1, 1, 0, 0)
        out.write(ubx(2, 0x15, head + noise[second % 16]))
        for satellite in range(1, 16):
            if second % 6 == 0:
                out.write(words(0, satellite, 0, 10))
            if second % 2 == 0:
                out.write(words(2, satellite, 1, 9))
                out.write(words(2, satellite, 5, 9))
for name, piece in (("false.ubx", b"\xb5\x62\xff\xff"), ("false.sbf", b"$@"), ("noise.ubx", b"\xb5\x62\x02\x13\x00\x40\x00\x00")):
    with open(os.path.join(folder, name), "wb") as out:
        out.write(piece * (64_000_000 // len(piece)))
PYTHON

for log in hour.ubx false.ubx noise.ubx false.sbf; do
    form=${log##*.}
    bytes=$(stat -c %s "$folder/$log")
    best=$(least 3 "$folder/$log" "$navlog" --from "$form")
    echo "$log: $bytes bytes, $((bytes * 1000 / best)) MB/s"
done
