#!/usr/bin/env bash
# Breaks the input, output or report of the built program by the system, and checks exit status and output.
#
#   bench/faults.sh [--program FILE]
#
#   --program FILE  navbridge (PROGRAM, or crates/navbridge/out/navbridge)
#
# For each error and each of some conversions it prints the exit status (3 for the input, 4 for the output, 7 for the report), and
# whether the output, as far as it can be read, is a prefix of that without an error. The end of a pipe whose writer has died is no
# error for a reader: the run must then be that of the bytes that came.
set -eu
. "$(dirname "$(readlink -f "$0")")/lib.sh"
program=''
options '--program:' "$@"
built program navbridge
plain frames streams
"$here/frames" mixed 300000 > "$here/mixed.few"
"$here/streams" make distinct 100000 > "$here/few.stream"
"$here/streams" rinex 2295 '20240101 000000 UTC' 18 < "$here/few.stream" > "$here/few.rinex" 2> "$here/report"
exec python3 - "$program" "$here" <<'PYTHON'
import fcntl, os, resource, signal, socket, struct, subprocess, sys, threading, time

program, here = os.path.abspath(sys.argv[1]), os.path.abspath(sys.argv[2])
rinex = ["--date", "20240101 000000 UTC", "--leap", "18"]
jobs = [
    ("capture to rinex", "examples/station.navcap", ["--from", "capture", "--to", "rinex", *rinex]),
    ("capture to list", "examples/station.navcap", ["--from", "capture", "--to", "list"]),
    ("stream to frames", here + "/mixed.few", ["--from", "stream", "--to", "frames"]),
    ("stream to rinex", here + "/few.stream", ["--from", "stream", "--to", "rinex", "--week", "2295", *rinex]),
    ("rinex to rinex", here + "/few.rinex", ["--from", "rinex", "--to", "rinex", *rinex]),
    ("rinex to rtcm", here + "/few.rinex", ["--from", "rinex", "--to", "rtcm"]),
]
names = {0: "input", 1: "output", 2: "report"}
wanted = {0: 3, 1: 4, 2: 7}
deviations = 0


def collect(descriptor, into):
    """Reads a descriptor to its end in a thread of its own."""
    def read():
        while True:
            some = os.read(descriptor, 1 << 16)
            if not some:
                break
            into.append(some)
        os.close(descriptor)
    reader = threading.Thread(target=read)
    reader.start()
    return reader


def run(words, source, broken=None, prepare=None, ignored=()):
    """The status and what came of output and report (None where it can't be seen); `prepare` breaks one of the three."""
    outs = {1: [], 2: []}
    readers, ends = [], {}
    for descriptor in (1, 2):
        if descriptor != broken:
            from_end, to_end = os.pipe()
            ends[descriptor] = to_end
            readers.append(collect(from_end, outs[descriptor]))
    given = os.open(source, os.O_RDONLY) if broken != 0 else None
    child = os.fork()
    if child == 0:
        try:
            signal.signal(signal.SIGPIPE, signal.SIG_IGN if signal.SIGPIPE in ignored else signal.SIG_DFL)
            signal.signal(signal.SIGXFSZ, signal.SIG_IGN if signal.SIGXFSZ in ignored else signal.SIG_DFL)
            resource.setrlimit(resource.RLIMIT_CORE, (0, 0))
            if given is not None:
                os.dup2(given, 0)
            for descriptor, end in ends.items():
                os.dup2(end, descriptor)
            if prepare:
                prepare()
            os.closerange(3, 64)
            os.execv(program, [program, *words])
        finally:
            os._exit(125)
    for end in ends.values():
        os.close(end)
    if given is not None:
        os.close(given)
    _, status = os.waitpid(child, 0)
    for reader in readers:
        reader.join()
    code = os.WEXITSTATUS(status) if os.WIFEXITED(status) else -os.WTERMSIG(status)
    return code, b"".join(outs[1]) if broken != 1 else None, b"".join(outs[2]) if broken != 2 else None


def told(code):
    return str(code) if code >= 0 else signal.Signals(-code).name


def judge(job, fault, got, whole, expect, seen=None):
    """Prints a line: `seen` is what came of the broken one, where it can be seen."""
    global deviations
    code, output, report = got
    pieces = [(output, whole[1]), (report, whole[2])] + ([(seen[0], seen[1])] if seen else [])
    fronts = all(piece is None or text.startswith(piece) for piece, text in pieces)
    right = code == expect and fronts
    deviations += not right
    sizes = "/".join("-" if piece is None else str(len(piece)) for piece in (output, report))
    if seen:
        sizes += f", {len(seen[0])} of {len(seen[1])}"
    print(f"{job:18} {fault:58} {told(code):>8} {'front' if fronts else 'NO FRONT':9} {sizes:22} {'' if right else 'DEVIATES, wanted %d' % expect}",
          flush=True)


def closed(descriptor):
    return lambda: os.close(descriptor)


def opened(descriptor, path, flags):
    def prepare():
        other = os.open(path, flags)
        os.dup2(other, descriptor)
    return prepare


def reset_after(data):
    """A socket that gives these bytes and is then reset by its other side."""
    listener = socket.create_server(("127.0.0.1", 0))
    near = socket.create_connection(listener.getsockname())
    far, _ = listener.accept()

    def send():
        far.sendall(data)
        time.sleep(0.4)
        far.setsockopt(socket.SOL_SOCKET, socket.SO_LINGER, struct.pack("ii", 1, 0))
        far.close()
    threading.Thread(target=send).start()
    return near


def inputs(job, words, source, data, whole):
    judge(job, "input: a directory", run(words, source, 0, opened(0, "/tmp", os.O_RDONLY)), whole, 3)
    judge(job, "input: a closed descriptor", run(words, source, 0, closed(0)), whole, 3)
    judge(job, "input: a descriptor for writing alone", run(words, source, 0, opened(0, "/dev/null", os.O_WRONLY)), whole, 3)
    from_end, to_end = os.pipe()
    fcntl.fcntl(from_end, fcntl.F_SETFL, os.O_NONBLOCK)
    judge(job, "input: a pipe that would block", run(words, source, 0, lambda: os.dup2(from_end, 0)), whole, 3)
    os.close(from_end), os.close(to_end)
    for part in (0, len(data) // 2, len(data)):
        near = reset_after(data[:part])
        judge(job, f"input: a socket that is reset after {part} bytes", run(words, source, 0, lambda: os.dup2(near.fileno(), 0)),
              whole, 3)
        near.close()
    part = len(data) // 2
    with open(here + "/half", "wb") as file:
        file.write(data[:part])
    half = run(words, here + "/half")
    from_end, to_end = os.pipe()
    writer = subprocess.Popen(["head", "-c", str(part), source], stdout=to_end)
    os.close(to_end)
    got = run(words, source, 0, lambda: os.dup2(from_end, 0))
    os.close(from_end)
    writer.wait()
    judge(job, f"input: a pipe whose writer dies after {part} bytes", got, half, half[0])


def writers(job, words, source, whole, broken):
    name, expect = names[broken], wanted[broken]
    text = whole[broken]
    judge(job, f"{name}: /dev/full", run(words, source, broken, opened(broken, "/dev/full", os.O_WRONLY)), whole, expect)
    judge(job, f"{name}: a closed descriptor", run(words, source, broken, closed(broken)), whole, expect)
    judge(job, f"{name}: a descriptor for reading alone", run(words, source, broken, opened(broken, "/dev/null", os.O_RDONLY)),
          whole, expect)
    for ignored, how in (((), "SIGPIPE as it is"), ((signal.SIGPIPE,), "SIGPIPE ignored")):
        from_end, to_end = os.pipe()
        os.close(from_end)
        judge(job, f"{name}: a pipe without a reader, {how}", run(words, source, broken, lambda: os.dup2(to_end, broken), ignored),
              whole, expect)
        os.close(to_end)
    # a reader that takes some bytes and goes; the pipe holds a page, so that a short text may be out before
    from_end, to_end = os.pipe()
    fcntl.fcntl(to_end, 1031, 4096)
    seen = []

    def take():
        seen.append(os.read(from_end, 100))
        os.close(from_end)
    taker = threading.Thread(target=take)
    taker.start()

    def only_writer():
        os.dup2(to_end, broken)
        os.close(from_end)
    got = run(words, source, broken, only_writer)
    os.close(to_end)
    taker.join()
    long = len(text) > 8192
    judge(job, f"{name}: a pipe whose reader goes after {len(seen[0])} bytes", got, whole,
          expect if long or got[0] == expect else 0, (seen[0], text))
    for ignored, how in (((), "SIGXFSZ as it is"), ((signal.SIGXFSZ,), "SIGXFSZ ignored")):
        for room in sorted({0, 1, min(700, len(text) - 1), len(text) // 2, len(text) - 1, len(text)}):
            path = here + "/limited"
            if os.path.exists(path):
                os.unlink(path)

            def narrow():
                other = os.open(path, os.O_WRONLY | os.O_CREAT, 0o644)
                os.dup2(other, broken)
                resource.setrlimit(resource.RLIMIT_FSIZE, (room, room))
            got = run(words, source, broken, narrow, ignored)
            with open(path, "rb") as file:
                held = file.read()
            judge(job, f"{name}: a file of at most {room} bytes, {how}", got, whole, expect if room < len(text) else 0,
                  (held, text))


print(f"{'job':18} {'fault':58} {'status':>8} {'':9} bytes of output/report")
for job, source, words in jobs:
    whole = run(words, source)
    if whole[0] != 0:
        print(f"{job:18} {'not built' if whole[0] == 2 else 'STATUS ' + told(whole[0])}")
        continue
    with open(source, "rb") as file:
        data = file.read()
    inputs(job, words, source, data, whole)
    writers(job, words, source, whole, 1)
    if whole[2]:
        writers(job, words, source, whole, 2)
print(f"{deviations} deviate")
PYTHON
