"""What an archive has: merged by merge_archive, then read again only where a line or a source is asked for."""
import collections
import glob
import multiprocessing
import os
import re
import signal
import subprocess
import tempfile
import zlib

import merge_archive as merge

# names of the numbers of a record, in the order of RINEX 4.01, tables A5 and A8; the transmission time is left out
ORBIT = ("af0", "af1", "af2", "{}", "Crs", "Delta n", "M0", "Cuc", "e", "Cus", "sqrt(A)", "Toe", "Cic", "OMEGA0", "Cis", "i0",
         "Crc", "omega", "OMEGA DOT", "IDOT")
FIELDS = {
    "G": (*(it.format("IODE") for it in ORBIT), "codes on L2", "week", "L2 P flag", "SV accuracy", "health", "TGD", "IODC",
          "fit interval"),
    "E": (*(it.format("IODnav") for it in ORBIT), "data sources", "week", "spare", "SISA", "health", "BGD E5a/E1", "BGD E5b/E1",
          "spare"),
}
WHOLE = {"IODE", "IODnav", "Toe", "codes on L2", "data sources", "week", "L2 P flag", "health", "IODC", "fit interval"}
Ephemeris = collections.namedtuple("Ephemeris", "satellite toe issue health lines")


class Archive(merge.Tool):
    """A run of merge_archive that does not take the site's own files as input."""

    def __init__(self, args, pages):
        super().__init__(args)
        self.pages = pages

    def results(self):
        return [*super().results(), *((page, True) for page in self.pages)]


def run(tool, to, source, result):
    """One conversion by navbridge, which reads GPS and Galileo I/NAV, of a merged file."""
    with open(source, "rb") as file, open(result, "wb") as output:
        ran = subprocess.run([tool.navbridge, "--from", "rinex", "--to", to], stdin=file, stdout=output, stderr=subprocess.DEVNULL,
                             check=False)
    if ran.returncode:
        raise merge.Failed(f"navbridge --to {to} ended with exit status {ran.returncode}")


def records(path):
    """The records of a file that navconvert wrote: the number of the first line, and the lines with their ends."""
    begun, lines = 0, []
    with open(path, "rb") as file:
        for number, line in enumerate(file, 1):
            if line[:1] == b">":
                if lines:
                    yield begun, lines
                begun, lines = number, []
            if begun:
                lines.append(line)
    if lines:
        yield begun, lines


def ephemerides(merged, listed):
    """The distinct ephemerides in the order of Toe and satellite: satellite, issue and Toe as `--to list` prints them."""
    with open(listed, encoding="ascii") as file:
        rows = (words for words in map(str.split, file) if words[1] == "EPH")
        for number, lines in records(merged):
            if lines[0][2:5] == b"EPH" and (lines[0][6:7], lines[0][10:14]) in ((b"G", b"LNAV"), (b"E", b"INAV")):
                words = next(rows)
                if int(words[0]) != number:
                    raise merge.Failed(f"navbridge --to list: line {words[0]} in place of {number}")
                health = int(float(lines[7][23:42].replace(b"D", b"E")))
                yield Ephemeris(words[2], int(words[4]) * 604800 + int(words[5]), int(words[3]), health, lines)


def text_of(lines):
    """A record as it compares: without its title and its transmission time."""
    return b"".join(lines[1:8]) + lines[8][23:42].rstrip()


def numbers_of(lines):
    """The numbers of a record by their names, as texts; whole ones as digits."""
    texts = [lines[1][at:at + 19] for at in (23, 42, 61)]
    texts += [line[at:at + 19] for line in lines[2:8] for at in (4, 23, 42, 61)] + [lines[8][23:42]]
    named = {"Toc": lines[1][4:23].decode()}
    for name, text in zip(FIELDS[lines[1][:1].decode()], texts):
        value = text.decode().strip()
        if name != "spare":
            named[name] = str(int(float(value.replace("D", "E")))) if value and name in WHOLE else value
    return named


def cover_of(path):
    """The ranges of a file that `--to cover` wrote, by satellite."""
    ranges = collections.defaultdict(list)
    with open(path, encoding="ascii") as file:
        for satellite, start, end in map(str.split, file):
            ranges[satellite].append((int(start), int(end)))
    return dict(ranges)


# --- the second look: who wrote a file, which lines were rejected, which file has which version of an ephemeris

LOOK = {}  # what the workers need, set before they start
HEAD = 1 << 13  # bytes in which the line with the program is
EPOCH = re.compile(rb"\n([GE][^\n]{22})")  # satellite and epoch
# the same where navbridge reads the record, by version; Galileo's of version 3 are told apart by their sixth line
EPOCHS = {"4": re.compile(rb"\n>.EPH.(?:G...LNAV|E...INAV)[^\n]*" + EPOCH.pattern), "3": EPOCH}
EPOCH2 = re.compile(rb"\n([ \d]\d) ([ \d]\d) ([ \d]\d) ([ \d]\d) ([ \d]\d) ([ \d]\d) ?([ \d]\d)\.")  # of GPS in version 2


def content_of(name, whole):
    """A file's bytes, unpacked: all, or so many that the header's first lines are there."""
    with open(name, "rb") as file:
        data = file.read(-1 if whole else HEAD)
        if data[:2] == b"\x1f\x8b" and not whole:
            return zlib.decompressobj(31).decompress(data, HEAD)
        return merge.unpacked(data + file.read())[0] if whole or data[:2] == b"\x1f\x9d" else data


def producer_of(data):
    """The program and the agency that a header names."""
    found = re.search(rb"^([^\r\n]{60})PGM / RUN BY / DATE", data[:HEAD], re.M)
    text = found[1].decode("latin-1") if found else ""
    return [" ".join("".join(c if c.isprintable() else " " for c in part).split()) for part in (text[:20], text[20:40])]


def sections_of(data):
    """What is below each header of a file: form, how many lines are above, where it begins and ends."""
    begins = merge.headers_of(data)
    for begin, end in zip(begins, [*begins[1:], len(data)]):
        try:
            form, start = merge.version_of(data[begin:end])
        except merge.Unusable:
            continue
        yield form, data.count(b"\n", 0, begin + start), begin + start, end


def epoch_of(form, found):
    """Satellite and epoch as version 4 has them, blanks as zeros."""
    if form != "2N":
        return found[1].replace(b" ", b"0")
    satellite, year, *others = map(int, found.groups())
    return b"G%02d0%d" % (satellite, year + (1900 if year >= 80 else 2000)) + b"".join(b"0%02d" % it for it in others)


def candidates(form, data, begin, end):
    """The records of a section that could be one of the wanted: where each begins and ends. Those of which navbridge reads none are left
    out, and a last one whose last line has no end."""
    for found in (EPOCH2 if form == "2N" else EPOCHS[form]).finditer(data, begin - 1, end) if form in ("2N", "3", "4") else ():
        if epoch_of(form, found) not in LOOK["epochs"]:
            continue
        start, at = found.start() + 1, found.start(1)
        after = merge.STARTS[form[0]].search(data, at, end)
        stop = after.start() + 1 if after else end
        if data[stop - 1:stop] != b"\n":
            continue
        titled = data[data.rfind(b"\n", 0, at - 1) + 1:at].startswith(b">")
        if form != "3" or not titled and (data[at:at + 1] == b"G" or merge.message_at(data, at, stop) == "I/NAV"):
            yield start, stop


def give_wanted(call, number, form, above, data, begin, end):
    """Hands the candidates of a section to navconvert; gives for each the lines that it has before it, the file, and its line."""
    given, texts, lines = [], [], call.lines
    for start, stop in candidates(form, data, begin, end):
        above += data.count(b"\n", begin, start)
        given.append((lines, number, above + 1))
        texts.append(data[start:stop])
        lines += data.count(b"\n", start, stop)
        begin = start
    call.give(b"".join(texts), lines - call.lines)
    return given


def give_all(call, parts, number, form, above, lines):
    """Hands all records of a section to navconvert; gives the last one as rejected if its last line has no end."""
    width = 2 if form[0] == "2" else 1
    begins = [at for at, line in enumerate(lines) if (line[:1] == b">" if form == "4" else line[:width].strip(b" \r"))]
    if not begins:
        return []
    cut = [(number, above + begins[-1] + 1, "cut", "")] if lines[-1] else []
    first, end = begins[0], begins[-1] if cut else len(lines) - 1
    parts.append((call.lines, number, above + first, lines[first:end]))
    call.give(b"\n".join(lines[first:end]) + b"\n", end - first)
    return cut


def look_again(files):
    """Reads files again, each (number, name, whether for rejected records, whether for versions); gives producers as
    (file, program, agency), rejected records as (file, line, reason, text), and (version, file, line)."""
    producers, rejected, versions = [], [], []
    with tempfile.TemporaryDirectory(dir=LOOK["work"]) as place:
        calls, parts, given = {}, collections.defaultdict(list), collections.defaultdict(list)

        def call(form, to):
            if (form, to) not in calls:
                output = os.path.join(place, f"{form}.{to}")
                calls[form, to] = merge.Call(LOOK["program"], form, to, output, merge.PART_DATE if to == "rinex" else [])
            return calls[form, to]

        for number, name, for_rejected, for_versions in files:
            try:
                data = content_of(name, for_rejected or for_versions)
            except (merge.Unusable, OSError, zlib.error):
                continue
            producers.append((number, *producer_of(data)))
            for form, above, begin, end in sections_of(data) if for_rejected or for_versions else ():
                if for_rejected:
                    rejected += give_all(call(form, "list"), parts[form], number, form, above, data[begin:end].split(b"\n"))
                if for_versions:
                    given[form] += give_wanted(call(form, "rinex"), number, form, above, data, begin, end)
        for (form, to), one in calls.items():
            status, refused, counts = one.end()
            if status:
                raise merge.Failed(f"navconvert -f {merge.FORMATS[form[0]]} -t {to} ended with exit status {status}")
            if to == "list":
                bases = [it[0] for it in parts[form]]
                for line, reason in refused:
                    base, number, above, lines = parts[form][merge.bisect.bisect_left(bases, line) - 1]
                    text = b"".join(lines[line - base - (form != "4"):][:1])[:23].decode("latin-1")
                    text = "".join(c if c.isprintable() else "?" for c in text).strip()
                    rejected.append((number, line - base + above, reason, text))
            else:
                wrong = {merge.bisect.bisect_left([it[0] for it in given[form]], line) - 1 for line, _ in refused}
                good = [it for at, it in enumerate(given[form]) if at not in wrong]
                if counts["items"] == len(good):  # else one was skipped, and the order says nothing
                    for (_, number, line), (_, text) in zip(good, records(os.path.join(place, f"{form}.rinex"))):
                        version = LOOK["versions"].get(text_of(text))
                        if version is not None:
                            versions.append((version, number, line))
    return producers, rejected, versions


def begin_worker():
    """A worker ends when it is told to, and leaves an interrupt to the process that started it."""
    signal.signal(signal.SIGTERM, signal.SIG_DFL)
    signal.signal(signal.SIGINT, signal.SIG_IGN)
    signal.pthread_sigmask(signal.SIG_UNBLOCK, merge.STOPS)


def workers(jobs):
    """A pool of processes. Signals wait until a worker has handlers of its own: before, Python's own work after a fork swallows them."""
    signal.pthread_sigmask(signal.SIG_BLOCK, merge.STOPS)
    try:
        return multiprocessing.get_context("fork").Pool(jobs, begin_worker)
    finally:
        signal.pthread_sigmask(signal.SIG_UNBLOCK, merge.STOPS)


def second_look(tool, rows, epochs, texts, work):
    """Looks again at all files that were read; epochs and texts are those of versions that contradict each other."""
    LOOK.update(program=tool.program, epochs=epochs, versions={text: at for at, text in enumerate(texts)}, work=work)
    state = lambda row: (row["name"], row["size"], row["when"])
    without = set()  # files of parts that have no such epoch
    for part in glob.glob(os.path.join(glob.escape(tool.parts), "*.rnx")) if epochs else ():
        with open(part, "rb") as file:
            if epochs.isdisjoint(it.replace(b" ", b"0") for it in EPOCH.findall(file.read())):
                without.update(map(state, merge.read_rows(part[:-len("rnx")] + "files")[1]))
    files = [(number, row["name"], bool(row["refused"]), bool(epochs) and state(row) not in without)
             for number, row in enumerate(rows) if row["outcome"] in merge.READS]
    producers, rejected, versions = {}, [], []
    chunks = [files[at:at + 64] for at in range(0, len(files), 64)]
    with workers(tool.args.jobs) as pool:
        for some, of_records, of_versions in pool.imap_unordered(look_again, chunks):
            producers.update((number, (program, agency)) for number, program, agency in some)
            rejected += of_records
            versions += of_versions
    return producers, sorted(rejected), sorted(versions)
