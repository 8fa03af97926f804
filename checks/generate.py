#!/usr/bin/env python3
"""Writes the generated parts of the pages from the sources, or compares them.

    checks/generate.py [--check] [--write]

    --check  prints each page whose generated parts differ (without an option too)
    --write  writes them

A generated part is between <!-- generated: NAME --> and <!-- end -->; a word after NAME is its argument. NAME is

    toolchain    the toolchain (`rt version`; unchanged if rt is not installed)
    layers       the crates, by the longest chain below each (crates.txt)
    crates       each crate, the first sentence of its sources, and the crates that it uses
    definitions  each file of definitions, and its first comment line
    contracts    public functions of the crates in the heading: the first sentence of their comment, if it has four words, and their
                 clauses
    conversions  formats that are read and written, from the table in the man page of navbridge
    runs         the runs of examples/runs.txt
    messages     the fields of RTCM messages 1019 and 1046; words, subframes: those of I/NAV and LNAV (specs/ of their crates)
    systems, records  the fields of the messages of further systems, the columns of their records (tables of nav_rows, rinex_write)
    parity, ura  the parity equations of LNAV; the values of URA
    fields       the fields of ephemerides and ionosphere parameters, their widths and scales (crates/nav_eph/src)
    statuses     the exit statuses in the man pages; the numbers are those of the sources
    reasons PAGE the reasons of rejection in the man page docs/PAGE.1; they are those that the sources print
    counts PAGE  the counts of a report there, likewise
    codes, calls the return codes and the functions of bindings/c/navbridge.h
    outcomes     the outcomes of a file in examples/merge_archive.py
    results FILE a table of bench/results

A man page or script with other numbers or reasons than the sources is named, and one with other options than --help or the sources;
the exit status is then 1.

Exit status: 0 they are the same, or written; 1 they differ; 2 the arguments are wrong.
"""

import ast
import glob
import os
import re
import shutil
import subprocess
import sys

TOP = os.path.join(os.path.dirname(os.path.realpath(__file__)), "..")
if sys.argv[1:] in (["-h"], ["--help"]):
    sys.exit(print(__doc__, end=""))
if not set(sys.argv[1:]) <= {"--check", "--write"}:
    print("generate: only --check and --write are options; --help", file=sys.stderr)
    sys.exit(2)
os.chdir(TOP)


def read(path):
    with open(path, encoding="utf-8") as it:
        return it.read()


def first_sentence(text):
    text = re.sub(r"\[`(?:crate::)?([^`]*`)\](\([^)]*\))?", r"`\1", " ".join(text.split()))
    found = re.match(r".*?[^.\d][.:](?= [A-Z`]| ?$)", text + " ")
    return (found[0] if found else text).rstrip(".: ").replace("|", "\\|")


wrong = 0


def tell(what):
    global wrong
    wrong += 1
    print(what)


def found_in(path, pattern):
    """The part of a file that fits, of which a table is made."""
    it = re.search(pattern, read(path), re.M | re.S)
    if not it:
        sys.exit(f"generate: {path}: nothing in it fits {pattern}: change checks/generate.py with it")
    return it[1]


def holder(pattern):
    """The file of sources or definitions that has this."""
    found = [it for it in sorted(glob.glob("crates/*/s[rp]*/**/*.*t*", recursive=True)) if os.path.isfile(it) and re.search(pattern, read(it), re.M)]
    if len(found) != 1:
        sys.exit(f"generate: {len(found)} files have {pattern}, and should be one: change checks/generate.py with them")
    return found[0]


crates = {}
for line in read("crates.txt").splitlines():
    head, _, below = line.split("#")[0].partition(":")
    if head.strip():
        crates[head.split()[0]] = below.split()


def depth(crate):
    return 1 + max((depth(it) for it in crates[crate] if it in crates), default=-1)


def order():
    return sorted(crates, key=lambda it: (it.endswith("_tests"), depth(it), list(crates).index(it)))


def head_of(crate):
    path = next(it for it in (f"crates/{crate}/src/lib.rt", f"crates/{crate}/src/main.rt") if os.path.exists(it))
    lines = re.match(r"(?://![^\n]*\n)*", read(path))[0].replace("//!", "")
    return first_sentence(lines.split("\n \n")[0].split("\n\n")[0])


def table(head, rows):
    return ["| " + " | ".join(it) + " |" for it in [head, ["---"] * len(head)] + rows]


def layers(_):
    found = {}
    for crate in order():
        if not crate.endswith("_tests"):
            found.setdefault(depth(crate), []).append(f"`{crate}`")
    return table(["Layer", "Crates"], [[str(at), ", ".join(it)] for at, it in found.items()])


def crate_rows(_):
    return table(["Crate", "What it is", "Uses"], [
        [f"`{it}`", head_of(it), ", ".join(f"`{below}`" for below in crates[it] if below in crates) or "none"] for it in order()
    ])


def definitions(_):
    rows, bad = [], []
    for crate in order():
        for path in sorted(glob.glob(f"crates/{crate}/specs/*.antt")):
            stem = os.path.basename(path)[:-5]
            if stem == "Lib":
                continue
            head = re.match(r"(?:--[^\n]*\n)+", read(path))
            if not head:
                bad.append(path)
                continue
            text = first_sentence(head[0].replace("-- ", "").replace("--", ""))
            rows.append([f"`{crate}`", f"`{stem}`", text])
    for path in bad:
        print(f"{path}: no comment line at its head")
    if bad:
        sys.exit(1)
    return table(["Crate", "File", "Content"], rows)


def contracts(within):
    """Functions at the top of a file and methods of public traits; other methods where a clause has a name."""
    rows = []
    function = r"((?:^[ \t]*///[^\n]*\n)+)((?:^[ \t]*(?:#\[|ghost )[^\n]*\n)*)^([ \t]*)(pub )?(?:unsafe )?(?:extern \"C\" )?fn (\w+)"
    for crate in re.findall(r"`([^`]+)`", within):
        for path in sorted(glob.glob(f"crates/{crate}/src/**/*.rt", recursive=True)):
            text = read(path)
            traits = [range(it.start(), it.end()) for it in re.finditer(r"^pub (?:unsafe )?trait .*?^}", text, re.M | re.S)]
            found = list(re.finditer(function + r"|^(?:pub )?(?:impl|struct|enum|mod|trait)\b[^\n]*", text, re.M))
            of = ""
            for at, it in enumerate(found):
                if not it[5]:
                    named = re.match(r"(?:pub )?(?:impl|trait)\b(?:<[^{]*?>)? ?(?:[^{]*\bfor )?&?(?:mut )?(\w+)", it[0])
                    of = f"{named[1]}::" if named else ""
                if not it[5] or not (it[4] or any(it.start() in trait for trait in traits)):
                    continue
                rest = text[it.end() : found[at + 1].start() if at + 1 < len(found) else len(text)]
                head = re.split(r"\n[ \t]*\{[ \t]*\n|\n[ \t]*\{\}|;[ \t]*(?:\n|$)", rest)[0]
                names = list(dict.fromkeys(re.findall(r"\bensures\*?\s+(\w+)\s*\{", head)))
                if "ensures" not in head or it[3] and it[4] and not names:
                    continue
                said = first_sentence(re.split(r"\n[ \t]*\n", it[1].replace("///", ""))[0])
                if len(said.split()) < 4:
                    continue
                place = f"`{of if it[3] else ''}{it[5]}`" + (": " + ", ".join(f"`{name}`" for name in names) if names else "")
                rows.append([said, place])
    return table(["Guarantee", "Function: clauses"], rows)


def conversions(_):
    of = {}
    for it in re.finditer(r"^\.It (\w+) Ta ([^\n]*?) Ta", read("docs/navbridge.1"), re.M):
        of.setdefault(it[1], set()).update(it[2].split(", "))
    names = [("RTCM 3 stream", "stream"), ("RINEX 4", "rinex"), ("RINEX 3.02 to 3.05", "rinex3"), ("RINEX 2", "rinex2"), ("capture", "capture")]
    columns = ["rinex", "rinex3", "rtcm", "list", "merged", "cover", "capture", "count", "frames"]
    # navconvert converts streams and files of all systems, also to these
    of["stream"] |= {"list", "count"}
    of["rinex"] |= {"count"}
    of["rinex3"] |= {"count"}
    of["rinex2"] = of["rinex3"]
    # a log is read as its capture
    rows = [("u-blox or Septentrio log", of["capture"] | {"capture"})] + [(name, of[it]) for name, it in names]
    made = table(["From, to", *(f"`{it}`" for it in columns)], [[name, *("x" if it in targets else "" for it in columns)] for name, targets in rows])
    # without blanks, as the README is short
    return [re.sub(r" ?\| ?", "|", line) for line in made]


def runs(_):
    rows = []
    for line in read("examples/runs.txt").splitlines():
        if line and not line.startswith("#"):
            status, given, output, report, options = line.split("|")
            short = re.sub(r' --date "[^"]*"| --leap \d+', "", options)
            rows.append([f"`{given}`", f"`{short}`", *(f"`{it}`" if it != "-" else "" for it in (output, report)), status])
    return table(["Input", "Options of `navbridge`", "Output", "Report", "Status"], rows)


def toolchain(_):
    if not shutil.which("rt"):
        return None
    return ["`" + subprocess.run(["rt", "version"], capture_output=True, text=True).stdout.strip() + "`"]


def layouts(path, word, number):
    """Lists of fields in the definitions, each with its width in bits."""
    rows = []
    for it in re.finditer(rf"^fields_{word}(\d+) \w =\n(.*?)\n\n", read(path), re.M | re.S):
        found = re.findall(r"(?:unsigned|signed|reserved) (\d+)(?: (?:\w\.)?(\w+))?", it[2])
        names = [f"{number if name.isdigit() else name or 'reserved'} {bits}" for bits, name in found]
        rows.append([it[1], str(sum(int(bits) for bits, _ in found)), ", ".join(names)])
    return table([number.capitalize(), "Bits", "Fields in order, with their widths"], rows)


def messages(_):
    return layouts(holder(r"^fields_1019 \w"), "", "message number")


def table_of(path, name):
    """The entries of a constant array, each a macro, its arguments, and the name in the comment; those of with_orbit are its own."""
    found = found_in(path, rf"^pub const {name}: \[\w+; \d+\] = (.*?\n[\])];)").replace("TOE_WEEK,", "steps!(1, 0),")
    entry = r"(\w+)!\(((?:[^()]|\([^()]*(?:\([^()]*\)[^()]*)*\))*)\),?(?: // (\w+))?"
    orbit = "" if "with_orbit!" not in found else found_in(path, r"^macro_rules! with_orbit \{(.*?)^\}")
    if orbit:
        before, toe, after = re.search(r"with_orbit!\(\s*\[(.*?)\],\s*([^/\n]*) // toe\s*\[(.*?)\]\s*\);", found, re.S).groups()
        found = before + "\n" + re.search(r"\$\(\$before,\)\*(.*?)\$\(\$after,\)\*", orbit, re.S)[1].replace("$toe,", toe) + after
    return re.findall(entry, found)


def systems(_):
    codings = {"unsigned": "u", "signed": "s", "magnitude": "m", "constant": "u"}
    path, rows = holder(r"^pub const FIELDS_1020: "), []
    for number, count in re.findall(r"^pub const FIELDS_(\d+): \[Field; (\d+)\]", read(path), re.M):
        fields, bits = [], 0
        found = table_of(path, f"FIELDS_{number}")
        for macro, words, name in found:
            if name == "filler":
                continue
            width, *limits = [it.strip().replace("_", "") for it in words.split(",")]
            bits += int(width)
            shown = f" ({limits[0]} to {limits[1]})" if macro == "unsigned" and limits else ""
            fields.append(f"{name if macro != 'reserved' else 'reserved'} {width}{codings.get(macro, '')}{shown}")
        if len(found) != int(count):
            sys.exit(f"generate: {len(found)} fields of {number}, not {count}: change checks/generate.py with {path}")
        if number not in ("1019", "1046"):
            rows.append([number, str(bits), ", ".join(fields)])
    return table(["Message number", "Bits", "Fields in order, with their widths"], rows)


def records(_):
    path, rows = holder(r"^pub const FDMA: "), []
    names = {"FDMA": "R FDMA", "D1": "C D1, D2", "FNAV": "E FNAV", "QZSS": "J LNAV", "NAVIC": "I LNAV", "SBAS": "S SBAS"}
    for name, title in names.items():
        lengths = [int(it) for it in found_in(path, rf"^pub const {name}_ROWS: \[usize; \d+\] = \[(.*?)\];").split(",")]
        columns = []
        for macro, words, field in table_of(path, name):
            first = words.split(",")[0].strip().replace("_", "")
            if macro == "decimal":
                factor, ten = (it.strip() for it in words.split(",")[:2])
                unit = " ".join([factor] * (factor != "1") + [f"10^{ten}"])
            else:
                unit = {"power": f"2^{first}", "semicircles": f"pi 2^{first}", "steps": first if first != "1" else ""}[macro]
            columns.append(f"{field} {unit}".strip() if field else "0")
        if len(columns) != sum(lengths):
            sys.exit(f"generate: {len(columns)} columns of {name}, not {sum(lengths)}: change checks/generate.py with {path}")
        lines = []
        for length in lengths:
            lines.append(", ".join(columns[:length]))
            columns = columns[length:]
        rows.append([title, " / ".join(lines)])
    return table(["Title", "Lines, with the unit of each number"], rows)


def words(_):
    return layouts(holder(r"^fields_word1 \w"), "word", "word type")


def subframes(_):
    """Bit n of the standard is at offset n - 1."""
    rows = []
    for it in re.finditer(r"^(head|subframe\d|page\d+)_at bits at = record \{\n(.*?)^\}", read(holder(r"^subframe1_at bits")), re.M | re.S):
        fields = []
        for name, value in re.findall(r"^  (\w+) = (.*);", it[2], re.M):
            ranges = [(int(a) + 1, int(a) + int(b)) for a, b in re.findall(r"\(at \+ (\d+)\) (\d+)", value)]
            if it[1] == "head" or name != "tow_count":
                fields.append(f"{name} " + " and ".join(f"{a}-{b}" if a < b else f"{a}" for a, b in ranges))
        name = "all" if it[1] == "head" else re.sub(r"^(\D+)", lambda of: "" if of[1] == "subframe" else "4, page ", it[1])
        rows.append([name, ", ".join(fields)])
    return table(["Subframe", "Fields, with their bits"], rows)


def parity(_):
    path, rows = holder(r"^row_25 ="), []
    text = read(path)
    for bit, star, row in re.findall(r"pub d(\d+) : IsEven word last \d+ \((d\d+)_star last\) (row_\d+)", text):
        bits = re.findall(r"\d+", found_in(path, rf"^{row} = ([^\n]*)"))
        rows.append([f"D{bit}", " ".join([f"{star.upper()}\\*", *(f"d{it}" for it in bits)])])
    return table(["Bit", "Sum of"], rows)


def ura(_):
    path = holder(r"^ura_nominal =")
    metres = lambda name: [f"{int(it) / 100:g}" for it in re.findall(r"\d+", found_in(path, rf"^{name} =(.*?)\[\]"))]
    nominal, upper = metres("ura_nominal"), metres("ura_greatest")
    return table(["Index", *map(str, range(16))], [["nominal", *nominal], ["upper", *upper, "none"]])


def fields(_):
    """Fields that are of equal width and scale in both systems are one row."""
    rows, ranges = {}, {}
    for doc, name in re.findall(r"((?:^///[^\n]*\n)+)^#[^\n]*\npub struct (\w+) ", read(holder(r"^pub struct Step16 ")), re.M):
        ranges[name] = (re.search(r"0 to [\d,]*\d(, or \d+)?", doc)[0], int(re.search(r"in (\d+) bits", doc)[1]))
    for path in (holder(rf"^pub struct {it} ") for it in ("GpsOrbitA", "GalWord1", "GpsIon")):
        for struct in re.finditer(r"^pub struct (\w+) \{\n(.*?)^\}", read(path), re.M | re.S):
            if not struct[1].startswith(("Gps", "Gal")) or struct[1] in ("GpsEph", "GalEph"):
                continue
            for doc, name, kind in re.findall(r"((?:    ///[^\n]*\n)+)    pub (\w+): ([\w<>]+),", struct[2]):
                doc = re.sub(r"^In ", "in ", " ".join(doc.replace("///", " ").split()).rstrip("."))
                text, _, scale = doc.rpartition("in ") if re.search(r"\bin (2\^|steps)", doc, re.I) else (doc, "", "")
                text = re.sub(r",? ?(In )?$", "", text) if scale else re.sub(r", an index$", "", text)
                of = re.fullmatch(r"([US])<(\d+)>", kind)
                limits, bits = ("", int(of[2])) if of else ranges[kind]
                signed, scale = "yes" if of and of[1] == "S" else "no", ", ".join(filter(None, [scale, limits]))
                systems = rows.setdefault((name, bits, signed, scale), {})
                systems.setdefault(struct[1][:3], text)
    made = []
    for (name, bits, signed, scale), systems in rows.items():
        of = {"Gps": "GPS", "Gal": "Galileo"}
        text = next(iter(systems.values()))
        made.append([f"`{name}`", "both" if len(systems) == 2 else of[next(iter(systems))], text, str(bits), signed, scale])
    return table(["Field", "System", "Meaning", "Bits", "Signed", "Scale and unit"], made)


def man_lists(page, section):
    """The lists of a section of a man page, each of its terms and their texts."""
    text = found_in(page, rf"^\.Sh {section}\n(.*?)(?=^\.Sh|\Z)")
    lists = re.findall(r"^\.Bl -tag[^\n]*\n(.*?)^\.El", text, re.M | re.S)
    return [re.findall(r"^\.It ([^\n]*)\n((?:(?!\.It )[^\n]*\n)*)", it, re.M) for it in lists]


def plain(text):
    """The text of a man page as that of a page."""
    out = ""
    for line in text.splitlines():
        before = " "
        if line.startswith(".Pq"):
            line = re.sub(r"^\.Pq (?:Ar (\w+) No (.*)|(.*))", lambda it: f"({it[1]} {it[2]})" if it[1] else f"({it[3]})", line)
        elif line.startswith(".Fl -"):
            line = re.sub(r"^\.Fl -(\S+)", r"`--\1`", line).replace(" ,", ",").replace(" .", ".")
        elif line.startswith((".Li ", ".Ar ", ".Pa ", ".Cm ", ".Ql ", ".Nm ", ".Ev ", ".Sy ")):
            line = re.sub(r"^\.\w\w (\S+) ?(.*)", r"`\1`\2", line)
        elif line.startswith("."):
            raise SystemExit(f"generate: a macro that it does not know: {line}")
        out += before + line
    return out.strip().rstrip(".")


def help_numbers(path, pattern):
    """The exit statuses that the help of a script lists, as `0 ..; 1 ..`."""
    return set(re.findall(r"(?:^|; )(\d) ", " ".join(found_in(path, pattern).replace("\n# ", " ").split())))


def statuses(_):
    """Of each man page the list of exit statuses; the numbers must be those of the sources."""
    engine = set(re.findall(r"Status::\w+ => (\d+),", read(holder(r"Status::Done => 0,"))))
    front = set(re.findall(r" => (\d+),", found_in(holder(r"pub fn status\(&self\) -> u8"), r"(pub fn status\(.*?\n    \}\n)")))
    # of files that are only checked
    checked = set(re.findall(r"if self\.count\.get\(\) > 0 \{ (\d) \} else \{ (\d) \}", read("crates/navconvert/src/rejections.rt"))[0])
    pages = {
        "navbridge": ("docs/navbridge.1", engine),
        # a log has no first line that could be rejected, and an argument is compared as bytes
        "navlog": ("docs/navlog.1", engine - {"5", "9"}),
        "navconvert": ("docs/navconvert.1", front | checked),
        "merge_archive": ("docs/merge_archive.1", help_numbers("examples/merge_archive.py", r"\nExit status: (.*?)\n\"")),
        "navreport": ("docs/navreport.1", help_numbers("examples/report/command.py", r"\nExit status: (.*?)\n\"")),
        "navbridge-station": ("examples/station/navbridge-station.1", help_numbers("examples/station/navbridge-station", r"# Exit status of run: (.*?)\. Of record")),
    }
    rows = []
    for name, (page, known) in pages.items():
        found = man_lists(page, "EXIT STATUS")[0]
        if {number for number, _ in found} != known:
            tell(f"{page}: exit statuses {sorted(number for number, _ in found)}, and the sources have {sorted(known)}")
        rows += [[f"`{name}`", number, plain(text)] for number, text in found]
    return table(["Program", "Status", "Meaning"], rows)


def printed(page, known, head):
    """The list of a man page's DIAGNOSTICS that has most of the words that the sources print; it must have all, and no other."""
    lists = []
    for it in man_lists(f"docs/{page}.1", "DIAGNOSTICS"):
        terms = [re.sub(r"^Li ", "", term).replace(" , ", ", ").replace(" Ar n", " N").split(", ") for term, _ in it]
        found = {name.split()[0] for names in terms for name in names}
        lists.append((len(found & known), found ^ known, list(zip(terms, (text for _, text in it)))))
    _, others, found = max(lists, key=lambda it: it[0])
    if others:
        tell(f"docs/{page}.1: words that the sources print and it lacks, or the other way round: {', '.join(sorted(others))}")
    return table([head, "Meaning"], [[", ".join(f"`{it}`" for it in names), plain(text).replace("(n is", "(N is")] for names, text in found])


def sources_of(page):
    """The sources that print what a man page explains: those of logs are of navlog."""
    return [it for it in glob.glob("crates/*/src/**/*.rt", recursive=True)
            if it.split("/")[1].startswith("receiver_") == (page == "navlog") and "_tests/" not in it]


def reasons(page):
    known = {"malformed", "late"} if page == "navbridge" else set()
    for path in sources_of(page):
        arms = r"(?:\w*Refusal|\w*Reason|EventFault|RecordFault|SendFault|MessageFault)::\w+(?: \{ \w+ \})? => \{?\s*(?:append\(text, |refuse\(number, )?b\"(\w+)"
        known |= set(re.findall(arms, read(path)))
    return printed(page, known, "Reason")


def counts(page):
    """Those of a capture, or of a log."""
    for path in sources_of(page):
        known = set(re.findall(r"append_count\(\s*&mut text,\s*b\"(\w+)", read(path)))
        if known & {"whole", "messages"}:
            return printed(page, known, "Count")
    sys.exit(f"generate: no sources of the counts of {page}")


def codes(_):
    text = read("bindings/c/navbridge.h")
    rows = [[it[2], f"`{it[1]}`", it[3].replace("|", "\\|")] for it in re.finditer(r"^    (NB_\w+) = (\d+),? +/\*\*< (.*?) \*/", text[: text.index("} nb_status")], re.M)]
    return table(["Number", "Name", "Meaning"], rows)


def calls(_):
    """The functions of the library, each with the first sentence of its comment."""
    rows = []
    for it in re.finditer(r"^/\*\*((?:(?!\*/).)*)\*/\n(?:\w+ )+\*?(nb_\w+)\([^{};]*\);", read("bindings/c/navbridge.h"), re.M | re.S):
        about = re.sub(r"\n ?\*", "\n", it[1]).replace("@brief", "").split("@")[0]
        rows.append([f"`{it[2]}`", first_sentence(about.strip())])
    return table(["Call", "What it does"], rows)


def outcomes(_):
    text = read("examples/merge_archive.py")
    known = ast.literal_eval(found_in("examples/merge_archive.py", r"^OUTCOMES = (\{.*?^\})"))
    used = {a or b or c for a, b, c in re.findall(r"Unusable\(\"([\w ]+)\"|outcome(?:\"\] = |=)\"([\w ]+)\"|\.row\(\w+(?:\.\w+)?, \"([\w ]+)\"", text)}
    if used - set(known):
        tell(f"examples/merge_archive.py: outcomes that OUTCOMES lacks: {sorted(used - set(known))}")
    return table(["Outcome", "The file", "Records merged"], [[f"`{it}`", *about] for it, about in known.items()])


def results(name):
    """A table in a file: its first line is the head, and cells are between |."""
    rows = [[it.strip() for it in line.split("|")] for line in read(f"bench/results/{name}.txt").splitlines() if line and not line.startswith("#")]
    return table(rows[0], rows[1:])


def options_agree():
    """The options in a man page are those of --help, and those that bash completes; of navconvert those of its table."""
    help_of = {"merge_archive": "examples/merge_archive.py", "navreport": "examples/navreport", "navbridge-station": "examples/station/navbridge-station"}
    for path in glob.glob("docs/*.1") + glob.glob("examples/station/*.1"):
        name = os.path.basename(path)[:-2]
        text = read(path)
        lists = "\n".join(re.findall(r"^\.(?:It|Op|Nm)? ?(?=Fl).*|^\.It .*", text, re.M))
        found = set(re.findall(r"Fl -([a-z][\w-]+)|, -([a-z][\w-]+)", lists))
        found = {a or b for a, b in found} - ({"name"} if name == "navbridge" else set())
        others = {}
        if name in help_of:
            shown = subprocess.run([help_of[name], "--help"], stdin=subprocess.DEVNULL, capture_output=True, text=True, timeout=60).stdout
            others[f"{help_of[name]} --help"] = set(re.findall(r"(?<![\w-])--([a-z][\w-]+)", shown))
        elif name == "navconvert":
            source = holder(r"^static OPTIONS: \[Row")
            others[source] = set(re.findall(r"\bname: \"([a-z-]+)\"", found_in(source, r"^static OPTIONS: \[Row(.*?)^\];")))
        completed = f"packaging/{name}.bash"
        if os.path.exists(completed):
            others[completed] = set(re.findall(r"--([a-z][\w-]+)", re.sub(r"#.*", "", read(completed))))
        for other, known in others.items():
            if known - {"help", "version"} != found - {"help", "version"}:
                tell(f"{path} and {other}: one has no option {', '.join(sorted((known ^ found) - {'help', 'version'}))}")


MAKERS = {
    "toolchain": toolchain, "layers": layers, "crates": crate_rows, "definitions": definitions, "contracts": contracts,
    "conversions": conversions, "runs": runs, "messages": messages, "systems": systems, "records": records, "words": words, "subframes": subframes, "parity": parity, "ura": ura, "fields": fields,
    "statuses": statuses, "reasons": reasons, "counts": counts, "codes": codes, "calls": calls, "outcomes": outcomes, "results": results,
}
for page in sorted(glob.glob("*.md") + glob.glob("docs/*.md") + glob.glob("examples/*.md") + glob.glob("bench/*.md")):
    old = read(page)
    heading, new = "", []
    for part in re.split(r"(^<!-- generated: [\w ]+ -->\n.*?^<!-- end -->$)", old, flags=re.M | re.S):
        it = re.match(r"<!-- generated: (\w+) ?(\w*) -->", part)
        if it:
            made = MAKERS[it[1]](it[2] or heading)
            if made is not None:
                part = "\n".join([it[0], *made, "<!-- end -->"])
        else:
            heading = (re.findall(r"^#+ (.*)$", part, re.M) or [heading])[-1]
        new.append(part)
    if "".join(new) != old:
        if "--write" in sys.argv:
            with open(page, "w", encoding="utf-8") as file:
                file.write("".join(new))
        else:
            tell(f"{page}: its generated parts differ; checks/generate.py --write")
options_agree()
sys.exit(1 if wrong else 0)
