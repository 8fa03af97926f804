#!/usr/bin/env python3
"""Finds names in the pages that do not exist: crates, files, definitions, functions, clauses, theorems, headings of links.

    checks/names.py             prints each name that does not exist, with its place; exit status 1 if there is one
    checks/names.py --of NAME   prints the places of the pages that name NAME

In docs/PROMISES.md a heading names crates, and the last column of its rows functions of these and, after a colon, clauses of
each of the functions before it. In docs/DEFINITIONS.md a row names a crate and files of its specs/. In all pages a text in
backticks is looked up if it is a path of the repository, or a name with _ or :: or a capital letter in it: among the names of
the sources and definitions, without their comments. A clause that a page shows must be part of a contract.

Exit status: 0 all exist; 1 one does not; 2 the arguments are wrong, or there are no sources.
"""

import glob
import os
import re
import sys

if sys.argv[1:] in (["-h"], ["--help"]):
    sys.exit(print(__doc__, end=""))
if len(sys.argv) > 1 and (sys.argv[1] != "--of" or len(sys.argv) != 3):
    print(f"names: {sys.argv[1]}: only --of NAME is an option; --help", file=sys.stderr)
    sys.exit(2)
WANTED = sys.argv[2] if len(sys.argv) > 1 else ""
os.chdir(os.path.join(os.path.dirname(os.path.realpath(__file__)), ".."))
if not os.path.exists("crates.txt"):
    print("names: no crates.txt: only a repository has sources to look in", file=sys.stderr)
    sys.exit(2)
PAGES = sorted(
    [it for it in glob.glob("*.md")] + glob.glob("docs/*.md") + glob.glob("examples/*.md") + glob.glob("bench/*.md")
)
# words of other programs, of systemd, of formats; a line each: what they are of
OTHERS = set(
    """DynamicUser ProtectHome ProtectSystem NoNewPrivileges NoNewPrivs NRestarts PrivateTmp KillMode Restart User Result ProtectKernelTunables
    ProtectKernelLogs ProtectClock PrivateDevices DeviceAllow
    MaxArraySize StartTime JobId
    RssAnon VmHWM VmRSS
    README CONTRIBUTING CHANGELOG HANDLES SOURCE_DATE_EPOCH
    GPSRawCA GALRawINAV
    RT_JOBS NAVBRIDGE_SOURCE NAVBRIDGE_SPAN STATE_DIRECTORY
    perf_event E1 E5b""".split()
)
TOPS = ("crates/", "docs/", "examples/", "bench/", "checks/", "packaging/", "bindings/", ".ci/")


def read(path):
    with open(path, encoding="utf-8") as it:
        return it.read()


def code(path):
    """The text without comments."""
    text = read(path)
    return re.sub(r"--.*" if path.endswith(".antt") else r"//.*", "", text)


crates, uses = {}, set()
for line in read("crates.txt").splitlines():
    line = line.split("#")[0]
    if ":" in line:
        head, below = line.split(":", 1)
        crates[head.split()[0]] = below.split()
        uses |= set(below.split())
stems, known = {}, set(crates) | uses
# by crate and function the clauses of each function of that name, and where a type or trait has it
clauses = {}
for path in glob.glob("crates/*/src/**/*.rt", recursive=True) + glob.glob("crates/*/specs/**/*.antt", recursive=True):
    crate, text = path.split("/")[1], code(path)
    known |= set(re.findall(r"\w+", text))
    stem = os.path.basename(path).rsplit(".", 1)[0]
    known.add(stem)
    if path.endswith(".antt"):
        stems.setdefault(crate, set()).add(stem)
        continue
    # functions, and the laws of traits
    found = []
    for it in re.finditer(r"\b(fn|ghost(?= \w+:)) (\w+)", text):
        # a ghost value between a function's head and its clauses is no law
        if it[1] == "fn" or not found or re.search(r"[;}]", text[found[-1].end() : it.start()]):
            found.append(it)
    for at, it in enumerate(found):
        end = found[at + 1].start() if at + 1 < len(found) else len(text)
        said = set(re.findall(r"\b(?:ensures|requires)\*?\s+(\w+)\s*\{", text[it.start() : end]))
        clauses.setdefault((crate, it[2]), []).append(said)
for path in glob.glob("crates/*/proofs/Surface.antt"):
    known |= set(re.findall(r"\w+", code(path)))
for path in glob.glob("crates/*/must-fail/*.edit"):
    known.add(os.path.basename(path).rsplit(".", 1)[0])
# in scripts and plain programs beside the sources
for top in ("bench", "checks", "examples", "packaging", "bindings"):
    for path in glob.glob(f"{top}/**/*", recursive=True):
        if path.endswith((".sh", ".py", ".c", ".h", ".bash", "-station")) and path != "checks/names.py":
            known |= set(re.findall(r"\w+", read(path)))
files = {os.path.basename(it) for it in glob.glob("**/*", recursive=True)} | {".edit"}

missing = 0


def tell(page, number, what):
    global missing
    if not WANTED:
        print(f"{page}:{number}: {what}")
        missing += 1


def slug(heading):
    return re.sub(r"[^\w\- ]", "", heading.strip().lower().replace("`", "")).replace(" ", "-")


def headings(page):
    return {slug(it) for it in re.findall(r"^#+ (.*)$", read(page), re.M)}


def look_for_link(page, number, target):
    if re.match(r"[a-z]+:", target):
        return
    path, _, anchor = target.partition("#")
    at = os.path.normpath(os.path.join(os.path.dirname(page), path)) if path else page
    if not os.path.exists(at):
        tell(page, number, f"{target}: no such file")
    elif anchor and at.endswith(".md") and anchor not in headings(at):
        tell(page, number, f"{target}: no such heading")


def look_for_word(page, number, word):
    if word.startswith(TOPS) and " " not in word:
        if not re.search(r"/out(/|$)", word) and "NAME" not in word and "/build" not in word and not glob.glob(word):
            tell(page, number, f"{word}: no such file")
    elif re.fullmatch(r"[\w.-]+\.(md|antt|rt|sh|py|c|h)", word):
        if word not in files:
            tell(page, number, f"{word}: no such file")
    elif re.fullmatch(r"(\w+::)?\w+", word) and ("_" in word or "::" in word or re.search(r"[a-z]", word) and re.search(r"[A-Z]", word)):
        for it in word.split("::"):
            if it not in known and it not in OTHERS and not re.search(r"_[SR]_\d", it):
                tell(page, number, f"{word}: no such name")


def look_for_clauses(page, number, within, cell):
    """A cell of docs/PROMISES.md: functions, and behind a colon clauses of each."""
    for group in cell.split(";"):
        before, _, after = group.partition(":`" if ":`" in group else ": ")
        names, labels = re.findall(r"`([^`]+)`", before), re.findall(r"`([^`]+)`", ("`" if ":`" in group else "") + after)
        for name in names:
            function = name.split("::")[-1]
            places = [it for crate in within for it in clauses.get((crate, function), [])]
            if not places:
                tell(page, number, f"{name}: no such function in {', '.join(within)}")
                continue
            for label in labels:
                if not any(label in it for it in places):
                    tell(page, number, f"{name}: no clause {label}")


for page in PAGES:
    within, fenced = [], False
    for number, line in enumerate(read(page).splitlines(), 1):
        if WANTED and re.search(rf"(?<!\w){re.escape(WANTED)}(?!\w)", line):
            print(f"{page}:{number}: {line.strip()[:150]}")
        if line.startswith("```"):
            fenced = not fenced
        if fenced or line.startswith("```"):
            continue
        words = re.findall(r"`([^`]+)`", line)
        for target in re.findall(r"\]\(([^) ]+)\)", line):
            look_for_link(page, number, target)
        if page == "docs/PROMISES.md" and line.startswith("#"):
            within = words
            for it in within:
                if it not in crates:
                    tell(page, number, f"{it}: no such crate")
        elif page == "docs/PROMISES.md" and line.startswith("| ") and within:
            cells = line.strip("| ").split(" | ")
            if cells[-1].startswith("`"):
                look_for_clauses(page, number, within, cells[-1])
        elif page == "docs/DEFINITIONS.md" and line.startswith("| `"):
            cells = line.strip("| ").split(" | ")
            for crate in re.findall(r"`([^`]+)`", cells[0]):
                if crate not in crates:
                    tell(page, number, f"{crate}: no such crate")
                    continue
                for stem in re.findall(r"`([^`]+)`", cells[1]):
                    if stem not in stems.get(crate, set()):
                        tell(page, number, f"{crate}: no file {stem} in its specs/")
        elif page == "docs/ARCHITECTURE.md" and line.startswith("| `"):
            for it in re.findall(r"`([^`]+)`", line.split(" | ")[0]):
                if it not in crates:
                    tell(page, number, f"{it}: no such crate")
        for word in words:
            look_for_word(page, number, word)
if not WANTED and os.path.exists("docs/ARCHITECTURE.md"):
    text = read("docs/ARCHITECTURE.md")
    for it in crates:
        if f"`{it}`" not in text:
            tell("docs/ARCHITECTURE.md", 1, f"the crate {it} is not in the map")
contracts = "".join("".join(read(it).split()) for it in glob.glob("crates/*/src/**/*.rt", recursive=True))
for page in PAGES:
    for shown in re.findall(r"^```\n(ensures .*?)^```", read(page), re.M | re.S):
        if "".join(shown.split()) not in contracts:
            tell(page, 1, "a clause is shown that is in no contract")
if not WANTED:
    print(f"{len(PAGES)} documents, {missing} names that are not there")
sys.exit(1 if missing else 0)
