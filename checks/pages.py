#!/usr/bin/env python3
"""Checks the pages: their words, their length, their generated parts, and the commands that they show.

    checks/pages.py [--check] [--write] [--words PAGE] [--commands]

    --write       lowers the counts of checks/words.txt and checks/budget.txt to those of today, and writes the generated parts
    --words PAGE  prints each place of PAGE with a word of checks/words.txt
    --commands    fails if a program for the commands is missing; without it the commands are then skipped

checks/words.txt has a line for each word that a page should not use: a regular expression, what to write instead, and the count
in each page that still has it, and a line for long sentences. A higher count fails. Backticks and code blocks are left out. The --help of
scripts is checked as a page, and of those in examples/ and packaging/ what they print. checks/budget.txt has the words that each page may have, in steps of 50; code blocks count,
generated parts do not.

A generated part is between <!-- generated: NAME --> and <!-- end -->; checks/generate.py makes it. A code block that begins
with ```console is run in a copy of examples/: the lines after `$ ` are commands, and the lines below must be what they print; a
line `...` matches any number of lines. The examples of man pages are run too. Commands in other blocks must be in
checks/not-run.txt, with the reason why they are not run here. Code in C and C++ is compiled.

Exit status: 0 all correct; 1 something differs; 2 the arguments are wrong.
"""

import ast
import glob
import os
import re
import shutil
import subprocess
import sys
import tempfile

OPTIONS = {"--check", "--write", "--words", "--commands"}
TOP = os.path.join(os.path.dirname(os.path.realpath(__file__)), "..")
WORDS, BUDGET, NOT_RUN = "checks/words.txt", "checks/budget.txt", "checks/not-run.txt"
# programs that scripts in the commands use: without them a block is skipped
NEEDS = {"cover_picture.sh": "gnuplot", "merge_archive": "python3"}
arguments = sys.argv[1:]
if arguments in (["-h"], ["--help"]):
    sys.exit(print(__doc__, end=""))
shown = arguments[-1] if "--words" in arguments else ""
if not set(arguments) - {shown} <= OPTIONS or shown.startswith("-"):
    print("pages: these are not its options; --help", file=sys.stderr)
    sys.exit(2)
os.chdir(TOP)
PAGES = sorted(glob.glob("*.md") + glob.glob("docs/*.md") + glob.glob("examples/*.md") + glob.glob("bench/*.md"))
MANUALS = sorted(glob.glob("docs/*.1") + glob.glob("examples/station/*.1"))
HELPS = ("examples/*", "examples/*/*", "packaging/*", "bindings/*", "checks/*", "bench/*")
WRITE = "--write" in arguments
LONG = "sentence of more than 30 words"
wrong = 0


def tell(what):
    global wrong
    wrong += 1
    print(what)


def read(path):
    with open(path, encoding="utf-8") as it:
        return it.read()


def written(text):
    """The text without its generated parts; lines keep their numbers."""
    return re.sub(r"<!-- generated:.*?<!-- end -->", lambda it: "\n" * it[0].count("\n"), text, flags=re.S)


def prose(path, generated=True):
    """The lines, also generated ones, without code, links' targets and, of a manual, without macros that name options and files."""
    text = re.sub(r"<!-- .*? -->", "", read(path) if generated else written(read(path)))
    if path.endswith(".1"):
        text = re.sub(r"^\.Bd -literal.*?^\.Ed", lambda it: "\n" * it[0].count("\n"), text, flags=re.M | re.S)
        text = re.sub(r"^\.(Dl|Nm|Fl|Pa|Cm|Li|Op|Xr|\\\").*$", "", text, flags=re.M)
    else:
        text = re.sub(r"^( *)```.*?^ *```$", lambda it: "\n" * it[0].count("\n"), text, flags=re.M | re.S)
        text = re.sub(r"`[^`\n]*`|\]\([^)]*\)", " ", text)
    return text.splitlines()


def printed(path):
    """The texts that a script prints: of Python those with a blank, of bash those in quotes after a command that prints."""
    text = read(path)
    if re.match("#!.*bash", text):
        lines = [it for it in text.splitlines() if re.match(r"[^#]*\b(echo|fail|say|wrong|printf)\b", it)]
        return [it[0][1:-1] for line in lines for it in re.finditer(r"\"[^\"]*\"|'[^']*'", line)]
    tree = ast.parse(text)
    comments = {id(it.body[0].value) for it in ast.walk(tree) if isinstance(it, (ast.FunctionDef, ast.ClassDef, ast.Module)) and isinstance(it.body[0], ast.Expr)}
    return [it.value for it in ast.walk(tree) if isinstance(it, ast.Constant) and isinstance(it.value, str) and " " in it.value and id(it) not in comments]


def helps():
    """The scripts with --help, and the lines of it and of their messages, without options, names of files and variables, and code."""
    found = {}
    for path in sorted(it for at in HELPS for it in glob.glob(at) if os.path.isfile(it) and os.access(it, os.X_OK)):
        if re.search(r"--help|^options ", read(path), re.M):
            text = subprocess.run([path, "--help"], stdin=subprocess.DEVNULL, capture_output=True, text=True, timeout=60).stdout
            if path.startswith(("examples/", "packaging/")):
                text = "\n".join([text, *printed(path)])
            found[path] = re.sub(rf"`[^`\n]*`|--[\w-]+|\$\{{[^}}]*\}}|\$?\(\w+ \w+|\S*[$/_.]\w\S*|\b[A-Z_]{{2,}}\b|\b{os.path.basename(path)[:-3]}:", " ", text).splitlines()
    return found


def long_sentences(lines):
    """The sentences and parts of a table or list with more than 30 words, each with its line."""
    for at, line in enumerate(lines, 1):
        for it in re.split(r"(?<=[.:;?!])\s+|\|", line):
            if sum(bool(re.search(r"\w", word)) for word in it.split()) > 30:
                yield at, it


def words():
    lines, scripts = [], helps()
    for line in read(WORDS).splitlines():
        if not line.strip() or line.startswith("#"):
            lines.append(line)
            continue
        word, better, *counts = (it.strip() for it in line.split(" | "))
        known = dict(it.rsplit(":", 1) for it in (counts[0].split() if counts else []))
        left = {}
        for page in PAGES + MANUALS + list(scripts):
            if word == LONG:
                places = list(long_sentences(prose(page, False))) if page in PAGES else []
            else:
                places = [(at, it) for at, it in enumerate(scripts[page] if page in scripts else prose(page), 1)
                          for found in re.finditer(rf"\b(?:{word})\b", it, re.I) if not found[0].isupper()]
            limit = known.get(page, "0")
            if page == shown:
                for at, it in places:
                    print(f"{page}:{at}: {word} -> {better}: {it.strip()[:110]}")
            if limit == "any":
                left[page] = limit
                continue
            if len(places) > int(limit):
                tell(f"{page}: '{word}' {len(places)} times, of {limit}; write: {better}; checks/pages.py --words {page}")
            if places and int(limit):
                left[page] = str(min(len(places), int(limit)))
        counted = " ".join(f"{page}:{count}" for page, count in left.items())
        lines.append(f"{word} | {better}" + (f" | {counted}" if left else ""))
    if WRITE:
        with open(WORDS, "w", encoding="utf-8") as it:
            it.write("\n".join(lines) + "\n")


def budget():
    known = dict(line.split() for line in read(BUDGET).splitlines() if line and not line.startswith("#"))
    head = [line for line in read(BUDGET).splitlines() if line.startswith("#")]
    now = {page: sum(bool(re.search(r"\w", it)) for it in written(read(page)).split()) for page in PAGES}
    for page, count in now.items():
        limit = int(known.get(page, 0))
        if count > limit:
            tell(f"{page}: {count} words, of {limit}: shorten it, or take the words from another page in {BUDGET}")
    total, limit = sum(now.values()), int(known["sum"])
    if total > limit:
        tell(f"all pages: {total} words, of {limit}")
    if WRITE:
        kept = {page: min(-(-count // 50) * 50, int(known.get(page, 0))) for page, count in now.items()}
        with open(BUDGET, "w", encoding="utf-8") as it:
            it.write("\n".join(head + [f"{a} {b}" for a, b in kept.items()] + [f"sum {min(-(-total // 100) * 100, limit)}"]) + "\n")
    return total


def excused(command, known):
    """Whether checks/not-run.txt has the command."""
    command = re.sub(r"\s+", " ", command.strip())
    for start in known:
        if command.startswith(start):
            known[start] = True
            return True
    return False


def joined(lines):
    """Lines as commands: one that ends in a backslash or a bar, or inside of quotes, has more."""
    made = []
    for line in lines:
        if made and (made[-1].endswith(("\\", "|")) or made[-1].count("'") % 2):
            made[-1] += "\n" + line
        else:
            made.append(line)
    return made


def ran(command, place, path):
    environment = dict(os.environ, PATH=f"{path}:{os.environ['PATH']}", LC_ALL="C.UTF-8", PROGRAM=os.path.realpath(f"{path}/navbridge"))
    return subprocess.run(["bash", "-o", "pipefail", "-c", command], cwd=place, env=environment, stdin=subprocess.DEVNULL,
                          stdout=subprocess.PIPE, stderr=subprocess.STDOUT, text=True, timeout=120)


def shown_elsewhere(known):
    """Blocks of commands that are not run: each command must be in checks/not-run.txt."""
    for page in PAGES:
        for block in re.finditer(r"^```(sh|text)\n(.*?)^```$", read(page), re.M | re.S):
            lines = re.sub(r" +# .*", "", block[2])
            for command in joined(lines.splitlines()) if block[1] == "sh" else [lines]:
                if not excused(command, known):
                    tell(f"{page}: $ {command}\n  it is run nowhere: make the block a console block, or name the check that runs it in {NOT_RUN}")


def examples(folder, known):
    """Runs the examples of the man pages, in a directory with files of the names that they use; how many."""
    place, count = f"{folder}/manuals", 0
    shutil.copytree("examples", place, symlinks=True)
    os.mkdir(f"{place}/day")
    for old, *new in (("ephemerides.rtcm3", "hour.rtcm3"), ("log.ubx", "monday.ubx", "tuesday.ubx", "log.sbf"), ("station.navcap", "station/a.navcap"),
                      ("station.rnx", "day/a.rnx", "brdc.rnx"), ("version3.rnx", "day/b.rnx")):
        for it in new:
            shutil.copy(f"{place}/{old}", f"{place}/{it}")
    subprocess.run(["gzip", f"{place}/brdc.rnx"], check=True)
    os.mkdir(f"{place}/out")
    for page in MANUALS:
        section = re.search(r"^\.Sh EXAMPLES\n(.*?)(?=^\.Sh|\Z)", read(page), re.M | re.S)
        blocks = re.findall(r"^\.Bd -literal[^\n]*\n(.*?)^\.Ed|^\.Dl \$ ([^\n]*)", section[1], re.M | re.S) if section else []
        for lines, line in blocks:
            for command in joined((lines or line).replace("\\e", "\\").splitlines()):
                if excused(command, known) or any(script in command and not shutil.which(program) for script, program in NEEDS.items()):
                    continue
                count += 1
                got = ran(command, place, f"{folder}/bin")
                # a result that is written though some file was not read is an example too
                if got.returncode > (1 if command.startswith(("merge_archive", "navreport")) else 0):
                    tell(f"{page}: $ {command}\n  ends with {got.returncode}\n" + re.sub("^", "    ", got.stdout, flags=re.M))
    return count


def commands():
    """Runs the console blocks and the examples of man pages; how many, and why they are skipped."""
    known = {line.split(" | ")[0]: False for line in read(NOT_RUN).splitlines() if line and not line.startswith("#")}
    shown_elsewhere(known)
    blocks = [(page, it[1]) for page in PAGES for it in re.finditer(r"^```console\n(.*?)^```$", read(page), re.M | re.S)]
    path = []
    for name in ("navbridge", "navlog", "navconvert"):
        file = os.environ.get({"navbridge": "PROGRAM"}.get(name, name.upper()), f"crates/{name}/out/{name}")
        if not os.access(file, os.X_OK):
            return len(blocks), f"no {file}"
        path.append((name, os.path.realpath(file)))
    path += [(name, os.path.realpath(f"examples/{file}")) for name, file in (("merge_archive", "merge_archive.py"), ("navreport", "navreport"))]
    with tempfile.TemporaryDirectory() as folder:
        for name, file in path:
            os.makedirs(f"{folder}/bin", exist_ok=True)
            os.symlink(file, f"{folder}/bin/{name}")
        for page, block in blocks:
            if any(script in block and not shutil.which(program) for script, program in NEEDS.items()):
                continue
            place = f"{folder}/{page.replace('/', '_')}"
            if not os.path.exists(place):
                shutil.copytree("examples", place, symlinks=True)
            for part in re.split(r"^\$ ", block, flags=re.M)[1:]:
                command, _, expected = part.partition("\n")
                while command.endswith("\\") or command.count("'") % 2:
                    more, _, expected = expected.partition("\n")
                    command += "\n" + more
                got = ran(command, place, f"{folder}/bin").stdout
                pattern = re.escape(expected).replace(re.escape("...\n"), "(?:.*\n)*")
                if not re.fullmatch(pattern, got):
                    tell(f"{page}: $ {command}\n  prints\n" + re.sub("^", "    ", got, flags=re.M))
        count = examples(folder, known)
    for start, is_used in known.items():
        if not is_used:
            tell(f"{NOT_RUN}: no page shows: {start}")
    return len(blocks) + count, ""


def code():
    """Compiles the code that pages show, as far as the compilers are installed: C and C++ with the headers, Python and Rust by the names."""
    before = {"c": "#include <stdio.h>\n", "cpp": "#include <cstdio>\n"}
    for page in PAGES:
        for language, text in re.findall(r"^```(c|cpp|python|rust)\n(.*?)^```$", read(page), re.M | re.S):
            if language in before:
                heads = "".join(re.findall(r"^#include.*\n", text, re.M))
                given = "const uint8_t *frame, size_t size" if language == "c" else "navbridge::bytes piece"
                body = "void use(const nb_item &);\n" if language == "cpp" else ""
                body += f"void shown({given});\nvoid shown({given}) {{\n{text.replace(heads, '')}}}\n"
                tool = ["cc", "-std=c99", "-xc"] if language == "c" else ["c++", "-std=c++17", "-xc++"]
                if shutil.which(tool[0]):
                    got = subprocess.run([*tool, "-fsyntax-only", "-Ibindings/c", "-"], input=before[language] + heads + body, capture_output=True, text=True)
                    if got.returncode:
                        tell(f"{page}: its {language} does not compile\n{got.stderr}")
            else:
                source = read("bindings/python/navbridge/__init__.py" if language == "python" else "bindings/rust/src/lib.rs")
                for name in re.findall(r"\bnavbridge(?:\.|::)(\w+)", text):
                    if not re.search(rf"\b{name}\b", source):
                        tell(f"{page}: its {language} uses {name}, which the package does not have")


words()
total = budget()
if os.path.exists("checks/generate.py"):
    if subprocess.run(["checks/generate.py", "--write" if WRITE else "--check"]).returncode:
        wrong += 1
code()
count, why = commands()
if why and "--commands" in arguments:
    tell(why)
print(f"{len(PAGES)} pages of {total} words, {count} blocks and examples {f'not run ({why})' if why else 'run'}, {wrong} differ")
sys.exit(1 if wrong else 0)
