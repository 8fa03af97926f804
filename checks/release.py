#!/usr/bin/env python3
"""Compares each place that has the version with the first heading of CHANGELOG.md.

    checks/release.py [--check] [--released]

    --released  for a release: the heading must have a date, and no place an older version

While the heading is `(unreleased)`, a proved program may still have the version before it: such places are printed as `later`.
To release, write the date into the heading and the version into these places, and run it with --released.

Packages, pkg-config, CMake, the shared object's name and the scripts' --version take the number from CHANGELOG.md. Its headings
have falling versions and dates, and sections of Keep a Changelog.

Exit status: 0 all agree; 1 something differs; 2 the arguments are wrong.
"""

import datetime
import glob
import os
import re
import subprocess
import sys

arguments = sys.argv[1:]
if arguments in (["-h"], ["--help"]):
    sys.exit(print(__doc__, end=""))
if not set(arguments) <= {"--check", "--released"}:
    print("release: only --check and --released are options; --help", file=sys.stderr)
    sys.exit(2)
os.chdir(os.path.join(os.path.dirname(os.path.realpath(__file__)), ".."))
# pattern of a version, and the files that have it; the first group is compared
PLACES = (
    (r"\.version\(\"([^\"]*)\"\)", glob.glob("crates/*/src/**/*.rt", recursive=True)),
    (r"^nav\w+ (\d+\.\d+\.\d+)$", glob.glob("crates/*/stdout")),
    (r"^__version__ = \"(.*)\"$", ["bindings/python/navbridge/__init__.py"]),
    (r"^name = \"navbridge\"\nversion = \"(.*)\"$", glob.glob("bindings/rust/Cargo.*")),
)
# the same for the first numbers of a version
HEADS = (
    (r"find_package\(navbridge (\d+\.\d+)", ["docs/LIBRARY.md", "examples/c/CMakeLists.txt"]),
    (r"libnavbridge\.so\.(\d+)", ["docs/LIBRARY.md", "bindings/c/Makefile", "packaging/debian.sh"]),
    (r"libnavbridge(\d+)", ["docs/LIBRARY.md", "packaging/debian.sh"]),
)
SECTIONS = ("Added", "Changed", "Deprecated", "Removed", "Fixed", "Security")
SCRIPTS = ("examples/merge_archive.py", "examples/navreport", "examples/station/navbridge-station")
wrong = count = 0


def tell(what):
    global wrong
    wrong += 1
    print(what)


def read(path):
    with open(path, encoding="utf-8") as it:
        return it.read()


def versions():
    """The versions of CHANGELOG.md, of which each is newer than the next one, and whether the first has a date."""
    found, text = [], read("CHANGELOG.md")
    for heading in re.findall(r"^## (.*)$", text, re.M):
        it = re.fullmatch(r"(\d+)\.(\d+)\.(\d+) \((unreleased|\d{4}-\d\d-\d\d)\)", heading)
        if not it or it[4] == "unreleased" and found:
            tell(f"CHANGELOG.md: the heading {heading}: write ## 1.2.3 (2026-12-31), or of the first (unreleased)")
            continue
        day = datetime.date.max if it[4] == "unreleased" else datetime.date.fromisoformat(it[4])
        found.append((tuple(map(int, it.groups()[:3])), day))
    for new, old in zip(found, found[1:]):
        if new[0] <= old[0] or new[1] < old[1]:
            tell(f"CHANGELOG.md: {new[0]} is not after {old[0]}, or its date is not")
    for section in re.findall(r"^### (.*)$", text, re.M):
        if section not in SECTIONS:
            tell(f"CHANGELOG.md: the section {section} is none of {', '.join(SECTIONS)}")
    return [".".join(map(str, it)) for it, _ in found], found[0][1] != datetime.date.max


(newest, *older), is_released = versions()
if "--released" in arguments and not is_released:
    tell(f"CHANGELOG.md: {newest} has no date")
for places, wanted in ((PLACES, lambda _: newest), (HEADS, lambda it: ".".join(newest.split(".")[: it.count(".") + 1]))):
    for pattern, files in places:
        for path in files:
            for it in re.finditer(pattern, read(path), re.M):
                count += 1
                where = f"{path}:{read(path)[: it.start(1)].count(chr(10)) + 1}: version {it[1]}"
                if it[1] == wanted(it[1]):
                    continue
                if path.startswith("crates/") and it[1] in older[:1] and not is_released and "--released" not in arguments:
                    print(f"{where}, later {newest}")
                else:
                    tell(f"{where}, and CHANGELOG.md begins with {newest}")
for script in SCRIPTS:
    count += 1
    said = subprocess.run([script, "--version"], stdin=subprocess.DEVNULL, capture_output=True, text=True, timeout=60).stdout.split()
    if said[1:] != [newest]:
        tell(f"{script} --version: {' '.join(said)}, and CHANGELOG.md begins with {newest}")
print(f"{count} places with the version {newest}, {wrong} differ")
sys.exit(1 if wrong else 0)
