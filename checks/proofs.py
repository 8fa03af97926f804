#!/usr/bin/env python3
"""Checks the `use` lines of the proofs, in a second, for errors that CI finds after half an hour:

- files of one crate that import one another in a circle;
- names that another crate's file of proofs does not have or does not export;
- files of proofs of another crate that are cited past its Surface.

    checks/proofs.py            from any directory

Exit status: 0 no error; 1 errors, a line each; 2 the arguments are wrong.
"""

import re
import sys
from pathlib import Path

USE = re.compile(r"^(?:ghost )?(?:pub )?use Rattle\.(\w+)\.(specs|proofs)\.([\w.]+)\.\{([^}]*)\}", re.M)
PASSED_ON = re.compile(r"^pub use [\w.]+\.\{([^}]*)\}", re.M)
DECLARED = re.compile(r"^(?:abbrev |unfoldable |opaque |infix\w* \d+ )*pub (?:record |inductive )?([^\s:({]+)", re.M)


def names_in(listed):
    """The names of an import as they are where they come from."""
    return [it.split(" as ")[0].strip() for it in listed.split(",") if it.strip()]


def given(text):
    """The names that a file of proofs gives to others."""
    passed = [it.split(" as ")[-1].strip() for line in PASSED_ON.findall(text) for it in line.split(",")]
    return set(passed) | set(DECLARED.findall(text))


def circles(crate, files):
    """The circles among the files of a crate, each as the names on its way."""
    ways = {}
    for (kind, name), text in files.items():
        ways[kind, name] = {(it[1], it[2]) for it in USE.findall(text) if it[0] == crate and (it[1], it[2]) in files}
    state, found = {}, []

    def visit(file, way):
        if state.get(file) == "done":
            return
        if state.get(file) == "open":
            found.append([name for _, name in way[way.index(file) :]] + [file[1]])
            return
        state[file] = "open"
        for other in sorted(ways[file]):
            visit(other, [*way, file])
        state[file] = "done"

    for file in sorted(ways):
        visit(file, [])
    return found


def main():
    if sys.argv[1:] in (["-h"], ["--help"]):
        sys.exit(print(__doc__, end=""))
    if len(sys.argv) > 1:
        print(f"proofs: {sys.argv[1]} is no option; --help", file=sys.stderr)
        sys.exit(2)
    top = Path(__file__).resolve().parent.parent
    crates = {it.name: {} for it in sorted((top / "crates").iterdir()) if it.is_dir()}
    for crate, files in crates.items():
        for kind in ("specs", "proofs"):
            for path in sorted((top / "crates" / crate / kind).glob("*.antt")):
                files[kind, path.stem] = path.read_text(encoding="utf-8")
    wrong = 0
    for crate, files in crates.items():
        for way in circles(crate, files):
            wrong += 1
            print(f"{crate}: a circle: {' -> '.join(way)}")
        for path in sorted((top / "crates" / crate).glob("*/**/*.antt")):
            if "out" in path.parts:
                continue
            for other, kind, module, listed in USE.findall(path.read_text(encoding="utf-8")):
                # (a path of several names is a module that the prover makes)
                if other == crate or other not in crates or kind != "proofs" or "." in module:
                    continue
                where = f"{path.relative_to(top)}: {other}.proofs.{module}"
                if ("proofs", module) not in crates[other]:
                    wrong += 1
                    print(f"{where} is not there")
                    continue
                if module != "Surface":
                    wrong += 1
                    print(f"{where} is cited, and not its Surface")
                for name in names_in(listed):
                    if name not in given(crates[other]["proofs", module]):
                        wrong += 1
                        print(f"{where} gives no {name}")
    print(f"{len(crates)} crates, {wrong} citations that do not hold")
    sys.exit(wrong > 0)


main()
