"""Runs a whole gate and adds up, for each crate, the processor seconds of what it does.

It looks at the running checks twice a second and takes for each process the last figure that it saw, so a check's last half
second is lost; what all processes took together is told by the system, exactly. Each ten seconds it times a fixed loop of its
own, by which runs on machines of other speeds, or with other neighbours, can be compared.

    gate_times.py run RECORD -- COMMAND ..     runs the command and writes the record
    gate_times.py show RECORD                  prints the table
"""

import json
import os
import re
import resource
import statistics
import subprocess
import sys
import time

TICK = os.sysconf("SC_CLK_TCK")
PARTS = ("proof", "tests", "seed", "edits", "build")


def kind_of(words, folder):
    """Which part of the gate a process of the prover is, and of which crate; nothing for any other process."""
    if not words or os.path.basename(words[0]) != "rattle" or "--crate-name" not in words:
        return None
    crate = words[words.index("--crate-name") + 1]
    if "rt-edit-" in folder:
        kept = words[words.index("--incremental") + 1] if "--incremental" in words else ""
        return crate, "seed" if kept.endswith("/seed") else "edits"
    if "--crate-checked" in words:
        return crate, "build"
    to = words[words.index("-o") + 1] if "-o" in words else ""
    return crate, "tests" if re.search(r"_tests(\.o)?$", to) else "proof"


def look(seen, below):
    """Notes what each process below this one has taken so far."""
    parents, found = {}, {}
    for name in os.listdir("/proc"):
        if not name.isdigit():
            continue
        try:
            with open(f"/proc/{name}/stat", encoding="utf-8", errors="replace") as it:
                fields = it.read().rpartition(")")[2].split()
        except OSError:
            continue
        parents[int(name)] = int(fields[1])
        found[int(name)] = (int(fields[19]), int(fields[11]) + int(fields[12]))
    for process, (began, ticks) in found.items():
        at = process
        while at in parents and at != below:
            at = parents[at]
        if at != below or process == below:
            continue
        key = (process, began)
        if key not in seen:
            try:
                with open(f"/proc/{process}/cmdline", "rb") as it:
                    words = it.read().decode(errors="replace").split("\0")
                kind = kind_of(words, os.readlink(f"/proc/{process}/cwd"))
            except OSError:
                continue
            if kind is None:
                continue
            seen[key] = [kind, 0, time.time(), 0.0]
        seen[key][1] = ticks
        seen[key][3] = time.time()


def pace():
    """The processor time of a fixed loop, in milliseconds."""
    began, total = time.process_time(), 0
    for it in range(100_000):
        total += it * it
    return 1000 * (time.process_time() - began)


def run(record, command):
    """Runs the command, prints what it prints, and writes what was seen."""
    seen, paces, began = {}, [], time.time()
    child = subprocess.Popen(command)
    while child.poll() is None:
        if time.time() >= began + 10 * len(paces):
            paces.append(pace())
        look(seen, child.pid)
        time.sleep(0.5)
    used = resource.getrusage(resource.RUSAGE_CHILDREN)
    crates, longest = {}, {}
    for (crate, part), ticks, first, last in seen.values():
        row = crates.setdefault(crate, {})
        row[part] = row.get(part, 0) + ticks / TICK
        row[part + "_checks"] = row.get(part + "_checks", 0) + 1
        longest[crate] = max(longest.get(crate, 0), last - first)
    said = {
        "crates": crates,
        "longest": longest,
        "status": child.returncode,
        "wall": time.time() - began,
        "processor": used.ru_utime + used.ru_stime,
        "processors": len(os.sched_getaffinity(0)),
        "pace": statistics.mean(paces),
        "date": time.strftime("%Y-%m-%d"),
    }
    os.makedirs(os.path.dirname(record) or ".", exist_ok=True)
    with open(record, "w", encoding="utf-8") as it:
        json.dump(said, it)
    return child.returncode


def show(record):
    """Prints the table, dearest crate first."""
    with open(record, encoding="utf-8") as it:
        said = json.load(it)
    sums = dict.fromkeys(PARTS, 0)
    print(f"{'crate':<16}" + "".join(f"{it:>8}" for it in PARTS) + f"{'all':>8}{'edits':>7}{'longest':>9}")
    rows = []
    for crate, row in said["crates"].items():
        parts = [row.get(it, 0) for it in PARTS]
        rows.append((sum(parts), crate, parts, row.get("edits_checks", 0)))
    for total, crate, parts, edits in sorted(rows, reverse=True):
        for name, it in zip(PARTS, parts):
            sums[name] += it
        print(f"{crate:<16}" + "".join(f"{it:8.0f}" for it in parts) + f"{total:8.0f}{edits:7d}{said['longest'][crate]:9.0f}")
    every = sum(sums.values())
    print(f"{'all':<16}" + "".join(f"{sums[it]:8.0f}" for it in PARTS) + f"{every:8.0f}{sum(it[3] for it in rows):7d}")
    wall, processor = said["wall"] / 60, said["processor"] / 60
    print(f"{said['date']}, {said['processors']} processors: {wall:.1f} minutes, {processor:.1f} of processor time; status {said['status']}")
    if "pace" in said:
        print(f"a fixed loop took {said['pace']:.1f} ms of processor time meanwhile, on average")


if __name__ == "__main__":
    if sys.argv[1:2] == ["run"] and sys.argv[3:4] == ["--"]:
        sys.exit(run(sys.argv[2], sys.argv[4:]))
    if sys.argv[1:2] == ["show"] and len(sys.argv) == 3:
        sys.exit(show(sys.argv[2]))
    sys.exit(__doc__)
