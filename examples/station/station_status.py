#!/usr/bin/env python3
"""What a station is doing, as a page and as metrics: STATUS/status.html and STATUS/metrics.prom.

  station_status.py --station NAME --folder DIR --status STATUS [--form FORM] [--span SECONDS] [--leap SECONDS] [--program PATH]

navbridge-station calls it once a minute. It reads the parts, the running file and the reports in DIR, and asks navbridge which
times the records cover. Both files are written aside and renamed. DIR/status/state.json has what is to be known from one call to
the next. It needs Python 3.9 or later and its standard library.
"""
import argparse
import calendar
import collections
import hashlib
import html
import json
import os
import re
import shutil
import statistics
import subprocess
import sys
import time

EPOCH = 315964800  # of GPS time, in Unix seconds
WEEK = 604800
DAY = 86400
QUIET = 600  # seconds without a byte, and the station is silent
SYSTEMS = {"G": "GPS", "E": "Galileo"}
RECORD = re.compile(r"^> EPH ([GE]\d\d) \w+ *\n((?:[^>\n][^\n]*\n)+)", re.M)
REFUSED = re.compile(r"(?:frame|line|message) \d+ ([a-z]+)")
UNKNOWN = 9e8  # a transmission time from here on is none

STYLE = """
:root { color-scheme: light dark; --page: #fff; --text: #1a1d21; --soft: #586069; --line: #cfd4da; --panel: #f4f6f8;
  --cover: #33689f; --gap: #b3261e; --focus: #c2410c; }
@media (prefers-color-scheme: dark) { :root { --page: #15181c; --text: #e4e7ea; --soft: #a3abb4; --line: #3a4149;
  --panel: #1f2429; --cover: #6ea3d8; --gap: #ff8a80; --focus: #ffa366; } }
* { box-sizing: border-box; }
body { margin: 0 auto; padding: .6rem .7rem 2rem; max-width: 60rem; background: var(--page); color: var(--text);
  font: 15px/1.45 system-ui, "DejaVu Sans", Arial, sans-serif; }
h1 { font-size: 1.35rem; margin: .2rem 0; } h2 { font-size: 1.1rem; margin: 1.4rem 0 .4rem; border-bottom: 1px solid var(--line); }
p { margin: .4rem 0; } .soft { color: var(--soft); }
.tiles { display: grid; grid-template-columns: repeat(auto-fill, minmax(8.6rem, 1fr)); gap: .5rem; margin: .6rem 0; padding: 0;
  list-style: none; }
.tiles li { background: var(--panel); border: 1px solid var(--line); border-radius: 6px; padding: .4rem .55rem; }
.tiles b { display: block; font-size: 1.15rem; font-variant-numeric: tabular-nums; }
.bad { border: 1.5px solid currentColor; border-radius: 3px; padding: 0 .3rem; font-weight: 600; color: var(--gap); }
.wide { overflow-x: auto; } :focus-visible { outline: 3px solid var(--focus); }
table { border-collapse: collapse; width: 100%; font-variant-numeric: tabular-nums; }
th, td { padding: .15rem .4rem; text-align: left; border-bottom: 1px solid var(--line); }
td.n, th.n { text-align: right; } td.grow { width: 50%; min-width: 6rem; } td, tbody th { white-space: nowrap; }
thead th { vertical-align: bottom; }
svg { display: block; width: 100%; height: 18px; border: 1px solid var(--soft); background: var(--page); }
svg .cover { fill: var(--cover); } svg .gap { fill: var(--gap); } svg .now { stroke: var(--text); stroke-width: 3; }
.axis { display: flex; justify-content: space-between; font-size: .75rem; color: var(--soft); }
"""

escape = lambda text: html.escape(str(text), quote=True)


# --- what is read

def listed(directory, pattern):
    """Files of a directory whose name fits: name, size and time of the last byte, by name."""
    found = []
    try:
        for it in os.scandir(directory):
            if re.fullmatch(pattern, it.name) and it.is_file():
                found.append((it.name, it.stat().st_size, it.stat().st_mtime))
    except OSError:
        pass
    return sorted(found)


def text_of(path):
    try:
        with open(path, encoding="ascii", errors="replace") as file:
            return file.read()
    except OSError:
        return ""


def gps_second(digits):
    """Unix seconds of a clock that shows GPS time, of YYYYDDDhhmmss."""
    return calendar.timegm(time.strptime(digits[:7].ljust(7), "%Y%j")) + int(digits[7:9]) * 3600 + int(digits[9:11]) * 60 + int(digits[11:] or 0)


def state_of(path):
    try:
        with open(path, encoding="ascii") as file:
            return json.load(file)
    except (OSError, ValueError):
        return {}


def put(path, text):
    """Writes a file aside, and gives it its name."""
    with open(path + ".new", "w", encoding="utf-8") as file:
        file.write(text)
    os.chmod(path + ".new", 0o644)
    os.replace(path + ".new", path)


def covered(program, texts):
    """The times for which each satellite has an ephemeris, in seconds of GPS time, by navbridge."""
    try:
        ran = subprocess.run([program, "--from", "rinex", "--to", "cover"], input="".join(texts).encode(), stdout=subprocess.PIPE,
                             stderr=subprocess.DEVNULL, timeout=300, check=True)
    except (OSError, subprocess.SubprocessError) as fault:
        print(f"the times covered are not known: {fault}", file=sys.stderr)
        return {}
    ranges = {}
    for line in ran.stdout.decode().splitlines():
        satellite, begin, end = line.split()
        ranges.setdefault(satellite, []).append((int(begin), int(end)))
    return ranges


class Status:
    """All that is shown."""

    def __init__(self, args):
        self.args, self.now = args, time.time()
        self.gps = self.now + args.leap - EPOCH  # seconds of GPS time
        self.midnight = int(self.gps // DAY * DAY)
        self.state = state_of(os.path.join(args.folder, "status", "state.json"))
        self.received()
        self.records()
        self.rejected = collections.Counter()
        today = time.strftime("%Y%j", time.gmtime(self.midnight + EPOCH))
        for place in ("reports", "live"):
            for name, _, _ in listed(os.path.join(args.folder, place), rf"{args.station}_._{today}\d{{4}}_{self.period()}_MN\.rnx\.(?:report|navlog)"):
                self.rejected.update(REFUSED.findall(text_of(os.path.join(args.folder, place, name))))
        self.disk = shutil.disk_usage(args.folder)

    def period(self):
        """The length of the shortest files, as their names have it."""
        span = self.args.span
        return "01D" if span == DAY else f"{span // 3600:02}H" if span % 3600 == 0 else f"{span // 60:02}M"

    def received(self):
        """Bytes: the last one, how many came since the station is watched and in the last minutes, and when bytes came today."""
        args, state = self.args, self.state
        parts = [it for it in listed(os.path.join(args.folder, "parts"), rf"{args.station}_\d{{13}}\.{args.form}")
                 if it[1] and it[2] <= self.now + 60]
        self.last_byte = max((it[2] for it in parts), default=0)
        known = state.get("sizes")
        recent = {name: size for name, size, last in parts if last > self.now - 2 * DAY}
        grown = sum(max(0, size - known.get(name, 0)) for name, size in recent.items()) if known is not None else 0
        self.bytes = state.get("bytes", 0) + grown
        state.update(sizes=recent, bytes=self.bytes)
        samples = [it for it in state.get("samples", []) if self.now - 3600 < it[0] <= self.now] + [[self.now, self.bytes]]
        state["samples"] = samples
        self.rate = None
        before = [it for it in samples if it[0] <= self.now - 50]
        if before:
            self.rate = (self.bytes - before[-1][1]) / (self.now - before[-1][0])
        self.spans = [(gps_second(name[-13 - len(args.form) - 1:-len(args.form) - 1]) - EPOCH, last + args.leap - EPOCH)
                      for name, _, last in parts if last + args.leap - EPOCH > self.midnight]

    def records(self):
        """Records of today: when the last of each satellite came, how late they were, and what they cover."""
        args, state = self.args, self.state
        texts, seen, keys = [], [], state.setdefault("keys", {})
        self.last, self.counts = state.setdefault("last", {}), state.setdefault("counts", {})
        present = set()
        today = time.strftime("%Y%j", time.gmtime(self.midnight + EPOCH))
        for place in ("files", "live"):
            for name, _, last in listed(os.path.join(args.folder, place), rf"{args.station}_._{today}\d{{4}}_\d\d[DHM]_MN\.rnx"):
                text = text_of(os.path.join(args.folder, place, name))
                text = text[:text.rfind("\n") + 1]
                if "END OF HEADER" not in text:
                    continue
                texts.append(text)
                seen.append([name, len(text)])
                for satellite, lines in RECORD.findall(text) if place == "live" else ():
                    lines = lines.split("\n")
                    key = hashlib.sha256("\n".join([satellite, *lines[:7]]).encode()).hexdigest()[:12]
                    present.add(key)
                    if key in keys or len(lines) < 9:
                        continue
                    keys[key] = int(last)
                    self.last[satellite] = max(self.last.get(satellite, 0), last)
                    self.counts[satellite[0]] = self.counts.get(satellite[0], 0) + 1
                    sent = float(lines[7][4:23].replace("D", "E") or UNKNOWN)
                    if abs(sent) < UNKNOWN:
                        delay = (last + args.leap - EPOCH - sent) % WEEK
                        state["delays"] = (state.get("delays", []) + [[int(last), round(delay, 1)]])[-500:]
        for satellite in [it for it, last in self.last.items() if last < self.now - 2 * DAY]:
            del self.last[satellite]
        state["keys"] = {key: when for key, when in keys.items() if key in present or when > self.now - DAY / 4}
        self.delays = [delay for when, delay in state.get("delays", []) if when > self.now - 3600]
        if state.get("seen") != seen:  # else they are as they were a minute ago
            state.update(seen=seen, cover=covered(args.program, texts) if texts else {})
        self.cover = state.get("cover", {})

    # --- what is said of it

    def silent(self):
        """Seconds without a byte, where they are many."""
        return self.now - self.last_byte if self.now - self.last_byte >= QUIET else 0

    def is_valid(self, satellite):
        return any(begin <= self.gps < end for begin, end in self.cover.get(satellite, ()))


# --- the page

def clock(unix):
    """A time of today, or with its date."""
    if not unix:
        return "none"
    text = time.strftime("%Y-%m-%d %H:%M:%S", time.gmtime(unix))
    shown = text[11:] if text[:10] == time.strftime("%Y-%m-%d", time.gmtime()) else text
    return f'<time datetime="{text.replace(" ", "T")}Z">{shown}</time>'


def long(seconds):
    seconds = int(seconds)
    return f"{seconds} s" if seconds < 120 else f"{seconds // 60} min" if seconds < 7200 else f"{seconds / 3600:.1f} h" \
        if seconds < 2 * DAY else f"{seconds / DAY:.1f} d"


def large(count):
    for unit in ("B", "kB", "MB", "GB"):
        if count < 1000:
            return f"{count:.0f} {unit}" if unit == "B" else f"{count:.1f} {unit}"
        count /= 1000
    return f"{count:.1f} TB"


def bad(text):
    return f'<span class="bad">{escape(text)}</span>'


def strip(status, spans, kind, what):
    """A day of 1440 minutes as a row: bars are the spans; the line is the present."""
    path, total, at = "", 0, 0
    for begin, end in sorted(spans):
        begin, end = max((begin - status.midnight) / 60, at), min((end - status.midnight) / 60, (status.gps - status.midnight) / 60)
        if end > begin:
            path += f"M{begin:.1f} 2h{max(end - begin, 1):.1f}v14h-{max(end - begin, 1):.1f}z"
            total, at = total + end - begin, end
    so_far = max((status.gps - status.midnight) / 60, 1)
    text = f"{what}: {100 * total / so_far:.0f} % of the day so far"
    return (f'<svg viewBox="0 0 1440 18" preserveAspectRatio="none" role="img" aria-label="{escape(text)}"><title>{escape(text)}</title>'
            f'<path class="{kind}" d="{path}"/><path class="now" d="M{so_far:.1f} 0v18"/></svg>')


def silences(status):
    """The times of today, so far, in which no byte came for ten minutes."""
    gaps, at = [], status.midnight
    for begin, end in sorted(status.spans):
        if begin - at >= QUIET:
            gaps.append((at, begin))
        at = max(at, end)
    if status.gps - at >= QUIET:
        gaps.append((at, status.gps))
    return gaps


def page(status):
    args, gaps, silent = status.args, silences(status), status.silent()
    valid = {letter: sum(map(status.is_valid, (it for it in status.cover if it[0] == letter))) for letter in SYSTEMS}
    word = bad(f"SILENT: no byte for {long(silent)}") if status.last_byte and silent else bad("NO DATA: no byte yet") if not status.last_byte \
        else f"<b>receiving</b>: last byte {long(status.now - status.last_byte)} ago"
    delay = f"{long(statistics.median(status.delays))}, at most {long(max(status.delays))}" if status.delays else "not known"
    per_day = status.rate * DAY if status.rate else 0
    tiles = [("last byte, UTC", clock(status.last_byte)), ("bytes a second", f"{status.rate:.0f}" if status.rate is not None else "not known yet"),
             *((f"{name} with a valid ephemeris", valid[letter]) for letter, name in SYSTEMS.items()),
             ("from sending to file, last hour", delay), ("rejected today", sum(status.rejected.values())),
             ("disk left", f"{large(status.disk.free)}{f', {status.disk.free / per_day:.0f} days' if per_day else ''}")]
    axis = '<div class="axis" aria-hidden="true"><span>0</span><span>6</span><span>12</span><span>18</span><span>24 h</span></div>'
    rows = []
    for satellite in sorted(set(status.cover) | set(status.last), key=lambda it: (it[0] != "G", it)):
        last = status.last.get(satellite, 0)
        rows.append(f'<tr><th scope="row">{satellite}</th><td class="grow">{strip(status, status.cover.get(satellite, ()), "cover", satellite)}</td>'
                    f'<td>{clock(last)}</td><td>{"valid" if status.is_valid(satellite) else bad("NONE")}</td></tr>')
    reasons = "".join(f'<tr><td>{escape(reason)}</td><td class="n">{count}</td></tr>' for reason, count in status.rejected.most_common())
    quiet = "".join(f"<li>{clock(begin + EPOCH - args.leap)} to {clock(end + EPOCH - args.leap)}: {bad('nothing came for ' + long(end - begin))}</li>"
                    for begin, end in gaps)
    when = time.strftime("%Y-%m-%d %H:%M:%S", time.gmtime(status.now))
    return f"""<!DOCTYPE html>
<html lang="en">
<head>
<meta charset="utf-8">
<meta name="viewport" content="width=device-width, initial-scale=1">
<meta http-equiv="refresh" content="60">
<meta http-equiv="Content-Security-Policy" content="default-src 'none'; style-src 'unsafe-inline'">
<title>{args.station}: {'SILENT' if silent else 'receiving'}</title>
<style>{STYLE}</style>
</head>
<body>
<header><h1>Station {args.station}</h1>
<p>{word}</p>
<p class="soft">As of {when} UTC. This page is written once a minute.</p></header>
<main>
<ul class="tiles">{"".join(f"<li><b>{value if str(value)[:1] == '<' else escape(value)}</b>{escape(what)}</li>" for what, value in tiles)}</ul>
<h2>The day so far, GPS time</h2>
<p class="soft">A bar is a time with bytes, or with a valid ephemeris; a red one ten minutes or more without a byte. The line is now.</p>
<div class="wide" tabindex="0" role="region" aria-label="Timeline of the day">
<table>
<thead><tr><th scope="col"></th><th scope="col">{axis}</th><th scope="col">last record, UTC</th><th scope="col">ephemeris</th></tr></thead>
<tbody>
<tr><th scope="row">bytes</th><td class="grow">{strip(status, status.spans, "cover", "bytes")}</td><td>{clock(status.last_byte)}</td>
<td>{bad("SILENT") if silent else "receiving"}</td></tr>
{f'<tr><th scope="row">silent</th><td class="grow">{strip(status, gaps, "gap", "nothing for ten minutes")}</td><td></td><td></td></tr>' if gaps else ""}
{"".join(rows)}
</tbody></table></div>
{f"<ul>{quiet}</ul>" if quiet else "<p>No ten minutes without a byte today.</p>"}
<h2>Rejected today</h2>
{f'<table><thead><tr><th scope="col">reason</th><th scope="col" class="n">times</th></tr></thead><tbody>{reasons}</tbody></table>' if reasons else "<p>Nothing.</p>"}
</main>
</body>
</html>
"""


# --- the metrics

def metrics(status):
    lines, station = [], status.args.station

    def metric(name, kind, text, values):
        values = list(values)
        if values:
            lines.extend([f"# HELP {name} {text}", f"# TYPE {name} {kind}"])
        for labels, value in values:
            inside = ",".join(f'{key}="{it}"' for key, it in {"station": station, **labels}.items())
            lines.append(f"{name}{{{inside}}} {value:.15g}")
    of = lambda satellite: {"system": SYSTEMS[satellite[0]], "satellite": satellite}
    metric("navbridge_status_timestamp_seconds", "gauge", "When these metrics were written, Unix time.", [({}, round(status.now, 3))])
    metric("navbridge_last_byte_timestamp_seconds", "gauge", "When the last byte came, Unix time; 0: none yet.", [({}, round(status.last_byte, 3))])
    metric("navbridge_received_bytes_total", "counter", "Bytes received.", [({}, status.bytes)])
    metric("navbridge_records_total", "counter", "Ephemerides written.",
           (({"system": name}, status.counts.get(letter, 0)) for letter, name in SYSTEMS.items()))
    metric("navbridge_last_record_timestamp_seconds", "gauge", "When the last ephemeris of a satellite was written, Unix time.",
           ((of(satellite), round(last, 3)) for satellite, last in sorted(status.last.items())))
    metric("navbridge_ephemeris_valid", "gauge", "1 if the satellite has a valid ephemeris now, else 0.",
           ((of(satellite), int(status.is_valid(satellite))) for satellite in sorted(status.cover)))
    metric("navbridge_rejected_total", "counter", "Frames, lines or messages rejected today, by reason.",
           (({"reason": reason}, count) for reason, count in sorted(status.rejected.items())))
    metric("navbridge_delay_seconds", "gauge", "From sending to file, median of the last hour.",
           [({}, statistics.median(status.delays))] if status.delays else [])
    metric("navbridge_disk_free_bytes", "gauge", "Bytes left on the file system of the files.", [({}, status.disk.free)])
    return "\n".join(lines) + "\n"


def main():
    parser = argparse.ArgumentParser(usage=__doc__.split("\n\n", 1)[1])
    for name in ("station", "folder", "status"):
        parser.add_argument("--" + name, required=True)
    parser.add_argument("--form", default="rtcm3")
    parser.add_argument("--span", type=int, default=DAY)
    parser.add_argument("--leap", type=int, default=18)
    parser.add_argument("--program", default="navbridge")
    args = parser.parse_args()
    for directory in (args.status, os.path.join(args.folder, "status")):
        os.makedirs(directory, exist_ok=True)
    status = Status(args)
    put(os.path.join(args.status, "status.html"), page(status))
    put(os.path.join(args.status, "metrics.prom"), metrics(status))
    put(os.path.join(args.folder, "status", "state.json"), json.dumps(status.state))
    return 0


if __name__ == "__main__":
    sys.exit(main())
