#!/usr/bin/env python3
"""Makes a month's archive with planted errors, lets examples/navreport make its site, and views the site with Chromium.

  checks/report.py [--program FILE] [--screenshots DIR] [--keep DIR]

  --program FILE     navconvert or navbridge, the other next to it (PROGRAM, or crates/navbridge/out/navbridge)
  --screenshots DIR  writes pictures of the pages there, 400 and 1200 pixels wide, light and dark
  --keep DIR         leaves archive and site there

The archive is of January 2024: nine programs write a file a day each, in the styles of RINEX 3.02 to 4.01. Gaps, contradictions, health
changes, rejected records and broken files are planted. The expected content of report.json is computed from what was planted, minute by minute.
Then the pages are opened from disk and used by mouse and keyboard, and what they show is compared with report.json. Without Chromium the
pages are not viewed.

Exit status: 0 all correct; 1 something differs; 2 wrong arguments, or the program is missing.
"""
import argparse
import datetime
import gzip
import json
import os
import random
import re
import shutil
import subprocess
import sys
import tempfile
import time

from browser import Browser, chromium

TOP = os.path.dirname(os.path.dirname(os.path.realpath(__file__)))
NAVREPORT = os.path.join(TOP, "examples", "navreport")
ZERO = datetime.datetime(1980, 1, 6)
START, DAYS = 1388102400, 31  # 2024-01-01 in GPS time
PI = 3.1415926535898
GPS, GALILEO = ("G05", "G12", "G24", "G31"), ("E01", "E11", "E36")
PROGRAMS = [(f"Writer {letter}", version) for letter, version in zip("ABCDEFGHI", ("4.01", "4.00", "3.04", "3.05", "3.03", "3.02", "4.01", "3.05", "3.03"))]
MARKUP = "<img src=x onerror=alert(1)>&amp.rnx"


class Tally:
    """What was tried, and what differs."""
    tried = wrong = 0

    def same(self, what, got, wanted):
        self.tried += 1
        if got != wanted:
            self.wrong += 1
            print(f"differs: {what}\n  is     {str(got)[:600]}\n  wanted {str(wanted)[:600]}", flush=True)


# --- the archive

def signed(draw, bits, scale):
    return (draw.getrandbits(bits) - (1 << bits - 1)) * scale


def ephemeris(draw, satellite, toe, fit=0, health=0):
    """Random numbers within the fields of RINEX, by the names that the report uses for what is planted."""
    week, second = divmod(toe, 604800)
    small, angle = (lambda: signed(draw, 16, 2.0 ** -29)), (lambda: signed(draw, 32, 2.0 ** -31 * PI))
    is_gps = satellite[0] == "G"
    issue = draw.getrandbits(8 if is_gps else 9)
    lines = [[signed(draw, 20, 2.0 ** -34), signed(draw, 12, 2.0 ** -43), 0.0],
             [issue, signed(draw, 16, 2.0 ** -5), signed(draw, 16, 2.0 ** -43 * PI), angle()],
             [small(), draw.getrandbits(27) * 2.0 ** -33, small(), (2_700_000_000 + draw.getrandbits(24)) * 2.0 ** -19],
             [second, small(), angle(), small()], [angle(), signed(draw, 16, 2.0 ** -5), angle(), signed(draw, 24, 2.0 ** -43 * PI)]]
    if is_gps:
        lines += [[signed(draw, 14, 2.0 ** -43 * PI), 1, week, 0], [2.0, health, signed(draw, 8, 2.0 ** -31), issue], [second - 7200, 6 if fit else 4]]
        lines[0][0] = signed(draw, 18, 2.0 ** -31)
    else:
        lines += [[signed(draw, 14, 2.0 ** -43 * PI), 517, week], [3.12, health, signed(draw, 10, 2.0 ** -32), signed(draw, 10, 2.0 ** -32)], [second]]
    return {"satellite": satellite, "toe": toe, "issue": issue, "fit": fit, "health": health, "lines": lines}


def changed(eph, line, column, value):
    lines = [list(it) for it in eph["lines"]]
    lines[line][column] = value
    return {**eph, "lines": lines}


def number(value, version):
    if version == "4.00":  # no digit before the point
        mantissa, power = f"{value:.11E}".split("E")
        sign, digits = ("-", mantissa[1:]) if mantissa[0] == "-" else (" ", mantissa)
        return f" {sign}.{digits.replace('.', '')}D{int(power) + (value != 0):+03d}"
    return f"{value: .12E}".replace("E", "e" if version == "3.04" else "D")


def record(eph, version, source=517):
    """The lines of a record."""
    date = ZERO + datetime.timedelta(seconds=eph["toe"])
    satellite, rows = eph["satellite"], [list(it) for it in eph["lines"]]
    message = "LNAV" if satellite[0] == "G" else "INAV" if source == 517 else "FNAV"
    if satellite[0] == "E":
        rows[5][1] = source
    elif version == "3.03":
        rows[7][1] = 0  # these programs write no fit interval
    text = [f"> EPH {satellite} {message}"] if version[0] == "4" else []
    text.append(f"{satellite} {date:%Y %m %d %H %M %S}" + "".join(number(it, version) for it in rows[0]))
    return text + ["    " + "".join(number(it, version) for it in row) for row in rows[1:]]


def glonass(toe, version, satellite="R07"):
    date = ZERO + datetime.timedelta(seconds=toe)
    text = [f"> EPH {satellite} FDMA"] if version[0] == "4" else []
    return text + [f"{satellite} {date:%Y %m %d %H %M %S}{number(0, version) * 3}"] + ["    " + number(0, version) * 4] * 3


def header(program, version):
    return [f"{version:>9}           N: GNSS NAV DATA    M: MIXED            RINEX VERSION / TYPE",
            f"{program:20}{'an agency':20}20240101 000000 UTC PGM / RUN BY / DATE", f"{'':60}END OF HEADER"]


def toes():
    """When each satellite sends an ephemeris: every two hours, of Galileo every three, but for what is planted."""
    left_out = {"G05": range(60, 64), "G31": range(240, 264), "G24": range(26), "G12": (101, 102), "E11": (100,), "E36": range(200, 208)}
    for satellite in (*GPS, *GALILEO):
        step = 7200 if satellite[0] == "G" else 10800
        for at in range(DAYS * 86400 // step):
            if at not in left_out.get(satellite, ()):
                late = 6000 if (satellite, at) == ("E01", 50) else 0  # a gap of forty minutes
                health = 63 if satellite == "G24" and 100 <= at < 118 else 2 if satellite == "E11" and 150 <= at < 156 else 0
                yield satellite, at, START + step * at + late, int((satellite, at) == ("G12", 100)), health


def make(folder):
    """The archive, and what the report must say of it."""
    draw = random.Random(2024)
    plan = {"ephemerides": [], "files": 0, "records": 0, "skipped": 0, "rejected": [], "not_read": {}, "contradictions": {}}
    sky = {day: [] for day in range(DAYS)}
    for satellite, at, toe, fit, health in toes():
        eph = ephemeris(draw, satellite, toe, fit, health)
        plan["ephemerides"].append(eph)
        received = {it for it in range(9) if draw.random() < 0.5} or {at % 9}
        of = {it: eph for it in received}
        other = None
        if fit:  # one of them writes no fit interval
            of = {0: eph, 2: eph, 4: eph}
            other = ("numbers", ["fit interval"], [{4}, {0, 2}], {**eph, "fit": 0})
        if (satellite, at) == ("G05", 150):
            it = changed(eph, 1, 1, eph["lines"][1][1] + 2.0 ** -5)
            of = {1: eph, 5: eph, 6: it}
            other = ("numbers", ["Crs"], [{1, 5}, {6}], it)
        if (satellite, at) == ("E01", 30):
            it = {**changed(eph, 1, 0, eph["issue"] + 1), "issue": eph["issue"] + 1}
            of = {0: eph, 1: it, 7: eph}
            other = ("issue", ["IODnav"], [{0, 7}, {1}], it)
        if (satellite, at) == ("E36", 120):
            it = {**changed(eph, 6, 1, 6), "health": 6}
            of = {2: it, 3: eph, 8: eph}
            other = ("numbers", ["health"], [{3, 8}, {2}], it)
        if other:
            kind, differ, groups, it = other
            plan["ephemerides"].append(it)
            plan["contradictions"][satellite, toe] = {"kind": kind, "differ": differ, "where": {}, "groups": [{PROGRAMS[one][0] for one in group} for group in groups]}
        sky[(toe - START) // 86400].append((satellite, toe, of))
    for day, some in sky.items():
        for writer, (program, version) in enumerate(PROGRAMS):
            write_day(folder, plan, day, some, writer, program, version)
    broken(folder, plan)
    return plan


def bad_record(writer, day, version):
    """A record that is to be rejected: its lines and the reason."""
    lines = record(ephemeris(random.Random(day), "G05", START + 86400 * day + 43200), version)
    at = 1 if version[0] == "4" else 0
    change = {(3, 2): (at, "2024 01", "2024 13", "date"), (5, 3): (at + 2, lines[at + 2][4:23], "           abc     ", "number"),
              (7, 4): (0, "G05", "G33", "satellite"), (0, 5): (at, lines[at][23:42], " " * 19, "blank")}.get((writer, day))
    if change:
        row, old, new, reason = change
        lines[row] = lines[row].replace(old, new, 1)
        return lines, reason
    return (lines[:5], "short") if (writer, day) == (1, 6) else (None, None)


def write_day(folder, plan, day, some, writer, program, version):
    lines = header(program, version)
    date = datetime.date(2024, 1, 1) + datetime.timedelta(days=day)
    name = os.path.join(folder, f"{date:%Y}", f"{date:%j}", f"W{writer}{'AB'[writer % 2]}{writer}00XXX_R_{date:%Y%j}0000_01D_MN.rnx.gz")
    bad, reason = bad_record(writer, day, version)
    if bad:
        plan["rejected"].append((name, len(lines) + 1, reason))
        plan["records"] += 1
        lines += bad
    for satellite, toe, of in some:
        if writer not in of:
            continue
        if (satellite, toe) in plan["contradictions"]:
            plan["contradictions"][satellite, toe]["where"][name] = len(lines) + 1
        lines += record(of[writer], version)
        plan["records"] += 1
        if writer == 3 and satellite[0] == "E":
            lines += record(of[writer], version, 258)
            plan["records"] += 1
    lines += glonass(START + day * 86400, version)
    plan["records"] += 1
    if version[0] == "3":  # of no system that there is
        lines += glonass(START + day * 86400, version, "X07")
        plan["records"] += 1
        plan["skipped"] += 1
    plan["files"] += 1
    end = "\r\n" if version == "4.00" else "\n"
    os.makedirs(os.path.dirname(name), exist_ok=True)
    with open(name, "wb") as file:
        file.write(gzip.compress((end.join(lines) + end).encode("ascii"), 1, mtime=0))


def broken(folder, plan):
    """Files that cannot be read, and one that ends in the middle of a line."""
    one = header("Writer J", "4.01") + record(plan["ephemerides"][0], "4.01") + record(plan["ephemerides"][1], "4.01")
    whole = ("\n".join(one) + "\n").encode()
    packed = gzip.compress(whole, mtime=0)
    for name, data, outcome in (("cut.rnx.gz", packed[:len(packed) // 2], "cut"), ("empty.rnx", b"", "empty"), ("notes.txt", b"no navigation\n", "no RINEX"),
                                ("old.24n", whole.replace(b"     4.01", b"     1.00", 1), "version 1.00"), ("packed.zip", b"PK\3\4" + packed, "packed"),
                                ("obs.rnx", whole.replace(b"N: GNSS NAV", b"O: GNSS OBS", 1), "no navigation file")):
        with open(os.path.join(folder, name), "wb") as file:
            file.write(data)
        plan["not_read"][os.path.join(folder, name)] = outcome
        plan["files"] += 1
    with open(os.path.join(folder, MARKUP), "wb") as file:
        file.write(whole[:-30])
    plan["rejected"].append((os.path.join(folder, MARKUP), len(one) - 8, "cut"))
    plan["files"] += 1
    plan["records"] += 2


# --- what report.json must say

def minutes(some, health=lambda it: True):
    """Which minutes have an ephemeris: three hours each way of Toe if the fit interval is longer than four hours, else two."""
    there = bytearray(DAYS * 1440)
    for it in some:
        if health(it):
            reach = 180 if it["fit"] else 120
            at = (it["toe"] - START) // 60
            first, last = max(0, at - reach), min(len(there), at + reach)
            there[first:last] = b"\1" * (last - first)
    return there


def compare(tally, report, plan):
    """report.json and what was planted."""
    gaps = []
    for it in report["satellites"]:
        name = it["satellite"]
        own = [eph for eph in plan["ephemerides"] if eph["satellite"] == name]
        there = minutes(own)
        tally.same(f"{name}: seconds by day", it["day_seconds"], [60 * sum(there[day * 1440:(day + 1) * 1440]) for day in range(DAYS)])
        tally.same(f"{name}: ephemerides by day", it["day_ephemerides"], [sum((eph["toe"] - START) // 86400 == day for eph in own) for day in range(DAYS)])
        tally.same(f"{name}: percent", it["percent"], sum(there) * 10000 // (DAYS * 1440) / 100)
        tally.same(f"{name}: unhealthy seconds", it["unhealthy_seconds"], 60 * (sum(there) - sum(minutes(own, lambda eph: not eph["health"]))))
        text = bytes(there).decode("latin-1")
        at = text.find("\0")
        while at >= 0:
            end = text.find("\1", at)
            end = len(text) if end < 0 else end
            if end - at >= 120:
                gaps.append((name, START + 60 * at, START + 60 * end))
            at = text.find("\0", end)
    tally.same("satellites", [it["satellite"] for it in report["satellites"]], [*GPS, *GALILEO])
    tally.same("gaps", sorted((it["satellite"], it["from"], it["to"]) for it in report["gaps"]), sorted(gaps))
    tally.same("gaps that were planted", {it[0] for it in gaps}, {"G05", "G24", "G31", "E11", "E36"})
    tally.same("coverage by system", [(it["system"], it["covered_seconds"]) for it in report["systems"]],
               [(letter, sum(it["covered_seconds"] for it in report["satellites"] if it["satellite"][0] == letter)) for letter in "GE"])
    numbers = [report["files"]["files"], report["records"]["records"], report["records"]["skipped"], report["records"]["rejected"], report["records"]["distinct_ephemerides"]]
    tally.same("files, records, skipped, rejected, distinct", numbers,
               [plan["files"], plan["records"], plan["skipped"], len(plan["rejected"]), len(plan["ephemerides"])])
    tally.same("rejected records", sorted((it["file"], it["line"], it["reason"]) for it in report["rejected"]), sorted(plan["rejected"]))
    tally.same("files that were not read", {it["file"]: it["outcome"] for it in report["files_not_read"]}, plan["not_read"])
    tally.same("programs", [it["program"] for it in report["producers"]], [it for it, _ in PROGRAMS] + ["Writer J"])
    tally.same("contradictions", sorted((it["satellite"], it["toe"], it["kind"], it["differ"]) for it in report["contradictions"]),
               sorted((*key, it["kind"], it["differ"]) for key, it in plan["contradictions"].items()))
    for it in report["contradictions"]:
        planted = plan["contradictions"].get((it["satellite"], it["toe"]), {"where": {}, "groups": []})
        tally.same(f"{it['satellite']}: lines of a contradiction", {one["file"]: one["line"] for version in it["versions"] for one in version["files"]}, planted["where"])
        tally.same(f"{it['satellite']}: programs of its versions", sorted(version["producers"] for version in it["versions"]), sorted(sorted(group) for group in planted["groups"]))
    tally.same("health changes", [(it["satellite"], (it["toe"] - START) // 3600, it["from"], it["to"]) for it in report["health_changes"]],
               [("G24", 200, [0], [63]), ("G24", 236, [63], [0]), ("E36", 360, [0], [0, 6]), ("E36", 363, [0, 6], [0]), ("E11", 450, [0], [2]), ("E11", 468, [2], [0])])


# --- the pages in a browser

def texts(name):
    """The cells of a table, by its id."""
    return f"[...document.querySelectorAll('#{name} tbody tr')].map((row) => [...row.cells].map((it) => it.textContent))"


def moment_text(moment):
    return f"{ZERO + datetime.timedelta(seconds=moment):%Y-%m-%d %H:%M:%S}"


def look(tally, browser, site, report):
    """The pages, clicked and typed at."""
    by_name = {it["satellite"]: it for it in report["satellites"]}
    browser.size(1200, 900)
    browser.open(f"file://{site}/index.html")
    tally.same("index: tiles", browser.js("[...document.querySelectorAll('.tiles b')].map((it) => Number(it.textContent))"),
               [report["files"]["files"], report["files"]["not_read"], report["records"]["records"], report["records"]["rejected"], report["records"]["skipped"],
                report["records"]["distinct_ephemerides"], len(report["gaps"]), len(report["contradictions"]), len(report["health_changes"])])
    rows = "[...document.querySelectorAll('tr[data-sat]')].filter((it) => !it.hidden)"
    tally.same("index: satellites", browser.js(f"{rows}.map((it) => [0, 1, 3, 5].map((one) => it.cells[one].textContent))"),
               [[it["satellite"], f"{it['percent']:.2f}", str(it["gaps"]), str(it["ephemerides"])] for it in report["satellites"]])
    browser.click("document.getElementById('find')")
    browser.call("Input.insertText", text="e1")
    tally.same("index: the search", browser.js(f"{rows}.map((it) => it.dataset.sat)"), ["E11"])
    # the strip of G31 leads to its day
    browser.js("document.getElementById('find').value = ''; document.getElementById('find').dispatchEvent(new Event('input'))")
    browser.click("document.querySelector('tr[data-sat=G31] svg.strip')", 20.5 / DAYS)
    until = time.monotonic() + 30
    while not browser.js("location.pathname.endsWith('2024-01.html') && document.documentElement?.dataset.ready === '1'") and time.monotonic() < until:
        time.sleep(0.05)
    tally.same("index: a click on a day", browser.js("document.getElementById('status') && document.getElementById('status').textContent.slice(0, 26)"), "G31, 2024-01-21 (day 021):")
    month(tally, browser, site, report, by_name)
    browser.open(f"file://{site}/files.html")
    tally.same("files: rejected", browser.js(texts("rejected")), [[it["file"][len(report["root"]):], str(it["line"]), it["reason"], it["record"]] for it in report["rejected"]])
    tally.same("files: all", browser.js(f"{texts('all')}.map((it) => it.slice(0, 2))"), [[it["file"][len(report["root"]):], it["outcome"]] for it in report["file_rows"]])
    tally.same("files: a name is no markup", browser.js("document.images.length"), 0)
    browser.click("document.querySelector('input[data-rows=all]')")
    browser.call("Input.insertText", text="ends short")
    tally.same("files: the search", browser.js("[...document.querySelectorAll('#all tbody tr')].filter((it) => !it.hidden).length"), 1)
    for name in ("index", "2024-01", "files"):
        browser.size(400, 800)
        browser.open(f"file://{site}/{name}.html")
        tally.same(f"{name}: width at 400 pixels", browser.js("document.documentElement.scrollWidth"), 400)
        colours = set()
        for scheme in ("light", "dark"):
            browser.scheme(scheme)
            colours.add(browser.js("getComputedStyle(document.body).backgroundColor"))
        tally.same(f"{name}: colours, light and dark", len(colours), 2)
        browser.scheme("light")
    asked = {it["params"]["request"]["url"].split("#")[0] for it in browser.events if it.get("method") == "Network.requestWillBeSent"}
    tally.same("what was asked for", asked, {f"file://{site}/{name}.html" for name in ("index", "2024-01", "files")})
    tally.same("errors of the pages", [it for it in browser.events if it.get("method") in ("Runtime.exceptionThrown", "Log.entryAdded")], [])


def contrasts(tally):
    """WCAG 2.1, 1.4.3 and 1.4.11: texts have a contrast of 4.5 at least, lines and areas one of 3, light and dark."""
    def light(colour):
        parts = [int(colour[at:at + 2], 16) / 255 for at in (1, 3, 5)]
        return sum(part * (it / 12.92 if it <= 0.04045 else ((it + 0.055) / 1.055) ** 2.4) for part, it in zip((0.2126, 0.7152, 0.0722), parts))
    with open(os.path.join(TOP, "examples", "report", "page.css"), encoding="ascii") as file:
        schemes = re.findall(r":root \{(.*?)\}", file.read(), re.S)
    low = []
    for scheme in schemes:
        of = dict(re.findall(r"--([\w-]+): (#\w{6})", scheme))
        for least, pairs in ((4.5, "text page,text panel,soft page,soft panel,link page,gap page,gap panel,cover-text cover"),
                             (3, "cover page,cover panel,gap panel,ill page,mark page,focus page,focus panel,soft page")):
            for pair in pairs.split(","):
                dark, bright = sorted(light(of[it]) for it in pair.split())
                if (bright + 0.05) / (dark + 0.05) < least:
                    low.append(pair)
    tally.same("contrasts", (len(schemes), low), (2, []))


def month(tally, browser, site, report, by_name):
    """The timeline: by month, day and hour, by the mouse and by keys."""
    browser.open(f"file://{site}/2024-01.html")
    state = "['sat', 'day', 'hour'].map((it) => document.getElementById(it).value)"
    of_systems = [[{"G": "GPS", "E": "Galileo"}[it["system"]], it["percent"], *(day * 10000 // (86400 * it["satellites"]) / 100 for day in it["day_seconds"])]
                  for it in report["systems"]]
    tally.same("month: percents", browser.js(f"{texts('matrix')}.map((it) => it.map((one) => Number(one) || one))"),
               of_systems + [[name, it["percent"], *(day * 10000 // 86400 / 100 or "0" for day in it["day_seconds"])] for name, it in by_name.items()])
    tally.same("month: gaps", browser.js(f"{texts('gaps')}.map((it) => [it[0], it[2], it[3]])"),
               [[it["satellite"], moment_text(it["from"]), moment_text(it["to"])] for it in report["gaps"]])
    tally.same("month: gaps in the timeline", browser.js("document.querySelectorAll('#chart rect.gap').length"), len(report["gaps"]))
    tally.same("month: contradictions in the timeline", browser.js("document.querySelectorAll('#chart path.mark').length"), len(report["contradictions"]))
    for name, day in (("G05", 5), ("G24", 0), ("G31", 20), ("E11", 12), ("E36", 25), ("E01", 6), ("G12", 8), ("E36", 30)):
        browser.click("document.querySelector('button[data-zoom=month]')")
        # the row, and in it the day: names take 38 pixels at the left, 4 are free at the right
        width = browser.js("document.getElementById('chart').getBoundingClientRect().width")
        browser.click(f"document.querySelector('#chart [data-sat={name}] .back')", (38 + (day + 0.5) / DAYS * (width - 42)) / width)
        it, start = by_name[name], START + day * 86400
        tally.same(f"month: a click on {name}, day {day + 1}", browser.js(state), [name, str(day), "-1"])
        tally.same(f"{name}, day {day + 1}: numbers", browser.js("['percent', 'seconds', 'ephemerides', 'contradictions'].map((it) => document.getElementById('detail-' + it).textContent)"),
                   [f"{it['day_seconds'][day] * 10000 // 86400 / 100:.2f} %", str(it["day_seconds"][day]), str(it["day_ephemerides"][day]),
                    str(sum(one["satellite"] == name and start <= one["toe"] < start + 86400 for one in report["contradictions"]))])
        free, at = [], start
        for a, b in [*it["ranges"], [start + 86400, start + 86400]]:
            if a > at and at < start + 86400:
                free.append([moment_text(at), moment_text(min(a, start + 86400))])
            at = max(at, b)
        tally.same(f"{name}, day {day + 1}: times without an ephemeris",
                   browser.js("[...document.querySelectorAll('#detail-none tbody tr')].map((row) => [...row.cells].slice(0, 2).map((it) => it.textContent))"), free)
        tally.same(f"{name}, day {day + 1}: rows of ephemerides", browser.js("document.querySelectorAll('#detail-eph tbody tr').length"), it["day_ephemerides"][day])
    browser.click("document.querySelector('#chart [data-sat=E36] .back')", (38 + 13.5 / 24 * (width - 42)) / width)
    tally.same("month: a click on an hour", browser.js(state), ["E36", "30", "13"])
    browser.js("document.getElementById('chart').focus()")
    for key, wanted in (("ArrowRight", ["E36", "30", "14"]), ("ArrowUp", ["E11", "30", "14"]), ("Escape", ["E11", "30", "-1"]), ("ArrowLeft", ["E11", "29", "-1"]),
                        ("Enter", ["E11", "29", "0"]), ("ArrowLeft", ["E11", "28", "23"]), ("Escape", ["E11", "28", "-1"]), ("Escape", ["E11", "-1", "-1"]), ("ArrowDown", ["E36", "-1", "-1"])):
        browser.key(key)
        tally.same(f"month: the key {key}", browser.js(state), wanted)
    browser.click("document.getElementById('find')")
    browser.call("Input.insertText", text="g")
    tally.same("month: the search", browser.js("[...document.querySelectorAll('#chart [data-sat]')].map((it) => it.dataset.sat)"), list(GPS))
    browser.call("Input.insertText", text="12")
    tally.same("month: one satellite is found", browser.js(state)[0], "G12")
    browser.click("document.querySelector('button[data-utc=\"1\"]')")
    tally.same("month: UTC", browser.js("document.querySelector('#gaps time').textContent"), moment_text(report["gaps"][0]["from"] - 18))
    browser.js("document.querySelector('button[data-utc=\"0\"]').click()")


def pictures(browser, site, folder):
    os.makedirs(folder, exist_ok=True)
    for name, mark in (("index", ""), ("2024-01", "#s=G05"), ("2024-01", "#s=G24&d=2024-01-10"), ("2024-01", "#s=E36&d=2024-01-16&h=0"), ("files", "")):
        for width, scheme in ((1200, "light"), (1200, "dark"), (400, "light"), (400, "dark")):
            browser.size(width, 900)
            browser.scheme(scheme)
            browser.open(f"file://{site}/{name}.html{mark}")
            zoom = {0: "", 1: "month", 2: "day", 3: "hour"}[len(mark.split("=")) - 1]
            browser.picture(os.path.join(folder, f"{name}{'.' if zoom else ''}{zoom}.{width}.{scheme}.png"), 2600)


def main():
    parser = argparse.ArgumentParser(formatter_class=argparse.RawDescriptionHelpFormatter, description=__doc__, usage=argparse.SUPPRESS)
    parser.add_argument("--program", default=os.environ.get("PROGRAM") or os.path.join(TOP, "crates", "navbridge", "out", "navbridge"))
    parser.add_argument("--screenshots")
    parser.add_argument("--keep")
    args = parser.parse_args()
    program = os.path.abspath(args.program)
    if not os.access(program, os.X_OK):
        print(f"report: build first: no program {program}; 'rt ci' at the top, or 'rt run' in crates/navbridge, leaves it there", file=sys.stderr)
        return 2
    work = args.keep or tempfile.mkdtemp(prefix="navreport.")
    os.makedirs(work, exist_ok=True)
    tally = Tally()
    os.environ.pop("PROGRAM", None)

    def run(*words, status):
        ran = subprocess.run([NAVREPORT, "--program", program, "--date", "20240201 000000 UTC", *words], stdout=subprocess.PIPE, stderr=subprocess.PIPE, check=False, cwd=work)
        tally.same(f"navreport {' '.join(words)}: exit status {ran.stderr.decode(errors='replace')}", ran.returncode, status)
        return ran
    try:
        archive, site = os.path.join(work, "archive"), os.path.join(work, "site")
        plan = make(archive)
        run("-o", site, archive, status=1)
        with open(os.path.join(site, "report.json"), encoding="utf-8") as file:
            report = json.load(file)
        compare(tally, report, plan)
        # into the archive itself, merged in a cache and by one process: the same numbers
        again = os.path.join(archive, "report")
        run("-o", again, "--cache", os.path.join(work, "cache"), "-j", "1", "--title", "archive", archive, status=1)
        run("-o", again, "--cache", os.path.join(work, "cache"), "--title", "archive", archive, status=1)
        for name in sorted(os.listdir(site)):
            with open(os.path.join(site, name), "rb") as one, open(os.path.join(again, name), "rb") as other:
                tally.same(f"{name}: the same bytes", one.read() == other.read(), True)
        tally.same("names in the site", sorted(os.listdir(again)), ["2024-01.html", "files.html", "index.html", "report.json"])
        for words in (["-o", site], [archive], ["-o", site, "--from", "2024-13-01", archive], ["-o", site, "--from", "2024-02-01", "--to", "2024-01-01", archive]):
            run(*words, status=2)
        contrasts(tally)
        if chromium():
            browser = Browser(chromium(), os.path.join(work, "browser"))
            try:
                look(tally, browser, site, report)
                if args.screenshots:
                    pictures(browser, site, args.screenshots)
            except RuntimeError as why:
                tally.same("the browser", str(why), "")
            finally:
                browser.end()
        else:
            print("the pages: not looked at, since chromium is not installed")
    finally:
        if not args.keep:
            shutil.rmtree(work, ignore_errors=True)
    print(f"report: {tally.tried} tried, {tally.wrong} differ")
    return 1 if tally.wrong else 0


if __name__ == "__main__":
    sys.exit(main())
