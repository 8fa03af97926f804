#!/usr/bin/env python3
"""Makes the directory of a station, lets examples/station/station_status.py write its page and metrics, and views the page with Chromium.

  checks/status.py [--program FILE] [--screenshots DIR]

  --program FILE     navbridge (PROGRAM, or crates/navbridge/out/navbridge)
  --screenshots DIR  writes pictures of the page there, 400 and 1000 pixels wide, light and dark

Raw parts with a gap, a running file and a report are made for the present time. What the page and the metrics must show is computed from
them. Then the station is a quarter of an hour without a byte, then it has no bytes at all. A reader looks at the page while it is written
again and again. Without Chromium the page is read as text; without promtool metrics and alerts are not checked by it.

Exit status: 0 all correct; 1 something differs; 2 wrong arguments, or the program is missing.
"""
import argparse
import os
import random
import re
import shutil
import subprocess
import sys
import tempfile
import threading
import time

sys.dont_write_bytecode = True
from browser import Browser, chromium  # noqa: E402
from report import TOP, Tally, changed, ephemeris, header, record  # noqa: E402

STATUS = os.path.join(TOP, "examples", "station", "station_status.py")
ALERTS = os.path.join(TOP, "examples", "station")
EPOCH, LEAP, DAY, WEEK = 315964800, 18, 86400, 604800
STATION = "STAT00CCC"
DELAY = 3  # seconds between sending and the file


def stamp(unix, form):
    """A time of the clock that shows GPS time, as names of files have it."""
    return time.strftime(form, time.gmtime(unix + LEAP))


class Station:
    """The directory of a station, and what is in it."""

    def __init__(self, folder, program):
        self.folder, self.status, self.program = folder, os.path.join(folder, "status"), program
        for name in ("parts", "live", "files", "reports"):
            os.makedirs(os.path.join(folder, name))
        self.now = int(time.time())
        self.midnight = (self.now + LEAP) // DAY * DAY - LEAP  # of GPS time, as Unix time
        self.parts = {}

    def part(self, begin, end, size):
        """Raw bytes that came between two times."""
        path = os.path.join(self.folder, "parts", f"{STATION}_{stamp(begin, '%Y%j%H%M%S')}.rtcm3")
        with open(path, "wb") as file:
            file.write(bytes(size))
        os.utime(path, (end, end))
        self.parts[path] = begin, end
        return path

    def live(self, written):
        """The running file: satellites with an ephemeris of this time, and one of six hours ago."""
        draw, lines = random.Random(7), header("navbridge", "4.01")
        gps = written + LEAP - EPOCH
        for satellite, step in (("G05", 7200), ("G12", 7200), ("E11", 600), ("G24", 7200)):
            # the nearest, so that none becomes too old meanwhile
            toe = (gps + step // 2) // step * step - (21600 if satellite == "G24" else 0)
            sent = gps - DELAY - toe // WEEK * WEEK
            lines += record(changed(ephemeris(draw, satellite, toe), 7, 0, float(sent)), "4.01")
        path = os.path.join(self.folder, "live", f"{STATION}_S_{stamp(self.now, '%Y%j')}0000_01D_MN.rnx")
        with open(path, "w", encoding="ascii") as file:
            file.write("\n".join(lines) + "\n" + "> EPH G31 LNAV\nG31 20")  # a record that is being written
        os.utime(path, (written, written))

    def report(self, *lines):
        with open(os.path.join(self.folder, "reports", f"{STATION}_S_{stamp(self.now, '%Y%j')}0000_01D_MN.rnx.report"), "w", encoding="ascii") as file:
            file.write("".join(f"{it}\n" for it in lines))

    def write(self):
        """Page and metrics, by the program."""
        ran = subprocess.run([sys.executable, "-I", STATUS, "--station", STATION, "--folder", self.folder, "--status", self.status,
                              "--program", self.program, "--leap", str(LEAP)], capture_output=True, text=True, check=False)
        return ran.returncode, ran.stderr

    def text(self, name):
        with open(os.path.join(self.status, name), encoding="utf-8") as file:
            return file.read()

    def metrics(self):
        return {key: float(value) for key, value in re.findall(r"^(navbridge_\S+) (\S+)$", self.text("metrics.prom"), re.M)}

    def gaps(self):
        """How many seconds of today each time without a byte for ten minutes has, by what was made."""
        found, at = [], self.midnight
        for begin, end in sorted(self.parts.values()):
            if begin - at >= 600:
                found.append(begin - at)
            at = max(at, end)
        if time.time() - at >= 600:
            found.append(time.time() - at)
        return found


def length(seconds):
    return f"{int(seconds // 60)} min" if seconds < 7200 else f"{seconds / 3600:.1f} h"


def compare(tally, station):
    """The metrics of a station that receives."""
    (status, said), got = station.write(), station.metrics()
    tally.same("exit status, messages", (status, said), (0, ""))
    label = f'station="{STATION}"'
    of = lambda name, **more: got.get(f"navbridge_{name}{{{','.join([label, *(f'{key}={chr(34)}{it}{chr(34)}' for key, it in more.items())])}}}")
    last = max(end for _, end in station.parts.values())
    tally.same("the last byte", of("last_byte_timestamp_seconds"), last)
    tally.same("records", [of("records_total", system=it) for it in ("GPS", "Galileo")], [3, 1])
    for satellite, valid in (("G05", 1), ("G12", 1), ("G24", 0), ("E11", 1)):
        system = "GPS" if satellite[0] == "G" else "Galileo"
        tally.same(f"{satellite}: valid", of("ephemeris_valid", system=system, satellite=satellite), valid)
        tally.same(f"{satellite}: the last record", of("last_record_timestamp_seconds", system=system, satellite=satellite), station.now - 5)
    tally.same("rejected", [of("rejected_total", reason=it) for it in ("sisa", "satellite", "parity")], [2, 1, 1])
    tally.same("delay", of("delay_seconds"), DELAY)
    tally.same("disk", abs(of("disk_free_bytes") - shutil.disk_usage(station.folder).free) < 1e9, True)
    tally.same("the time of the metrics", abs(of("status_timestamp_seconds") - time.time()) < 20, True)
    # bytes that come are counted, and make a rate where the count before is a minute old
    state = os.path.join(station.status, "state.json")
    with open(state, encoding="ascii") as file:
        text = file.read()
    with open(state, "w", encoding="ascii") as file:
        file.write(re.sub(r'("samples": \[\[)([0-9.]+)', lambda it: f"{it[1]}{float(it[2]) - 60}", text))
    path = max(station.parts)
    with open(path, "ab") as file:
        file.write(bytes(6000))
    os.utime(path, (last, last))
    before = time.time()
    station.write()
    got = station.metrics()
    tally.same("bytes", of("received_bytes_total"), 6000)
    rate = re.search(r"<b>(\d+)</b>bytes a second", station.text("status.html"))
    tally.same("bytes a second", bool(rate) and 6000 / (80 + time.time() - before) <= float(rate[1]) <= 100, True)
    tally.same("records are counted once", of("records_total", system="GPS"), 3)


def readable(tally, station):
    """While the page is written again and again, a reader finds it complete."""
    path, torn, stop = os.path.join(station.status, "status.html"), [], threading.Event()

    def reader():
        while not stop.is_set():
            with open(path, encoding="utf-8") as file:
                text = file.read()
            if not text.startswith("<!DOCTYPE html>") or not text.endswith("</html>\n"):
                torn.append(len(text))
    thread = threading.Thread(target=reader)
    thread.start()
    for _ in range(5):
        station.write()
    stop.set()
    thread.join()
    tally.same("pages that were read in parts", torn, [])
    tally.same("files of the status", sorted(os.listdir(station.status)), ["metrics.prom", "state.json", "status.html"])


def promtool(tally, station):
    if not shutil.which("promtool"):
        print("the metrics and alerts: not checked by promtool, since it is not installed")
        return
    ran = subprocess.run(["promtool", "check", "metrics"], input=station.text("metrics.prom"), capture_output=True, text=True, check=False)
    tally.same("promtool: metrics", (ran.returncode, ran.stdout + ran.stderr), (0, ""))
    for words in (["check", "rules", "alerts.yml"], ["test", "rules", "alerts_test.yml"]):
        ran = subprocess.run(["promtool", *words], cwd=ALERTS, capture_output=True, text=True, check=False)
        tally.same(f"promtool: {words[0]} {words[2]}: {ran.stdout}{ran.stderr}", ran.returncode, 0)


def shown_as_text(station):
    """Of the page as text: its first line, tiles by their names, and rows."""
    text = station.text("status.html")
    plain = lambda it: re.sub(r"<[^>]*>", "", it)
    tiles = {plain(name): plain(value) for value, name in re.findall(r"<li><b>(.*?)</b>(.*?)</li>", text)}
    rows = [[plain(cell) for cell in re.findall(r'<t[hd](?! class="grow")[^>]*>(.*?)</t[hd]>', row, re.S)] for row in re.findall(r"<tr><th scope=\"row\">.*?</tr>", text, re.S)]
    return re.search(r"</h1>\s*<p>(.*?)</p>", text)[1], tiles, rows, [plain(it) for it in re.findall(r"<li>(<time.*?)</li>", text)]


def shown(browser, station):
    """The same of the page in the browser."""
    browser.open(f"file://{station.status}/status.html", "document.readyState === 'complete'")
    tiles = "Object.fromEntries([...document.querySelectorAll('.tiles li')].map((it) => [it.lastChild.textContent, it.firstChild.textContent]))"
    rows = "[...document.querySelectorAll('.wide tbody tr')].map((row) => [...row.cells].filter((it) => !it.matches('.grow')).map((it) => it.textContent))"
    return (browser.js("document.querySelector('header p').innerHTML"), browser.js(tiles), browser.js(rows),
            browser.js("[...document.querySelectorAll('main > ul:not(.tiles) > li')].map((it) => it.textContent)"))


def view(tally, station, show):
    """What the page of a station that receives shows, compared with its metrics and with what was made."""
    station.write()
    got, (first, tiles, rows, quiet) = station.metrics(), show(station)
    clock = lambda unix: time.strftime("%H:%M:%S" if time.strftime("%j", time.gmtime(unix)) == time.strftime("%j", time.gmtime()) else "%Y-%m-%d %H:%M:%S", time.gmtime(unix))
    tally.same("page: its first line", re.fullmatch(r"<b>receiving</b>: last byte \d+ s ago", first) is not None, True)
    last = clock(max(end for _, end in station.parts.values()))
    tally.same("page: tiles", [tiles.get(it) for it in ("last byte, UTC", "GPS with a valid ephemeris", "Galileo with a valid ephemeris", "rejected today",
                                                        "from sending to file, last hour")], [last, "2", "1", "4", f"{DELAY} s, at most {DELAY} s"])
    tally.same("page: disk", re.match(r"[\d.]+ [kMGT]B", tiles.get("disk left", "")) is not None, True)
    names = sorted({it for key in got for it in re.findall(r'satellite="(\w+)"', key)}, key=lambda it: (it[0] != "G", it))
    valid = {it: any(value for key, value in got.items() if "ephemeris_valid" in key and it in key) for it in names}
    silent = [["silent", "", ""]] if station.gaps() else []
    tally.same("page: rows", rows, [["bytes", last, "receiving"], *silent, *([it, clock(station.now - 5), "valid" if valid[it] else "NONE"] for it in names)])
    tally.same("page: times without a byte", [it.split("nothing came for ")[1] for it in quiet], [length(it) for it in station.gaps()])


def look(tally, browser, station):
    """The page in the browser: colours, widths, keys, and what it asks for."""
    style = lambda what, key: browser.js(f"getComputedStyle(document.querySelector('{what}')).{key}")
    for scheme, red in (("light", "rgb(179, 38, 30)"), ("dark", "rgb(255, 138, 128)")):
        browser.scheme(scheme)
        tally.same(f"page, {scheme}: red where nothing came", style("svg path.gap", "fill"), red)
        tally.same(f"page, {scheme}: the satellite without an ephemeris", style("td .bad", "color"), red)
    browser.scheme("light")
    browser.size(400, 800)
    tally.same("page: width at 400 pixels", browser.js("document.documentElement.scrollWidth"), 400)
    browser.key("Tab")
    tally.same("page: the key Tab", browser.js("document.activeElement.getAttribute('aria-label')"), "Timeline of the day")
    tally.same("page: bars have texts", browser.js("[...document.querySelectorAll('svg')].every((it) => it.getAttribute('aria-label'))"), True)


def main():
    parser = argparse.ArgumentParser(formatter_class=argparse.RawDescriptionHelpFormatter, description=__doc__, usage=argparse.SUPPRESS)
    parser.add_argument("--program", default=os.environ.get("PROGRAM") or os.path.join(TOP, "crates", "navbridge", "out", "navbridge"))
    parser.add_argument("--screenshots")
    args = parser.parse_args()
    program = os.path.abspath(args.program)
    if not os.access(program, os.X_OK):
        print(f"status: build first: no program {program}; 'rt ci' at the top, or 'rt run' in crates/navbridge, leaves it there", file=sys.stderr)
        return 2
    tally, work, browser = Tally(), tempfile.mkdtemp(prefix="status."), None
    left = DAY - (time.time() + LEAP) % DAY
    if left < 60:  # the days of the page must not change meanwhile
        time.sleep(left + 1)
    try:
        station = Station(os.path.join(work, "one"), program)
        station.part(station.now - 9000, station.now - 7200, 1000)
        station.part(station.now - 1800, station.now - 2, 1000)
        station.live(station.now - 5)
        station.report("frame 3 sisa", "frame 9 satellite", "frame 11 sisa", "line 7 parity 3", "frames 20")
        compare(tally, station)
        readable(tally, station)
        promtool(tally, station)
        view(tally, station, shown_as_text)
        if chromium():
            browser = Browser(chromium(), os.path.join(work, "browser"))
            browser.size(1000, 900)
            view(tally, station, lambda it: shown(browser, it))
            look(tally, browser, station)
            for width in (400, 1000) if args.screenshots else ():
                for scheme in ("light", "dark"):
                    os.makedirs(args.screenshots, exist_ok=True)
                    browser.size(width, 900)
                    browser.scheme(scheme)
                    browser.picture(os.path.join(args.screenshots, f"status.{width}.{scheme}.png"))
        else:
            print("the page: read as text alone, since chromium is not installed")
        show = (lambda it: shown(browser, it)) if browser else shown_as_text
        path = max(station.parts)
        begin, _ = station.parts[path]
        end = time.time() - 910
        station.parts[path] = begin, end
        os.utime(path, (end, end))
        station.write()
        first, _, rows, _ = show(station)
        tally.same("silent: the first line", first, '<span class="bad">SILENT: no byte for 15 min</span>')
        tally.same("silent: the row of bytes", rows[0][-1], "SILENT")
        none = Station(os.path.join(work, "none"), program)
        none.write()
        first, _, rows, _ = show(none)
        tally.same("no bytes: the first line", first, '<span class="bad">NO DATA: no byte yet</span>')
        tally.same("no bytes: the last byte", none.metrics().get(f'navbridge_last_byte_timestamp_seconds{{station="{STATION}"}}'), 0)
        promtool(tally, none)
        if browser:
            asked = {it["params"]["request"]["url"] for it in browser.events if it.get("method") == "Network.requestWillBeSent"}
            tally.same("what was asked for", asked, {f"file://{it.status}/status.html" for it in (station, none)})
            tally.same("errors of the page", [it for it in browser.events if it.get("method") in ("Runtime.exceptionThrown", "Log.entryAdded")], [])
    except RuntimeError as why:
        tally.same("the browser", str(why), "")
    finally:
        if browser:
            browser.end()
        shutil.rmtree(work, ignore_errors=True)
    print(f"status: {tally.tried} tried, {tally.wrong} differ")
    return 1 if tally.wrong else 0


if __name__ == "__main__":
    sys.exit(main())
