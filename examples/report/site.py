"""The pages: each is one file with its style, script and data inside, and asks for nothing else."""
import calendar
import collections
import datetime
import json
import os
import re

from report import figures
from report.markup import SCALE, Row, below, escape, find, length, link, page, some, strip, table, tiles, time

OWN = re.compile(r"(?:index|files|\d{4}-\d{2})\.html|report\.json")  # the names of what is written
SYSTEMS = {"G": "GPS", "E": "Galileo"}
KINDS = {"numbers": "same Toe and issue, different numbers", "issue": "same Toe, different issues"}
EDGES = {"": "", "start": "from the start", "end": "to the end", "all": "all of the time"}
# what each reason of a rejected record says (FORMATS.md, "RINEX navigation files as read")
REASONS = {
    "satellite": "no such satellite, or another one in the line below the title", "short": "lines are missing",
    "number": "a field is no number", "date": "no such day or time", "week": "a date outside of what is read",
    "blank": "a field is empty", "range": "a value that no message can have", "fit": "a fit interval of two or three hours",
    "step": "the epoch is no multiple of 16 s (GPS) or 60 s (Galileo)", "far": "epoch and Toe are more than half a week apart",
    "cut": "the last line of the file has no end",
}


def gap_table(gaps, caption, more="", name=""):
    return table(["satellite", "length#", "from", "to", "where"],
                 [[link(it["satellite"], it["from"]), length(it["seconds"]), time(it["from"]), time(it["to"]), EDGES[it["at"]]]
                  for it in gaps], caption, more, name)


def health_table(changes):
    text = lambda it, key: f"{' | '.join(map(str, it[key]))} {it[key + '_text']}"
    return table(["satellite", "Toe", "before", "from then on"],
                 [[link(it["satellite"], it["toe"]), time(it["toe"]), text(it, "from"), text(it, "to")] for it in changes],
                 "In the order of Toe")


def contradiction_table(contradictions, root):
    rows = []
    for it in contradictions:
        first = [link(it["satellite"], it["toe"]), time(it["toe"]), " | ".join(map(str, it["issues"])), KINDS[it["kind"]]]
        for letter, version in zip("ABCDEFGHIJKLMNOPQRSTUVWXYZ", it["versions"]):
            values = some([f"{name} {version['values'][name]}" for name in it["differ"]], 4)
            files = [f"{escape(below(one['file'], root))}, line {one['line']}" for one in version["files"][:3]]
            if version["file_count"] > 3:
                files.append(f"and {version['file_count'] - 3} more")
            rows.append([*first, f"{letter}: {values}", version["file_count"], ", ".join(one or "not named" for one in version["producers"]),
                         ("<br>".join(files) or "not found again",)])
            first = [""] * 4
    return table(["satellite", "Toe", "issue", "what", "values", "files#", "programs", "lines~"], rows,
                 "Versions of an ephemeris, with the fields that differ as RINEX has them")


def contradiction_kinds(contradictions):
    """How often the same fields of the same programs differ."""
    kinds = collections.Counter()
    for it in contradictions:
        programs = [", ".join(one or "not named" for one in version["producers"]) or "not found again" for version in it["versions"]]
        kinds[KINDS[it["kind"]], some(it["differ"], 6), " | ".join(programs)] += 1
    return table(["fields that differ", "programs, a bar between the versions", "times#", "what"],
                 [[fields, programs, count, what] for (what, fields, programs), count in sorted(kinds.items(), key=lambda it: (-it[1], it[0]))],
                 "Ephemerides of one satellite and Toe that do not agree; each month's page lists its own with files and lines")


def head_of(report):
    """The days, the totals, and what is odd about the days."""
    span, files, records = report["span"], report["files"], report["records"]
    days = report["days"]
    text = lambda moment: f"{figures.date_of(moment):%Y-%m-%d} (day {figures.date_of(moment):%j})"
    when = f'{text(span["from"])} to {text(span["to"] - 1)}, {len(days)} day{"s" * (len(days) != 1)}' if days else "No ephemeris"
    yield (f'<p>{when}. Made {escape(report["made"])}. '
           f'Times are in <b class="scale">GPS time</b>; days are days of GPS time. {SCALE}</p>')
    yield tiles([("files", files["files"]), ("files not read", files["not_read"]), ("records", records["records"]),
                 ("records rejected", records["rejected"]), ("records skipped", records["skipped"]),
                 ("distinct ephemerides", records["distinct_ephemerides"]), ("gaps of 2 h and more", len(report["gaps"])),
                 ("contradictions", len(report["contradictions"])), ("health changes", len(report["health_changes"]))])
    if report["outside"]:
        names = some([f"{it['satellite']} {it['toe_text']}" for it in report["outside"]], 6)
        yield f'<p><span class="bad">{records["outside_span"]} ephemerides outside of these days</span> are not shown: {escape(names)}.</p>'
    empty = [day for at, day in enumerate(days) if not any(it["day_seconds"][at] for it in report["systems"])]
    if empty:
        yield f'<p><span class="bad">{len(empty)} days without any ephemeris</span> {escape(some(empty, 12))}.</p>'


def coverage_of(report):
    """Coverage by system."""
    yield "<h2>Coverage by system</h2>\n"
    rows = []
    for it in report["systems"]:
        name = SYSTEMS[it["system"]]
        bars = strip(it["day_seconds"], 86400 * max(1, it["satellites"]), f"{name}, coverage by day")
        rows.append([name, f"{it['percent']:.2f}", bars, it["satellites"], it["ephemerides"], it["gaps"]])
    yield table(["system", "percent#", "by day", "satellites#", "ephemerides#", "gaps#"], rows,
                "Percent of the time for which a satellite has an ephemeris, over the satellites that the archive has; full height is 100")
    for it in report["systems"]:
        if it["absent"] and it["satellites"]:
            yield f'<p class="soft">No ephemeris at all of {SYSTEMS[it["system"]]}: {" ".join(it["absent"])}</p>'


def months_table(report, months):
    yield "<h2>Months</h2>\n"
    heads = ["month", "days#", *(f"{SYSTEMS[it['system']]}, percent#" for it in report["systems"]), "gaps#", "contradictions#", "health changes#"]
    yield table(heads, [[(f'<a href="{it["key"]}.html">{it["name"]}</a>',), it["days"], *it["percent"], len(it["gaps"]),
                         len(it["contradictions"]), len(it["changes"])] for it in months],
                "A page for each month: the timeline, by day and hour")


def satellites_table(report, months):
    yield ('<h2>Satellites</h2>\n<p><label>Search <input type="search" id="find" placeholder="G05, E" autocomplete="off"></label> '
           '<span id="found" aria-live="polite"></span></p>')
    changes = collections.Counter(it["satellite"] for it in report["health_changes"])
    against = collections.Counter(it["satellite"] for it in report["contradictions"])
    rows = []
    for it in report["satellites"]:
        name = it["satellite"]
        here = (f'<a href="{months[-1]["key"]}.html#s={name}">{name}</a>',) if months else name
        rows.append(Row([here, f"{it['percent']:.2f}", strip(it["day_seconds"], 86400, f"{name}, coverage by day", name), it["gaps"],
                         length(it["longest_gap"]) if it["gaps"] else "", it["ephemerides"], against[name], changes[name]],
                        f' data-sat="{name}"'))
    yield table(["satellite", "percent#", "by day", "gaps#", "longest gap#", "ephemerides#", "contradictions#", "health changes#"], rows,
                "Gaps are those of two hours and more; a bar leads to its day")


def sources_of(report):
    """Files, programs and stations."""
    yield "<h2>Files</h2>\n"
    yield table(["outcome", "files#"], [[what, count] for what, count in report["files"]["by_outcome"].items()], "What became of the files")
    yield '<p><a href="files.html">All files, and what was rejected</a></p>'
    yield "<h2>Programs</h2>\n"
    yield table(["program", "agencies#", "files#", "records#", "rejected#", "skipped#", "contradictions#"],
                [[it["program"] or "not named", *(it[key] for key in ("agencies", "files", "records", "rejected", "skipped", "contradictions"))]
                 for it in report["producers"]], "By the program that the header names (PGM / RUN BY / DATE)")
    yield "<h2>Stations</h2>\n"
    rows = []
    for it in report["stations"]:
        there = set(it["days"])
        bars = strip([86400 * (day in there) for day in report["days"]], 86400, f"{it['station']}, days with a file")
        rows.append([it["station"], len(it["missing"]), bars, it["files"], len(it["days"]), some(it["missing"], 8)])
    yield table(["station", "missing#", "by day", "files#", "days#", "days without a file"], rows,
                "By the station and the day in a file's name, of files that were read")


def index(report, months):
    """The overview."""
    longest = sorted(report["gaps"], key=lambda it: (-it["seconds"], it["from"], figures.order(it["satellite"])))
    caption = f"The longest {min(50, len(longest))} of {len(longest)}; each month's page lists its own"
    body = [*head_of(report), *coverage_of(report), *months_table(report, months), *satellites_table(report, months),
            "<h2>Longest gaps</h2>\n", gap_table(longest[:50], caption),
            "<h2>Contradictions</h2>\n", contradiction_kinds(report["contradictions"]),
            "<h2>Health changes</h2>\n", health_table(report["health_changes"]), *sources_of(report)]
    return page("overview", report["title"], '<a href="files.html">Files</a> <a href="report.json">report.json</a>', "".join(body),
                data_of(report, months))


def data_of(report, months):
    return {"from": report["span"]["from"], "months": [it["key"] for it in months], "leaps": figures.LEAP_TIMES}


def files_page(report, months):
    """All files, and what was rejected."""
    records, root = report["records"], report["root"]
    name = lambda it: below(it["file"], root)
    body = [f"<p>Names are those below {escape(root)}</p>" if root else "",
            "<h2>Files that were not read</h2>\n",
            table(["file~", "outcome", "notes"], [[name(it), it["outcome"], "; ".join(it["notes"])] for it in report["files_not_read"]],
                  "Nothing of these is in the numbers"),
            "<h2>Rejected records</h2>\n",
            table(["reason", "records#", "what it means"],
                  [[what, count, REASONS.get(what, "")] for what, count in records["rejected_by_reason"].items()], "By reason"),
            table(["file~", "line#", "reason", "record"], [[name(it), it["line"], it["reason"], it["record"]] for it in report["rejected"]],
                  "Each rejected record with the line at which it begins", find("rejected", "Rejected records with"), "rejected"),
            "<h2>Skipped records</h2>\n",
            table(["what", "records#"], list(records["skipped_by_kind"].items()),
                  "Records of other systems and messages, which navbridge does not read"),
            "<h2>All files</h2>\n",
            table(["file~", "outcome", "RINEX#", "program", "records#", "rejected#", "skipped#", "notes"],
                  [[name(it), it["outcome"], it["version"] or "", it["producer"], it["records"], it["rejected"],
                    sum(it["skipped"].values()), "; ".join(it["notes"])] for it in report["file_rows"]],
                  "Every file", find("all", "Files with"), "all")]
    return page("files", report["title"], '<a href="index.html">Overview</a> <a href="report.json">report.json</a>', "".join(body),
                data_of(report, months))


PATTERNS = """<template id="patterns"><svg><defs>
<pattern id="p-gap" width="6" height="6" patternUnits="userSpaceOnUse" patternTransform="rotate(45)">
<line class="p-gap" x1="0" y1="0" x2="0" y2="6"/></pattern>
<pattern id="p-ill" width="6" height="6" patternUnits="userSpaceOnUse">
<rect class="p-ill" width="6" height="6"/><circle class="p-ill-b" cx="3" cy="3" r="1.7"/></pattern>
</defs></svg></template>
"""
CONTROLS = f"""<div class="bar">
<label>Search <input type="search" id="find" placeholder="G05, E" autocomplete="off"></label>
<span class="bar" role="group" aria-label="Zoom">
<button type="button" data-zoom="month" aria-pressed="true">Month</button>
<button type="button" data-zoom="day" aria-pressed="false">Day</button>
<button type="button" data-zoom="hour" aria-pressed="false">Hour</button></span>
<span class="bar"><button type="button" id="before" aria-label="Before">&larr;</button>
<button type="button" id="after" aria-label="After">&rarr;</button></span>
<label>Satellite <select id="sat"><option value="">all</option></select></label>
<label>Day <select id="day"><option value="-1">all</option></select></label>
<label>Hour <select id="hour"><option value="-1">all</option></select></label>
{SCALE}
</div>
"""
CHART = """<p id="status" role="status"></p>
<div><svg id="chart" tabindex="0" role="application" aria-label="Timeline by satellite and day. Arrow keys: satellite and day.
 Enter: closer. Escape: back. The table below has the percents."></svg></div>
"""
BOX = '<rect x="1" y="1" width="32" height="12" fill="{}" stroke="{}"/>'
LEGEND = ((BOX.format("var(--cover)", "none"), "has an ephemeris"), (BOX.format("url(#p-gap)", "var(--gap)"), "gap of two hours and more"),
          (BOX.format("var(--panel)", "var(--line)"), "shorter gap"), (BOX.format("url(#p-ill)", "var(--ill)"), "marked unhealthy"),
          ('<path d="M17 1.5l6 11h-12z" fill="var(--page)" stroke="var(--mark)" stroke-width="2"/>', "contradiction"),
          ('<path d="M17 1v12" stroke="var(--text)" stroke-width="2"/>', "Toe, with the issue (by day and hour)"))
MATRIX = """<h2>Coverage in percent by system, satellite and day</h2>
<div class="wide tall" tabindex="0" role="region" aria-label="Percent by system, satellite and day"><table id="matrix"></table></div>
<p class="soft">Rounded down: 100 is all of a day. Underlined: less. Bold 0: nothing.</p>
"""


def month_page(month, months, report):
    """The timeline of a month."""
    at = months.index(month)
    links = ['<a href="index.html">Overview</a> <a href="files.html">Files</a>']
    if at:
        links.append(f'<a href="{months[at - 1]["key"]}.html" rel="prev">&larr; {months[at - 1]["name"]}</a>')
    if at + 1 < len(months):
        links.append(f'<a href="{months[at + 1]["key"]}.html" rel="next">{months[at + 1]["name"]} &rarr;</a>')
    legend = "".join(f'<span class="key"><svg viewBox="0 0 34 14" aria-hidden="true">{shape}</svg>{text}</span>' for shape, text in LEGEND)
    body = ["<h2>Timeline</h2>\n", CONTROLS, CHART, f'<div class="bar">{legend}</div>\n',
            '<p class="soft">The axis is GPS time. Click a day, then an hour. Keys in the timeline: arrows, Enter (closer), Escape (back), '
            "Home, End.</p>\n", PATTERNS, '<section id="detail" aria-label="Satellite"></section>\n', MATRIX,
            "<h2>Gaps of two hours and more</h2>\n",
            gap_table(month["gaps"], "A gap that goes over the bounds of the month is in both", find("gaps", "Gaps with"), "gaps"),
            "<h2>Contradictions</h2>\n", contradiction_table(month["contradictions"], report["root"]),
            "<h2>Health changes</h2>\n", health_table(month["changes"])]
    return page(month["name"], report["title"], " ".join(links), "".join(body), month["data"])


def satellite_of(it, gaps, ephemerides, span, days):
    """What the timeline needs of a satellite: times as differences, each from the end of what is before it."""
    start, end = span
    ranges, at = [], start
    for a, b in figures.clipped(it["ranges"], start, end):
        ranges += [a - at, b - a]
        at = b
    issues, at = [], start
    for toe, issue, health in ephemerides:
        if start <= toe < end:
            issues += [toe - at, issue, health]
            at = toe
    own = [(gap["from"], gap["to"]) for gap in gaps if gap["satellite"] == it["satellite"]]
    return {"n": it["satellite"], "r": ranges, "e": issues, "u": figures.clipped(it["unhealthy"], start, end),
            "g": figures.clipped(own, start, end), "p": it["day_seconds"][days]}


def month_of(report, reading, first, count):
    """A month: its days are so many from a number on."""
    start = report["span"]["from"] + first * 86400
    end, days = start + count * 86400, slice(first, first + count)
    inside = lambda them: [it for it in them if start <= it["toe"] < end]
    gaps = [it for it in report["gaps"] if it["from"] < end and it["to"] > start]
    sats, healths = [], {}
    for it in report["satellites"]:
        name = it["satellite"]
        sats.append(satellite_of(it, gaps, reading.ephemerides[name], (start, end), days))
        for health in sats[-1]["e"][2::3]:
            healths[f"{name[0]}{health}"] = f"{health} {figures.health_text(name, health)}"
    contradictions = inside(report["contradictions"])
    name = f"{calendar.month_name[figures.date_of(start).month]} {figures.date_of(start).year}"
    percents = [figures.percent(sum(it["day_seconds"][days]), it["satellites"] * count * 86400) for it in report["systems"]]
    data = {"name": name, "from": start, "to": end, "sats": sats, "health": healths, "leaps": figures.LEAP_TIMES,
            "contradictions": [{"satellite": it["satellite"], "toe": it["toe"]} for it in contradictions]}
    return {"key": f"{figures.date_of(start):%Y-%m}", "name": name, "days": count, "gaps": gaps, "contradictions": contradictions,
            "changes": inside(report["health_changes"]), "percent": [f"{it:.2f}" for it in percents], "data": data}


def months_of(report, reading):
    """The months of the report that have anything."""
    months, at = [], 0
    while at < len(report["days"]):
        day = datetime.date.fromisoformat(report["days"][at])
        count = min(len(report["days"]) - at, calendar.monthrange(day.year, day.month)[1] - day.day + 1)
        month = month_of(report, reading, at, count)
        if any(it["e"] or it["r"] for it in month["data"]["sats"]):
            months.append(month)
        at += count
    return months


def write(site, report, reading, work):
    """Writes the pages and report.json, each by one renaming, and removes pages of months that are gone."""
    months = months_of(report, reading)
    text = json.dumps(report, separators=(",", ":")).replace('],"', '],\n"').replace('},{"', '},\n{"')
    pages = {"index.html": index(report, months), "files.html": files_page(report, months), "report.json": text + "\n"}
    for month in months:
        pages[f"{month['key']}.html"] = month_page(month, months, report)
    for name, text in pages.items():
        with open(os.path.join(work, name), "w", encoding="utf-8", errors="backslashreplace", newline="\n") as file:
            file.write(text)
    for name in pages:
        os.replace(os.path.join(work, name), os.path.join(site, name))
    for name in os.listdir(site):
        if OWN.fullmatch(name) and name not in pages:
            os.remove(os.path.join(site, name))
