"""The numbers of the report: report.json has them, and the pages show no others. A time is seconds of GPS time from 1980-01-06."""
import collections
import datetime
import itertools
import os
import re

from report import gather

DAY = 86400
LONG = 7200  # gaps of so many seconds and more are listed
ZERO = datetime.datetime(1980, 1, 6)
# the first day of each number of leap seconds since 1980 (IERS bulletin C; none is announced after 2017)
LEAPS = ("1981-07-01", "1982-07-01", "1983-07-01", "1985-07-01", "1988-01-01", "1990-01-01", "1991-01-01", "1992-07-01", "1993-07-01",
         "1994-07-01", "1996-01-01", "1997-07-01", "1999-01-01", "2006-01-01", "2009-01-01", "2012-07-01", "2015-07-01", "2017-01-01")
LEAP_TIMES = [int((datetime.datetime.fromisoformat(it) - ZERO).total_seconds()) + at for at, it in enumerate(LEAPS)]


def date_of(moment):
    return ZERO + datetime.timedelta(seconds=moment)


def text_of(moment):
    """A GPS time as text."""
    return f"{date_of(moment):%Y-%m-%d %H:%M:%S}"


def moment_of(text):
    """The GPS time at which a day begins."""
    return int((datetime.datetime.strptime(text, "%Y-%m-%d") - ZERO).total_seconds())


def percent(covered, whole):
    """Percent, rounded down to two decimals, so that 100 means all."""
    return covered * 10000 // whole / 100 if whole else 0.0


def health_text(satellite, health):
    """What a health number says: IS-GPS-200, 20.3.3.3.1.4; Galileo OS SIS ICD, 5.1.9.3."""
    if satellite[0] == "G":
        return "healthy" if not health else f"unhealthy ({health:06b})" if health & 32 else f"signals: code {health:05b}"
    states = ("OK", "out of service", "will be out of service", "in test")
    said = [f"{signal} {states[health >> at + 1 & 3]}" + (", working without guarantee" if health >> at & 1 else "")
            for signal, at in (("E1-B", 0), ("E5b", 6)) if health >> at & 7]
    return "; ".join(said) or "healthy"


def clipped(ranges, start, end):
    return [(max(a, start), min(b, end)) for a, b in ranges if a < end and b > start]


def without(ranges, others):
    """What of ranges is in none of the others, both ascending."""
    left = []
    for a, b in ranges:
        for c, d in clipped(others, a, b):
            if a < c:
                left.append((a, c))
            a = d
        if a < b:
            left.append((a, b))
    return left


def by_day(ranges, start, days):
    """Seconds covered in each day."""
    seconds = [0] * days
    for a, b in ranges:
        for day in range((a - start) // DAY, (b - 1 - start) // DAY + 1):
            seconds[day] += min(b, start + (day + 1) * DAY) - max(a, start + day * DAY)
    return seconds


class Reading:
    """The distinct ephemerides, read once in their order: by Toe, system and satellite."""

    def __init__(self):
        self.ephemerides = collections.defaultdict(list)  # by satellite: (toe, issue, health)
        self.contradictions, self.texts, self.versions, self.epochs = [], [], [], set()
        self.ill = set()  # satellites with an ephemeris that is marked unhealthy

    def take(self, ephemerides, healthy):
        """Takes all; writes the records of healthy ones into a file."""
        for (toe, satellite), group in itertools.groupby(ephemerides, key=lambda it: (it.toe, it.satellite)):
            group = list(group)
            for it in group:
                self.ephemerides[satellite].append((toe, it.issue, it.health))
                if it.health:
                    self.ill.add(satellite)
                else:
                    healthy.writelines(it.lines)
            if len(group) > 1:
                self.compare(toe, satellite, group)

    def compare(self, toe, satellite, group):
        """Notes what differs among ephemerides of one satellite and Toe."""
        issues = collections.defaultdict(list)
        for it in group:
            issues[it.issue].append(it)
        for _, some in sorted(issues.items()):
            if len(some) > 1:
                self.note("numbers", toe, satellite, some)
        if len(issues) > 1:
            self.note("issue", toe, satellite, [some[0] for _, some in sorted(issues.items())])

    def note(self, kind, toe, satellite, some):
        values = [gather.numbers_of(it.lines) for it in some]
        differ = [name for name in values[0] if len({it[name] for it in values}) > 1]
        ids = []
        for it in some:
            ids.append(len(self.texts))
            self.texts.append(gather.text_of(it.lines))
            self.epochs.add(it.lines[1][:23].replace(b" ", b"0"))
        self.contradictions.append({"satellite": satellite, "toe": toe, "toe_text": text_of(toe), "kind": kind,
                                    "issues": sorted({it.issue for it in some}), "differ": differ,
                                    "versions": [{"values": {name: it[name] for name in differ}, "files": [], "file_count": 0,
                                                  "producers": []} for it in values]})
        self.versions.append(ids)


def health_changes(reading, start, end):
    """Where the health of a satellite is another one than that of the ephemeris before, in the order of Toe."""
    changes = []
    for satellite, some in reading.ephemerides.items():
        before = None
        for toe, group in itertools.groupby(some, key=lambda it: it[0]):
            now = sorted({health for _, _, health in group})
            if before is not None and now != before and start <= toe < end:
                changes.append({"satellite": satellite, "toe": toe, "toe_text": text_of(toe), "from": before, "to": now,
                                "from_text": " | ".join(health_text(satellite, it) for it in before),
                                "to_text": " | ".join(health_text(satellite, it) for it in now)})
            before = now
    return sorted(changes, key=lambda it: (it["toe"], it["satellite"]))


def gaps_of(satellite, ranges, start, end):
    """Times of two hours and more that a satellite's ranges leave out."""
    gaps = []
    for a, b in without([(start, end)], ranges):
        if b - a >= LONG:
            at = "all" if (a, b) == (start, end) else "start" if a == start else "end" if b == end else ""
            gaps.append({"satellite": satellite, "from": a, "to": b, "seconds": b - a, "from_text": text_of(a), "to_text": text_of(b),
                         "at": at})
    return gaps


def order(satellite):
    return "GE".find(satellite[0]), satellite


def covered(reading, cover, healthy, span):
    """Coverage by system, satellite and day, and the gaps."""
    start, end = span
    days = (end - start) // DAY
    satellites, gaps, systems = [], [], []
    for name in sorted(set(cover) | set(reading.ephemerides), key=order):
        ranges = clipped(cover.get(name, []), start, end)
        ill = without(ranges, healthy.get(name, [])) if name in reading.ill else []
        in_span = [it for it in reading.ephemerides[name] if start <= it[0] < end]
        if not ranges and not in_span:
            continue
        day_seconds, day_ephemerides = by_day(ranges, start, days), [0] * days
        for toe, _, _ in in_span:
            day_ephemerides[(toe - start) // DAY] += 1
        own = gaps_of(name, ranges, start, end)
        gaps += own
        seconds = sum(day_seconds)
        satellites.append({"satellite": name, "ephemerides": len(in_span), "covered_seconds": seconds,
                           "percent": percent(seconds, end - start), "unhealthy_seconds": sum(b - a for a, b in ill),
                           "gaps": len(own), "longest_gap": max((it["seconds"] for it in own), default=0),
                           "ranges": [list(it) for it in ranges], "unhealthy": [list(it) for it in ill],
                           "day_seconds": day_seconds, "day_ephemerides": day_ephemerides})
    for system, numbers in (("G", 32), ("E", 36)):
        of_it = [it for it in satellites if it["satellite"][0] == system]
        seconds = [sum(day) for day in zip(*(it["day_seconds"] for it in of_it))] or [0] * days
        there = {it["satellite"] for it in of_it}
        systems.append({"system": system, "satellites": len(of_it), "ephemerides": sum(it["ephemerides"] for it in of_it),
                        "covered_seconds": sum(seconds), "percent": percent(sum(seconds), len(of_it) * (end - start)),
                        "gaps": sum(it["gaps"] for it in of_it), "day_seconds": seconds,
                        "absent": [name for name in (f"{system}{at:02}" for at in range(1, numbers + 1)) if name not in there]})
    return satellites, systems, sorted(gaps, key=lambda it: (it["from"], order(it["satellite"])))


def span_of(reading, first, last):
    """The days that were asked for, else from the first day with a Toe to the last one. If more than a year lies between two such
    days, a file has a wrong date: then it is the part with the most ephemerides. No days if there are none."""
    per_day = collections.Counter(toe // DAY for some in reading.ephemerides.values() for toe, _, _ in some)
    parts = [[0]]
    for day in sorted(per_day):
        if day - parts[-1][-1] > 366:
            parts.append([])
        parts[-1].append(day)
    part = max(parts[1:], key=lambda days: sum(per_day[day] for day in days), default=[0, -1])
    start = moment_of(first) if first else part[0] * DAY
    end = moment_of(last) + DAY if last else (part[-1] + 1) * DAY
    return start, max(end, start)


LONG_NAME = re.compile(r"([A-Z0-9]{9})_[A-Z]_(\d{4})(\d{3})\d{4}_")  # RINEX 3.05, table A1
SHORT_NAME = re.compile(r"([a-z0-9]{4})(\d{3})[0-9a-x](?:\d\d)?\.(\d\d)[nlp]", re.I)


def stations_of(rows, days):
    """The days of which each station has a file, by the files' names, and those that are missing between."""
    groups = collections.defaultdict(list)
    for row in rows:
        name = os.path.basename(row["name"])
        found = LONG_NAME.match(name)
        station, year, day = found.groups() if found else ("", "", "")
        if not found and (found := SHORT_NAME.match(name)):
            station, day, year = found.groups()
            year = f"{'20' if year < '80' else '19'}{year}"
        if found and row["outcome"] in gather.merge.READS and 1 <= int(day) <= 366:
            groups[station.upper()].append(f"{datetime.date(int(year), 1, 1) + datetime.timedelta(days=int(day) - 1)}")
    stations = []
    for station, some in sorted(groups.items()):
        there = set(some)
        stations.append({"station": station, "files": len(some), "days": sorted(there), "missing": [day for day in days if day not in there]})
    return stations


def by_producer(rows, producers, contradictions_of):
    """Files, records and what became of them, by the program that a header names."""
    groups = {}
    for number, row in enumerate(rows):
        if number in producers:
            program, agency = producers[number]
            it = groups.setdefault(program, {"program": program, "agencies": set(), "files": 0, "records": 0, "rejected": 0,
                                             "skipped": 0, "contradictions": len(contradictions_of.get(program, ()))})
            it["agencies"].add(agency)
            it["files"] += 1
            it["records"] += row["records"]
            it["rejected"] += sum(row["refused"].values())
            it["skipped"] += sum(row["passed"].values())
    return [{**it, "agencies": len(it["agencies"] - {""})} for _, it in sorted(groups.items())]


def summed(rows, key):
    total = collections.Counter()
    for row in rows:
        total.update(row[key])
    return dict(sorted(total.items()))


def root_of(names):
    """The directory that all names begin with."""
    above = {os.path.dirname(name) for name in names}
    root = os.path.commonpath(above) + os.sep if len({os.path.isabs(it) for it in above}) == 1 else ""
    return root if all(name.startswith(root) for name in names) else ""


def report(found, made, title, first, last):
    """All of it; found is what command.py gathered."""
    reading, rows, names = found.reading, found.rows, found.names
    span = span_of(reading, first, last)
    start, end = span
    satellites, systems, gaps = covered(reading, found.cover, found.healthy, span)
    producer = lambda number: found.producers.get(number, ("", ""))[0]
    contradictions_of = collections.defaultdict(set)
    where = [at for at, ids in enumerate(reading.versions) for _ in ids]
    flat = [it for one in reading.contradictions for it in one["versions"]]
    for version, number, line in found.versions:
        it = flat[version]
        it["file_count"] += 1
        if len(it["files"]) < 5:
            it["files"].append({"file": names[number], "line": line})
        if producer(number) not in it["producers"]:
            it["producers"].append(producer(number))
        contradictions_of[producer(number)].add(where[version])
    for it in flat:
        it["producers"].sort()
    outcomes = collections.Counter(row["outcome"] for row in rows)
    total = sum(row["records"] for row in rows)
    rejected, skipped = summed(rows, "refused"), summed(rows, "passed")
    days = (end - start) // DAY
    ephemerides = sum(len(some) for some in reading.ephemerides.values())
    outside = sorted((toe, name) for name, some in reading.ephemerides.items() for toe, _, _ in some if not start <= toe < end)
    day_names = [f"{date_of(start + day * DAY):%Y-%m-%d}" for day in range(days)]
    return {
        "format": "navreport 1",
        "made": made,
        "title": title,
        "time": "GPS time, seconds from 1980-01-06 00:00:00",
        "span": {"from": start, "to": end, "from_text": text_of(start), "to_text": text_of(end)},
        "days": day_names,
        "root": root_of(names),
        "files": {"files": len(rows), "read": sum(outcomes[it] for it in gather.merge.READS),
                  "not_read": len(rows) - sum(outcomes[it] for it in gather.merge.READS),
                  "by_outcome": dict(sorted(outcomes.items()))},
        "records": {"records": total, "rejected": sum(rejected.values()), "skipped": sum(skipped.values()),
                    "read": total - sum(rejected.values()) - sum(skipped.values()) - sum(summed(rows, "carried").values()),
                    "rejected_by_reason": rejected, "skipped_by_kind": skipped,
                    "distinct_ephemerides": ephemerides, "outside_span": len(outside)},
        "outside": [{"satellite": name, "toe": toe, "toe_text": text_of(toe)} for toe, name in outside[:1000]],
        "producers": by_producer(rows, found.producers, contradictions_of),
        "stations": stations_of(rows, day_names),
        "systems": systems,
        "satellites": satellites,
        "gaps": gaps,
        "contradictions": [it for it in reading.contradictions if start <= it["toe"] < end],
        "health_changes": health_changes(reading, start, end),
        "files_not_read": [{"file": name, "outcome": row["outcome"], "notes": row["notes"]} for name, row in zip(names, rows)
                           if row["outcome"] not in gather.merge.READS],
        "rejected": [{"file": names[number], "line": line, "reason": reason, "record": text}
                     for number, line, reason, text in found.rejected],
        "file_rows": [{"file": name, "outcome": row["outcome"], "version": row["version"] or None, "producer": producer(number),
                       "records": row["records"], "rejected": sum(row["refused"].values()), "skipped": row["passed"],
                       "notes": row["notes"]}
                      for number, (name, row) in enumerate(zip(names, rows))],
    }
