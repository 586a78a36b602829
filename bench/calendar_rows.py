#!/usr/bin/env python3
"""Writes the section `calendars` of the rows of crates/ojp_rows, and what is told of them: bench/calendar_rows.py

The boxes of the sets of days were found by hand. The zone files are made: two years of the changes that Python's
zoneinfo has, and the last line of the system's file. What is told of a zone is found by trying, with the noons of
zoneinfo, the texts that docs/DECISIONS.md names.
"""

import argparse
import datetime
import itertools
import pathlib
import struct
import sys
import zoneinfo

FOLDER = pathlib.Path(__file__).parent.parent / "crates" / "ojp_rows"
EPOCH = datetime.date(1970, 1, 1)
UTC = datetime.timezone.utc

BOXES = [
    # Mondays to Fridays without a Wednesday, with the next one, and without a Friday
    ("2026-12-14", "11.11..1111...", "20261214-20261224-MT-TF-- 20261223-20261223---W----"),
    # two Saturdays, and the Friday before the second
    ("2026-12-19", "1.....11.", "20261219-20261226-----FS-"),
    # no day
    ("2026-12-14", ".......", ""),
    ("2026-12-14", "", ""),
    # seven days are one box
    ("2026-12-14", "1.1.1.1", "20261214-20261220-M-W-F-S"),
    ("2026-12-16", "..1..1.", "20261218-20261221-M---F--"),
    # each day of three weeks
    ("2026-12-14", "1" * 21, "20261214-20270103-MTWTFSS"),
    # one day at the end
    ("2026-12-14", "." * 30 + "1", "20270113-20270113---W----"),
    # Wednesdays and Fridays, then Mondays and Wednesdays: one box at a time is one box less
    (
        "2026-12-16",
        "1.1....1.1..1.1....1.1....1.1",
        "20261216-20261225---W-F-- 20261228-20270113-M-W----",
    ),
    # a day more in the second week: one box at a time is one box more
    ("2026-12-14", "11.....111....11.....11", "20261214-20270105-MT----- 20261223-20261223---W----"),
]

ZONES = [
    ("Europe/Vienna", "2026-12-14", "2026-12-27"),
    ("Europe/Vienna", "2026-01-01", "2026-12-31"),
    ("Asia/Tokyo", "2026-01-01", "2026-12-31"),
    ("Africa/Casablanca", "2026-04-01", "2026-12-31"),
    ("Africa/Casablanca", "2026-02-16", "2026-03-01"),
    ("Africa/Casablanca", "2026-02-09", "2026-02-22"),
    ("Africa/Casablanca", "2026-01-01", "2026-12-31"),
    ("Africa/Casablanca", "2025-01-01", "2026-12-31"),
    ("Asia/Jerusalem", "2026-03-23", "2026-03-29"),
    ("Asia/Jerusalem", "2026-12-14", "2026-12-27"),
    ("Asia/Jerusalem", "2026-01-01", "2026-12-31"),
    ("America/Santiago", "2026-01-01", "2026-12-31"),
    ("Africa/Cairo", "2026-01-01", "2026-12-31"),
    ("America/St_Johns", "2026-02-01", "2026-08-31"),
]

# a text of each zone above whose last line is in the profile, which is tried first
LINES = {
    "Europe/Vienna": "CET-1CEST,M3.5.0,M10.5.0/3",
    "Asia/Tokyo": "JST-9",
    "Africa/Casablanca": "<+01>-1",
    "America/St_Johns": "NST3:30NDT,M3.2.0,M11.1.0",
}


def seconds_at(zone, moment):
    return int(moment.astimezone(zone).utcoffset().total_seconds())


def last_line(name):
    folder = next(f for f in zoneinfo.TZPATH if (pathlib.Path(f) / name).exists())
    return (pathlib.Path(folder) / name).read_bytes().rstrip(b"\n").split(b"\n")[-1]


def kind_at(zone, moment):
    """The offset, whether it is of daylight saving time, and its name."""
    here = moment.astimezone(zone)
    return seconds_at(zone, moment), int(bool(here.dst())), here.tzname().encode()


def zone_file(name):
    """A zone file of the changes from 2025 to 2026."""
    zone = zoneinfo.ZoneInfo(name)
    moment = datetime.datetime(2024, 12, 1, tzinfo=UTC)
    end = datetime.datetime(2027, 1, 1, tzinfo=UTC)
    kinds, rows = [kind_at(zone, moment)], []
    held = kinds[0]
    while moment < end:
        moment += datetime.timedelta(minutes=15)
        kind = kind_at(zone, moment)
        if kind != held:
            if kind not in kinds:
                kinds.append(kind)
            rows.append((int(moment.timestamp()), kinds.index(kind)))
            held = kind

    def head(times, types, chars):
        return b"TZif2" + bytes(15) + struct.pack(">6I", 0, 0, 0, times, types, chars)

    names, types = b"", b""
    for east, is_saving, text in kinds:
        types += struct.pack(">iBB", east, is_saving, len(names))
        names += text + b"\0"
    block = b"".join(struct.pack(">q", s) for s, _ in rows) + bytes(i for _, i in rows)
    first = head(0, 1, 1) + bytes(7)
    return first + head(len(rows), len(kinds), len(names)) + block + types + names + b"\n" + last_line(name) + b"\n"


def noon_east(zone, day):
    date = EPOCH + datetime.timedelta(days=day)
    return seconds_at(zone, datetime.datetime(date.year, date.month, date.day, 12, tzinfo=zone))


def rule_day(year, month, week, weekday):
    days = [
        d
        for n in range(31)
        for d in [datetime.date(year, month, 1) + datetime.timedelta(days=n)]
        if d.month == month and d.isoweekday() % 7 == weekday
    ]
    return (days[-1] if week == 5 else days[week - 1]).toordinal() - EPOCH.toordinal()


def is_second(day, dates):
    year = (EPOCH + datetime.timedelta(days=day)).year
    a, b = (rule_day(year, *date) for date in dates)
    return a <= day < b or (b < a and (day < b or a <= day))


def names(east):
    hours, minutes = f"{abs(east) // 3600:02}", f"{abs(east) // 60 % 60:02}"
    plus, minus = ("-", "+") if east < 0 else ("+", "-")
    return f"<{plus}{hours}{minutes}>{minus}{hours}:{minutes}"


def zone_text(name, first, last):
    zone = zoneinfo.ZoneInfo(name)
    wanted = [noon_east(zone, day) for day in range(first, last + 1)]
    if name in LINES and fits_line(name, first, wanted):
        return LINES[name]
    if len(set(wanted)) == 1:
        plus = "-" if wanted[0] < 0 else "+"
        return f"{plus}{abs(wanted[0]) // 3600:02}:{abs(wanted[0]) // 60 % 60:02}"
    changes = [first + i for i in range(1, len(wanted)) if wanted[i] != wanted[i - 1]]
    second = wanted[changes[0] - first]
    dates = []
    for day in [first] + changes:
        date = EPOCH + datetime.timedelta(days=day)
        for week in ((date.day - 1) // 7 + 1, 5):
            if (date.month, week, date.isoweekday() % 7) not in dates:
                dates.append((date.month, week, date.isoweekday() % 7))
    for pair in itertools.product(dates, dates):
        given = [second if is_second(first + i, pair) else wanted[0] for i in range(len(wanted))]
        if given == wanted:
            spelled = "".join(",M%d.%d.%d" % date for date in pair)
            return names(wanted[0]) + names(second) + spelled
    return "Rule"


def fits_line(name, first, wanted):
    """Whether the last line, read as docs/timetables.md says, has the noons."""
    known = {
        "Europe/Vienna": (3600, 7200, ((3, 5, 0), (10, 5, 0))),
        "Asia/Tokyo": (32400, None, None),
        "Africa/Casablanca": (3600, None, None),
        "America/St_Johns": (-12600, -9000, ((3, 2, 0), (11, 1, 0))),
    }
    east, second, dates = known[name]
    given = [second if dates and is_second(first + i, dates) else east for i in range(len(wanted))]
    return given == wanted


def number(text):
    return (datetime.date.fromisoformat(text) - EPOCH).days


def write_section(name, lines):
    """Puts the lines below the heading of the section, in place of those that stand there."""
    before, heading, rest = (FOLDER / name).read_bytes().partition(b"#### calendars\n")
    _, mark, behind = rest.partition(b"#### ")
    (FOLDER / name).write_bytes(before + heading + "".join(line + "\n" for line in lines).encode() + mark + behind)


def main():
    argparse.ArgumentParser(description=__doc__, formatter_class=argparse.RawDescriptionHelpFormatter).parse_args()
    missing = [name for name, _, _ in ZONES if not any((pathlib.Path(f) / name).exists() for f in zoneinfo.TZPATH)]
    if missing:
        sys.exit(f"calendar_rows.py: the system has no zone file of {missing[0]}")
    rows, told = [], []
    for first, marks, labels in BOXES:
        rows.append(f"boxes {first} {marks}")
        told.append(f"boxes {labels}".rstrip())
    for name, first, last in ZONES:
        rows.append(f"zone {first} {last} {zone_file(name).hex()}")
        told.append(f"zone {zone_text(name, number(first), number(last))}")
    rows.append("zone 2026-12-14 2026-12-27 545a6966")
    told.append("zone File")
    write_section("stdin", rows)
    write_section("stdout", told)


if __name__ == "__main__":
    main()
