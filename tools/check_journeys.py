#!/usr/bin/env python3
"""Checks stored trips against timetables with an independent plain search.

For each stored run of `plan` over timetable files: the legs of its delivery are a legal journey of the united timetable for its
request, and none arrives earlier. A plain search corrects one label for each pair of stop and region over all runs of three days
until nothing changes; it shares no code with the program. Prints each difference, and ends with 1 where there is one.
"""
import argparse
import datetime
import re
import sys

from stored import stored_runs

DAY = 86400
EPOCH = datetime.date(1970, 1, 1)


def moment(text):
    return int(datetime.datetime.strptime(text, "%Y-%m-%dT%H:%M:%SZ").replace(tzinfo=datetime.timezone.utc).timestamp())


def day_number(text):
    return (datetime.date.fromisoformat(text) - EPOCH).days


def change_day(year, month, week, weekday):
    """The week-th such weekday (0 is Sunday) of the month, the last for week 5."""
    days = [datetime.date(year, month, 1) + datetime.timedelta(n) for n in range(31)]
    found = [day for day in days if day.month == month and day.isoweekday() % 7 == weekday]
    return found[-1] if week == 5 else found[week - 1]


def noon(zone, number):
    """The moment of the zone's noon on the day."""
    day = EPOCH + datetime.timedelta(number)
    fixed = re.fullmatch(r"([+-])(\d\d):(\d\d)", zone)
    if fixed:
        east = (3600 * int(fixed[2]) + 60 * int(fixed[3])) * (1 if fixed[1] == "+" else -1)
    else:
        first, start, end = zone.split(",")
        west = int(re.match(r"[A-Za-z]+([+-]?\d+)", first)[1])
        begins, ends = (change_day(day.year, *map(int, re.match(r"M(\d+)\.(\d)\.(\d)", it).groups())) for it in (start, end))
        east = 3600 * (1 - west if begins <= day < ends else -west)
    return DAY * number + DAY // 2 - east


class Timetable:
    def __init__(self, text):
        self.change, self.from_region, self.services, self.journeys = {}, {}, {}, {}
        for line in text.splitlines():
            word, *rest = line.split(" ")
            if word == "region":
                self.code = rest[0]
            elif word == "zone":
                self.zone = rest[0]
            elif word in ("stop", "exchange"):
                self.change[rest[0]] = int(rest[1])
            elif word == "neighbour":
                self.from_region[rest[0], rest[1]] = int(rest[2])
            elif word == "service":
                self.services[rest[0]] = day_number(rest[1]), day_number(rest[2]), rest[3]
            elif word == "journey":
                calls = self.journeys[rest[0]] = []
                service = rest[1]
                calls.append(service)
            elif word == "call":
                calls.append((rest[0], *(None if it == "-" else int(it) for it in rest[1:])))

    def runs_on(self, service, number):
        first, last, marks = self.services[service]
        return first <= number <= last and marks[(EPOCH + datetime.timedelta(number)).weekday()] == "1"

    def runs(self, start):
        """The runs that may be ridden within a day of the start, each as its calls with moments."""
        for number in range(start // DAY - 2, start // DAY + 3):
            base = noon(self.zone, number) - DAY // 2
            for label, (service, *calls) in self.journeys.items():
                if self.runs_on(service, number):
                    yield label, number, [(stop, *(None if it is None else base + it for it in times)) for stop, *times in calls]

    def arrivals(self, origin, start):
        """The earliest arrival at each stop over all journeys of the region from the origin at the start."""
        found, runs, changed = {}, list(self.runs(start)), True
        while changed:
            changed = False
            for _, _, calls in runs:
                aboard = False
                for stop, arrives, departs in calls:
                    if aboard and stop != origin and arrives < found.get(stop, arrives + 1):
                        found[stop], changed = arrives, True
                    if departs is not None and (stop == origin and departs >= start or stop in found and departs >= found[stop] + self.change[stop]):
                        aboard = True
        return found


def earliest(tables, origin, start, target):
    """The earliest arrival at the target over all journeys, or None."""
    starts = {(origin, code): start for code in tables if origin in tables[code].change}
    ahead, best = dict(starts), None
    while ahead:
        (place, code), begins = ahead.popitem()
        for stop, arrives in tables[code].arrivals(place, begins).items():
            if arrives > start + DAY:
                continue
            if stop == target and (best is None or arrives < best):
                best = arrives
            for other, table in tables.items():
                wait = table.from_region.get((stop, code))
                if wait is not None and arrives + wait < starts.get((stop, other), arrives + wait + 1):
                    starts[stop, other] = ahead[stop, other] = arrives + wait
    return best


def faults_of(tables, legs, origin, start, target):
    """What is wrong with the legs as a journey."""
    here, at, before, first = origin, None, None, None
    for region, journey, day, board, departs, alight, arrives in legs:
        table = tables[region]
        calls = next((calls for label, number, calls in table.runs(departs) if (label, number) == (journey, day)), [])
        if not any((a[0], a[2]) == (board, departs) and (b[0], b[1]) == (alight, arrives) for i, a in enumerate(calls) for b in calls[i + 1:]):
            yield f"no run of {region} is ridden so: {journey} from {board} to {alight}"
        wait = 0 if before is None else table.change[board] if before == region else table.from_region.get((board, before), DAY * 9)
        if board != here or departs < (start if at is None else at + wait):
            yield f"{journey} is not caught at {board}"
        if before != region:
            first = board
        if alight == first:
            yield f"{journey} comes back to {alight} within its region"
        here, at, before = alight, arrives, region
    if here != target or at is None or at > start + DAY:
        yield "the target is not reached within the day"


def leg_of(text):
    stops = re.findall(r"<StopPointRef>(.*?)</StopPointRef>", text)
    times = [moment(it) for it in re.findall(r"<ojp:TimetabledTime>(.*?)</ojp:TimetabledTime>", text)]
    word = lambda name: re.search(f"<{name}>(.*?)</{name}>", text)[1]
    return word("ojp:OperatorRef"), word("ojp:JourneyRef"), day_number(word("ojp:OperatingDayRef")), stops[0], times[0], stops[1], times[1]


def differences(run, files):
    tables = {table.code: table for table in (Timetable((run.data / it).read_text()) for it in files)}
    request, delivery = run.given.decode(), run.written
    origin, target = re.findall(r"<StopPointRef>(.*?)</StopPointRef>", request)
    start = moment(re.search(r"<ojp:DepArrTime>(.*?)</ojp:DepArrTime>", request)[1])
    legs = [leg_of(it) for it in re.findall(r"<ojp:TripLeg>.*?</ojp:TripLeg>", delivery)]
    best = earliest(tables, origin, start, target)
    if not legs:
        return [] if best is None else [f"a journey arrives at {best}, and none is given"]
    said = list(faults_of(tables, legs, origin, start, target))
    return said + ([] if legs[-1][6] == best else [f"arrives at {legs[-1][6]}, and the earliest is {best}"])


def main():
    argparse.ArgumentParser(description=__doc__, formatter_class=argparse.RawDescriptionHelpFormatter).parse_args()
    wrong = 0
    for run in stored_runs():
        files = [it for it in run.words[1:] if it.endswith(".tt")]
        if run.words[:1] == ["plan"] and files:
            for said in differences(run, files):
                print(f"{run.crate}, {' '.join(run.words)}: {said}")
                wrong += 1
    return 1 if wrong else 0


if __name__ == "__main__":
    sys.exit(main())
