#!/usr/bin/env python3
"""Makes a feed of 1,000,000 stop times and converts it for a window of 7 days.

The feed has 50,000 trips of 20 calls at 4,000 stops, in 11 periods of five weeks, each with its own trips: 4,546 trips run in one
period. With --make the folder is written and nothing else done. Else the program is run three times over a folder of its own, and
the least time and the most memory are told; it must be built before (./ojp_gtfs).
"""
import argparse
import datetime
import os
import pathlib
import random
import resource
import subprocess
import sys
import tempfile
import time

TOP = pathlib.Path(__file__).resolve().parent.parent
PROGRAM = TOP / "crates/ojp_gtfs/out/ojp_gtfs"
TRIPS, CALLS, STOPS, PERIODS, WEEKS = 50_000, 20, 4_000, 11, 5
START = datetime.date(2026, 1, 5)
WINDOW = ("2026-03-16", "2026-03-22")


def clock(seconds):
    return f"{seconds // 3600:02}:{seconds // 60 % 60:02}:{seconds % 60:02}"


def make(folder):
    draw = random.Random(23)
    folder.mkdir(parents=True, exist_ok=True)

    def lines(name, head, rows):
        with open(folder / name, "w", encoding="utf-8") as file:
            file.write(head + "\n")
            file.writelines(row + "\n" for row in rows)

    lines("agency.txt", "agency_name,agency_url,agency_timezone", ["Made,https://made.example,Europe/Vienna"])
    lines("stops.txt", "stop_id,stop_name,stop_lat,stop_lon", (f"stop-{n},Stop {n},48.{n:06},16.{n:06}" for n in range(STOPS)))
    lines("routes.txt", "route_id,route_short_name,route_type", (f"route-{n},{n},3" for n in range(500)))
    days = [START + datetime.timedelta(weeks=WEEKS * n) for n in range(PERIODS)]
    last = datetime.timedelta(days=7 * WEEKS - 1)
    lines("calendar.txt", "service_id,monday,tuesday,wednesday,thursday,friday,saturday,sunday,start_date,end_date",
          (f"period-{n},1,1,1,1,1,0,0,{day:%Y%m%d},{day + last:%Y%m%d}" for n, day in enumerate(days)))
    lines("trips.txt", "route_id,service_id,trip_id", (f"route-{n % 500},period-{n % PERIODS},trip-{n}" for n in range(TRIPS)))

    def calls():
        for trip in range(TRIPS):
            at = draw.randrange(4 * 3600, 26 * 3600)
            for sequence, stop in enumerate(draw.sample(range(STOPS), CALLS), 1):
                yield f"trip-{trip},{clock(at)},{clock(at + 20)},stop-{stop},{sequence},,0,0,"
                at += 60 * draw.randrange(1, 6)

    lines("stop_times.txt", "trip_id,arrival_time,departure_time,stop_id,stop_sequence,stop_headsign,pickup_type,drop_off_type,shape_dist_traveled",
          calls())


def run(folder):
    words = [str(PROGRAM), str(folder), "MADE", "--from", WINDOW[0], "--to", WINDOW[1]]
    begin = time.monotonic()
    with open(os.devnull, "wb") as nothing:
        done = subprocess.run(words, stdout=nothing, stderr=subprocess.PIPE, check=False)
    return time.monotonic() - begin, done


def main():
    words = argparse.ArgumentParser(description=__doc__, formatter_class=argparse.RawDescriptionHelpFormatter)
    words.add_argument("--make", metavar="FOLDER", type=pathlib.Path)
    given = words.parse_args()
    if given.make:
        return make(given.make)
    if not os.access(PROGRAM, os.X_OK):
        sys.exit("feed.py: build the program first: ./ojp_gtfs examples/gtfs/feed AA > /dev/null")
    with tempfile.TemporaryDirectory() as name:
        folder = pathlib.Path(name)
        make(folder)
        times = []
        for _ in range(3):
            seconds, done = run(folder)
            if done.returncode != 0:
                sys.exit(f"status {done.returncode}: {done.stderr.decode()}")
            times.append(seconds)
        size = sum(file.stat().st_size for file in folder.iterdir())
        most = resource.getrusage(resource.RUSAGE_CHILDREN).ru_maxrss
        print(done.stderr.decode().split("look at:")[0], end="")
        print(f"{size / 1e6:.0f} MB read in {min(times):.2f} s, at most {most / 1024:.0f} MB of memory")


if __name__ == "__main__":
    main()
