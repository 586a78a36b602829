#!/usr/bin/env python3
"""Writes a timetable of the largest size and two requests to it.

`largest.tt` has 5,000 stops, 20,000 journeys of five calls each, 100,000 in all, over one service. The stops of a journey are drawn
at random, with the same draw at each run; a twentieth of the calls is at the first stop. `events.xml` asks 100 departures there,
`trip.xml` a trip between two other stops.
"""
import argparse
import os
import random

STOPS, JOURNEYS, CALLS = 5000, 20000, 5
HEAD = ('<?xml version="1.0" encoding="UTF-8"?><OJP xmlns="http://www.siri.org.uk/siri" xmlns:ojp="http://www.vdv.de/ojp"'
        ' version="1.0"><OJPRequest><ServiceRequest>')
FOOT = "</ServiceRequest></OJPRequest></OJP>"


def place(stop):
    return "<ojp:PlaceRef><StopPointRef>AA:s%d</StopPointRef></ojp:PlaceRef>" % stop


def timetable(draw):
    lines = ["ojp-timetable 1", "region AA", "zone +00:00"]
    lines += ["stop AA:s%d 60 Stop %d" % (stop, stop) for stop in range(STOPS)]
    lines.append("service W 2024-01-01 2024-12-31 1111111")
    for journey in range(JOURNEYS):
        lines.append("journey J%d W L%d" % (journey, journey % 100))
        stops = draw.sample(range(1, STOPS), CALLS)
        if draw.random() < CALLS / 20:
            stops[draw.randrange(CALLS - 1)] = 0
        moment = draw.randrange(14400, 79200)
        for number, stop in enumerate(stops):
            arrival = "-" if number == 0 else str(moment)
            departure = "-" if number == CALLS - 1 else str(moment)
            lines.append("call AA:s%d %s %s" % (stop, arrival, departure))
            moment += draw.randrange(120, 1200)
    return "\n".join(lines) + "\n"


def main():
    words = argparse.ArgumentParser(description=__doc__, formatter_class=argparse.RawDescriptionHelpFormatter)
    words.add_argument("folder", metavar="FOLDER", help="where the three files are written; it is made where it is not there")
    folder = words.parse_args().folder
    os.makedirs(folder, exist_ok=True)
    start = "<ojp:DepArrTime>2024-05-06T06:00:00Z</ojp:DepArrTime>"
    events = ("<ojp:OJPStopEventRequest><ojp:Location>" + place(0) + start + "</ojp:Location><ojp:Params>"
              "<ojp:NumberOfResults>100</ojp:NumberOfResults><ojp:StopEventType>departure</ojp:StopEventType></ojp:Params>"
              "</ojp:OJPStopEventRequest>")
    trip = ("<ojp:OJPTripRequest><ojp:Origin>" + place(1) + start + "</ojp:Origin><ojp:Destination>" + place(2)
            + "</ojp:Destination></ojp:OJPTripRequest>")
    for name, text in (("largest.tt", timetable(random.Random(1))), ("events.xml", HEAD + events + FOOT), ("trip.xml", HEAD + trip + FOOT)):
        with open(os.path.join(folder, name), "w", encoding="utf-8") as file:
            file.write(text)


if __name__ == "__main__":
    main()
