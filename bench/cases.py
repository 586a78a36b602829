#!/usr/bin/env python3
"""Writes the cases of documents that `ojp_vectors` ships, with what is expected of each.

    bench/cases.py            prints nothing, and writes crates/ojp_vectors/src/shipped/*.rt

The expected outcomes come from the rules of docs/documents.md, restated here as a table of shapes, and never from the
program: a reader of the repository can check one against the other.
"""
import argparse
import datetime
import os
import re

TOP = os.path.dirname(os.path.dirname(os.path.abspath(__file__)))
HEAD = ('<?xml version="1.0" encoding="UTF-8"?><OJP xmlns="http://www.siri.org.uk/siri" '
        'xmlns:ojp="http://www.vdv.de/ojp" version="1.0">')

# ---- kinds of field

CODE, LOCAL = rb"[A-Z0-9]{1,16}", rb"[A-Za-z0-9._-]{1,32}"


def number(text, low, high):
    return re.fullmatch(rb"0|[1-9][0-9]*", text) is not None and low <= int(text) <= high


def duration(text, low, high):
    found = re.fullmatch(rb"PT(0|[1-9][0-9]*)S", text)
    return found is not None and low <= int(found[1]) <= high


def name(text):
    bare = text.replace(b"&amp;", b"").replace(b"&lt;", b"").replace(b"&gt;", b"")
    if b"&" in bare or b"<" in bare or b">" in bare:
        return False
    value = text.replace(b"&lt;", b"<").replace(b"&gt;", b">").replace(b"&amp;", b"&")
    try:
        letters = value.decode("utf-8")
    except UnicodeDecodeError:
        return False
    return 1 <= len(value) <= 100 and not any(ord(c) < 0x20 or ord(c) in (0xFFFE, 0xFFFF) for c in letters)


def date(text):
    try:
        return datetime.date.fromisoformat(text.decode())
    except ValueError:
        return None


def moment(text):
    found = re.fullmatch(rb"(\d{4}-\d\d-\d\d)T([01]\d|2[0-3]):([0-5]\d):([0-5]\d)Z", text)
    return found is not None and date(found[1]) is not None and 1970 <= date(found[1]).year <= 2199


def day(text):
    found = re.fullmatch(rb"\d{4}-\d\d-\d\d", text) and date(text)
    return bool(found) and datetime.date(1970, 1, 3) <= found <= datetime.date(2199, 12, 28)


KINDS = {
    "Code": lambda t: re.fullmatch(CODE, t) is not None,
    "StopRef": lambda t: re.fullmatch(rb"(?:" + CODE + rb"|x):" + LOCAL, t) is not None,
    "Label": lambda t: re.fullmatch(LOCAL, t) is not None,
    "Name": name,
    "Moment": moment,
    "Day": day,
    "Seconds": lambda t: duration(t, 0, 2**32 - 1),
    "Change": lambda t: duration(t, 1, 7200),
    "Number": lambda t: number(t, 1, 100),
    "Count": lambda t: number(t, 0, 2**32 - 1),
    "EventKind": lambda t: t in (b"departure", b"arrival"),
}

# ---- shapes: a text, a field, a sequence, a choice, a list

T = lambda text: ("text", text.encode())
F = lambda kind: ("field", kind)
S = lambda *parts: ("seq", parts)
A = lambda *parts: ("alt", parts)
L = lambda low, high, part: ("list", low, high, part)
E = lambda element, *content: S(T("<%s>" % element), *content, T("</%s>" % element))

REF = E("StopPointRef", F("StopRef"))
PLACE = E("ojp:PlaceRef", REF)
START = E("ojp:DepArrTime", F("Moment"))
FROM = E("ojp:Origin", PLACE, START)
TO = E("ojp:Destination", PLACE)
ASKS = {
    "trip": E("ojp:OJPTripRequest", FROM, TO),
    "multi": E("ojp:OJPMultiPointTripRequest", FROM, L(1, 256, TO)),
    "events": E("ojp:OJPStopEventRequest", E("ojp:Location", PLACE, START),
                E("ojp:Params", E("ojp:NumberOfResults", F("Number")), E("ojp:StopEventType", F("EventKind")))),
    "points": E("ojp:OJPExchangePointsRequest", L(0, 1, PLACE)),
}
OPERATOR = E("ojp:OperatorRef", F("Code"))
SERVICE = E("ojp:Service", E("ojp:OperatingDayRef", F("Day")), E("ojp:JourneyRef", F("Label")), E("LineRef", F("Label")),
            OPERATOR)
TIME = E("ojp:TimetabledTime", F("Moment"))
HALT = S(REF, E("ojp:StopPointName", F("Name")), TIME)
LEG = E("ojp:TripLeg", E("ojp:TimedLeg", E("ojp:LegBoard", HALT), E("ojp:LegAlight", HALT), SERVICE))
TRIP = E("ojp:Trip", E("ojp:Duration", F("Seconds")), E("ojp:StartTime", F("Moment")), E("ojp:EndTime", F("Moment")),
         E("ojp:Transfers", F("Count")), L(1, 86401, LEG))
CODED = lambda word: T("<ojp:Code>%s</ojp:Code>" % word)
STOP = E("ojp:Subject", F("StopRef"))
NO_TRIP = E("ErrorCondition", CODED("NO_TRIP"), STOP)
FAULT = E("ErrorCondition", A(S(CODED("SAME_STOP"), STOP), S(CODED("STOP_UNKNOWN"), STOP), S(CODED("NO_TRIP"), STOP),
                              S(CODED("REGION_FAILED"), E("ojp:Subject", F("Code"))), CODED("NOT_SERVED")))
CHANGE = E("ojp:TransferDuration", F("Change"))
EVENT = E("ojp:StopEventResult", REF, E("ojp:Order", F("Count")), TIME, SERVICE)
POINT = E("ojp:ExchangePoint", OPERATOR, REF, CHANGE, L(0, 31, E("ojp:Neighbour", OPERATOR, CHANGE)))
DELIVERIES = {
    "trip": E("ojp:OJPTripDelivery", A(FAULT, E("ojp:TripResult", TRIP))),
    "multi": E("ojp:OJPMultiPointTripDelivery", A(FAULT, L(1, 256, E("ojp:MultiPointTripResult", A(TRIP, NO_TRIP))))),
    "events": E("ojp:OJPStopEventDelivery", A(FAULT, L(0, 100, EVENT))),
    "points": E("ojp:OJPExchangePointsDelivery", A(FAULT, L(0, 65535, POINT))),
}
REQUEST = S(T(HEAD), E("OJPRequest", E("ServiceRequest", A(*ASKS.values()))), T("</OJP>"))
DELIVERY = S(T(HEAD), E("OJPResponse", E("ServiceDelivery", A(*DELIVERIES.values()))), T("</OJP>"))
WANTS = {"Request": REQUEST, "Delivery": DELIVERY, "Either": A(REQUEST, DELIVERY)}


def heads(stack):
    """The items that may come next, each with what is to follow; None for the end."""
    if not stack:
        return [(None, ())]
    shape, rest = stack[0], stack[1:]
    if shape[0] in ("text", "field"):
        return [(shape, rest)]
    if shape[0] == "seq":
        return heads(tuple(shape[1]) + rest)
    if shape[0] == "alt":
        return [it for part in shape[1] for it in heads((part,) + rest)]
    _, low, high, part = shape
    more = heads((part, L(max(low - 1, 0), high - 1, part)) + rest) if high else []
    return more + (heads(rest) if not low else [])


def outcome(want, data):
    """None for a document, or the place and the reason of the refusal."""
    at, stacks = 0, [(WANTS[want],)]
    while True:
        ahead, rest = [it for stack in stacks for it in heads(stack)], data[at:]
        if any(item is None for item, _ in ahead):
            return None if not rest else (at, "Trailing")
        fields = {item[1] for item, _ in ahead if item[0] == "field"}
        if fields:
            (kind,) = fields
            run, found, _ = rest.partition(b"<")
            if not found:
                return (at, "Truncated") if len(rest) <= 512 else (at, "Field " + kind)
            if not KINDS[kind](run):
                return (at, "Field " + kind)
            at, stacks = at + len(run), [behind for _, behind in ahead]
            continue
        taken = [(item, behind) for item, behind in ahead if rest.startswith(item[1])]
        if not taken:
            cut = any(item[1].startswith(rest) for item, _ in ahead)
            return (at, "Truncated" if cut else "Markup")
        at, stacks = at + len(taken[0][0][1]), [behind for item, behind in taken if item == taken[0][0]]


# ---- documents, by hand

def element(word, *content):
    return "<%s>%s</%s>" % (word, "".join(content), word)


def request(content):
    return HEAD + element("OJPRequest", element("ServiceRequest", content)) + "</OJP>"


def delivery(content):
    return HEAD + element("OJPResponse", element("ServiceDelivery", content)) + "</OJP>"


def place(stop="AA:a"):
    return element("ojp:PlaceRef", element("StopPointRef", stop))


def start(when="2024-05-06T08:00:00Z"):
    return element("ojp:DepArrTime", when)


def trip_ask(origin="AA:a", when="2024-05-06T08:00:00Z", target="AA:b"):
    return request(element("ojp:OJPTripRequest", element("ojp:Origin", place(origin), start(when)),
                           element("ojp:Destination", place(target))))


def multi_ask(*targets):
    return request(element("ojp:OJPMultiPointTripRequest", element("ojp:Origin", place(), start()),
                           *[element("ojp:Destination", place(it)) for it in targets]))


def events_ask(count="1", kind="departure"):
    return request(element("ojp:OJPStopEventRequest", element("ojp:Location", place(), start()),
                           element("ojp:Params", element("ojp:NumberOfResults", count),
                                   element("ojp:StopEventType", kind))))


def points_ask(*places):
    return request(element("ojp:OJPExchangePointsRequest", *[place(it) for it in places]))


def halt(stop, called, when):
    return (element("StopPointRef", stop) + element("ojp:StopPointName", called) + element("ojp:TimetabledTime", when))


def service(date_="2024-05-06", journey="J1", line="L5", code="AA"):
    return element("ojp:Service", element("ojp:OperatingDayRef", date_), element("ojp:JourneyRef", journey),
                   element("LineRef", line), element("ojp:OperatorRef", code))


def leg(called="Alder &amp; Beech", **said):
    return element("ojp:TripLeg", element(
        "ojp:TimedLeg", element("ojp:LegBoard", halt("AA:a", called, "2024-05-06T08:10:00Z")),
        element("ojp:LegAlight", halt("AA:b", "Beech", "2024-05-06T08:20:00Z")), service(**said)))


def trip(*legs, duration_="PT600S", transfers="0"):
    return element("ojp:Trip", element("ojp:Duration", duration_), element("ojp:StartTime", "2024-05-06T08:10:00Z"),
                   element("ojp:EndTime", "2024-05-06T08:20:00Z"), element("ojp:Transfers", transfers), *legs)


def trip_delivery(**said):
    legs = {key: said.pop(key) for key in ("called", "date_", "journey", "line", "code") if key in said}
    return delivery(element("ojp:OJPTripDelivery", element("ojp:TripResult", trip(leg(**legs), **said))))


def fault(code="NO_TRIP", subject="AA:b"):
    told = element("ojp:Subject", subject) if subject is not None else ""
    return element("ErrorCondition", element("ojp:Code", code), told)


def multi_delivery(*results):
    return delivery(element("ojp:OJPMultiPointTripDelivery", *[element("ojp:MultiPointTripResult", it) for it in results]))


def event(order="1", stop="AA:a"):
    return element("ojp:StopEventResult", element("StopPointRef", stop), element("ojp:Order", order),
                   element("ojp:TimetabledTime", "2024-05-06T08:10:00Z"), service())


def events_delivery(*events):
    return delivery(element("ojp:OJPStopEventDelivery", *events))


def neighbour(code="BB", change="PT300S"):
    return element("ojp:Neighbour", element("ojp:OperatorRef", code), element("ojp:TransferDuration", change))


def point(stop="x:P", change="PT60S", code="AA", *neighbours):
    return element("ojp:ExchangePoint", element("ojp:OperatorRef", code), element("StopPointRef", stop),
                   element("ojp:TransferDuration", change), *neighbours)


def points_delivery(*points):
    return delivery(element("ojp:OJPExchangePointsDelivery", *points))


SMALLEST = {
    "trip asked": trip_ask(),
    "many asked": multi_ask("AA:b"),
    "events asked": events_ask(),
    "points asked": points_ask(),
    "trip told": trip_delivery(),
    "many told": multi_delivery(fault()),
    "events told": events_delivery(),
    "points told": points_delivery(),
}
# what stands in front of the first field of each, or of the last text where there is none
FIRST = {key: re.search(r"StopPointRef>|Duration>|Subject>|ExchangePointsRequest>|EventDelivery>|PointsDelivery>", text).end()
         for key, text in SMALLEST.items()}


def side(text):
    return "Request" if "<OJPRequest>" in text else "Delivery"


def choices():
    """Each kind of document with each choice that it has."""
    yield from SMALLEST.values()
    yield multi_ask("AA:b", "x:P")
    yield events_ask("100", "arrival")
    yield points_ask("x:P")
    yield points_ask("x:P", "x:P")
    faults = [("SAME_STOP", "AA:a"), ("STOP_UNKNOWN", "x:Q"), ("NO_TRIP", "AA:b"), ("REGION_FAILED", "AA"), ("NOT_SERVED", None)]
    for service_ in ("OJPTripDelivery", "OJPMultiPointTripDelivery", "OJPStopEventDelivery", "OJPExchangePointsDelivery"):
        for code, subject in faults:
            yield delivery(element("ojp:" + service_, fault(code, subject)))
    yield delivery(element("ojp:OJPTripDelivery", fault("REGION_FAILED", "AA:a")))
    yield delivery(element("ojp:OJPTripDelivery", fault("NOT_SERVED", "AA")))
    yield delivery(element("ojp:OJPTripDelivery"))
    yield delivery(element("ojp:OJPMultiPointTripDelivery"))
    yield multi_delivery(trip(leg()), fault())
    yield multi_delivery(fault("SAME_STOP"))
    yield multi_delivery(trip())
    yield multi_delivery(trip(leg(), leg(journey="J2")))
    yield events_delivery(event(), event("2"))
    yield points_delivery(point(), point("x:Q", "PT1S", "BB", neighbour("AA", "PT7200S"), neighbour("CC")))


def fields():
    """Each kind of field at both ends, and one past."""
    for stop in ("A:a", "ABCDEFGHIJKLMN09:" + "z" * 32, "x:" + "-" * 32, "ABCDEFGHIJKLMN099:a", "A:" + "z" * 33, "x:", ":a", "a:a", "x:a:b", ""):
        yield trip_ask(stop)
    for code in ("A", "ABCDEFGHIJKLMN09", "ABCDEFGHIJKLMN099", "a", ""):
        yield trip_delivery(code=code)
    for label in (".", "j" * 32, "j" * 33, "j j", ""):
        yield trip_delivery(journey=label)
        yield trip_delivery(line=label)
    for called in ("B", "n" * 100, "n" * 101, "", "a&lt;b&gt;c", "&amp;" * 100, "a&b", "a>b", "&lt", "\u00e9", "a\tb", "\uffff"):
        yield trip_delivery(called=called)
    for when in ("1970-01-01T00:00:00Z", "2199-12-31T23:59:59Z", "2024-02-29T23:59:59Z", "1969-12-31T23:59:59Z", "2200-01-01T00:00:00Z",
                 "2023-02-29T00:00:00Z", "2024-05-06T24:00:00Z", "2024-05-06T08:60:00Z", "2024-05-06T08:00:60Z", "2024-05-06 08:00:00Z", ""):
        yield trip_ask(when=when)
    for date_ in ("1970-01-03", "2199-12-28", "1970-01-02", "2199-12-29", "2024-04-31", "2024-5-06", ""):
        yield trip_delivery(date_=date_)
    for seconds in ("PT0S", "PT4294967295S", "PT4294967296S", "PT00S", "PTS", "600"):
        yield trip_delivery(duration_=seconds)
    for change in ("PT1S", "PT7200S", "PT0S", "PT7201S"):
        yield points_delivery(point("x:P", change))
    for count in ("1", "100", "0", "101", "01"):
        yield events_ask(count)
    for count in ("0", "4294967295", "4294967296", "00", ""):
        yield trip_delivery(transfers=count)
    for kind in ("departure", "arrival", "Arrival", ""):
        yield events_ask("1", kind)


def reasons():
    """Each of the four reasons in each kind of document."""
    for key, text in SMALLEST.items():
        at = FIRST[key]
        yield text + "\n"
        yield text[:at]
        yield text[:at - 1] + " " + text[at - 1:]
        yield text[:at] + "?" * 4 + text[at:]
        yield text.replace("<Service", "\n<Service", 1)
        yield text[:-1]


def cuts():
    """Cuts in a field, and runs of the longest length."""
    for length in (0, 1, 126, 127, 462, 471, 479):
        yield trip_delivery()[:length]
    yield trip_delivery()[:471] + "<"
    yield trip_ask()[:215] + "A" * 512
    yield trip_ask()[:215] + "A" * 513


def rust(text):
    out = ""
    for byte in text:
        out += {0x22: '\\"', 0x5C: "\\\\", 0x0A: "\\n", 0x09: "\\t"}.get(byte) or (chr(byte) if 0x20 <= byte < 0x7F else "\\x%02x" % byte)
    return out


GROUPS = {
    "choices": ("Each kind of document, with each choice that it has.", choices),
    "fields": ("Each kind of field at both ends, and one past.", fields),
    "reasons": ("Each of the four reasons in each kind of document, and cuts in a field.", lambda: [*reasons(), *cuts()]),
}


def reason(told):
    word, _, kind = told.partition(" ")
    return "Reason::Field(Kind::%s)" % kind if kind else "Reason::" + word


def table(title, texts):
    rows = []
    for text in texts:
        want, data = side(text), text.encode()
        refused = outcome(want, data)
        told = "document" if refused is None else "%d %s" % (refused[0], reason(refused[1]))
        rows.append('        %s [%s] b"%s"\n' % (want, told, rust(data)))
    return len(rows), "".join(rows)


def write(path, text):
    path = os.path.join(TOP, path)
    os.makedirs(os.path.dirname(path), exist_ok=True)
    with open(path, "w") as file:
        file.write(text)


if __name__ == "__main__":
    argparse.ArgumentParser(description=__doc__, formatter_class=argparse.RawDescriptionHelpFormatter).parse_args()
    for word, (title, group) in GROUPS.items():
        count, rows = table(title, dict.fromkeys(group()))
        write("crates/ojp_vectors/src/shipped/%s.rt" % word, """//! %s Written by bench/cases.py.

use crate::case::{Case, CaseOutcome};
use crate::runs::{cases, outcome};
use crate::vectors::Vectors;
use ojp_grammar::refusals::{Reason, Want};
use ojp_values::Kind;

/// %s
pub fn %s() -> Vectors<%d> {
    Vectors::new(cases! {
%s    })
}
""" % (title, title, {"choices": "choice_cases", "fields": "field_cases", "reasons": "reason_cases"}[word], count, rows))
