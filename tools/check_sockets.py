#!/usr/bin/env python3
"""Tries the built program over sockets of this machine.

Regions, a gateway and clients run as processes of their own. A region stands behind a forwarder that can be told to misbehave. Prints
what was tried with its outcome, and ends with 1 where one was not as it should be. It is no part of the gate.
"""
import argparse
import os
import pathlib
import re
import socket
import subprocess
import sys
import tempfile
import threading
import time

from stored import TOP, stored_runs

PROGRAM = str(TOP / "crates/ojp/out/ojp")
NETWORK = TOP / "examples/network"
NAMES = ["channel", "jura", "paris", "rhine", "thames"]
CODES = {name: name.upper() for name in NAMES}
wrong = 0
children = []


def say(what, is_so):
    global wrong
    print(f"{'ok   ' if is_so else 'WRONG'} {what}", flush=True)
    wrong += not is_so


def free_port():
    with socket.socket() as it:
        it.bind(("127.0.0.1", 0))
        return it.getsockname()[1]


def start(*words):
    child = subprocess.Popen([PROGRAM, *map(str, words)], stdin=subprocess.DEVNULL, stdout=subprocess.PIPE, stderr=subprocess.PIPE)
    children.append(child)
    return child


def started(*words):
    child = start(*words)
    assert child.stdout.readline() == b"ready\n", (words, child.stderr.read())
    return child


def run(*words, given=b""):
    done = subprocess.run([PROGRAM, *map(str, words)], input=given, capture_output=True, timeout=60)
    return done.returncode, done.stdout, done.stderr


def post(port, body):
    return b"POST /ojp HTTP/1.1\r\nHost: x\r\nContent-Length: %d\r\n\r\n%s" % (len(body), body)


def exchange(port, sent, timeout=60):
    """What comes back for the bytes, to its end."""
    with socket.create_connection(("127.0.0.1", port), timeout) as it:
        it.sendall(sent)
        parts = []
        while piece := it.recv(65536):
            parts.append(piece)
    return b"".join(parts)


def answer(port, body):
    return exchange(port, post(port, body)).partition(b"\r\n\r\n")[2]


class Forwarder:
    """Stands before a server: passes on, or does to a reply what its mode says."""

    def __init__(self, leads):
        self.leads, self.mode, self.taken = leads, "pass", 0
        self.listener = socket.create_server(("127.0.0.1", 0))
        self.port = self.listener.getsockname()[1]
        threading.Thread(target=self.accept, daemon=True).start()

    def accept(self):
        while True:
            client, _ = self.listener.accept()
            self.taken += 1
            threading.Thread(target=self.serve, args=(client,), daemon=True).start()

    def serve(self, client):
        with client:
            try:
                asked = client.recv(65536)
                if self.mode == "close":
                    return
                if self.mode == "garbage":
                    client.sendall(b"\x00\x01garbage\r\n\r\n")
                    return
                whole = exchange(self.leads, asked)
                if self.mode == "cut":
                    whole = whole[:-1]
                if self.mode == "other kind":
                    whole = exchange(self.leads, post(0, request("points")))
                if self.mode == "endless":
                    client.sendall(b"HTTP/1.1 200 OK\r\nTransfer-Encoding: chunked\r\n\r\n")
                    while True:
                        client.sendall(b"1\r\n \r\n")
                if self.mode == "slow":
                    for at in range(len(whole)):
                        client.sendall(whole[at:at + 1])
                        time.sleep(0.001)
                    return
                client.sendall(whole)
            except OSError:
                pass


def request(what):
    if what == "points":
        trip = (NETWORK / "reading-olten.xml").read_bytes()
        head, foot = trip.split(b"<ojp:OJPTripRequest>")[0], trip.split(b"</ojp:OJPTripRequest>")[1]
        return head + b"<ojp:OJPExchangePointsRequest></ojp:OJPExchangePointsRequest>" + foot
    return (NETWORK / f"{what}.xml").read_bytes()


def one_region(folder):
    """A region, a gateway over it and a client, each of its own process."""
    table, asked = TOP / "examples/plan/a.tt", (TOP / "examples/plan/request.xml").read_bytes()
    expected = (TOP / "crates/ojp/stdout").read_bytes()
    port, second = free_port(), free_port()
    region = started("region", table, port, "--count", 4)
    regions = folder / "one.txt"
    regions.write_text(f"AA 127.0.0.1 {port}\n")
    gateway = started("gateway", regions, second, "--count", 1)
    say("ask, through a gateway to a region: the delivery, byte for byte", run("ask", "127.0.0.1", second, given=asked) == (0, expected, b""))
    say("both end with 0 after the connections of --count", gateway.wait(10) == 0 and region.wait(10) == 0)
    say("a port where nobody listens: 8", run("ask", "127.0.0.1", port, given=asked) == (8, b"", b"region failed: ASK\n"))
    say("a gateway whose region is away: 8", run("gateway", regions, second) == (8, b"", b"region failed: AA\n"))
    regions.write_text("AA no.such.host.invalid 9\n")
    say("a gateway whose region has no address: 8", run("gateway", regions, second) == (8, b"", b"region failed: AA\n"))
    with socket.create_server(("127.0.0.1", port)):
        say("a port that is in use: 9", run("region", table, port) == (9, b"", b"doors\n"))


def five_regions(folder):
    """A gateway over five regions, one of which misbehaves, dies and comes back."""
    ports = {name: free_port() for name in NAMES}
    servers = {name: started("region", NETWORK / f"{name}.tt", ports[name]) for name in NAMES}
    before = Forwarder(ports["rhine"])
    regions = folder / "five.txt"
    regions.write_text("".join(f"{CODES[name]} 127.0.0.1 {before.port if name == 'rhine' else ports[name]}\n" for name in NAMES))
    port = free_port()
    gateway = started("gateway", regions, port)
    trip = request("reading-olten")
    expected = next(run.written.encode() for run in stored_runs() if run.given == trip)
    failed = b"<ojp:Code>REGION_FAILED</ojp:Code><ojp:Subject>RHINE</ojp:Subject>"
    arrives = expected.split(b"<ojp:EndTime>")[1][:20]
    given = lambda: answer(port, trip)
    is_right = lambda it: it.split(b"<ojp:EndTime>")[1:2] and it.split(b"<ojp:EndTime>")[1][:20] == arrives
    say("a trip over five regions arrives as early as by plan", is_right(given()))
    for mode in ["close", "garbage", "cut", "other kind", "endless"]:
        before.mode = mode
        say(f"a region whose replies are bad ({mode}) is named as failed", failed in given())
        before.mode = "pass"
        say("and the next request is answered", is_right(given()))
    before.mode = "slow"
    say("a region that sends a byte a millisecond is heard", is_right(given()))
    before.mode = "pass"
    servers["rhine"].kill()
    servers["rhine"].wait()
    say("a region that was killed is named as failed", failed in given())
    servers["rhine"] = started("region", NETWORK / "rhine.tt", ports["rhine"])
    say("once it is back the next request is answered", is_right(given()))
    with socket.create_connection(("127.0.0.1", port)):
        pass
    with socket.create_connection(("127.0.0.1", port)) as it:
        it.sendall(post(port, trip)[:100])
    say("clients that send nothing or half a request and leave: the next is answered", is_right(given()))
    say("a request that ends with a line feed: 400 with its place", answer(port, trip + b"\n") == b"byte %d: Trailing\n" % len(trip))
    say("another method: 405", exchange(port, b"GET /ojp HTTP/1.1\r\nHost: x\r\n\r\n").startswith(b"HTTP/1.1 405 "))
    listed = answer(port, request("points"))
    say("the gateway lists the exchange points of all regions", listed.count(b"<ojp:ExchangePoint>") == 9)
    first = descriptors(gateway)
    for _ in range(50):
        given()
    say("no descriptor is left after 50 more trips", descriptors(gateway) == first)


def region_rows(path):
    return path.read_bytes().partition(b"#### region\n")[2].partition(b"#### ")[0]


def rows(folder):
    """The stored rows of a region over sockets: to the region by length and in a chunk, and through a gateway over it."""
    crate = TOP / "crates/ojp_hostile"
    stored = region_rows(crate / "stdout").replace(b"\r\n", b"\n")
    given = [row.partition(b"----\n") for row in region_rows(crate / "stdin").split(b"====\n")]
    given = [(table, body.removesuffix(b"\n")) for table, _, body in given if not body.startswith((b"raw\n", b"fails "))]
    by_region = by_gateway = len(given) > 0
    for lines, document in given:
        table, regions = folder / "row.tt", folder / "row.txt"
        table.write_bytes(lines)
        port, second = free_port(), free_port()
        regions.write_bytes(b"%s 127.0.0.1 %d\n" % (re.search(rb"region (.*)", lines)[1], port))
        started("region", table, port)
        started("gateway", regions, second)
        chunked = b"POST /ojp HTTP/1.1\r\nHost: x\r\nTransfer-Encoding: chunked\r\n\r\n%x\r\n%s\r\n0\r\n\r\n" % (len(document), document)
        whole = exchange(port, post(port, document))
        by_region &= whole.replace(b"\r\n", b"\n") in stored and exchange(port, chunked) == whole
        status, planned, line = run("plan", table, given=document)
        by_gateway &= answer(second, document) == (planned if status == 0 else line)
    say(f"{len(given)} stored rows to a region over sockets, by length and in a chunk", by_region)
    say("the same through a gateway: what plan answers", by_gateway)


def descriptors(child):
    """How many the process has once the last connection has ended on its side too."""
    time.sleep(0.3)
    return len(os.listdir(f"/proc/{child.pid}/fd"))


def main():
    global PROGRAM
    words = argparse.ArgumentParser(description=__doc__, formatter_class=argparse.RawDescriptionHelpFormatter)
    words.add_argument("program", metavar="PROGRAM", nargs="?", default=PROGRAM, help="the one of crates/ojp/out where none is given")
    PROGRAM = words.parse_args().program
    if not os.access(PROGRAM, os.X_OK):
        sys.exit(f"check_sockets.py: no program {PROGRAM}: build it first: ./ojp check < examples/plan/request.xml")
    with tempfile.TemporaryDirectory() as folder:
        try:
            one_region(pathlib.Path(folder))
            rows(pathlib.Path(folder))
            five_regions(pathlib.Path(folder))
        finally:
            for child in children:
                child.kill()
    return 1 if wrong else 0


if __name__ == "__main__":
    sys.exit(main())
