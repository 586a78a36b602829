#!/usr/bin/env python3
"""Runs the gate from nothing, and prints its processor seconds by crate and by kind of work: proofs, tests, edits.

    bench/gate.sh [COMMAND ..]      the command is `rt ci --anew` if none is given; its status is the script's

The command's processes are sampled from /proc once a second, so work that takes less is in no row. Linux only.
"""
import collections
import os
import re
import shutil
import subprocess
import sys
import time

TICKS = os.sysconf("SC_CLK_TCK")


def read(path):
    try:
        with open(path, "rb") as file:
            return file.read()
    except OSError:
        return b""


def processes():
    """Each process: its parent, its processor seconds, its words."""
    found = {}
    for pid in filter(str.isdigit, os.listdir("/proc")):
        stat = read("/proc/%s/stat" % pid).rpartition(b")")[2].split()
        if len(stat) > 13:
            words = read("/proc/%s/cmdline" % pid).decode("utf-8", "replace").split("\0")
            found[int(pid)] = (int(stat[1]), (int(stat[11]) + int(stat[12])) / TICKS, words)
    return found


def work_of(pid, found):
    """The crate and the kind of work that a process is of, by its own words or those of the process that started it."""
    while pid in found:
        parent, _, words = found[pid]
        line = " ".join(words)
        crate = re.search(r"--crate-name (\w+)", line)
        if crate:
            where = ""
            try:
                where = os.readlink("/proc/%d/cwd" % pid)
            except OSError:
                pass
            kind = "edits" if "rt-edit" in where + line else "tests" if "--test" in words else "proof"
            return crate[1], kind
        pid = parent
    return None


def sample(root, spent):
    """Notes what each process below the root has spent so far."""
    found = processes()
    below = {root}
    for _ in range(12):
        below |= {pid for pid, (parent, _, _) in found.items() if parent in below}
    for pid in below & found.keys():
        work = work_of(pid, found)
        if work:
            spent[pid, work] = max(spent.get((pid, work), 0), found[pid][1])


def main():
    if sys.argv[1:2] in (["--help"], ["-h"]):
        print(__doc__.strip())
        return 0
    command = sys.argv[1:] or ["rt", "ci", "--anew"]
    if not shutil.which(command[0]):
        sys.exit("gate.py: the command %s is not there" % command[0])
    if not os.path.isdir("/proc/self"):
        sys.exit("gate.py: there is no /proc, which is sampled")
    began, running, spent = time.time(), subprocess.Popen(command), {}
    while running.poll() is None:
        sample(running.pid, spent)
        time.sleep(1)
    by_crate = collections.defaultdict(lambda: collections.Counter())
    for (_, (crate, kind)), seconds in spent.items():
        by_crate[crate][kind] += seconds
    kinds = ("proof", "tests", "edits")
    print("%-18s %8s %8s %8s" % ("crate", *kinds))
    for crate, row in sorted(by_crate.items(), key=lambda it: -sum(it[1].values())):
        print("%-18s %8.0f %8.0f %8.0f" % (crate, *[row[kind] for kind in kinds]))
    total = [sum(row[kind] for row in by_crate.values()) for kind in kinds]
    print("%-18s %8.0f %8.0f %8.0f" % ("all", *total))
    print("%.0f processor minutes, %.0f minutes" % (sum(total) / 60, (time.time() - began) / 60))
    return running.returncode


if __name__ == "__main__":
    sys.exit(main())
