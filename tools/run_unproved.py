#!/usr/bin/env python3
"""Runs the program `ojp` without any proof: run_unproved.py CRATE WORD ..

The toolchain tries a program in a folder of its own, so the files that the words name are given to it there, by their names or,
where it takes no such name, by others; the program's lines name the files as the words do. On standard error stand the program's
own lines, and behind them one that says that it is unproved. The status is the program's, or 70 where it could not be tried.
"""
import os
import re
import subprocess
import sys

TOOL = re.compile(rb"(rt|interpreter|compiled|checked|warning|note|help): |races: not looked for|(run|call|case)=")
OWN = ("program", "stdin", "stdout", "stderr")


def is_text(word):
    try:
        word.encode("utf-8")
        return True
    except UnicodeEncodeError:
        return False


def main():
    if len(sys.argv) < 2 or sys.argv[1] in ("--help", "-h"):
        print(__doc__.strip())
        return 0 if sys.argv[1:] else 2
    crate, *words = sys.argv[1:]
    # The program is given no words where one is not UTF-8: it refuses them as it refuses none.
    words = words if all(map(is_text, words)) else []
    data, given, alias = [], [], {}
    for number, word in enumerate(words):
        name = word
        if os.path.isfile(word):
            if os.path.isabs(word) or ".." in word.split("/") or word.startswith(OWN) or "=" in word:
                name = "file-%d" % number
                alias[name] = word
            data += ["--data", "%s=%s" % (name, os.path.abspath(word))]
        given.append(name)
    tried = subprocess.run(["rt", "try", *data, "--", *given], cwd=crate, stdout=subprocess.PIPE, stderr=subprocess.PIPE)
    sys.stdout.buffer.write(tried.stdout)
    sys.stdout.flush()
    if b"run=none" in tried.stderr:
        sys.stderr.buffer.write(tried.stderr)
        return 70
    for line in tried.stderr.splitlines(keepends=True):
        if line.strip() and not TOOL.match(line):
            for name, word in alias.items():
                line = re.sub(rb"(^|: )" + name.encode() + rb"(?=:|\n)", lambda it: it[1] + word.encode(), line)
            sys.stderr.buffer.write(line)
    sys.stderr.buffer.write(b"ojp: this program is not proved\n")
    return tried.returncode


if __name__ == "__main__":
    sys.exit(main())
