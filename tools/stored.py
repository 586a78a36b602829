"""A module of the scripts beside it: the runs of `ojp` whose output is stored, and which the gate has proved and run.

One is a program crate with `args`, over the files in its data/: its stdin and its stdout. The others are the lines of the section
`files` in the stdin of `ojp_runs`, each with the file of its input behind a less-than sign, and the line in the same place of that
section in its stdout.
"""
import pathlib
import re
import typing

TOP = pathlib.Path(__file__).resolve().parent.parent


class Run(typing.NamedTuple):
    crate: str
    words: list[str]
    data: pathlib.Path
    given: bytes
    written: str


def of_words():
    for crate in sorted((TOP / "crates").iterdir()):
        if (crate / "src/main.rt").exists() and (crate / "args").exists():
            given = (crate / "stdin").read_bytes() if (crate / "stdin").exists() else b""
            written = (crate / "stdout").read_text() if (crate / "stdout").exists() else ""
            yield Run(crate.name, (crate / "args").read_text().splitlines(), crate / "data", given, written)


def lines_of_files(path):
    """The lines of the section `files`, without their line feeds."""
    return re.search(r"^#### files\n(.*?)^#### ", path.read_text(), re.M | re.S)[1].removesuffix("\n").split("\n")


def of_files():
    crate = TOP / "crates/ojp_runs"
    for line, written in zip(lines_of_files(crate / "stdin"), lines_of_files(crate / "stdout"), strict=True):
        words, _, given = line.partition(" < ")
        yield Run(crate.name, words.split(), crate / "data", (crate / "data" / given).read_bytes(), written)


def stored_runs():
    return [*of_words(), *of_files()]
