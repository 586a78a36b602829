#!/usr/bin/env python3
"""Compares the documents and the examples with the stored runs that the gate has proved and run, and looks their links up.

A shown command is a line `$ ./ojp WORD .. [< FILE]` in a fenced block of README.md or docs/; the lines behind it, up to the next
`$` or the end of the block, are its output, in which ` ...` stands for what was left out and a line break for nothing. Its stored run
is one over the same words whose files and input are those that the command names.

A file of examples/ that `ojp`, `ojp_gtfs` or `ojp_runs` has in its data/ too is the same there, and `examples/gtfs/region.tt` is what
`ojp_gtfs` writes. A relative link of a page, and a path of this repository that it names in backquotes, leads to what is there.

Prints each difference, and ends with 1 where there is one.
"""
import argparse
import re
import shlex
import sys

from stored import TOP, stored_runs


def expanded(word):
    """The word, or the files that a shell would put in its place, in their order."""
    files = sorted(str(it.relative_to(TOP)) for it in TOP.glob(word)) if "*" in word else []
    return files or [word]


def pages():
    return [*sorted(TOP.glob("*.md")), *sorted(TOP.glob("*/*.md"))]


def shown_commands():
    for page in pages():
        for block in re.findall(r"^```\w*\n(.*?)^```$", page.read_text(), re.M | re.S):
            for part in re.split(r"^\$ ", block, flags=re.M)[1:]:
                command, _, output = part.partition("\n")
                if command.startswith("./ojp "):
                    yield page, command, output


def bytes_of(path):
    return path.read_bytes() if path.is_file() else None


def same(ours, theirs):
    return ours.is_file() and bytes_of(ours) == bytes_of(theirs)


def is_run_of(run, words, standard_input):
    if len(run.words) != len(words):
        return False
    for own, word in zip(run.words, words):
        if own != word and not same(run.data / own, TOP / word):
            return False
    return standard_input is None or bytes_of(TOP / standard_input) == run.given


def differs(run, output):
    """Whether the shown pieces do not stand in the stored output, in order, the first at its head."""
    at = 0
    for number, piece in enumerate(re.split(r" ?\.\.\.", output.replace("\n", ""))):
        found = run.written.find(piece.strip(), at)
        if found < 0 or (number == 0 and found != 0):
            return True
        at = found + len(piece.strip())
    return False


def wrong_commands():
    runs = stored_runs()
    for page, command, output in shown_commands():
        words, _, standard_input = command.partition("<")
        words = [word for given in shlex.split(words)[1:] for word in expanded(given)]
        of = [run for run in runs if is_run_of(run, words, standard_input.strip() or None)]
        if not of:
            yield f"{page.relative_to(TOP)}: no stored run of: {command}"
        elif differs(of[0], output):
            yield f"{page.relative_to(TOP)}: not what {of[0].crate} writes: {command}"


def wrong_copies():
    """The files of the examples that differ from those over which the programs were run."""
    table = "examples/gtfs/region.tt"
    if bytes_of(TOP / table) != bytes_of(TOP / "crates/ojp_gtfs/stdout"):
        yield f"{table}: not what ojp_gtfs writes"
    for path in sorted(it for it in (TOP / "examples").rglob("*") if it.is_file()):
        within = path.relative_to(TOP / "examples").parts[1:]
        for crate in ("ojp", "ojp_gtfs", "ojp_runs"):
            copy = TOP.joinpath("crates", crate, "data", *within)
            if copy.is_file() and not same(path, copy):
                yield f"{path.relative_to(TOP)}: not as {copy.relative_to(TOP)}"


def wrong_links():
    """The links and paths of the pages that lead nowhere."""
    for page in pages():
        text = re.sub(r"^```.*?^```$", "", page.read_text(), flags=re.M | re.S)
        links = [(page.parent, it.partition("#")[0]) for it in re.findall(r"\]\(([^)\s]+)\)", text) if "://" not in it]
        # The list of changes also names what is gone.
        named = [] if page.name == "CHANGELOG.md" else [(TOP, it) for it in re.findall(r"`((?:\.ci|bench|crates|docs|examples|tools)/[\w./@-]*)`", text)]
        for folder, path in links + named:
            if not (folder / path).exists():
                yield f"{page.relative_to(TOP)}: leads nowhere: {path}"


def main():
    argparse.ArgumentParser(description=__doc__, formatter_class=argparse.RawDescriptionHelpFormatter).parse_args()
    wrong = [*wrong_commands(), *wrong_copies(), *wrong_links()]
    print("".join(f"{line}\n" for line in wrong), end="")
    return 1 if wrong else 0


if __name__ == "__main__":
    sys.exit(main())
