#!/usr/bin/env python3
"""Compares the samples of the README and of docs/ with what the program prints, and the first programs of the README and of docs/EMBEDDING.md with their sources.

    check/readme.py crates/market/out/market

A sample is a line of four spaces and `$ `, with what follows it up to a `<<'EOT'` block's end, and then the lines that the
command prints. `./market` in it is the program given. A command that builds, by `./run`, `rt` or with the library for C, is passed over. The first difference ends it."""
import difflib
import os
import subprocess
import sys

ROOT = os.path.dirname(os.path.dirname(os.path.abspath(__file__)))
PAGES = ["README.md", "docs/RULES.md", "docs/FORMATS.md", "docs/ARCHITECTURE.md", "docs/EMBEDDING.md", "docs/TESTING.md"]
INDENT = "    "


def blocks_of(page):
    """The indented blocks of a page, each with the number of its first line."""
    block, first = [], 0
    for number, line in enumerate(open(os.path.join(ROOT, page), encoding="utf-8"), 1):
        line = line.rstrip("\n")
        if line.startswith(INDENT):
            if not block:
                first = number
            block.append(line[len(INDENT):])
        elif block:
            yield first, block
            block = []
    if block:
        yield first, block


def samples_of(block):
    """The commands of a block, each with the lines that are due."""
    at = 0
    while at < len(block):
        if not block[at].startswith("$ "):
            at += 1
            continue
        command, due = [block[at][2:]], []
        at += 1
        if command[0].endswith("<<'EOT'"):
            while command[-1] != "EOT":
                command.append(block[at])
                at += 1
        while at < len(block) and not block[at].startswith("$ "):
            due.append(block[at])
            at += 1
        yield "\n".join(command), due


def told_by(command, program):
    """What the command prints, line by line."""
    quoted = "'" + program.replace("'", "'\\''") + "'"
    told = subprocess.run(["bash", "-c", command.replace("./market", quoted)], cwd=ROOT, stdout=subprocess.PIPE, timeout=60)
    return told.stdout.decode("utf-8").split("\n")[:-1]


def compare_program(page, crate):
    """The block of a page that is a source file is that of a crate."""
    source = open(os.path.join(ROOT, "crates", crate, "src/main.rt"), encoding="utf-8").read()
    told = [block for _, block in blocks_of(page) if block[0] == source.split("\n")[0]]
    # A block ends at an empty line, and a source has some.
    text = open(os.path.join(ROOT, page), encoding="utf-8").read()
    indented = "".join(INDENT + line if line.strip() else line for line in source.splitlines(keepends=True))
    if len(told) != 1 or indented not in text:
        sys.exit(f"{page}: the program is not that of crates/{crate}")


def main():
    if len(sys.argv) != 2:
        sys.exit(__doc__)
    program = os.path.abspath(sys.argv[1])
    compare_program("README.md", "first_market")
    compare_program("docs/EMBEDDING.md", "first_history")
    compare_program("docs/EMBEDDING.md", "first_threads")
    compare_program("docs/EMBEDDING.md", "first_scribe")
    compared = passed_over = 0
    for page in PAGES:
        for first, block in blocks_of(page):
            for command, due in samples_of(block):
                if any(word in command for word in ("./run ", "rt ci", "./market-lib", "$(pkg-config")):
                    passed_over += 1
                    continue
                told = told_by(command, program)
                if told != due:
                    print(f"{page}, the block from line {first}: {command}")
                    print("\n".join(difflib.unified_diff(due, told, "the page", "the program", lineterm="")))
                    sys.exit(1)
                compared += 1
    print(f"{compared} samples compared, {passed_over} passed over")
    if compared == 0:
        sys.exit("no sample was found")


main()
