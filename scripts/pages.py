#!/usr/bin/env python3
"""Compares the pages of docs/ that programs of the gate read or print with what those programs are given and have to print.

The gate holds each program to its own stdout and sees no page. So this says, for each page, whether its lines are those of the program;
with --write the files of the program are made anew from the page, or the page from the program where the page is all that is printed.
"""
import pathlib
import sys

TOP = pathlib.Path(__file__).resolve().parent.parent
# pages whose lines between fences are given to a program, which prints them again where it finds the same
LINES = {"BODIES.md": "body_table", "JUDGES.md": "judge_table", "PROGRAMS.md": "program_table", "CONSTANTS.md": "const_table"}
# pages that a program prints
PRINTED = {"RULES.md": "rules_table"}


def fenced(text):
    """Returns the lines of a page between fences, in their order."""
    inside, found = False, []
    for line in text.splitlines():
        if line.startswith("```"):
            inside = not inside
        elif inside:
            found.append(line)
    return "".join(f"{line}\n" for line in found)


def main(writes):
    pairs = []
    for page, crate in LINES.items():
        lines = fenced((TOP / "docs" / page).read_text())
        pairs += [(TOP / "crates" / crate / name, lines, page) for name in ("stdin", "stdout")]
    for page, crate in PRINTED.items():
        pairs.append((TOP / "docs" / page, (TOP / "crates" / crate / "stdout").read_text(), crate))
    stale = [(path, wanted, source) for path, wanted, source in pairs if path.read_text() != wanted]
    for path, wanted, source in stale:
        print(f"{path.relative_to(TOP)} is not what {source} says{': written' if writes else ''}")
        if writes:
            path.write_text(wanted)
    return 1 if stale and not writes else 0


if __name__ == "__main__":
    sys.exit(main("--write" in sys.argv[1:]))
