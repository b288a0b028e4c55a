#!/usr/bin/env python3
"""Tries the wrong bodies of crates: edits of code, each of which the prover has to refuse.

    scripts/wrong_bodies.py NAME ..     those of these crates
    scripts/wrong_bodies.py             those of all crates, which takes a day of processor time

The gate tries the edits in must-fail/ alone, so that it is soon done. Those in wrong-bodies/ are of the same form, and are tried here: the crates, and
those that they stand on, are copied to a folder of their own, with all of their edits in must-fail/, and `rt ci` runs over the copy. Its last line is that of `rt ci`.
"""
import pathlib
import shutil
import subprocess
import sys
import tempfile

TOP = pathlib.Path(__file__).resolve().parent.parent


def listed():
    """Returns of each crate in crates.txt its line and the names behind the colon, by its name."""
    lines = [it for it in (TOP / "crates.txt").read_text(encoding="utf-8").splitlines() if ":" in it and not it.startswith("#")]
    return {it.split(":")[0].split()[0]: (it, it.split(":")[1].split()) for it in lines}


def below(names, crates):
    """Returns these crates and all that they stand on."""
    found, left = set(), list(names)
    while left:
        name = left.pop()
        if name in crates and name not in found:
            found.add(name)
            left += crates[name][1]
    return found


def copied(names, crates, room):
    """Copies what the crates need, with all edits of these crates, and none of the others."""
    needed = below(names, crates)
    (room / "crates.txt").write_text("".join(crates[it][0] + "\n" for it in crates if it in needed), encoding="utf-8")
    shutil.copy(TOP / "HANDLES", room / "HANDLES")
    for name in needed:
        to = room / "crates" / name
        shutil.copytree(TOP / "crates" / name, to, ignore=shutil.ignore_patterns("out", "wrong-bodies"))
        if name not in names:
            shutil.rmtree(to / "must-fail", ignore_errors=True)
    for name in names:
        for edit in sorted((TOP / "crates" / name / "wrong-bodies").glob("*.edit")):
            (room / "crates" / name / "must-fail").mkdir(exist_ok=True)
            shutil.copy(edit, room / "crates" / name / "must-fail" / edit.name)


def main():
    crates = listed()
    names = sys.argv[1:] or list(crates)
    unknown = [it for it in names if it not in crates]
    if unknown:
        sys.exit(f"crates.txt names no crate {', '.join(unknown)}")
    with tempfile.TemporaryDirectory(prefix="wrong-bodies-") as room:
        copied(names, crates, pathlib.Path(room))
        sys.exit(subprocess.run(["rt", "ci"], cwd=room, check=False).returncode)


if __name__ == "__main__":
    main()
