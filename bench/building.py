"""Builds a small program over crates of this repository, for what times them."""

import pathlib
import shutil
import subprocess
import sys

TOP = pathlib.Path(__file__).resolve().parent.parent


def below(lines, needs):
    """These crates and all that they use."""
    wanted, left = [], list(needs)
    while left:
        name = left.pop()
        if name in lines and name not in wanted:
            wanted.append(name)
            left += lines[name].split()
    return wanted


def built(room, name, needs, sources):
    """Builds the program of this name from its sources, a text by its file's name, over copies of the crates that it needs; gives its path.

    It is proved as the gate proves (`rt ci`), so that of the crates below nothing is proved anew that this machine keeps. That it prints
    something, which a stored run would have to say, is no fault here.
    """
    lines = dict(
        line.split(":", 1) for line in (TOP / "crates.txt").read_text(encoding="utf-8").splitlines() if ":" in line and line[0] != "#"
    )
    wanted = below(lines, needs)
    for it in wanted:
        shutil.copytree(TOP / "crates" / it, room / "crates" / it, symlinks=True, ignore=shutil.ignore_patterns("out", "must-fail"))
    shutil.copy(TOP / "HANDLES", room)
    (room / "crates.txt").write_text("".join(f"{it}:{lines[it]}\n" for it in wanted) + f"{name}: {' '.join(needs)}\n", encoding="utf-8")
    folder = room / "crates" / name
    (folder / "src").mkdir(parents=True)
    for file, text in sources.items():
        (folder / "src" / file).write_text(text, encoding="utf-8")
    subprocess.run(["rt", "fmt"], cwd=folder, stdin=subprocess.DEVNULL, stdout=subprocess.DEVNULL, check=True)
    run = subprocess.run(["rt", "ci"], cwd=room, stdin=subprocess.DEVNULL, stdout=subprocess.PIPE, stderr=subprocess.STDOUT, text=True, check=False)
    program = folder / "out" / name
    if not program.exists():
        sys.exit(run.stdout[-4000:] + "\nthe program wasn't built")
    return program
