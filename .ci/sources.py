"""The sources of the crates, line by line, each with the function in which it is."""
import glob
import os
import re

TOP = os.path.dirname(os.path.dirname(os.path.abspath(__file__)))
FUNCTION = re.compile(r"\s*(?:pub(?:\([^)]*\))?\s+)?fn\s+(\w+)")


def sources():
    """The sources of the crates but tests: their paths in crates/, sorted."""
    for path in sorted(glob.glob(f"{TOP}/crates/*/src/**/*.rt", recursive=True)):
        inside = os.path.relpath(path, f"{TOP}/crates")
        if not inside.startswith("test_") and "/tests" not in inside:
            yield inside


def lines_of(inside):
    """The lines of a source without their comments, each with the function in which it is."""
    function = "none"
    with open(f"{TOP}/crates/{inside}", encoding="utf-8") as file:
        for line in file:
            named = FUNCTION.match(line)
            function = named.group(1) if named else function
            yield function, line.split("//")[0]
