"""Reads the judge's map file: the standard map as Rattle source holds it."""
import os
import re

FILE = os.path.join(os.path.dirname(os.path.abspath(__file__)),
    "../../../crates/dip_map_text/src/standard.rt")


def read_map(path=FILE):
    text = open(path).read()
    text = text[text.index('"') + 1:text.rindex('"')].replace('\\"', '"')
    powers, provinces, here = {}, {}, None
    for line in text.split("\n"):
        head = re.match(r"\[(\w+)\.(\w+)(\.coasts)?\]$", line)
        if head:
            kind, name, coasts = head.groups()
            if kind == "powers":
                here = powers.setdefault(name, {})
            elif coasts:
                here = provinces[name]["coasts"]
            else:
                here = provinces.setdefault(name, {"name": "", "kind": "", "centre": False,
                    "army": [],
                                                   "fleet": [], "coasts": {}})
            continue
        pair = re.match(r"(\w+) = (.*)$", line)
        if pair and here is not None:
            word = pair[2]
            here[pair[1]] = re.findall(r'"([^"]*)"',
                word) if word[0] == "[" else word == "true" if word in (
                "true", "false") else word.strip('"')
    return {"powers": powers, "provinces": provinces}
