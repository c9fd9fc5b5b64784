"""Maps by chance, boards by chance as maps whose powers open elsewhere, and maps' files with something changed."""

import re

from boards import spot
from maps import Map

POWERS = ["austria", "bern", "corsica", "delos", "e", "flanders", "genoa", "zaragozaandnavar"]
ENDS = ["", "ia", " Land", "-burg", "x" * 30]


def listed(texts):
    return "[" + ", ".join(f'"{text}"' for text in texts) + "]"


class Drawn:
    """A map that is drawn: provinces at places of a square, each joined to those nearest to it."""

    def __init__(self, dice):
        self.dice = dice
        size, self.codes = dice.choice([3, 6, 10, 20, 35, 60]), []
        while len(self.codes) < size:
            code = "".join(dice.choices("abcdefghijklmnopqrstuvwxyz", k=3))
            self.codes += [code] if code not in self.codes else []
        self.kind = {code: dice.choices(["inland", "coast", "sea"], [1, 3, 2])[0] for code in self.codes}
        self.shores = {code: self.draw_shores(code) for code in self.codes}
        self.army = {code: [] for code in self.codes}
        self.fleet = {(code, shore): [] for code in self.codes for shore in self.shores[code]}
        self.join_all()
        self.centres = [code for code in self.codes if self.kind[code] != "sea" and dice.random() < 0.6]

    def draw_shores(self, code):
        if self.kind[code] == "coast" and self.dice.random() < 0.2:
            return self.dice.sample(["nc", "sc", "ec", "wc"], self.dice.choice([2, 2, 3]))
        return [] if self.kind[code] == "inland" else [""]

    def join_all(self):
        spots = {code: complex(self.dice.random(), self.dice.random()) for code in self.codes}
        many = self.dice.choice([3, 4, 5])
        near = {code: sorted(self.codes, key=lambda it, here=spots[code]: abs(spots[it] - here))[1 : many + 1] for code in self.codes}
        for one, other in sorted({tuple(sorted((code, it))) for code in self.codes for it in near[code]}):
            self.join(one, other)

    def join(self, one, other):
        kinds = {self.kind[one], self.kind[other]}
        if "sea" not in kinds and self.dice.random() < 0.9:
            self.army[one].append(other)
            self.army[other].append(one)
        if kinds == {"coast"} and self.dice.random() < 0.4:
            return
        pairs = [(here, there) for here in self.shores[one] for there in self.shores[other]]
        for here, there in pairs:
            if len(pairs) == 1 or self.dice.random() < 0.6:
                self.fleet[one, here].append((other, there))
                self.fleet[other, there].append((one, here))

    def unit_at(self, code):
        kind = {"inland": "A", "sea": "F"}.get(self.kind[code]) or self.dice.choice("AF")
        return f"{kind} {spot(code, self.dice.choice(self.shores[code]) if kind == 'F' else '')}"

    def powers(self):
        """The lines of the powers, each with some homes and units."""
        free, places, lines = self.dice.sample(self.centres, len(self.centres)), self.dice.sample(self.codes, len(self.codes)), []
        for power in self.dice.sample(POWERS, self.dice.choice([1, 2, 3, 5, 7])):
            homes, free = free[:3], free[self.dice.choice([0, 1, 2, 3]) :]
            homes = [code for code in homes if code not in free]
            at = [code for code in homes if code in places] + [code for code in places if code not in homes][: self.dice.choice([0, 0, 1, 2])]
            places = [code for code in places if code not in at]
            lines += [f"[powers.{power}]", f"home = {listed(homes)}", f"units = {listed(self.unit_at(code) for code in at)}"]
        return lines

    def province(self, code):
        lines = [f"[provinces.{code}]", f'name = "{code.capitalize()}{self.dice.choice(ENDS)}"', f'kind = "{self.kind[code]}"']
        if code in self.centres or self.dice.random() < 0.2:
            lines.append(f"centre = {'true' if code in self.centres else 'false'}")
        if self.kind[code] != "sea":
            lines.append(f"army = {listed(self.army[code])}")
        places = {shore: listed(spot(*it) for it in self.fleet[code, shore]) for shore in self.shores[code]}
        if "" in places:
            return [*lines, f"fleet = {places['']}"]
        return lines + ([f"[provinces.{code}.coasts]", *(f"{shore} = {it}" for shore, it in places.items())] if places else [])

    def text(self):
        lines = ['name = "drawn"', *self.powers()]
        for code in self.codes:
            lines += self.province(code)
        return "\n".join(lines) + "\n"


def region_of(chart, dice, size):
    """So many provinces, each next to one before it."""
    found, edge = [], [dice.choice(chart.codes)]
    while edge and len(found) < size:
        code = edge.pop(dice.randrange(len(edge)))
        if code not in found:
            found.append(code)
            edge += sorted({it for kind in "AF" for coast in chart.fleet[code] or [""] for it, _ in chart.next_to(kind, code, coast)})
    return found


def crowded(text, dice):
    """The text of a map whose powers open with units that stand close together."""
    chart = Map(text)
    size = dice.choice([8, 16, 24, 34, 45])
    codes = region_of(chart, dice, size + dice.choice([0, 4, 10]))
    powers = dice.sample(chart.powers, min(dice.choice([2, 3, 4, 7]), len(chart.powers)))
    units = {power: [] for power in chart.powers}
    for code in dice.sample(codes, min(size, len(codes))):
        kind = {"inland": "A", "sea": "F"}.get(chart.kind[code]) or dice.choice("AAF")
        coast = dice.choice(chart.coasts[code]) if kind == "F" and chart.coasts[code] else ""
        units[dice.choice(powers)].append(f"{kind} {spot(code, coast)}")
    for power in chart.powers:
        text = re.sub(rf"(\[powers\.{power}\]\nhome = .*\nunits = ).*", lambda it, own=units[power]: it[1] + listed(own), text)
    return text


WORDS = [("army", "fleet"), ("army", "coasts"), ("fleet", "army"), ("fleet", "coasts"), ("true", "false"), ("true", "1"), ('"', "'"), ("/nc", "/zz"), ("/nc", ""), ('kind = "', 'kind = "s'), ('name = "', 'name = "\\u00e9'), ('name = "', f'name = "{"x" * 40}')]
MORE = ["# words", "extra = 1", "[powers.master]\nhome = []\nunits = []", "[powers.new]\nhome = []\nunits = []", '[provinces.new]\nname = "N"\nkind = "inland"\narmy = []', '[provinces.new]\nname = "N"\nkind = "sea"\nfleet = []\ncentre = true']
ENTRIES = ["zzz", "aaa", "nc", "a/b", "abcd", "par", "A par", "F spa/nc"]


def changed_entry(line, entries, others, dice):
    """A line with an entry of its list gone, said twice, or another in its place."""
    if not entries:
        return line
    entry, way = dice.choice(entries), dice.randrange(4)
    if way == 0:
        return line.replace(f", {entry}", "").replace(f"{entry}, ", "")
    if way == 1:
        return line.replace(entry, f"{entry}, {entry}", 1)
    return line.replace(entry, dice.choice(others) if way == 2 else f'"{dice.choice(ENTRIES)}"', 1)


def changed(text, dice):
    """A map's file with something changed: mostly an entry, else a line gone, said again or elsewhere, a byte, a word, or lines more."""
    lines = text.split("\n")
    at, way = dice.randrange(len(lines)), dice.randrange(12)
    line = lines[at]
    if way == 0:
        del lines[at]
    elif way == 1:
        lines.insert(at, dice.choice(lines))
    elif way == 2:
        other = dice.randrange(len(lines))
        lines[at], lines[other] = lines[other], line
    elif way == 3 and line:
        place = dice.randrange(len(line))
        lines[at] = line[:place] + chr(dice.choice([dice.randint(32, 126), 9, 13, 233])) + line[place + 1 :]
    elif way == 4:
        lines += dice.choice(MORE).split("\n")
    elif way == 5:
        old, new = dice.choice(WORDS)
        places = [number for number, it in enumerate(lines) if old in it]
        at = dice.choice(places) if places else at
        lines[at] = lines[at].replace(old, new, 1)
    else:
        places = [number for number, it in enumerate(lines) if '"' in it]
        at = dice.choice(places) if places else at
        lines[at] = changed_entry(lines[at], re.findall(r'"[^"]*"', lines[at]), re.findall(r'"[^"]*"', text), dice)
    return "\n".join(lines)
