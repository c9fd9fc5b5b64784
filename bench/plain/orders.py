"""Order lines, read on a board."""

import re

from boards import spot

FAULTS = {
    "O1": "cannot be read", "O2": "unknown province", "O3": "no unit of yours there", "O4": "wrong kind of unit", "O5": "out of reach",
    "O6": "coast needed", "O7": "wrong coast", "O8": "no such unit to support or convoy", "O9": "support out of reach", "O10": "no convoy there",
    "O11": "not in this phase", "O12": "no build there", "O13": "allowance used", "O14": "no such retreat",
}
PHASES = {"hold": "M", "move": "M", "support": "M", "help": "M", "convoy": "M", "retreat": "R", "disband": "R", "build": "A", "remove": "A"}
PLACE = re.compile(r"([a-z]{3})(?:/([a-z]{2}))?")


class OrderFault(Exception):
    """A line that gives no order; its name is O1 to O14."""

    def __init__(self, name):
        super().__init__(name)
        self.name = name


def ask(fault, holds):
    """Tells the fault where something that is asked of a line doesn't hold."""
    if not holds:
        raise OrderFault(fault)


def tokens(line):
    ask("O1", re.fullmatch(r"[A-Za-z/ -]*", line))
    return re.findall(r"[a-z/]+|-", line.lower())


def place_in(word):
    found = PLACE.fullmatch(word)
    ask("O1", found)
    return found.group(1), found.group(2) or ""


def unit_in(words):
    ask("O1", words[0] in ("a", "f"))
    return words[0].upper(), *place_in(words[1])


def form_of(words):
    """What a line asks for: `do`, the ordered unit, and by the form the other unit, where it goes, and whether VIA is written."""
    ask("O1", len(words) >= 3)
    if words[0] in ("build", "remove"):
        ask("O1", len(words) == 3)
        return {"do": words[0], "unit": unit_in(words[1:])}
    rest, form = words[2:], {"unit": unit_in(words)}
    if rest in (["h"], ["d"]):
        return {**form, "do": "hold" if rest == ["h"] else "disband"}
    if rest[0] == "-":
        ask("O1", len(rest) == 2 or rest[2:] == ["via"])
        return {**form, "do": "move", "to": place_in(rest[1]), "via": len(rest) == 3}
    if rest[0] == "r":
        ask("O1", len(rest) == 2)
        return {**form, "do": "retreat", "to": place_in(rest[1])}
    ask("O1", rest[0] in ("s", "c") and len(rest) >= 3)
    form["other"] = unit_in(rest[1:])
    if rest[0] == "s" and rest[3:] in ([], ["h"]):
        return {**form, "do": "support"}
    ask("O1", len(rest) == 5 and rest[3] == "-" and (rest[0] == "s" or form["other"][0] == "A"))
    return {**form, "do": "help" if rest[0] == "s" else "convoy", "to": place_in(rest[4])}


class Reader:
    """Reads a power's lines on a board, beside its orders that stand, which are kept by province."""

    def __init__(self, chart, board, power, pending):
        self.chart, self.board, self.power, self.pending = chart, board, power, pending

    def read(self, line):
        """The order of a line: what it does, the unit's province, kind and coast, and its text."""
        form = form_of(tokens(line))
        ask("O11", PHASES[form["do"]] == self.board.kind_of_phase())
        codes = [form["unit"][1], *(form[part][at] for part, at in (("other", 1), ("to", 0)) if part in form)]
        ask("O2", all(code in self.chart.kind for code in codes))
        return self.build(form) if form["do"] == "build" else getattr(self, form["do"])(form, self.ordered(form))

    def lacks(self, code, coast):
        """Whether a coast is written that the province hasn't."""
        return coast != "" and coast not in self.chart.coasts[code]

    def spans_water(self, code, to):
        return self.chart.is_coastal(code) and self.chart.is_coastal(to) and code != to

    def ordered(self, form):
        """The ordered unit, with its own coast whatever is written."""
        kind, code, coast = form["unit"]
        here = self.board.dislodged if PHASES[form["do"]] == "R" else self.board.units
        ask("O3", code in here and here[code][0] == self.power)
        ask("O4", here[code][1] == kind)
        ask("O7", not self.lacks(code, coast))
        return {"do": form["do"], "code": code, "kind": kind, "coast": here[code][2], "me": f"{kind} {spot(code, here[code][2])}"}

    def hold(self, _, it):
        return {**it, "text": f"{it['me']} H"}

    def disband(self, _, it):
        return {**it, "text": f"{it['me']} D"}

    def move(self, form, it):
        to, shore = form["to"]
        if it["kind"] == "A":
            ask("O7", not shore)
            by_sea = self.spans_water(it["code"], to)
            if form["via"]:
                ask("O10", by_sea)
            else:
                ask("O5", by_sea or self.chart.could_move("A", it["code"], "", to))
            return {**it, "to": to, "shore": "", "via": form["via"], "text": f"{it['me']} - {to}" + " VIA" * form["via"]}
        ask("O4", not form["via"])
        shore = self.shore_at(to, shore, self.chart.next_to("F", it["code"], it["coast"]), "O5")
        return {**it, "to": to, "shore": shore, "via": False, "text": f"{it['me']} - {spot(to, shore)}"}

    @staticmethod
    def shore_at(to, shore, places, fault):
        """The coast where a fleet comes to a province, among the places that it can reach."""
        found = [it for it in places if it[0] == to]
        ask(fault, found)
        ask("O7", not shore or (to, shore) in found)
        ask("O6", shore or len(found) == 1)
        return shore or found[0][1]

    def support(self, form, it):
        kind, code, coast = form["other"]
        self.ask_for_other(kind, code, coast)
        ask("O9", self.chart.could_move(it["kind"], it["code"], it["coast"], code))
        return {**it, "at": code, "text": f"{it['me']} S {kind} {code}"}

    def ask_for_other(self, kind, code, coast):
        ask("O8", code in self.board.units and self.board.units[code][1] == kind)
        ask("O7", not self.lacks(code, coast))

    def help(self, form, it):
        kind, code, coast = form["other"]
        to = form["to"][0]
        self.ask_for_other(kind, code, coast)
        ask("O9", self.chart.could_move(it["kind"], it["code"], it["coast"], to) and code != it["code"])
        ask("O9", self.chart.could_move(kind, code, self.board.units[code][2], to) or (kind == "A" and self.spans_water(code, to)))
        return {**it, "at": code, "to": to, "text": f"{it['me']} S {kind} {code} - {to}"}

    def convoy(self, form, it):
        ask("O4", it["kind"] == "F")
        ask("O10", self.chart.kind[it["code"]] == "sea")
        kind, code, coast = form["other"]
        to, shore = form["to"]
        self.ask_for_other(kind, code, coast)
        ask("O7", not self.lacks(to, shore))
        ask("O10", self.spans_water(code, to))
        return {**it, "at": code, "to": to, "text": f"{it['me']} C A {code} - {to}"}

    def retreat(self, form, it):
        to, shore = form["to"]
        places = self.board.refuges(self.chart, it["code"])
        ask("O14", any(place[0] == to for place in places))
        ask("O7", it["kind"] == "F" or not shore)
        shore = self.shore_at(to, shore, places, "O14")
        return {**it, "to": to, "shore": shore, "text": f"{it['me']} R {spot(to, shore)}"}

    def build(self, form):
        kind, code, coast = form["unit"]
        ask("O12", code in self.board.vacant_homes(self.chart, self.power) and (kind == "A" or self.chart.is_coastal(code)))
        ask("O7", not coast if kind == "A" else not self.lacks(code, coast))
        ask("O6", kind == "A" or coast or not self.chart.coasts[code])
        self.ask_for_allowance(code, 1)
        return {"do": "build", "code": code, "kind": kind, "coast": coast, "text": f"BUILD {kind} {spot(code, coast)}"}

    def remove(self, _, it):
        self.ask_for_allowance(it["code"], -1)
        return {**it, "text": f"REMOVE {it['me']}"}

    def ask_for_allowance(self, code, sign):
        """Something is left of what a power may build, or has to remove, beside the orders for other provinces."""
        allowed = sign * self.board.allowance(self.chart, self.power)
        ask("O13", allowed > 0 and sum(it != code for it in self.pending) < allowed)
