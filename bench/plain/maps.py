"""Maps, read from their files by the rules alone."""

import re
import tomllib

NOT_POWERS = {"master", "all", "nobody", "you"}
CODE, COAST, PLACE = r"[a-z]{3}", r"[a-z]{2}", r"[a-z]{3}(/[a-z]{2})?"
UNIT = rf"A {CODE}|F {PLACE}"


class MapFault(Exception):
    """A text that states no map; its name is M1 to M6."""

    def __init__(self, name):
        super().__init__(name)
        self.name = name


def ask(fault, holds):
    """Tells the fault where something that is asked of a map doesn't hold."""
    if not holds:
        raise MapFault(fault)


def place_of(text):
    """A province's code and its coast, which is empty where none is written."""
    code, _, coast = text.partition("/")
    return code, coast


def has_twice(things):
    things = list(things)
    return len(things) != len(set(things))


def ask_for_keys(table, keys, optional=()):
    """A table has these keys, and no others but the optional ones."""
    ask("M2", isinstance(table, dict))
    ask("M2", set(keys) <= set(table) <= set(keys) | set(optional))


def ask_for_texts(value, form):
    """A list of texts of this form."""
    ask("M2", isinstance(value, list) and all(isinstance(it, str) and re.fullmatch(form, it) for it in value))


def ask_for_power(name, power):
    ask("M2", re.fullmatch(r"[a-z]{1,16}", name) and name not in NOT_POWERS)
    ask_for_keys(power, ["home", "units"])
    ask_for_texts(power["home"], CODE)
    ask_for_texts(power["units"], UNIT)


def ask_for_province(code, province):
    """A province's fields are there, each of its form."""
    ask("M2", re.fullmatch(CODE, code) and isinstance(province, dict))
    kind = province.get("kind")
    ask("M2", kind in ("inland", "coast", "sea"))
    shores = [key for key in ("fleet", "coasts") if key in province]
    ask("M2", len(shores) == (0 if kind == "inland" else 1) and (kind != "sea" or shores == ["fleet"]))
    ask_for_keys(province, ["name", "kind", *([] if kind == "sea" else ["army"]), *shores], ["centre"])
    ask("M2", isinstance(province["name"], str) and re.fullmatch(r"[ -~]{1,40}", province["name"]))
    centre = province.get("centre", False)
    ask("M2", isinstance(centre, bool) and not (centre and kind == "sea"))
    if "army" in province:
        ask_for_texts(province["army"], CODE)
    if "coasts" in province:
        coasts = province["coasts"]
        ask("M2", isinstance(coasts, dict) and 2 <= len(coasts) <= 4 and all(re.fullmatch(COAST, key) for key in coasts))
    for places in shores_of(province).values():
        ask_for_texts(places, PLACE)


def shores_of(province):
    """The lists of a province's fleet neighbours by its coasts; where it has none, by an empty name."""
    return province["coasts"] if "coasts" in province else {"": province["fleet"]} if "fleet" in province else {}


class Map:
    """Provinces by code, with their names, kinds, centres and neighbours; powers by name, with their homes and opening units."""

    def __init__(self, text):
        try:
            data = tomllib.loads(text)
        except tomllib.TOMLDecodeError as error:
            raise MapFault("M1") from error
        ask_for_keys(data, ["name", "powers", "provinces"])
        ask("M2", isinstance(data["name"], str) and isinstance(data["powers"], dict) and isinstance(data["provinces"], dict))
        for name, power in data["powers"].items():
            ask_for_power(name, power)
        for code, province in data["provinces"].items():
            ask_for_province(code, province)
        ask("M6", 1 <= len(data["powers"]) <= 7 and 1 <= len(data["provinces"]) <= 200)
        self.read(data["powers"], data["provinces"])
        self.ask_for_names()
        self.ask_for_single_ones()
        self.ask_for_symmetry()
        self.walked = {}

    def read(self, powers, provinces):
        self.powers, self.codes = sorted(powers), sorted(provinces)
        self.name = {code: provinces[code]["name"] for code in self.codes}
        self.kind = {code: provinces[code]["kind"] for code in self.codes}
        self.centres = [code for code in self.codes if provinces[code].get("centre", False)]
        self.army = {code: provinces[code].get("army", []) for code in self.codes}
        self.fleet = {code: {coast: [place_of(it) for it in places] for coast, places in shores_of(provinces[code]).items()} for code in self.codes}
        self.coasts = {code: sorted(coast for coast in self.fleet[code] if coast) for code in self.codes}
        self.home = {power: sorted(powers[power]["home"]) for power in self.powers}
        self.opening = {power: [(it[0], *place_of(it[2:])) for it in powers[power]["units"]] for power in self.powers}

    def is_land(self, code):
        return self.kind.get(code, "sea") != "sea"

    def is_coastal(self, code):
        return self.kind[code] == "coast"

    def holds_fleet(self, place):
        """Whether a fleet may stand there: a sea, or a coast, by its name where it has several."""
        return place[1] in self.fleet.get(place[0], {})

    def ask_for_names(self):
        for code in self.codes:
            ask("M3", all(self.is_land(it) and it != code for it in self.army[code]))
            for places in self.fleet[code].values():
                ask("M3", all(self.holds_fleet(it) and it[0] != code for it in places))
        for power in self.powers:
            ask("M3", all(it in self.centres for it in self.home[power]))
            for kind, code, coast in self.opening[power]:
                ask("M3", self.is_land(code) if kind == "A" else self.holds_fleet((code, coast)))

    def ask_for_single_ones(self):
        ask("M5", not has_twice(self.name.values()))
        for code in self.codes:
            ask("M5", not has_twice(self.army[code]) and not any(has_twice(places) for places in self.fleet[code].values()))
        ask("M5", not has_twice(code for power in self.powers for code in self.home[power]))
        ask("M5", not has_twice(unit[1] for power in self.powers for unit in self.opening[power]))

    def ask_for_symmetry(self):
        for code in self.codes:
            ask("M4", all(code in self.army[it] for it in self.army[code]))
            for coast, places in self.fleet[code].items():
                ask("M4", all((code, coast) in self.fleet[it][shore] for it, shore in places))

    def next_to(self, kind, code, coast):
        """The places next to one, for an army or a fleet."""
        return [(it, "") for it in self.army[code]] if kind == "A" else self.fleet[code].get(coast, [])

    def could_move(self, kind, code, coast, to):
        return any(it == to for it, _ in self.next_to(kind, code, coast))

    def steps_from(self, kind, place):
        """Where one step leads: a fleet by fleet neighbours, an army by neighbours of either kind."""
        code, coast = place
        if kind == "F":
            return set(self.fleet[code][coast])
        shores = {(it, "") for places in self.fleet[code].values() for it, _ in places}
        return {(it, "") for it in self.army[code]} | shores

    def distance(self, kind, code, coast, power):
        """The least number of steps to a home centre of the power; 1,000 where none is reached."""
        edge, seen, steps = {(code, coast)}, set(), 0
        while edge:
            if any(it in self.home[power] for it, _ in edge):
                return steps
            seen |= edge
            edge, steps = {it for place in edge for it in self.steps_from(kind, place)} - seen, steps + 1
        return 1_000
