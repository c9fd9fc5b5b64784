"""Movements by chance on the standard map, of units that are in each other's way.

They are drawn around a core: a few units whose orders come to a circle, a knot, or a convoy by a
fleet of the army's own power; or a movement that was worked by hand. Others are drawn beside them,
and each unit that holds gets a move or helps somebody.
"""
import re

from boards import spot

# Units that go round.
CIRCLES = [
    ["A bur - mun", "A mun - ruh", "A ruh - bur"],
    ["F ank - con", "A con - smy", "A smy - ank"],
    ["A bud - gal", "A gal - rum", "A rum - ser", "A ser - bud"],
    ["F nth - hol", "F hol - kie", "F kie - hel", "F hel - nth"],
    ["A bel - hol VIA", "F nth C A bel - hol", "A hol - bel"],
]
# An army that attacks the support of the attack on its own fleet; at last two armies, each of which
# attacks the support of the attack on the other's fleet.
KNOTS = [
    ["A bre - lon", "F eng C A bre - lon", "F lon S F wal - eng", "F wal - eng"],
    ["A nwy - bel", "F nth C A nwy - bel", "F bel S F edi - nth", "F edi - nth"],
    ["A tun - nap", "F ion C A tun - nap", "F nap S F gre - ion", "F gre - ion"],
    ["A swe - ber", "F bal C A swe - ber", "F ber S F kie - bal", "F kie - bal"],
    ["A spa - tun", "F wes C A spa - tun", "F tun S F naf - wes", "F naf - wes"],
    [
        *("A bre - lon", "F eng C A bre - lon", "F bel S F pic - eng", "F pic - eng"),
        *("A nwy - bel", "F nth C A nwy - bel", "F lon S F edi - nth", "F edi - nth"),
    ],
]
# An army that goes by two fleets, of which one is attacked.
VOYAGES = [
    ["A lon - spa", "F eng C A lon - spa", "F mao C A lon - spa", "F bre - eng"],
    ["A gre - apu", "F aeg C A gre - apu", "F ion C A gre - apu", "F tun - ion"],
]
# Two units that come head to head, alone or with help for one of them.
MEETINGS = [
    ["A bur - mun", "A mun - bur"],
    ["A vie - gal", "A gal - vie", "A bud S A vie - gal"],
    ["F nth - eng", "F eng - nth"],
    ["A ser - bul", "A bul - ser", "A gre S A ser - bul"],
]
# An army that a fleet of its own power is to carry to where it could walk, mostly against a unit
# that comes the other way; an attack on that fleet, once by help of a unit that the army attacks; a
# fleet of another power beside the own one. Each order begins with a word for its power.
OWN_CONVOYS = [
    ["one A nwy - swe", "one F ska C A nwy - swe", "two A swe - nwy"],
    [
        *("one A nwy - swe", "one F ska C A nwy - swe", "two A swe - nwy"),
        *("six F den - ska", "six F nth S F den - ska"),
    ],
    ["one A bel - hol", "one F nth C A bel - hol", "two A hol - bel", "two A ruh S A hol - bel"],
    ["one A gre - bul", "one F aeg C A gre - bul", "two A bul - gre", "two A ser S A bul - gre"],
    ["one A smy - con", "one F aeg C A smy - con", "two F con - smy"],
    ["one A kie - den", "one F bal C A kie - den", "two A den - kie", "six A mun - kie"],
    [
        *("one A ven - apu", "one F adr C A ven - apu", "two A apu - ven"),
        *("six F ion - adr", "six F alb S F ion - adr"),
    ],
    ["one A rom - nap", "one F tys C A rom - nap", "two A nap - rom", "two A apu S A nap - rom"],
    ["one A wal - lvp", "one F iri C A wal - lvp", "two A lvp - wal"],
    ["one A pic - bre", "one F eng C A pic - bre", "two F bre S F mao - eng", "two F mao - eng"],
    ["one A spa - por", "one F mao C A spa - por", "two F por S F bre - mao", "two F bre - mao"],
    ["one A spa - gas", "one F mao C A spa - gas", "two A gas - spa", "two A mar S A gas - spa"],
    [
        *("one A yor - edi", "one F nth C A yor - edi", "two A edi - yor"),
        *("six F nwg - nth", "six F lon S F nwg - nth"),
    ],
    ["one A bre - gas", "one F mao C A bre - gas", "two A gas - bre", "two F eng C A bre - gas"],
]
# How likely it is that there is a second core and a meeting, and how often one unit more is tried
# at most: boards of few units, of many, and of few decisions.
RECIPES = [(0.5, 0, 10), (0.5, 0, 60), (0, 0.15, 5)]
ORDER = re.compile(r"(?:(\w+) )?([AF]) (\w{3})(?:/(\w\w))? (.*)")


class Movement:
    """Units by province, each with its power, kind, coast and order: the part of its line after the
    unit."""

    def __init__(self, chart, dice):
        self.chart, self.dice, self.units = chart, dice, {}

    def happens(self, part):
        return self.dice.random() < part

    def draw_power(self):
        """One of five powers, so that some have several units."""
        return self.dice.choice(self.chart.powers[:5])

    def add(self, code, power, kind, coast, order="H"):
        """Adds a unit if the province is free."""
        self.units.setdefault(code, [power, kind, coast, order])

    def add_core(self, core):
        """Adds the units of a core, each power of it under a drawn one, sometimes with no order; a
        unit without a power, and seldom another one, under any."""
        roles = {}
        for line in core:
            role, kind, code, coast, order = ORDER.fullmatch(line).groups()
            power = roles.setdefault(role, self.draw_power()) if role else self.draw_power()
            power = self.draw_power() if self.happens(0.08) else power
            self.add(code, power, kind, coast or "", order if self.happens(0.95) else "H")

    def steps(self, code):
        """The places next to a unit."""
        _, kind, coast, _ = self.units[code]
        return self.chart.next_to(kind, code, coast)

    def add_neighbour(self):
        """Adds a unit next to another one, if it may be there."""
        code, coast = self.dice.choice(self.steps(self.dice.choice(list(self.units))) or [("", "")])
        terrain = self.chart.kind.get(code)
        kind = {"inland": "A", "sea": "F"}.get(terrain) or ("A" if self.happens(0.6) else "F")
        if terrain and (kind == "A" or self.chart.holds_fleet((code, coast))):
            self.add(code, self.draw_power(), kind, coast if kind == "F" else "")

    def is_at_sea(self, code):
        return self.chart.kind[code] == "sea"

    def voyage(self, code):
        """A move to a coast where somebody is, by convoy if need be or if the dice want it."""
        coastal = [it for it in self.units if self.chart.is_coastal(it) and it != code]
        if not coastal:
            return "H"
        return f"- {self.dice.choice(coastal)}{' VIA' if self.happens(0.6) else ''}"

    def walk(self, code):
        """A move, rather to where somebody is."""
        for _ in range(5):
            to, coast = self.dice.choice(self.steps(code) or [("", "")])
            if to in self.units or to and self.happens(0.2):
                return f"- {spot(to, coast)}"
        return "H"

    def move(self, code):
        """An order to hold or to move."""
        is_army = self.units[code][1] == "A"
        if is_army and self.chart.is_coastal(code) and self.happens(0.35):
            return self.voyage(code)
        return self.walk(code) if self.happens(0.25 if self.is_at_sea(code) else 0.6) else "H"

    def help(self, code):
        """Some help for somebody, or to hold."""
        near = {it for it, _ in self.steps(code)}
        for _ in range(8):
            at = self.dice.choice(list(self.units))
            kind, order = self.units[at][1], self.units[at][3]
            to = order[2:5] if order.startswith("- ") else ""
            by_sea = kind == "A" and to and ("VIA" in order or to not in self.chart.army[at])
            if at == code:
                continue
            if by_sea and self.is_at_sea(code):
                return f"C {kind} {at} - {to}"
            if to and to in near:
                return f"S {kind} {at} - {to}"
            if at in near:
                return f"S {kind} {at}"
        return "H"

    def own_convoy(self, code):
        """The convoy of an army of the fleet's own power between coasts, or the order it has."""
        at = self.dice.choice(list(self.units))
        (power, kind, _, order), coastal = self.units[at], self.chart.is_coastal
        to = order[2:5] if order.startswith("- ") else ""
        is_own = kind == "A" and power == self.units[code][0]
        fits = is_own and to and coastal(at) and coastal(to)
        return f"C A {at} - {to}" if fits else self.units[code][3]

    def draw_rest(self):
        """Draws moves for some of those who hold, then help from most of the others."""
        for draw, part in ((self.move, 1), (self.help, 0.9)):
            for code in list(self.units):
                if self.units[code][3] == "H" and self.happens(part):
                    self.units[code][3] = draw(code)

    def vary(self):
        """Removes a unit seldom, and gives another one another power, or no order yet."""
        for code, unit in list(self.units.items()):
            if self.happens(0.05) and len(self.units) > 1:
                del self.units[code]
            unit[0] = self.draw_power() if self.happens(0.15) else unit[0]
            unit[3] = "H" if self.happens(0.15) else unit[3]

    def opening(self):
        """The units by power, as they are printed."""
        found = {}
        for code, (power, kind, coast, _) in self.units.items():
            found.setdefault(power, []).append(f"{kind} {spot(code, coast)}")
        return found

    def orders(self):
        """The orders, each after its power."""
        return [
            f"{power} {kind} {spot(it, coast)} {order}"
            for it, (power, kind, coast, order) in self.units.items()
        ]


def around(chart, dice, cores):
    """A movement around one of these cores."""
    drawn = Movement(chart, dice)
    second, meeting, most = dice.choice(RECIPES)
    drawn.add_core(dice.choice(cores))
    if drawn.happens(second):
        drawn.add_core(dice.choice([*CIRCLES, *KNOTS, *VOYAGES]))
    if drawn.happens(meeting):
        drawn.add_core(dice.choice(MEETINGS))
    for _ in range(dice.randrange(most)):
        drawn.add_neighbour()
    drawn.draw_rest()
    return drawn


def with_own_convoys(chart, dice):
    """A movement in which fleets are to carry armies of their own power along a coast."""
    drawn = around(chart, dice, OWN_CONVOYS)
    for code in list(drawn.units):
        if drawn.is_at_sea(code) and drawn.happens(0.4):
            drawn.units[code][3] = drawn.own_convoy(code)
    return drawn


def varied(chart, dice, orders):
    """A movement that was worked by hand, each order after its power, with something changed."""
    drawn = Movement(chart, dice)
    for line in orders:
        power, kind, code, coast, order = ORDER.fullmatch(line).groups()
        drawn.add(code, power, kind, coast or "", order)
    drawn.vary()
    drawn.draw_rest()
    return drawn
