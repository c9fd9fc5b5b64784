"""How a movement is decided: its decisions get the value that their equations force, then circles
move, then the paths of a knot break.

Two completions decide what is forced: the worst for a decision and the best. If few decisions are
open, all completions are tried too, and have to give the same."""

import itertools

# Of at most so many open decisions all completions are tried.
MOST_TRIED = 7


class Movement:
    """The orders of a movement, one for each standing unit, by province. A decision is `("M", unit)` of a move, `("P", unit)` of a move by convoy, or
    `("G", unit)` of a support that matches, each unit named by its province."""

    def __init__(self, chart, board, orders):
        self.chart, self.units, self.intent = chart, board.units, board.intent
        self.move = {code: it["to"] for code, it in orders.items() if it["do"] == "move"}
        self.by_sea = {code for code, to in self.move.items() if orders[code]["kind"] == "A" and self.goes_by_sea(orders, code, to)}
        self.into = {}
        for code, to in self.move.items():
            self.into.setdefault(to, []).append(code)
        self.given = {code: it for code, it in orders.items() if self.matches(it)}
        self.helpers = {}
        for code, it in self.given.items():
            self.helpers.setdefault(it["at"], []).append(code)
        self.carriers = {code: self.fleets_for(orders, code) for code in self.by_sea}
        self.decisions = [*(("M", it) for it in self.move), *(("P", it) for it in self.by_sea), *(("G", it) for it in self.given)]
        self.known, self.broken = {}, set()

    def goes_by_sea(self, orders, code, to):
        """Whether an army goes by convoy: where VIA says so, where it can't walk, and with INTENT where a fleet of its own power is to carry it."""
        if orders[code]["via"] or to not in self.chart.army[code]:
            return True
        spans_water = self.chart.kind[code] == self.chart.kind[to] == "coast"
        return self.intent and spans_water and any(self.power(it) == self.power(code) for it in self.fleets_for(orders, code))

    def matches(self, it):
        """Whether a support counts: of a move where the unit has that move, to hold where it has none."""
        if it["do"] == "support":
            return it["at"] in self.units and it["at"] not in self.move
        return it["do"] == "help" and self.move.get(it["at"]) == it["to"]

    def fleets_for(self, orders, code):
        """The fleets in seas that are ordered to convoy this very move."""
        fleets = {at for at, it in orders.items() if it["do"] == "convoy" and it["at"] == code and it["to"] == self.move[code]}
        return {at for at in fleets if self.chart.kind[at] == "sea"}

    def power(self, code):
        return self.units[code][0]

    def head_to_head(self, unit, other):
        return self.move.get(other) == unit and self.move[unit] == other and not {unit, other} & self.by_sea

    def path(self, value, unit):
        return value(("P", unit)) if unit in self.by_sea else True

    def support(self, value, unit, but=None):
        """How many supports a unit is given, leaving out those of one power."""
        return sum(value(("G", it)) for it in self.helpers.get(unit, []) if self.power(it) != but)

    def attack(self, value, unit):
        to = self.move[unit]
        if not self.path(value, unit):
            return 0
        if to not in self.units or (to in self.move and not self.head_to_head(unit, to) and value(("M", to))):
            return 1 + self.support(value, unit)
        return 0 if self.power(to) == self.power(unit) else 1 + self.support(value, unit, self.power(to))

    def hold(self, value, code):
        if code not in self.units:
            return 0
        if code in self.move:
            return 0 if value(("M", code)) else 1
        return 1 + self.support(value, code)

    def prevent(self, value, unit):
        to = self.move[unit]
        beaten = to in self.units and self.head_to_head(unit, to) and value(("M", to))
        return 0 if beaten or not self.path(value, unit) else 1 + self.support(value, unit)

    def equation(self, value, decision):
        kind, unit = decision
        return {"M": self.moves, "P": self.has_path, "G": self.counts}[kind](value, unit)

    def moves(self, value, unit):
        to, attack = self.move[unit], self.attack(value, unit)
        if any(attack <= self.prevent(value, it) for it in self.into[to] if it != unit):
            return False
        if to in self.units and self.head_to_head(unit, to):
            return attack > 1 + self.support(value, to)
        return attack > self.hold(value, to)

    def aim(self, unit):
        """The province into which a support is directed."""
        return self.given[unit]["to"] if self.given[unit]["do"] == "help" else None

    def attackers(self, unit):
        """The moves of other powers into a supporter's province."""
        return [it for it in self.into.get(unit, []) if self.power(it) != self.power(unit)]

    def counts(self, value, unit):
        return not any(value(("M", it)) if it == self.aim(unit) else self.path(value, it) for it in self.attackers(unit))

    def has_path(self, value, unit):
        """Whether fleets that aren't dislodged join a move's two ends."""
        if unit in self.broken:
            return False
        fleets = {it for it in self.carriers[unit] if not any(value(("M", by)) for by in self.into.get(it, []))}
        near = {it: {code for code, _ in self.chart.fleet[it][""]} for it in fleets}
        edge = {it for it in fleets if unit in near[it]}
        seen = set()
        while edge - seen:
            seen |= edge
            edge = {it for it in fleets if near[it] & seen}
        return any(self.move[unit] in near[it] for it in seen)

    def favours(self, decision, other):
        """Whether a decision is likelier where this other one is true."""
        kind, unit = other
        if decision[0] != "M":
            return False
        return kind == "M" or (unit == decision[1] if kind == "P" else self.given[unit]["at"] == decision[1])

    def corner(self, decision, is_best, fixed=None):
        """The value by its equation where all that is open is as good for it, or as bad, as it can be."""
        known = {**self.known, **(fixed or {})}
        return self.equation(lambda it: known[it] if it in known else self.favours(decision, it) == is_best, decision)

    def forced(self, decision):
        """The value that its equation gives whatever the open decisions are; None if there is none."""
        worst = self.corner(decision, False)
        value = worst if worst == self.corner(decision, True) else None
        for first in self.completions()[:1]:
            told = self.equation(first.__getitem__, decision)
            same = all(self.equation(it.__getitem__, decision) == told for it in self.completions())
            assert value == (told if same else None), f"{decision}: {value} by two completions alone"
        return value

    def completions(self):
        """Each way to give the open decisions a value, with what is known; none if many are open."""
        left = [it for it in self.decisions if it not in self.known]
        if len(left) > MOST_TRIED:
            return []
        ways = itertools.product((False, True), repeat=len(left))
        return [{**self.known, **dict(zip(left, values))} for values in ways]

    def followed(self, unit):
        """The unit whose open move this unit's open move always equals; None where there is none."""
        other = ("M", self.move[unit])
        if other not in self.decisions or other in self.known:
            return None
        follows = self.corner(("M", unit), False, {other: True}) and not self.corner(("M", unit), True, {other: False})
        if completions := self.completions():
            move = ("M", unit)
            equal = all(self.equation(it.__getitem__, move) == it[other] for it in completions)
            assert follows == equal, f"{unit} follows {other}: {equal} by all completions"
        return other[1] if follows else None

    def circle(self):
        """The units of a circle, or none."""
        for start in sorted(self.move):
            seen, unit = [], start
            while unit is not None and ("M", unit) not in self.known and unit not in seen:
                seen.append(unit)
                unit = self.followed(unit)
            if unit in seen and len(seen) - seen.index(unit) > 1:
                return seen[seen.index(unit) :]
        return []

    def mentioned(self, decision):
        """The open decisions that an equation mentions."""
        kind, unit = decision
        found = set()
        if kind == "M":
            to = self.move[unit]
            backed = [*self.into[to], *([to] if to not in self.move or self.head_to_head(unit, to) else [])]
            found = {("M", to), *(("P", it) for it in self.into[to]), *(("G", by) for it in backed for by in self.helpers.get(it, []))}
        elif kind == "G":
            found = {("M" if it == self.aim(unit) else "P", it) for it in self.attackers(unit)}
        else:
            found = {("M", by) for it in self.carriers[unit] for by in self.into.get(it, [])}
        return {it for it in found if it in self.open}

    def reached(self, decision):
        seen, edge = set(), self.mentioned(decision)
        while edge:
            seen |= edge
            edge = {it for by in edge for it in self.mentioned(by)} - seen
        return seen

    def knot(self):
        """The open paths that are reached by each open path that they reach."""
        self.open = set(self.decisions) - set(self.known)
        paths = {it: self.reached(it) for it in self.open if it[0] == "P"}
        return [it for it, seen in paths.items() if all(it in paths[other] for other in seen if other[0] == "P")]

    def force_all(self):
        """Gives the open decisions their forced values until none is forced any more."""
        found = True
        while found:
            forced = {it: self.forced(it) for it in self.decisions if it not in self.known}
            found = {it: value for it, value in forced.items() if value is not None}
            self.known |= found

    def resolve(self):
        self.force_all()
        while len(self.known) < len(self.decisions):
            circle = self.circle()
            if circle:
                self.known |= {("M", unit): True for unit in circle}
            else:
                knot = self.knot()
                self.known |= {it: False for it in knot}
                self.broken |= {unit for _, unit in knot}
            self.force_all()
        return self

    def value(self, decision):
        return self.known[decision]

    def outcome(self, code, it):
        """What a unit's order comes to, but for what becomes of the unit."""
        if it["do"] == "hold":
            return "holds"
        if it["do"] == "move":
            return "no route" if not self.path(self.value, code) else "moves" if self.known["M", code] else "bounced"
        if it["do"] == "convoy":
            return "convoys" if it["at"] in self.by_sea and self.move[it["at"]] == it["to"] else "void"
        return "void" if code not in self.given else "given" if self.known["G", code] else "cut"
