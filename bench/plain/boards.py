"""Boards, and what is printed of them."""


def spot(code, coast):
    """A place as it is printed."""
    return f"{code}/{coast}" if coast else code


class Board:
    """Standing units by province: power, kind, coast. Dislodged ones: these, and where the attacker came from, or None. A phase is a year and a
    season: 0 to 4 for the movements and retreats of spring and fall, and winter. The option INTENT is on or off for the whole game."""

    def __init__(self, chart, intent=False):
        self.units = {code: (power, kind, coast) for power in chart.powers for kind, code, coast in chart.opening[power]}
        self.dislodged, self.standoff = {}, set()
        self.owner = {code: power for power in chart.powers for code in chart.home[power]}
        self.year, self.season = 1901, 0
        self.intent = intent

    def phase(self):
        return "SSFFW"[self.season] + str(self.year) + "MRMRA"[self.season]

    def kind_of_phase(self):
        return "MRMRA"[self.season]

    def count_units(self, power):
        return sum(unit[0] == power for unit in [*self.units.values(), *self.dislodged.values()])

    def centres(self, power):
        return sorted(code for code, owner in self.owner.items() if owner == power)

    def vacant_homes(self, chart, power):
        return [code for code in chart.home[power] if self.owner.get(code) == power and code not in self.units]

    def allowance(self, chart, power):
        """How many units a power may build; below zero, how many it has to remove."""
        more = len(self.centres(power)) - self.count_units(power)
        return min(more, len(self.vacant_homes(chart, power))) if more > 0 else more

    def refuges(self, chart, code):
        """The places where the dislodged unit of the province may go."""
        _, kind, coast, origin = self.dislodged[code]
        return sorted(it for it in chart.next_to(kind, code, coast) if it[0] not in self.units and it[0] != origin and it[0] not in self.standoff)

    def line(self, power):
        units = [(code, f"{kind} {spot(code, coast)}") for code, (who, kind, coast) in self.units.items() if who == power]
        units += [(code, f"{kind} {spot(code, coast)}*") for code, (who, kind, coast, _) in self.dislodged.items() if who == power]
        centres = self.centres(power)
        return f"{power} {len(centres)}/{len(units)}: {', '.join(text for _, text in sorted(units)) or '-'} | {' '.join(centres) or '-'}"

    def lines(self, chart):
        return [self.line(power) for power in chart.powers]
