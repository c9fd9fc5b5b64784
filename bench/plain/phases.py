"""What a phase makes of a board, and the lines of its paper."""

from boards import spot
from movement import Movement


def standing(board, pending):
    """An order for each standing unit: that which stands, or to hold."""
    orders = {}
    for code, (power, kind, coast) in board.units.items():
        hold = {"do": "hold", "code": code, "kind": kind, "coast": coast, "text": f"{kind} {spot(code, coast)} H"}
        orders[code] = pending.get((power, code), hold)
    return orders


def play_movement(chart, board, pending):
    orders, old = standing(board, pending), board.units
    decided = Movement(chart, board, orders).resolve()
    moved = {code: to for code, to in decided.move.items() if decided.value(("M", code))}
    entered = {to: code for code, to in moved.items()}
    assert len(entered) == len(moved), "two units enter a province"
    stay = {code: unit for code, unit in old.items() if code not in moved}
    board.units = {to: (*old[code][:2], orders[code]["shore"]) for code, to in moved.items()}
    board.units |= {code: unit for code, unit in stay.items() if code not in entered}
    board.dislodged = {code: (*unit, None if entered[code] in decided.by_sea else entered[code]) for code, unit in stay.items() if code in entered}
    failed = [code for code in decided.move if code not in moved and decided.prevent(decided.value, code) > 0]
    board.standoff = {decided.move[code] for code in failed if decided.move[code] not in board.units}
    destroyed = [code for code in board.dislodged if not board.refuges(chart, code)]
    lines = []
    for code in sorted(old, key=lambda it: (old[it][0], it)):
        end = ", destroyed" if code in destroyed else ", dislodged" if code in board.dislodged else ""
        lines.append(f"{old[code][0]} {orders[code]['text']}: {decided.outcome(code, orders[code])}{end}")
    for code in destroyed:
        del board.dislodged[code]
    return lines


def play_retreats(chart, board, pending):
    orders = {code: pending.get((unit[0], code)) for code, unit in board.dislodged.items()}
    goals = [it["to"] for it in orders.values() if it and it["do"] == "retreat"]
    lines, arrived = [], {}
    for code in sorted(board.dislodged, key=lambda it: (board.dislodged[it][0], it)):
        power, kind, coast, _ = board.dislodged[code]
        it = orders[code]
        goes = it is not None and it["do"] == "retreat" and goals.count(it["to"]) == 1
        if goes:
            arrived[it["to"]] = (power, kind, it["shore"])
        lines.append(f"{power} {it['text'] if it else f'{kind} {spot(code, coast)} D'}: {'retreats' if goes else 'disbands'}")
    board.units |= arrived
    board.dislodged, board.standoff = {}, set()
    return lines


def build(board, power, given, allowed):
    for it in given:
        board.units[it["code"]] = (power, it["kind"], it["coast"])
    waived = [f"{power} waives {allowed - len(given)}"] if allowed > len(given) else []
    return [f"{power} {it['text']}: built" for it in given] + waived


def remove(chart, board, power, given, owed):
    """Takes away the units of given removals, and in disorder those that are owed beside them: the farthest first, fleets before armies, by names."""
    for it in given:
        del board.units[it["code"]]
    left = [(code, unit) for code, unit in board.units.items() if unit[0] == power]
    left.sort(key=lambda it: (-chart.distance(it[1][1], it[0], it[1][2], power), it[1][1] == "A", chart.name[it[0]].encode()))
    lost = left[: max(owed - len(given), 0)]
    for code, _ in lost:
        del board.units[code]
    return [f"{power} {it['text']}: removed" for it in given] + [f"{power} REMOVE {unit[1]} {spot(code, unit[2])}: removed in disorder" for code, unit in lost]


def play_winter(chart, board, pending):
    lines = []
    allowances = {power: board.allowance(chart, power) for power in chart.powers}
    for power, allowed in allowances.items():
        given = [pending[key] for key in sorted(pending) if key[0] == power]
        if allowed > 0:
            lines += build(board, power, given, allowed)
        elif allowed < 0:
            lines += remove(chart, board, power, given, -allowed)
    board.standoff = set()
    return lines


def count_centres(chart, board):
    """Gives each centre to the power that has a unit there; a line for each that changes hands."""
    lines = []
    for code in chart.centres:
        if code in board.units and board.owner.get(code) != board.units[code][0]:
            board.owner[code] = board.units[code][0]
            lines.append(f"centre {code}: {board.owner[code]}")
    return lines


PLAYS = [play_movement, play_retreats, play_movement, play_retreats, play_winter]


def advance(chart, board, pending):
    """Plays the board's phase: the lines of its paper, and the game's status after it."""
    season = board.season
    lines = PLAYS[season](chart, board, pending)
    after = season + 1 if season % 2 or season == 4 or board.dislodged else season + 2
    if after == 4:
        lines += count_centres(chart, board)
        winners = [power for power in chart.powers if 2 * len(board.centres(power)) > len(chart.centres)]
        if winners:
            return lines, f"won by {winners[0]}"
        if all(board.allowance(chart, power) == 0 for power in chart.powers):
            after = 5
    if after < 5:
        board.season = after
        return lines, "running"
    if board.year == 2900:
        return lines, "ended"
    board.year, board.season = board.year + 1, 0
    return lines, "running"
