"""Whether texts are the papers of a game: each is made again from the game before it, by whatever letter may have brought it."""

import copy
import re

from desk import MOST_TICK, Desk, Game, count_in, text_lines
from orders import OrderFault, Reader
from phases import advance

GAME = re.compile(r"GAME ([a-z][a-z0-9]{0,15}) S1901M running DUE (\d+) PERIOD (\d+) GREY (YES|NO)( INTENT YES)? PAPERS 1")
# What an order line says of its power: the order, and what became of it.
ORDER = re.compile(r"([a-z]+) (.*): ([a-z ,]+)")


def texts_in(data):
    """The texts of an input, each up to its line `END`, without the empty lines before it."""
    texts, lines = [], []
    for line in data.split("\n"):
        if line or lines:
            lines.append(line)
        if line == "END":
            texts.append("\n".join(lines) + "\n")
            lines = []
    while lines and not lines[-1]:
        lines.pop()
    return texts + (["\n".join(lines) + "\n"] if lines else [])


def game_line(text):
    return next((line for line in text.split("\n") if line.startswith("GAME ")), "")


def opened(chart, text):
    """The game that a text opens, or None."""
    found = GAME.fullmatch(game_line(text))
    if not found:
        return None
    name, due, period, grey, intent = found.groups()
    due, period = count_in(due, 0, MOST_TICK), count_in(period, 1, 999_999)
    if due is None or period is None:
        return None
    game = Game(chart, name, due, period, grey == "YES", bool(intent), [(power, "secret-x") for power in chart.powers])
    game.publish("opening")
    return game if game.papers[-1] == text else None


def notices(game, text):
    """The games that a notice with the lines of a text may leave."""
    lines = text.split("\n")[1:]
    lines = lines[: next((at for at, line in enumerate(lines) if line.startswith("GAME ")), 0)]
    found = text_lines(lines)
    if found and all(re.fullmatch("[ -~]*", line) for line in found):
        yield "announce", [found]
    if game.is_over() or len(lines) != 1:
        return
    for command in ("pause", "resume", "close"):
        yield command, []
    period = count_in(lines[0].removeprefix("> period "), 1, 999_999)
    if period is not None:
        yield "period", [period]


def after_notice(game, text):
    for command, words in notices(game, text):
        new = copy.deepcopy(game)
        getattr(Desk, command)(None, new, None, None, *words)
        if new.papers[-1] == text:
            return new
    return None


def after_draw(game, text):
    words = game_line(text).split(" ")
    new = copy.deepcopy(game)
    shared = sorted(set(words[5:]) & set(new.survivors()))
    if not shared:
        return None
    new.status = "drawn by " + " ".join(shared)
    new.publish("draw")
    return new if new.papers[-1] == text else None


def orders_in(game, text):
    """The orders that a text prints, by power and province, or None."""
    pending = {}
    for line in text.split("\n")[1:]:
        found = ORDER.fullmatch(line)
        if not found or found[3] == "removed in disorder" or found[1] not in game.chart.powers:
            continue
        own = {code: it for (power, code), it in pending.items() if power == found[1]} if game.board.kind_of_phase() == "A" else {}
        try:
            it = Reader(game.chart, game.board, found[1], own).read(found[2])
        except OrderFault:
            return None
        pending[found[1], it["code"]] = it
    return pending


def after_phase(game, text):
    new, pending = copy.deepcopy(game), orders_in(game, text)
    if pending is None:
        return None
    title = new.board.phase()
    lines, new.status = advance(new.chart, new.board, pending)
    if not new.is_over():
        words = game_line(text).split(" ")
        due = count_in(words[5], 0, 10**18) if len(words) > 5 and words[4] == "DUE" else None
        tick = due - new.period if due is not None else -1
        if not game.due <= tick <= MOST_TICK:
            return None
        new.due = due
    new.publish(title, lines)
    return new if new.papers[-1] == text else None


def after(game, text):
    """The game as a text leaves it that comes next, or None."""
    title = text.split("\n")[0]
    number = len(game.papers) + 1
    if title == f"PAPER {number} notice":
        return after_notice(game, text)
    if game.status != "running" or game.due > MOST_TICK:
        return None
    return after_draw(game, text) if title == f"PAPER {number} draw" else after_phase(game, text)


def right_papers(chart, data):
    """How many of the texts of an input are papers of a game, from the first on, and whether all are."""
    game, texts = None, texts_in(data)
    for number, text in enumerate(texts):
        game = after(game, text) if game else opened(chart, text)
        if game is None:
            return number, False
    return len(texts), bool(texts)
