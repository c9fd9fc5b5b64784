"""Letters, what they come to at a desk, and the replies and papers that are printed."""

import hashlib
import re

from boards import Board
from orders import FAULTS, OrderFault, Reader
from phases import advance

MOST_BYTES, MOST_SENT, MOST_TICK = 16_384, 10_000, 999_999_999_999
NAME, SECRET, NUMBER = r"[a-z]{1,16}", r"[!-~]{8,64}", r"0|[1-9][0-9]*"
HEAD = re.compile(rf"LETTER\nGAME ([a-z][a-z0-9]{{0,15}})\nFROM ({NAME})\nSECRET ({SECRET})\nNUMBER ({NUMBER})\n(.*)END\n", re.S)
MALFORMED, TOO_LONG, UNKNOWN = "L1 malformed letter", "L5 letter over 16384 bytes", "L2 unknown game, sender or secret"
POWERS_OWN = {"orders", "withdraw", "press", "vote", "show", "inbox"}
ALSO_WHEN_OVER = {"show", "inbox", "replace", "announce", "create"}


def printed(lines):
    return "".join(f"{line}\n" for line in lines)


def reply_of(head, lines):
    return printed([f"REPLY {head}", *lines, "END"])


def digest(game, sender, secret):
    return hashlib.sha256(f"{game}\n{sender}\n{secret}".encode()).digest()


def count_in(text, least, most):
    """The number that a text is, or None."""
    return int(text) if re.fullmatch(NUMBER, text) and least <= int(text) <= most else None


def text_lines(lines):
    """The lines of a text without their marks, or None."""
    fits = 1 <= len(lines) <= 80 and all(line.startswith("> ") and len(line) <= 202 for line in lines)
    return [line[2:] for line in lines] if fits else None


def orders_in(_, lines):
    return ("orders", lines) if 1 <= len(lines) <= 64 and all(1 <= len(line) <= 100 for line in lines) else None


def press_in(found, lines):
    names, text = found[2].split(" "), text_lines(lines)
    return ("press", found[1] == "GREY", names, text) if len(names) <= 7 and text else None


def announce_in(_, lines):
    text = text_lines(lines)
    return ("announce", text) if text else None


def vote_in(found, lines):
    names = found[1].split(" ")
    return ("vote", names) if len(names) <= 8 and not lines else None


def create_in(found, lines):
    due, period = count_in(found[1], 0, MOST_TICK), count_in(found[2], 1, 999_999)
    seats = [re.fullmatch(f"SEAT ({NAME}) ({SECRET})", line) for line in lines]
    fits = due is not None and period is not None and 1 <= len(seats) <= 7 and all(seats)
    return ("create", due, period, found[3] == "YES", found[4] == "YES", [it.groups() for it in seats]) if fits else None


def count_command(name, least, most):
    def read(found, lines):
        count = count_in(found[1], least, most)
        return None if lines or count is None else (name, count)

    return read


def plain_command(found, lines):
    return None if lines else (found[0].lower(),)


COMMANDS = [
    (r"ORDERS", orders_in),
    (r"WITHDRAW|SHOW|PAUSE|RESUME|CLOSE", plain_command),
    (rf"PRESS (WHITE|GREY) TO ({NAME}(?: {NAME})*)", press_in),
    (rf"VOTE (YES|NO|FOR {NAME}(?: {NAME})*)", vote_in),
    (r"INBOX ([0-9]+)", count_command("inbox", 1, 999_999)),
    (r"CREATE DUE ([0-9]+) PERIOD ([0-9]+) GREY (YES|NO)(?: INTENT (YES|NO))?", create_in),
    (r"TICK ([0-9]+)", count_command("tick", 0, MOST_TICK)),
    (rf"REPLACE ({NAME}) ({SECRET})", lambda found, lines: None if lines else ("replace", found[1], found[2])),
    (r"PERIOD ([0-9]+)", count_command("period", 1, 999_999)),
    (r"ANNOUNCE", announce_in),
]


def command_in(line, lines):
    for form, read in COMMANDS:
        found = re.fullmatch(form, line)
        if found:
            return read(found, lines)
    return None


def letter_in(data):
    """The letter that these bytes are: its game, sender, secret, number, command and bytes; None where they are none."""
    found = HEAD.fullmatch(data.decode("latin-1")) if re.fullmatch(rb"[ -~\n]*", data) else None
    if not found:
        return None
    game, sender, secret, number, rest = found.groups()
    number, lines = count_in(number, 1, 999_999_999), rest.split("\n")[:-1]
    command = command_in(lines[0], lines[1:]) if number is not None and lines else None
    return (game, sender, secret, number, command, data) if command else None


def next_letter(data, at):
    """What stands from a place on: a letter or a fault's line, and the place after it. None at the end."""
    while data[at : at + 1] == b"\n":
        at += 1
    if at == len(data):
        return None
    found = re.compile(rb"^END\n", re.M).search(data, at)
    behind = found.end() if found else len(data)
    if found and behind - at <= MOST_BYTES:
        return letter_in(data[at:behind]) or MALFORMED, behind
    return TOO_LONG if len(data) - at > MOST_BYTES else MALFORMED, behind


class Author:
    """What is kept of a seat, or of the master."""

    def __init__(self, known):
        self.digest, self.last, self.kept, self.reply = known, 0, None, None
        self.vote, self.sent, self.inbox, self.pending = ["NO"], 0, [], {}


class Game:
    def __init__(self, chart, name, due, period, grey, intent, seats):
        self.chart, self.name, self.due, self.period, self.grey = chart, name, due, period, grey
        self.board, self.status, self.papers = Board(chart, intent), "running", []
        self.seats = {power: Author(digest(name, power, secret)) for power, secret in seats}

    def is_over(self):
        return self.status not in ("running", "paused")

    def line(self):
        chosen = f"GREY {'YES' if self.grey else 'NO'}{' INTENT YES' if self.board.intent else ''}"
        return f"GAME {self.name} {self.board.phase()} {self.status} DUE {self.due} PERIOD {self.period} {chosen} PAPERS {len(self.papers)}"

    def publish(self, title, lines=()):
        """Adds a paper, and gives the line of the reply."""
        self.papers.append("")
        number = len(self.papers)
        self.papers[-1] = printed([f"PAPER {number} {title}", *lines, self.line(), *self.board.lines(self.chart), "END"])
        return [f"OK paper {number}"]

    def survivors(self):
        return [power for power in self.chart.powers if self.board.count_units(power) or self.board.centres(power)]

    def shared(self):
        """The powers between which all survivors want a draw, if they agree on survivors alone."""
        survivors = set(self.survivors())
        wanted = [{"NO": set(), "YES": survivors}.get(vote[0], set(vote[1:])) for vote in (self.seats[power].vote for power in survivors)]
        return wanted[0] if wanted and all(it == wanted[0] for it in wanted) and wanted[0] <= survivors else set()

    def play(self, tick):
        """A due tick: a draw, or the phase with the orders that stand."""
        shared = self.shared()
        if shared:
            self.status = "drawn by " + " ".join(sorted(shared))
            return self.publish("draw")
        pending = {(power, code): it for power, seat in self.seats.items() for code, it in seat.pending.items()}
        title = self.board.phase()
        lines, self.status = advance(self.chart, self.board, pending)
        for seat in self.seats.values():
            seat.pending = {}
        if not self.is_over():
            self.due = tick + self.period
        return self.publish(title, lines)


class Desk:
    def __init__(self, chart, secret):
        self.chart, self.master, self.games = chart, Author(digest("desk", "master", secret)), {}

    def answer(self, data):
        """The replies to an input."""
        told, at = [], 0
        while found := next_letter(data, at):
            letter, at = found
            told.append(reply_of("nobody 0", [letter]) if isinstance(letter, str) else self.take(letter))
        return "".join(told)

    def author_of(self, letter):
        game, sender, secret, _, command, _ = letter
        if sender == "master":
            is_known = game in self.games or command[0] == "create"
            return self.master if is_known and self.master.digest == digest("desk", "master", secret) else None
        seat = self.games[game].seats.get(sender) if game in self.games else None
        return seat if seat and seat.digest == digest(game, sender, secret) else None

    def take(self, letter):
        """The reply to a letter."""
        game, sender, _, number, _, data = letter
        author = self.author_of(letter)
        if author is None:
            return reply_of("nobody 0", [UNKNOWN])
        head, total = f"{game} {sender} {number}", hashlib.sha256(data).digest()
        if number < author.last:
            return reply_of(head, [f"L3 stale number, last is {author.last}"])
        if number == author.last:
            return author.reply if total == author.kept else reply_of(head, [f"L4 number {number} used by another letter"])
        refused = self.refusal(letter, author)
        lines = [refused] if refused else self.carry_out(letter, author)
        author.last, author.kept, author.reply = number, total, reply_of(head, lines)
        return author.reply

    def has_wrong_names(self, sender, command):
        kind, powers = command[0], self.chart.powers
        if kind == "press":
            names = command[2]
            return names != ["all"] and (len(set(names)) < len(names) or not set(names) <= set(powers) - {sender})
        if kind == "create":
            return sorted(power for power, _ in command[-1]) != powers
        if kind == "vote":
            names = command[1][1:]
            return len(set(names)) < len(names) or not set(names) <= set(powers)
        return kind == "replace" and command[1] not in powers

    def refusal(self, letter, author):
        """The first refusal that holds, or None."""
        name, sender, _, _, command, _ = letter
        kind, game = command[0], self.games.get(name)
        if (kind in POWERS_OWN) == (sender == "master"):
            return "L9 command not for this sender"
        if self.has_wrong_names(sender, command):
            return MALFORMED
        if game and game.is_over() and kind not in ALSO_WHEN_OVER:
            return "L8 game over"
        if kind == "press" and command[1] and not game.grey:
            return "L7 no grey press here"
        if kind == "press" and author.sent >= MOST_SENT:
            return "L6 press quota used"
        if kind == "tick" and (game.status == "paused" or command[1] < game.due):
            return "L10 tick not due"
        return "L11 name taken" if kind == "create" and game else None

    def carry_out(self, letter, author):
        name, sender, _, _, command, _ = letter
        if command[0] == "create":
            self.games[name] = Game(self.chart, name, *command[1:])
            return self.games[name].publish("opening")
        return getattr(self, command[0])(self.games[name], sender, author, *command[1:])

    def orders(self, game, sender, author, lines):
        told = []
        for number, line in enumerate(lines, 1):
            try:
                it = Reader(self.chart, game.board, sender, author.pending).read(line)
                author.pending[it["code"]] = it
                told.append(f"OK {it['text']}")
            except OrderFault as fault:
                told.append(f"{fault.name} line {number}: {FAULTS[fault.name]}")
        return told

    def withdraw(self, _game, _sender, author):
        author.pending = {}
        return ["OK withdrawn"]

    def press(self, game, sender, author, grey, names, text):
        author.sent += 1
        to_all = names == ["all"]
        head = f"grey to {'all' if to_all else 'you'}" if grey else f"white from {sender} to {' '.join(names)}"
        for power in self.chart.powers if to_all else names:
            if power != sender:
                game.seats[power].inbox.append((head, text))
        return ["OK press"]

    def vote(self, _game, _sender, author, words):
        author.vote = [words[0], *sorted(words[1:])]
        return [f"OK vote {' '.join(author.vote)}"]

    def show(self, game, _sender, author):
        own = [f"VOTE {' '.join(author.vote)}", f"SENT {author.sent} INBOX {len(author.inbox)}"]
        return [game.line(), *game.board.lines(self.chart), *own, *(f"ORDER {author.pending[code]['text']}" for code in sorted(author.pending))]

    def inbox(self, _game, _sender, author, first):
        told = [f"INBOX {len(author.inbox)}"]
        for number, (head, text) in list(enumerate(author.inbox, 1))[first - 1 : first + 9]:
            told += [f"ITEM {number} {head}", *(f"> {line}" for line in text)]
        return told

    def tick(self, game, _sender, _author, tick):
        return game.play(tick)

    def replace(self, game, _sender, _author, power, secret):
        game.seats[power].digest = digest(game.name, power, secret)
        return [f"OK seat {power}"]

    def pause(self, game, _sender, _author):
        game.status = "paused"
        return game.publish("notice", ["> paused"])

    def resume(self, game, _sender, _author):
        game.status = "running"
        return game.publish("notice", ["> resumed"])

    def period(self, game, _sender, _author, period):
        game.period = period
        return game.publish("notice", [f"> period {period}"])

    def announce(self, game, _sender, _author, text):
        return game.publish("notice", [f"> {line}" for line in text])

    def close(self, game, _sender, _author):
        game.status = "closed"
        return game.publish("notice", ["> closed"])
