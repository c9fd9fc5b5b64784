"""Letters by chance, for a desk that is played along, so that they fit what stands there more often than not."""

from desk import Desk, letter_in

MASTER = "master-key"
LINES = ["A", "A par", "- -", "A par - - bur", "A par S", "F nth C F lon - bel", "BUILD", "REMOVE A", "A par H H", "A p H", "A par/n H", "A par - bur VIA VIA", "A1 par H", "a par\\bur", "A par S A bur - mun H", "A mun S A bur H", "F nth C A lon - bel VIA", "A lon - via", "A par - via via", "-" * 100]
PIECES = [b"END\n", b"LETTER\nGAME g1\nEND\n", b"x\nEND\n", b"\n\n", b"\nLETTER\n\nEND\n"]
QUIET = ["SHOW\n", "SHOW\n", "WITHDRAW\n", "VOTE YES\n", "VOTE NO\n", "INBOX 1\n", "INBOX 2\n", "INBOX 11\n", "INBOX 999999\n"]
MASTERS = ["PAUSE\n", "RESUME\n", "RESUME\n", "PERIOD 1\n", "PERIOD 999999\n", "ANNOUNCE\n> Words.\n>  \n", "TICK 0\n", "SHOW\n", "INBOX 1\n", "CREATE DUE 1 PERIOD 1 GREY NO\nSEAT spain ssssssss\n"]
MASTERS += [f"CREATE DUE 1 PERIOD 1 GREY {it}\nSEAT spain ssssssss\n" for it in ("YES INTENT YES", "NO INTENT MAYBE", "YES INTENT", "NO INTENT YES INTENT NO")]
# What CREATE says of the option INTENT.
INTENTS = ["", " INTENT NO", " INTENT YES", " INTENT YES"]


class Players:
    """The letters of a master and of all powers in some games, which CREATE opens with one of these words on the option INTENT."""

    def __init__(self, chart, dice, intents=INTENTS):
        self.chart, self.dice, self.desk, self.intents = chart, dice, Desk(chart, MASTER), intents
        self.sent, self.numbers, self.secrets, self.last = [], {}, {}, PIECES[0]

    def happens(self, part):
        return self.dice.random() < part

    def secret(self, game, sender):
        return MASTER if sender == "master" else self.secrets.get((game, sender), f"{sender[:6]}-secret")

    def number(self, game, sender):
        """The next number of a sender, or seldom one that is late."""
        key = sender if sender == "master" else (game, sender)
        self.numbers[key] = self.numbers.get(key, 0) + (self.dice.randint(2, 5) if self.happens(0.1) else 1)
        return self.dice.randint(1, self.numbers[key]) if self.happens(0.02) else self.numbers[key]

    def send(self, data):
        """Sends bytes; a letter among them is taken here too."""
        self.sent.append(data)
        self.last = data
        letter = letter_in(data)
        return self.desk.take(letter) if letter else ""

    def write(self, game, sender, command, secret=None, number=None):
        secret, number = secret or self.secret(game, sender), number or self.number(game, sender)
        return self.send(f"LETTER\nGAME {game}\nFROM {sender}\nSECRET {secret}\nNUMBER {number}\n{command}END\n".encode())

    def create(self, game, due=None):
        powers = self.dice.sample(self.chart.powers, len(self.chart.powers))
        seats = "".join(f"SEAT {power} {self.secret(game, power)}\n" for power in powers)
        due = self.dice.choice([0, 5, 100]) if due is None else due
        chosen = f"GREY {self.dice.choice(['YES', 'NO'])}{self.dice.choice(self.intents)}"
        self.write(game, "master", f"CREATE DUE {due} PERIOD {self.dice.choice([1, 100, 999999])} {chosen}\n{seats}")

    def spelled(self, line):
        """An order line with other spaces and letters, as players write."""
        line = line.replace(" - ", "-") if self.happens(0.03) else line
        line = line.replace(" ", "  ") if self.happens(0.04) else line
        return self.dice.choice([line.lower(), line.upper(), f" {line} "]) if self.happens(0.08) else line

    def spot(self, code, coast):
        """A place, often with its coast, seldom with another."""
        coast = self.dice.choice(["nc", "sc", "ec", "zz"]) if self.happens(0.03) else coast
        return f"{code}/{coast}" if coast and self.happens(0.6) else code

    def moves_so_far(self, game):
        return [it for seat in game.seats.values() for it in seat.pending.values() if it["do"] == "move"]

    def convoys_so_far(self, game):
        return [(it["at"], it["to"]) for seat in game.seats.values() for it in seat.pending.values() if it["do"] == "convoy"]

    def movement_line(self, game, code):
        """An order for the unit of a province: a move, a support, a convoy, or to hold."""
        chart, dice, units = self.chart, self.dice, game.board.units
        _, kind, coast = units[code]
        me, near = f"{kind} {self.spot(code, coast)}", chart.next_to(kind, code, coast)
        reach, way = sorted({it for it, _ in near}), dice.random()
        if way < 0.3 and (kind == "A" or chart.kind[code] == "sea"):
            line = self.sea_line(game, code, me, reach)
            if line:
                return line
        if way < 0.55 and near:
            taken = [it for it in near if it[0] in units]
            to = dice.choice(taken if taken and self.happens(0.5) else near)
            return f"{me} - {self.spot(*to)}" + (" VIA" if self.happens(0.03) else "")
        helped = [it for it in self.moves_so_far(game) if it["to"] in reach and it["code"] != code]
        if helped and self.happens(0.75):
            it = dice.choice(helped)
            return f"{me} S {it['kind']} {it['code']} - {self.spot(it['to'], '')}"
        held = [it for it in reach if it in units] or list(units)
        other = dice.choice(held)
        return f"{me} S {units[other][1]} {self.spot(other, units[other][2])}" if self.happens(0.8) else f"{me} - {dice.choice(chart.codes)}"

    def sea_line(self, game, code, me, reach):
        """A move or a convoy over water, where there may be one."""
        chart, dice, units = self.chart, self.dice, game.board.units
        convoys = self.convoys_so_far(game)
        if me[0] == "A":
            fleets = [it for it in reach or chart.codes if it in units]
            goals = [to for at, to in convoys if at == code] or [it for it in chart.codes if chart.kind[it] == "coast" and fleets]
            return f"{me} - {dice.choice(goals)}" + (" VIA" if self.happens(0.4) else "") if goals else None
        far = [(it["code"], it["to"]) for it in self.moves_so_far(game) if it["kind"] == "A" and it["to"] not in chart.army[it["code"]]] + convoys
        if far and self.happens(0.8):
            at, to = dice.choice(far)
            return f"{me} C A {at} - {self.spot(to, '')}"
        armies, shores = [it for it in reach if units.get(it, "  ")[1] == "A"], [it for it in reach if chart.kind[it] == "coast"]
        return f"{me} C A {dice.choice(armies)} - {dice.choice(shores)}" if armies and shores else None

    def carried_lines(self, game, power):
        """An army's move along a coast, and the convoy of it by a fleet of the same power; nothing where there is none."""
        chart, units = self.chart, game.board.units
        own = [code for code, unit in units.items() if unit[0] == power]
        fleets = [code for code in own if chart.kind[code] == "sea"]
        armies = [code for code in own if units[code][1] == "A" and chart.kind[code] == "coast"]
        goals = [(code, to, by) for code in armies for to in chart.army[code] if chart.kind[to] == "coast" for by in fleets if self.joins(by, code, to)]
        if not goals:
            return []
        code, to, by = self.dice.choice(goals)
        return [f"A {code} - {to}", f"F {by} C A {code} - {to}"]

    def joins(self, sea, one, other):
        return self.chart.could_move("F", sea, "", one) and self.chart.could_move("F", sea, "", other)

    def retreat_line(self, game, power):
        board = game.board
        if not board.dislodged:
            return self.dice.choice(LINES)
        code = self.dice.choice([it for it, unit in board.dislodged.items() if unit[0] == power] or list(board.dislodged))
        _, kind, coast, _ = board.dislodged[code]
        me, places = f"{kind} {self.spot(code, coast)}", board.refuges(self.chart, code) or self.chart.next_to(kind, code, coast)
        return f"{me} R {self.spot(*self.dice.choice(places))}" if places and self.happens(0.85) else f"{me} D"

    def winter_line(self, game, power):
        own = [code for code, unit in game.board.units.items() if unit[0] == power]
        if self.happens(0.5) or not own:
            code = self.dice.choice(self.chart.home[power] if self.chart.home[power] and self.happens(0.9) else self.chart.codes)
            return f"BUILD {self.dice.choice('AF')} {self.spot(code, self.dice.choice(self.chart.coasts[code] or ['']))}"
        code = self.dice.choice(own)
        return f"REMOVE {game.board.units[code][1]} {self.spot(code, game.board.units[code][2])}"

    def orders(self, game, power):
        """A command ORDERS of a power, with a line for most of its units."""
        game, phase = self.desk.games[game], self.desk.games[game].board.kind_of_phase()
        own = [code for code, unit in game.board.units.items() if unit[0] == power and not self.happens(0.05)]
        if phase == "M":
            lines = [self.movement_line(game, code) for code in own or list(game.board.units)[:1]]
        else:
            lines = [self.retreat_line(game, power) if phase == "R" else self.winter_line(game, power) for _ in range(self.dice.randint(1, 4))]
        lines += [self.dice.choice(LINES)] if self.happens(0.1) or not lines else []
        lines = self.dice.sample(lines, len(lines))[:60]
        lines += self.carried_lines(game, power) if phase == "M" and self.happens(0.3) else []
        return "ORDERS\n" + "".join(f"{self.spelled(line)}\n" for line in lines)

    def press(self, power):
        others = [it for it in self.chart.powers if it != power] or ["spain"]
        names = self.dice.choice([["all"], self.dice.sample(others, min(2, len(others))), others[:1], others[:1] * 2, [power], ["all", "spain"]])
        lines = "".join("> " + "".join(map(chr, self.dice.choices(range(32, 127), k=self.dice.choice([0, 1, 40, 200])))) + "\n" for _ in range(self.dice.randint(1, 3)))
        return f"PRESS {self.dice.choice(['WHITE', 'GREY'])} TO {' '.join(names)}\n{lines}"

    def vote(self, game):
        """A vote: for all, for none, or for some powers; seldom for names that make none."""
        powers, way = self.chart.powers, self.dice.random()
        if way < 0.3:
            return self.dice.choice(["VOTE YES\n", "VOTE NO\n"])
        named = self.dice.sample(powers, self.dice.randint(1, len(powers)))
        if way < 0.4 and game in self.desk.games:
            named = self.desk.games[game].survivors()
        elif way < 0.5:
            named = named[:6] + [self.dice.choice(["spain", "master", "all", named[0]])]
        return f"VOTE FOR {' '.join(named)}\n"

    def any_letter(self, game):
        """Some letter, which may be one more time the last, or bytes that are none."""
        way, power = self.dice.random(), self.dice.choice(self.chart.powers)
        if way < 0.04:
            self.send(self.dice.choice(PIECES))
        elif way < 0.1:
            self.send(self.last)
        elif way < 0.16:
            self.write(self.dice.choice([game, "g9"]), self.dice.choice([power, "master", "spain"]), self.dice.choice(QUIET), self.dice.choice(["wrong-secret", MASTER]), self.dice.randint(1, 50))
        elif way < 0.3:
            self.write(game, "master" if self.happens(0.9) else power, self.dice.choice(MASTERS))
        elif way < 0.36:
            self.replace(game, power)
        elif way < 0.55:
            self.write(game, power, self.press(power))
        elif way < 0.65:
            self.write(game, power, self.vote(game))
        elif way < 0.8:
            self.write(game, power, self.dice.choice(QUIET))
        else:
            self.write(game, power if self.happens(0.95) else "master", self.orders(game, power))

    def replace(self, game, power):
        secret = f"secret-{self.dice.randint(1000, 9999)}"
        if "OK seat" in self.write(game, "master", f"REPLACE {power} {secret}\n"):
            self.secrets[game, power] = secret

    def tick(self, name):
        game = self.desk.games[name]
        if game.status == "paused":
            self.write(name, "master", "RESUME\n")
        if not game.is_over() and game.due < 10**12:
            self.write(name, "master", f"TICK {min(game.due + self.dice.choice([0, 0, 7]), 10**12 - 1)}\n")

    def turn(self, name, chatter):
        """One phase of a game: orders of most powers, some letters more, and the tick."""
        game = self.desk.games[name]
        for _ in range(self.dice.choice([1, 2]) if not game.is_over() else 0):
            for power in self.dice.sample(self.chart.powers, len(self.chart.powers)):
                if self.happens(0.9):
                    self.write(name, power, self.orders(name, power))
        for _ in range(self.dice.randint(0, chatter)):
            self.any_letter(name)
        if self.happens(0.03):
            self.agree(name, game)
        if not game.is_over():
            self.tick(name)

    def agree(self, name, game):
        """All powers vote for a draw between the same powers, or all but one of them do."""
        living = game.survivors() or self.chart.powers
        named = self.dice.sample(living, self.dice.randint(1, len(living)))
        named = self.dice.choice([named, living, named + [it for it in self.chart.powers if it not in living][:1]])
        for power in self.chart.powers:
            if self.happens(0.98):
                all_of = "VOTE YES\n" if set(named) == set(living) and self.happens(0.5) else None
                self.write(name, power, all_of or f"VOTE FOR {' '.join(self.dice.sample(named, len(named)))}\n")

    def play(self, names, turns, chatter=5):
        """The letters of so many turns of each game, and what all powers are shown after them."""
        for name in names:
            self.create(name)
        for _ in range(turns):
            for name in names:
                if name in self.desk.games:
                    self.turn(name, chatter)
        for name in names:
            for power in self.chart.powers:
                self.write(name, power, "SHOW\n")
                self.write(name, power, "INBOX 1\n")
        return b"".join(self.sent)
