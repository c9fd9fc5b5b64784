"""What runs of the program are given and what they answer: letters, replies, requests, maps."""
import re

from judge import MASTER, TOP

# Who writes, under which secret, and of which eight provinces letters by chance speak.
AUTHORS = [
    ("austria", "aaaaaaaa", "bud tri vie ser gal alb adr gre"),
    ("england", "eeeeeeee", "edi lon lvp nth eng yor nwy bel"),
    ("france", "ffffffff", "bre mar par bur pic spa/nc mao bel"),
    ("germany", "gggggggg", "ber kie mun hol ruh den bur bal"),
    ("italy", "iiiiiiii", "nap rom ven apu ion tun tri tys"),
    ("russia", "rrrrrrrr", "mos sev stp/sc war ukr bla rum bot"),
    ("turkey", "tttttttt", "ank con smy bla arm bul/ec aeg rum"),
    ("master", MASTER, "par lon vie mun rom mos con nth"),
]
SECRETS = {name: secret for name, secret, _ in AUTHORS}
POWERS = [name for name, _, _ in AUTHORS[:7]]
SEATS = [f"SEAT {it} {SECRETS[it]}" for it in POWERS]
# The board of the standard map at the opening, as it is printed.
BOARD = """austria 3/3: A bud, F tri, A vie | bud tri vie
england 3/3: F edi, F lon, A lvp | edi lon lvp
france 3/3: F bre, A mar, A par | bre mar par
germany 3/3: A ber, F kie, A mun | ber kie mun
italy 3/3: F nap, A rom, A ven | nap rom ven
russia 4/4: A mos, F sev, F stp/sc, A war | mos sev stp war
turkey 3/3: F ank, A con, A smy | ank con smy
"""


def read(path):
    """The text of a file of the repository."""
    with open(f"{TOP}/{path}", encoding="utf-8") as file:
        return file.read()


def lines(*told):
    """The text with these lines."""
    return "".join(f"{line}\n" for line in told)


def letter(game, author, number, *told, secret=None):
    """A letter with these lines after its head; the secret is the author's if it isn't given."""
    secret = SECRETS.get(author, "") if secret is None else secret
    head = ("LETTER", f"GAME {game}", f"FROM {author}", f"SECRET {secret}", f"NUMBER {number}")
    return lines(*head, *told, "END")


def opening(game, number, options="GREY YES"):
    """The letter that opens a game on the standard map, with these options."""
    return letter(game, "master", number, f"CREATE DUE 100 PERIOD 100 {options}", *SEATS)


# A game on the map of examples/five.toml: it is opened, its first phase ends, and its papers then.
CREATE = letter(
    *("g1", "master", 1, "CREATE DUE 100 PERIOD 100 GREY NO"),
    *("SEAT east east-key", "SEAT west west-key"),
)
TICK = letter("g1", "master", 2, "TICK 100")
FIRST = [
    "PAPER 1 opening",
    "GAME g1 S1901M running DUE 100 PERIOD 100 GREY NO PAPERS 1",
    "east 1/1: F bay/nc | bay",
    "west 2/2: A ard, F cay | ard cay",
    "END",
]
SECOND = [
    *("PAPER 2 S1901M", "east F bay/nc H: holds", "west A ard H: holds", "west F cay H: holds"),
    "GAME g1 F1901M running DUE 200 PERIOD 100 GREY NO PAPERS 2",
    "east 1/1: F bay/nc | bay",
    "west 2/2: A ard, F cay | ard cay",
    "END",
]
# The letters of examples/, their words, the page that shows the last of them with their replies,
# and what is answered before these.
OPENED = lines("REPLY g1 master 1", "OK paper 1", "END")
EXAMPLES = {
    "three-letters.txt": (f"letters --master {MASTER}", "README.md", OPENED),
    "players-letters.txt": (f"letters --master {MASTER}", "docs/PLAYER.md", OPENED),
    "masters-letters.txt": (f"letters --master {MASTER} --map five.toml", "docs/SECRETARY.md", ""),
}


def replies_to(name):
    """The replies to these letters of examples/, as a page shows them: in the block after the one
    that the letters end with; None if it shows none."""
    letters, (_, page, before) = read(f"examples/{name}"), EXAMPLES[name]
    blocks = re.findall(r"```\w*\n(.*?)```", read(page), re.S)
    for sent, told in zip(blocks, blocks[1:]):
        if sent.startswith("LETTER\n") and letters.endswith(sent) and told.startswith("REPLY "):
            return before + told
    return None


def standard_map():
    """The text of the standard map, as its source has it."""
    source = read("crates/dip_map_text/src/standard.rt")
    return source[source.index('"') + 1 : source.rindex('"')].replace('\\"', '"')


def map_of(units):
    """The text of the standard map with these units of each power at the opening, and no homes."""
    text = standard_map()
    powers = ""
    for power, places in units.items():
        listed = ", ".join(f'"{it}"' for it in places)
        powers += f"[powers.{power}]\nhome = []\nunits = [{listed}]\n"
    return f'name = "board"\n{powers}{text[text.index("[provinces.") :]}'


def movement_letters(units, orders, intent):
    """The letters of a game on such a map, which plays one movement: its orders, each after its
    power."""
    seats = [f"SEAT {power} {SECRETS[power]}" for power in units]
    begin = f"CREATE DUE 100 PERIOD 100 GREY YES{' INTENT YES' if intent else ''}"
    sent = letter("g1", "master", 1, begin, *seats)
    for power in units:
        own = [it.removeprefix(f"{power} ") for it in orders if it.startswith(f"{power} ")]
        sent += letter("g1", power, 1, "ORDERS", *own) if own else ""
    return sent + letter("g1", "master", 2, "TICK 100")


def worked_boards():
    """The scenes of tests/data/movements.txt that have outcomes: a name, the opening units by
    power, the orders, the option INTENT, and the outcomes."""
    for scene in read("tests/data/movements.txt").split("! ")[1:]:
        name, _, *lines = scene.splitlines()
        units, orders, told, intent, wanted = {}, [], [], "intent" in lines, None
        for line in lines:
            if line.startswith("? "):
                wanted = line[2:] in ("paper", "outcomes")
            elif line.startswith("< "):
                told += [line[2:]] if wanted and re.match(r"[a-z]+ [AF] .*: ", line[2:]) else []
            elif board := re.match(r"([a-z]+) \d+/\d+: (.*) \| -", line):
                units[board[1]] = board[2].split(", ")
            elif line != "intent":
                orders.append(line)
        if told:
            yield name, units, orders, intent, told


def get(path):
    """A GET of a path."""
    return f"GET {path} HTTP/1.1\r\nHost: judge.example\r\n\r\n".encode()


def posted(body):
    """A POST of a letter."""
    head = f"POST /letters HTTP/1.1\r\nHost: judge.example\r\nContent-Length: {len(body)}"
    return f"{head}\r\n\r\n{body}".encode()


def answer_of(status, kind, body):
    """An answer of HTTP, byte for byte."""
    head = f"HTTP/1.1 {status}\r\nContent-Type: {kind}\r\nContent-Length: {len(body)}"
    return f"{head}\r\nConnection: close\r\n\r\n{body}".encode()


# Lines of orders, where `K` stands for a kind of unit, `f` for where it is, `t` for where it may go
# and `o` for another province.
ORDERS = [
    *("K f H", "K f S A o", "K f S A o - t", "F f C A o - t", "A f - t VIA", "BUILD K f"),
    *("REMOVE K f", "K f R t", "K f D", "K f - t", "K f - t", "K f - t"),
]
# What a power asks besides orders and press, and what the master asks, where `#` is a number.
QUIET = [
    *("SHOW\n", "WITHDRAW\n", "VOTE YES\n", "VOTE NO\n", "VOTE FOR italy france\n"),
    *("VOTE FOR england\n", "INBOX 1\n", "INBOX 999999\n"),
]
MASTERS = [
    *("PAUSE", "RESUME", "RESUME", "PERIOD #", "ANNOUNCE\n> Number #."),
    *("REPLACE france ffffffff", "REPLACE spain ffffffff"),
    "CREATE DUE 0 PERIOD 1 GREY NO\nSEAT france ffffffff",
    "CREATE DUE 0 PERIOD 1 GREY NO INTENT YES\nSEAT france ffffffff",
    *("TICK 0", "TICK #00", "TICK #00", "TICK #00", "TICK #00", "TICK #00"),
]
READERS = ["all", "england", "turkey france", "england italy russia", "all italy", "spain"]
GARBAGE = ["END\n", "LETTER\nGAME g1\nEND\n", "letter\n\nEND\n", "\n\nSHOW\nEND\n"]


class ChanceLetters:
    """An input that is written letter by letter, after three games of the standard map, one of them
    with the option INTENT. What is drawn depends on the seed alone."""

    def __init__(self, seed):
        self.state, self.number, self.count, self.text, self.last = seed, 3, 0, [], ""
        seats = lines(*SEATS)
        self.push("g1", AUTHORS[7], 1, f"CREATE DUE 100 PERIOD 100 GREY YES INTENT YES\n{seats}")
        self.push("g2", AUTHORS[7], 2, f"CREATE DUE 1 PERIOD 999999 GREY NO\n{seats}")
        self.push("g4", AUTHORS[7], 3, f"CREATE DUE 1 PERIOD 1 GREY YES INTENT NO\n{seats}")

    def roll(self, sides):
        """A number below that of the sides."""
        self.state = (self.state * 6364136223846793005 + 1442695040888963407) % 2**64
        return (self.state >> 33) % sides

    def happens(self, percent):
        """Whether something happens that happens so often."""
        return self.roll(100) < percent

    def pick(self, things):
        """One of these things."""
        return things[self.roll(len(things))]

    def push(self, game, author, number, asked):
        """Appends a letter."""
        name, secret, _ = author
        self.last = letter(game, name, number, asked.removesuffix("\n"), secret=secret)
        self.again()

    def again(self):
        """Appends the last letter once more."""
        self.text.append(self.last)
        self.count += 1

    def next_author(self):
        """An author with the next number, in one of the games."""
        self.number += 1
        return self.pick(["g1", "g1", "g1", "g2", "g4"]), self.pick(AUTHORS), self.number

    def any_author(self):
        """An author who may be a stranger, late, or in a game that doesn't exist."""
        game, (name, secret, around), number = self.next_author()
        secret = "another-secret" if self.happens(3) else secret
        number = self.roll(self.number) if self.happens(3) else number
        number = 999_999_999 if self.roll(500) == 0 else number
        return "g3" if self.happens(2) else game, (name, secret, around), number

    def order(self, around):
        """A line of an order, which may be none."""
        codes = around.split()
        drawn = {"K": self.pick(["A", "A", "F", "f"]), "f": self.pick(codes)}
        drawn |= {"t": self.pick(codes), "o": self.pick(codes)}
        return "".join(drawn.get(it, it) for it in self.pick(ORDERS)) + "\n"

    def quiet(self, around):
        """What a power asks that isn't press."""
        at = self.roll(10)
        if at < len(QUIET):
            return QUIET[at]
        return "ORDERS\n" + "".join(self.order(around) for _ in range(1 + self.roll(6)))

    def press(self):
        """A letter's press."""
        kind = self.pick(["WHITE", "GREY"])
        return f"PRESS {kind} TO {self.pick(READERS)}\n> Letter {self.number}.\n"

    def asked(self, author):
        """Any command, mostly the master's if the master writes."""
        if (author[0] == "master") != self.happens(4):
            return self.pick(MASTERS).replace("#", str(self.number)) + "\n"
        return self.press() if self.happens(25) else self.quiet(author[2])

    def push_any(self):
        """Appends a letter, the last one once more, or bytes that are no letter."""
        if self.happens(2):
            self.text.append(self.pick(GARBAGE))
            self.count += 1
        elif self.happens(5):
            self.again()
        else:
            game, author, number = self.any_author()
            self.push(game, author, number, self.asked(author))
