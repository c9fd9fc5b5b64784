"""From the lines of a mail to the letters that its sender wrote.

Nothing is guessed that could act against the sender: what isn't clear becomes a Fault, which the
answer tells, and no letter. A letter that stands in a quoted mail (> LETTER) is nobody's letter."""
import re
from dataclasses import dataclass, field
from typing import List, Optional, Union

MOST_LETTERS = 40
MOST_ORDERS, LONGEST_ORDER = 64, 100
MOST_PRESS, LONGEST_PRESS = 80, 200
MOST_BYTES = 16_384
EXAMPLE_SECRET = "your-secret"

GAME = re.compile(r"[a-z][a-z0-9]{0,15}")
POWER = re.compile(r"[a-z]{1,16}")
SECRET = re.compile(r"[!-~]{8,64}")
NUMBER = re.compile(r"[1-9][0-9]{0,8}")
HEAD_LINE = re.compile(r"(?i)\s*(GAME|FROM|SECRET|NUMBER)\s*[:=]?\s+(\S.*?)\s*")
HEAD_WORDS = ("GAME", "FROM", "SECRET", "NUMBER")
PLAYERS = ("ORDERS", "WITHDRAW", "SHOW", "INBOX", "VOTE", "PRESS")
MASTERS = ("CREATE", "TICK", "PAUSE", "RESUME", "PERIOD", "ANNOUNCE", "REPLACE", "CLOSE", "SEAT")


@dataclass
class Letter:
    game: str
    power: str
    secret: str
    number: Optional[int]
    command: str
    body: List[str] = field(default_factory=list)
    notes: List[str] = field(default_factory=list)

    def kind(self) -> str:
        return self.command.split(" ")[0]

    def lines(self) -> list:
        return [self.command, *self.body]


@dataclass
class Fault:
    """Something that was meant as a letter and isn't one: why, and the secrets that it holds."""
    reason: str
    secrets: List[str] = field(default_factory=list)


Found = Union[Letter, Fault]

# Where the sender's own words end

WROTE = (r"wrote|writes|schrieb|schreibt|a ecrit|ecrit|escribio|ha scritto|schreef|escreveu|skrev|"
         r"skreiv|pisze|napisal(?:\(a\))?|kirjoitti|napsal(?:\(a\))?|irta")
ATTRIBUTION = re.compile(rf"(?i).{{0,400}}\b(?:{WROTE})\b.{{0,120}}:")
FIRST_OF_ATTRIBUTION = re.compile(r"(?i)(on|am|le|el|il|op|em|den|dne|w dniu|at|from|pa)\b")
DASHED = re.compile(r"(?i)-{2,} ?(begin "
                    r")?(original|forwarded|urspruengliche|weitergeleitete|message|"
                    r"mensaje|messaggio|oorspronkelijk|doorgestuurd|ursprungligt|mensagem)"
                    r"[^-]{0,60}(-{2,}|$)")
FORWARDED = re.compile(r"(?i)(begin forwarded message|anfang der weitergeleiteten nachricht|"
                       r"debut du message (?:transfere|reexpedie)|inizio messaggio inoltrato)\s*:")
# Heads of parts stand in a text where a mail's own head is broken: the parts can't be told apart.
PART_HEAD = re.compile(r"(?i)content-(type|transfer-encoding|disposition):.*")
HEADER = re.compile(r"\*?[A-Z][A-Za-z-]{0,14} ?:\*?(\s.*)?")
FROM_HEADER = re.compile(r"(?i)\*?(from|von|de|da|van|fra|fran|od) ?:\*?\s.*")
SIGNATURE = re.compile(r"--\s?|_{20,}|-{20,}|-----BEGIN PGP SIGNATURE-----")
PHONE = re.compile(r"(?i)(sent|gesendet|envoye|enviado|inviato|verzonden|verstuurd|skickat|sendt|"
                   r"wyslane|von meinem|diese nachricht wurde von|get outlook for|get bluemail|"
                   r"holen sie sich outlook|telechargez outlook|outlook for )\b.{0,80}")


def is_marked(line: str) -> bool:
    return line.lstrip().startswith(">")


def attribution_length(lines: List[str], at: int) -> int:
    """How many lines from here on say who wrote what is quoted below; 0 for none."""
    joined = ""
    for count in range(1, 4):
        if at + count > len(lines) or is_marked(lines[at + count - 1]):
            return 0
        joined = f"{joined} {lines[at + count - 1].strip()}".strip()
        if ATTRIBUTION.fullmatch(joined):
            return count
        if len(joined) > 500 or not FIRST_OF_ATTRIBUTION.match(joined):
            return 0
    return 0


def begins_header_block(lines: List[str], at: int) -> bool:
    """Whether a mail's own head is copied here, as Outlook does above what it quotes."""
    if not FROM_HEADER.fullmatch(lines[at].strip()):
        return False
    near = [line.strip() for line in lines[at:at + 8] if line.strip()][:5]
    count = 0
    while count < len(near) and HEADER.fullmatch(near[count]):
        count += 1
    words = {line.split(":")[0].strip(" *").upper() for line in near[:count]}
    return count >= 3 and not words & {"GAME", "SECRET"}


def own_lines(lines: List[str]) -> tuple:
    """The lines above a mail that is quoted without marks, and the line with which it begins."""
    for at, line in enumerate(lines):
        text = line.strip()
        if not text or is_marked(line):
            continue
        if DASHED.match(text) or FORWARDED.match(text) or PART_HEAD.fullmatch(text) \
                or begins_header_block(lines, at):
            return lines[:at], text
        count = attribution_length(lines, at)
        rest = (lines[it] for it in range(at + count, len(lines))) if count else ()
        if not is_marked(next((it for it in rest if it.strip()), ">")):
            return lines[:at], text
    return lines, ""


# One text of a mail

def bare(line: str) -> str:
    """A line that may be a word of command alone, in capitals."""
    return line.strip().rstrip(".:").rstrip().upper()


def head_line(line: str) -> Optional[tuple]:
    """The word and the value of a line of a letter's head."""
    found = None if is_marked(line) else HEAD_LINE.fullmatch(line)
    return (found[1].upper(), found[2]) if found else None


class Reader:
    """Reads the letters of one text."""

    def __init__(self, lines: List[str], is_whole: bool):
        self.lines, self.is_whole, self.at = lines, is_whole, 0
        self.found: List[Found] = []

    def read(self) -> List[Found]:
        while self.at < len(self.lines):
            if self.begins_letter(self.at):
                self.found.append(self.read_letter())
            else:
                self.at += 1
        return self.found

    def next_own(self, at: int, most: int) -> list:
        """The next own lines from here on that aren't empty, at most so many."""
        out = []
        while at < len(self.lines) and len(out) < most and not is_marked(self.lines[at]):
            if self.lines[at].strip():
                out.append(self.lines[at])
            at += 1
        return out

    def begins_letter(self, at: int) -> bool:
        """LETTER with a head below it, or a head that says game, author and secret."""
        if is_marked(self.lines[at]):
            return False
        if bare(self.lines[at]) == "LETTER":
            below = self.next_own(at + 1, 2)
            return any(head_line(line) or bare(line) in HEAD_WORDS for line in below)
        if head_line(self.lines[at]) is None:
            return False
        words = []
        for line in self.next_own(at, 4):
            it = head_line(line)
            if it is None:
                break
            words.append(it[0])
        return {"GAME", "FROM", "SECRET"} <= set(words)

    def is_quoted_mail(self, at: int) -> bool:
        return attribution_length(self.lines, at) > 0

    def ends_own_words(self, at: int) -> bool:
        """Whether a signature, a quoted mail or the next letter begins here."""
        text = self.lines[at].strip()
        return bool(SIGNATURE.fullmatch(text) or PHONE.fullmatch(text) or is_marked(self.lines[at])
                    or self.is_quoted_mail(at) or self.begins_letter(at))

    # The head

    def read_head(self) -> tuple:
        """The values of the head, and what is wrong with it."""
        values, wrong = {}, ""
        if bare(self.lines[self.at]) == "LETTER":
            self.at += 1
        while self.at < len(self.lines):
            line = self.lines[self.at]
            it = head_line(line)
            if it is None and line.strip():
                if bare(line) in HEAD_WORDS:
                    wrong = wrong or f"nothing stands after {bare(line)}"
                else:
                    break
            if it is not None:
                word, value = it
                if word in values and values[word] != value:
                    wrong = wrong or f"{word} stands twice"
                values[word] = value
            self.at += 1
        return values, wrong

    def read_letter(self) -> Found:
        values, wrong = self.read_head()
        secret = values.get("SECRET", "")
        wrong = wrong or fault_of_head(values)
        start, end, has_end, stray_end = self.body_bounds()
        self.at = end + (1 if has_end else 0)
        if wrong:
            return Fault(wrong, secret.split())
        number = int(values["NUMBER"].rstrip(".")) if "NUMBER" in values else None
        letter = Letter(values["GAME"].rstrip(".").lower(), values["FROM"].rstrip(".").lower(),
                        secret,
                        number, "")
        wrong = self.fill(letter, self.lines[start:end], has_end, stray_end)
        wrong = wrong or fault_of_size(letter)
        return Fault(f"{wrong} (game {letter.game}, {letter.power})", [secret]) if wrong else letter

    # The body

    def body_bounds(self) -> tuple:
        """Where the lines after the head begin and end, whether END ends them, and whether another
        END stands below before the next letter begins."""
        start = at = self.at
        while at < len(self.lines) and not self.begins_letter(at):
            if not is_marked(self.lines[at]) and bare(self.lines[at]) == "END":
                return start, at, True, self.has_end_after(at + 1)
            at += 1
        return start, at, False, False

    def has_end_after(self, at: int) -> bool:
        while at < len(self.lines) and not self.begins_letter(at):
            if not is_marked(self.lines[at]) and bare(self.lines[at]) == "END":
                return True
            at += 1
        return False

    def fill(self, letter: Letter, lines: List[str], has_end: bool, stray_end: bool) -> str:
        """Puts command and body into a letter; says what is wrong."""
        at = 0
        while at < len(lines) and not lines[at].strip():
            at += 1
        if at == len(lines) or is_marked(lines[at]):
            return "no command (ORDERS, PRESS, SHOW ..) stands below its head"
        letter.command, wrong = command_of(lines[at], letter.power)
        if wrong:
            return wrong
        rest = lines[at + 1:]
        if letter.kind() == "PRESS":
            return fill_press(letter, rest, has_end, stray_end)
        offset = self.at - len(rest) - (1 if has_end else 0)
        count = len(rest) if has_end else self.own_count(offset, len(rest))
        below = [line for line in rest[count:] if line.strip()]
        if not has_end:
            at_end = offset + count >= len(self.lines)
            if at_end and not self.is_whole:
                return "it has no line END, and the mail is broken off: send it again"
            letter.notes.append("It had no line END. It was taken as if END stood after its last "
                                "line.")
            if below and letter.kind() == "ORDERS":
                letter.notes.append("What stands below it was not read.")
        return fill_lines(letter, rest[:count], has_end)

    def own_count(self, offset: int, most: int) -> int:
        """How many of the next lines are the letter's, where no END says so."""
        for count in range(most):
            if self.lines[offset + count].strip() and self.ends_own_words(offset + count):
                return count
        return most


def fault_of_head(values: dict) -> str:
    """What is wrong with the values of a head. No secret is quoted."""
    for word in ("GAME", "FROM", "SECRET"):
        if word not in values:
            return f"the line {word} is missing"
    if not GAME.fullmatch(values["GAME"].rstrip(".").lower()):
        return ("the line GAME has no name of a game: a letter first, then letters and digits, 16 "
                "at most")
    if not POWER.fullmatch(values["FROM"].rstrip(".").lower()):
        return "the line FROM has no name of a power: letters alone, 16 at most"
    if not SECRET.fullmatch(values["SECRET"]):
        return "the line SECRET has no secret: 8 to 64 characters without a space or an accent"
    if values["SECRET"] == EXAMPLE_SECRET:
        return "it is the example: put your own game, power and secret into it"
    if not NUMBER.fullmatch(values.get("NUMBER", "1").rstrip(".")):
        return "the line NUMBER has no number from 1 to 999999999; you may leave that line out"
    if values["FROM"].rstrip(".").lower() == "master":
        return "the master's letters aren't taken by mail; the master uses `vettonugal master`"
    return ""


def fault_of_size(letter: Letter) -> str:
    size = sum(len(line) + 1 for line in letter.lines()) + len(letter.secret) + 80
    return "it is longer than 16,384 characters: send two letters" if size > MOST_BYTES else ""


def beginning(line: str) -> str:
    """The first words of a line, for quoting. No word is cut: a part of a secret must not stay."""
    out = ""
    for word in line.split():
        if len(out) + len(word) > 80:
            return f"{out}..."
        out += f"{word} "
    return out.rstrip()


def names_in(text: str) -> list:
    """The powers that a line names, whatever stands between them."""
    return [name for name in re.split(r"[\s,;&]+|\band\b", text.lower().rstrip(". ")) if name]


def command_of(line: str, power: str) -> tuple:
    """A command's line in its one form, and what is wrong with it."""
    words = line.split()
    first = words[0].upper().rstrip(".:")
    rest = " ".join(words[1:]).strip()
    if first in MASTERS:
        return "", f"{first} is a command of the master, not of a player"
    if first not in PLAYERS:
        return "", (f"the line \"{beginning(line)}\" stands where a command should: ORDERS, "
                    "WITHDRAW, PRESS, VOTE, SHOW or INBOX")
    if first in ("ORDERS", "WITHDRAW", "SHOW"):
        return (first, "") if not rest.strip(".:") else ("", f"{first} stands alone on its line")
    if first == "INBOX":
        number = rest.rstrip(".")
        if re.fullmatch(r"[1-9][0-9]{0,5}", number):
            return f"INBOX {number}", ""
        return "", "INBOX wants a number from 1 on, as in: INBOX 1"
    return command_of_vote(rest) if first == "VOTE" else command_of_press(rest, power)


def command_of_vote(rest: str) -> tuple:
    upper = rest.upper().rstrip(".")
    if upper in ("YES", "NO"):
        return f"VOTE {upper}", ""
    found = re.fullmatch(r"(?i)FOR\s+(.*)", rest)
    names = names_in(found[1]) if found else []
    if not 1 <= len(names) <= 7 or not all(POWER.fullmatch(name) for name in names):
        return "", "VOTE is followed by YES, by NO, or by FOR and the names of one to seven powers"
    return f"VOTE FOR {' '.join(names)}", ""


def command_of_press(rest: str, power: str) -> tuple:
    found = re.fullmatch(r"(?i)(WHITE|GREY|GRAY)\s+TO\s*:?\s+(.*)", rest)
    names = names_in(found[2]) if found else []
    if not 1 <= len(names) <= 7 or not all(POWER.fullmatch(name) for name in names):
        return "", ("the line PRESS must say WHITE TO or GREY TO, then one to seven powers, as in: "
                    "PRESS WHITE TO france italy")
    if len(set(names)) < len(names) or power in names or ("all" in names and len(names) > 1):
        return "", "the line PRESS names you, or a power twice, or others beside all"
    colour = "WHITE" if found[1].upper() == "WHITE" else "GREY"
    return f"PRESS {colour} TO {' '.join(names)}", ""


def order_line(line: str) -> str:
    """An order as it was written, but for blanks and a full stop at its end."""
    text = " ".join(line.split())
    return re.sub(r"\s*\.+$", "", text)


def fill_lines(letter: Letter, lines: List[str], has_end: bool) -> str:
    """Puts the lines of ORDERS in; for the other commands sees that there are none."""
    told = [line for line in lines if line.strip()]
    if letter.kind() != "ORDERS":
        if told:
            return f"the line \"{beginning(told[0])}\" stands where END should"
        return ""
    if not told:
        return "no order stands below ORDERS"
    if any(is_marked(line) for line in told):
        return "a line that begins with > stands among the orders: that is a quoted line"
    if any(letter.secret in line for line in told):
        return "a line with your secret stands among the orders: END is missing above it"
    gap = gap_without_end(lines)
    if not has_end and gap:
        return (f"it has no line END, and \"{beginning(gap)}\" may be no order: put END below the "
                "last order")
    letter.body = [order_line(line) for line in told]
    if len(letter.body) > MOST_ORDERS:
        return f"it has {len(letter.body)} orders, and 64 are the most: send two letters"
    for number, line in enumerate(letter.body, 1):
        if len(line) > LONGEST_ORDER:
            return f"its order line {number} is longer than 100 characters"
        if not line:
            return f"its order line {number} is empty"
    return ""


LIKE_AN_ORDER = re.compile(r"(?i)(?:[af]|army|fleet|build|remove)\b\.?\s*\S.*")


def gap_without_end(lines: List[str]) -> str:
    """The first line that doesn't look like an order, where no END says where orders end."""
    for line in lines:
        if line.strip() and not LIKE_AN_ORDER.fullmatch(line.strip()):
            return " ".join(line.split())
    return ""


# Press

def fill_press(letter: Letter, lines: List[str], has_end: bool, stray_end: bool) -> str:
    """Puts the text of press in, each line behind its mark, or says what is wrong."""
    if not has_end:
        return "it has no line END, and nothing else shows where the press ends"
    if stray_end:
        return ("END stands twice: begin each line of the press with > and a blank, so that END "
                "stands without it once, below the last line")
    if any(attribution_length(lines, at) for at in range(len(lines)) if lines[at].strip()) \
            and any(is_marked(line) for line in lines):
        return "a quoted mail stands in the press, with a line such as \"Ann wrote:\""
    letter.command, lines = joined_names(letter.command, lines)
    texts = wrapped(press_lines(lines))
    if not texts:
        return "no text stands below PRESS"
    if letter.secret in "\n".join(texts):
        return "its press has your secret in it"
    if len(texts) > MOST_PRESS:
        return f"its press has {len(texts)} lines, and 80 are the most: send two letters"
    letter.body = [f"> {line}" for line in texts]
    return ""


def joined_names(command: str, lines: List[str]) -> tuple:
    """The command with the powers that a mail program put on the next line."""
    rest = [line for line in lines if line.strip()]
    if len(rest) > 1 and not is_marked(rest[0]) and all(is_marked(line) for line in rest[1:]) \
            and len(command) + len(rest[0].split()[0]) >= 60 and re.fullmatch(r"[a-z ,]+", rest[0]):
        names = command.split(" ")[3:] + names_in(rest[0])
        if len(names) <= 7 and len(set(names)) == len(names):
            return " ".join(command.split(" ")[:3] + names), lines[lines.index(rest[0]) + 1:]
    return command, lines


def unmarked(line: str) -> str:
    """A line without its first mark."""
    text = line.lstrip()[1:]
    return text[1:] if text.startswith(" ") else text


def press_lines(lines: List[str]) -> list:
    """The text of press without marks: eaten ones are nothing to mend, doubled ones are undone."""
    marked = [line for line in lines if is_marked(line)]
    if not marked:
        return without_empty_ends([line.rstrip() for line in lines])
    with_words = [unmarked(line) for line in marked if line.strip(" >")]
    is_doubled = bool(with_words) and all(is_marked(line) for line in with_words)
    out: List[str] = []
    for line in lines:
        if is_marked(line):
            text = unmarked(line)
            out.append((unmarked(text) if is_doubled and is_marked(text) else text).rstrip())
        elif line.strip():
            words = line.strip()
            if out and len(out[-1]) + len(words.split()[0]) >= 60:
                out[-1] = f"{out[-1]} {words}"   # a mail program had wrapped the line above
            else:
                out.append(words)
    return out


def without_empty_ends(lines: List[str]) -> list:
    full = [at for at, line in enumerate(lines) if line]
    return lines[full[0]:full[-1] + 1] if full else []


def wrapped(lines: List[str]) -> list:
    """The lines, those of more than 200 characters cut at a blank where there is one."""
    out = []
    for line in lines:
        at = 0
        while len(line) - at > LONGEST_PRESS:
            cut = line.rfind(" ", at + 1, at + LONGEST_PRESS + 1)
            cut = cut if cut > 0 and line[at:cut].strip() else at + LONGEST_PRESS
            out.append(line[at:cut].rstrip())
            at = cut
            while line[at:at + 1] == " ":
                at += 1
        out.append(line[at:])
    return out


def letters_in(texts: List[List[str]], is_whole: bool) -> tuple:
    """Letters and faults of a mail's texts, and the lines below which nothing was read."""
    found: List[Found] = []
    below = []
    for lines in texts:
        own, stop = own_lines(lines)
        below += [stop] if stop else []
        found += Reader(own, is_whole or bool(stop)).read()
    if len(found) > MOST_LETTERS:
        rest = len(found) - MOST_LETTERS
        found = found[:MOST_LETTERS] + [Fault(f"a mail takes 40 letters: {rest} more were not "
                                              "read")]
    return found, below
