"""`vettonugal mail`: takes a mail on standard input, hands its letters to the judge and answers.

A mail may come twice, since a mail system delivers again what wasn't acknowledged. So before a
letter is posted its number is kept; the second time the same bytes go under the same number, and
the judge gives its kept reply. Mails are handed in one at a time, in the order of their Date."""
import contextlib
import datetime
import email.message
import email.utils
import hashlib
import json
import os
import re
import signal
import sys
import time
from pathlib import Path
from typing import List, Optional

import keeping
import letters
import mailing
import texts
from folding import one_line, paragraph
from judge import Away, Reply, letter_text, post
from refusals import HELP, explained
from settings import Settings, now

AGAIN = 75          # EX_TEMPFAIL: the mail system delivers the mail again
HOUR, DAY = 3600, 86400
KEPT_FOR = 30 * DAY
MOST_ANSWERS = 40   # to one address in an hour, so that two robots can't talk for ever
OLDEST_DATE = 8 * DAY
SECONDS_FOR_READING = 20
ABOUT_TIME = {"ORDERS": "orders", "WITHDRAW": "orders", "VOTE": "vote"}
OVERTAKEN = ("It was not handed in. A newer mail of yours has come before this one, and this "
             "letter would undo what that one says. If you want it all the same, send it again "
             "now.")
EARLIER = ("The mail system delivered your mail twice. This letter was taken the first time, and "
           "newer letters of yours came after it, so it was not handed in again. SHOW tells what "
           "stands.")
UNSURE = ("This letter was delivered twice, and newer letters of yours came in between. Whether it "
          "was taken the first time can't be told, so it was not handed in again. SHOW tells what "
          "stands; if that isn't what you want, send the letter in a new mail.")
PRESS_NOTICE = ("There is new press for {power} in game {game}. To read it, send a letter with the "
                "command INBOX 1, or with a greater number for the later items alone.")


def arguments(parser) -> None:
    parser.epilog = ("For maildrop, procmail or .forward. Status 0: done. Status 75: the judge or "
                     "the mail system is away; deliver the mail again later.")


def run(_options, settings: Settings) -> int:
    try:
        return taken_in(settings, sys.stdin.buffer)
    except Exception as error:  # whatever it is, the mail must not be lost
        keeping.log(settings, f"a mail waits: {type(error).__name__}")
        print(f"vettonugal mail: {error}", file=sys.stderr)
        return AGAIN


# The spool

def taken_in(settings: Settings, stream) -> int:
    data = stream.read(texts.MOST_BYTES + 1)
    while len(data) > texts.MOST_BYTES and stream.read(65536):
        pass  # the writer must not meet a closed pipe
    spool = keeping.made_folder(settings.state / "spool")
    mail = spool / f"{int(now() * 1e6):020d}.{os.getpid()}.mail"
    keeping.write_bytes(mail, data)
    wait_since = time.monotonic()
    while True:
        wait_until_quiet(settings, spool, wait_since)
        with keeping.locked(settings.state / "mail.lock"):
            if not is_quiet(settings, spool) and may_wait(settings, wait_since):
                continue
            if mail.exists() and not outcome_of(mail).exists():
                hand_in_all(settings, spool)
            return outcome_taken(mail)


def is_quiet(settings: Settings, spool: Path) -> bool:
    """Whether no mail has come for SETTLE seconds."""
    newest = 0.0
    for path in spool.glob("*.mail"):
        with contextlib.suppress(OSError):
            newest = max(newest, path.stat().st_mtime)
    return time.time() - newest >= settings.settle


def may_wait(settings: Settings, since: float) -> bool:
    """Mails that come without a pause must not keep each other waiting for ever."""
    return time.monotonic() - since < 5 * settings.settle


def wait_until_quiet(settings: Settings, spool: Path, since: float) -> None:
    while not is_quiet(settings, spool) and may_wait(settings, since):
        time.sleep(min(0.1, settings.settle / 5))


def outcome_of(mail: Path) -> Path:
    return mail.with_suffix(".status")


def outcome_taken(mail: Path) -> int:
    """The status of a mail, which its own process takes away with the mail."""
    status = keeping.text_of(outcome_of(mail)) or (str(AGAIN) if mail.exists() else "0")
    for path in (mail, outcome_of(mail)):
        with contextlib.suppress(FileNotFoundError):
            path.unlink()
    return int(status) if status.isdigit() else AGAIN


def hand_in_all(settings: Settings, spool: Path) -> None:
    """Hands in what is in the spool, by Date. While the judge is away the rest waits."""
    waiting = []
    for path in spool.glob("*.mail"):
        data, arrival = path.read_bytes(), int(path.name.split(".")[0]) / 1e6
        waiting.append((date_of(texts.head_of(data), arrival), path.name, path, data))
    is_away = False
    for date, _, path, data in sorted(waiting, key=lambda it: it[:2]):
        status = AGAIN
        try:
            status = AGAIN if is_away else Mail(settings, data, date).handled()
        except Away:
            is_away = True
            keeping.log(settings, "the judge is away: mails wait")
        except Exception as error:  # one mail must not keep the others back
            keeping.log(settings, f"a mail waits: {type(error).__name__}: {error}")
        keeping.write_text(outcome_of(path), str(status))
        if status == 0:
            path.unlink()
    keeping.remove_older(spool, "*.status", DAY)
    keeping.remove_older(spool, "*.mail", OLDEST_DATE)
    keeping.remove_older(spool, ".*", HOUR)
    keeping.remove_older(settings.state / "mails", "*.json", KEPT_FOR)


def date_of(head: email.message.Message, arrival: float) -> float:
    """When a mail was sent, as it says; when it came, where that can't be."""
    try:
        moment = email.utils.parsedate_to_datetime(str(head.get("Date"))[:200])
        date = (moment if moment.tzinfo
                else moment.replace(tzinfo=datetime.timezone.utc)).timestamp()
    except Exception:  # the library raises several kinds
        return arrival
    return date if arrival - OLDEST_DATE <= date <= arrival else arrival


# What is in a mail

class TooSlow(Exception):
    """Reading a mail took too long."""


@contextlib.contextmanager
def bounded(seconds: int):
    def stop(_signal, _frame):
        raise TooSlow
    before = signal.signal(signal.SIGALRM, stop)
    signal.alarm(seconds)
    try:
        yield
    finally:
        signal.alarm(0)
        signal.signal(signal.SIGALRM, before)


class Contents:
    """The letters of a mail, the faults in it, and what wasn't read."""

    def __init__(self, data: bytes):
        self.found: List[letters.Found] = []
        self.unread: List[str] = []
        self.problem = ""
        if len(data) > texts.MOST_BYTES:
            self.problem = "Your mail has more than a million characters: send less."
            return
        try:
            with bounded(SECONDS_FOR_READING):
                text = texts.text_of_mail(texts.parsed(data))
                self.found, below = letters.letters_in(text.texts, text.is_whole)
        except Exception:  # a mail can break the library in many ways; none may stop the others
            self.problem = "Your mail could not be read. Send the letter as plain text."
            return
        self.unread = sorted(set(text.unread)) + [f"what stands below \"{line[:60]}\""
                                                  for line in below]


def about_letter(found: letters.Found) -> str:
    """A letter without its secret, for telling one mail from another."""
    if isinstance(found, letters.Fault):
        return found.reason
    return json.dumps([found.game, found.power, found.number, found.lines()])


class Mail:
    """One mail: what it holds, and what was done with it."""

    def __init__(self, settings: Settings, data: bytes, date: float):
        self.settings, self.data, self.date = settings, data, date
        self.head = texts.head_of(data)
        self.sender = mailing.sender_of(self.head)
        self.log: List[str] = []

    def handled(self) -> int:
        if not self.sender or mailing.is_automatic(self.head, self.settings.address):
            keeping.log(self.settings, f"automatic mail from {self.sender or 'nobody'}: not read")
            return 0
        contents = Contents(self.data)
        if contents.found:
            status = self.letters_handled(contents)
        else:
            status = self.help_sent(contents)
        keeping.log(self.settings,
                    f"mail from {self.sender}: {'; '.join(self.log)}; status {status}")
        return status

    # What is kept of a mail

    def record_path(self, found: List[letters.Found]) -> Path:
        """Names the mail by its id, its date and its letters; no secret goes into the name."""
        known = [mailing.message_id(self.head), self.sender, str(self.head.get("Date") or "")]
        if not known[0] and not known[2]:
            known.append(hashlib.sha256(re.sub(rb"\AFrom [^\n]*\n", b"", self.data)).hexdigest())
        text = json.dumps(known + [about_letter(it) for it in found])
        name = hashlib.sha256(text.encode("utf-8", "replace")).hexdigest()[:32]
        return self.settings.state / "mails" / f"{name}.json"

    def save(self) -> None:
        keeping.write_json(self.path, self.record)

    # Letters

    def letters_handled(self, contents: Contents) -> int:
        self.path = self.record_path(contents.found)
        self.record = keeping.json_of(self.path) or {"letters": {}}
        if self.record.get("finished"):
            self.log.append("came again, was finished before")
            return 0
        parts, secrets = [], []
        for at, found in enumerate(contents.found):
            secrets += found.secrets if isinstance(found, letters.Fault) else [found.secret]
            parts.append(self.part_of_answer(at, found))
        parts += [f"Not read: {it}.\n" for it in contents.unread if it.startswith("a mail inside")]
        if not self.record.get("answered"):
            if not self.answer("\n".join(parts), secrets):
                return AGAIN
            self.record["answered"] = True
            self.save()
            self.told("answers")
        if not self.notices_sent(contents.found):
            return AGAIN
        # Numbers are needed no more. With the log they could tell who wrote grey press.
        self.record = {"finished": True}
        self.save()
        return 0

    def part_of_answer(self, at: int, found: letters.Found) -> str:
        """What the answer says of one letter."""
        if isinstance(found, letters.Fault):
            self.log.append("a faulty letter")
            return paragraph(f"Letter {at + 1} was not handed in: {found.reason}.") + "\n"
        lines = [f"Letter {at + 1}, game {found.game}, {found.power}:",
                 *(paragraph(note) for note in found.notes)]
        slot = self.record["letters"].setdefault(str(at), {})
        reply, remark = self.handed_in(found, slot)
        seat = f"{found.game} {found.power}"
        if reply is None:
            self.log.append(f"{seat} not handed in")
            return "\n".join([*lines, paragraph(remark), ""])
        self.log.append(f"{seat} {slot.get('number', '')} {reply.refusal() or 'taken'}")
        if reply.knows_author():
            self.author_known(found, slot, reply)
        shown = explained(reply.lines(), found.body)
        return "\n".join([*lines, "", reply.text.split("\n")[0], *shown, "END", ""])

    def handed_in(self, letter: letters.Letter, slot: dict) -> tuple:
        """The judge's reply to a letter, or None and why it wasn't handed in."""
        may_have_acted = "number" in slot
        for _ in range(5):
            if "number" not in slot:
                if self.is_overtaken(letter):
                    return None, OVERTAKEN
                number, refused = self.number_for(letter)
                if refused is not None:
                    return refused, ""
                slot["number"] = number
                self.save()
            reply = post(self.settings, letter_text(letter.game, letter.power, letter.secret,
                                                    slot["number"], letter.lines()))
            refusal = reply.refusal()
            may_have_acted = may_have_acted or not reply.is_sure
            if refusal == "L3" and may_have_acted and letter.kind() not in ("SHOW", "INBOX"):
                return None, EARLIER if slot.get("outcome") else UNSURE
            if refusal not in ("L3", "L4") or letter.number is not None:
                return reply, ""
            # Another way, such as the web page, used the number meanwhile: this letter didn't act.
            del slot["number"]
            may_have_acted = False
        raise Away

    def number_for(self, letter: letters.Letter) -> tuple:
        """The number after the seat's last one, which the judge itself tells; or its refusal.

        An inquiry under number 1 is asked each time, so that no number is kept that could be wrong.
        With one that is wrong a letter could be the same to the byte as the seat's last, and would
        get that one's reply without acting."""
        if letter.number is not None:
            return letter.number, None
        reply = post(self.settings, letter_text(letter.game, letter.power, letter.secret, 1,
                                                ["INBOX 999999"]))
        if not reply.knows_author():
            return 0, reply
        self.keep_date(letter)
        return (reply.last_number() or 1) + 1, None

    # The order of a seat's mails

    def is_overtaken(self, letter: letters.Letter) -> bool:
        """Whether orders or a vote of a newer mail were handed in already."""
        dates = keeping.json_of(self.settings.state / "dates.json")
        about = ABOUT_TIME.get(letter.kind(), "")
        return self.date < dates.get(f"{letter.game} {letter.power}", {}).get(about, 0)

    def keep_date(self, letter: letters.Letter) -> None:
        """Kept before the letter acts, so that no older mail gets between when this stops here."""
        about = ABOUT_TIME.get(letter.kind())
        if about is None:
            return
        path = self.settings.state / "dates.json"
        dates = keeping.json_of(path)
        seat = dates.setdefault(f"{letter.game} {letter.power}", {})
        if self.date > seat.get(about, 0):
            seat[about] = self.date
            keeping.write_json(path, dates)

    def author_known(self, letter: letters.Letter, slot: dict, reply: Reply) -> None:
        """The secret was right: the address is the player's."""
        keeping.change_address(self.settings, letter.game, letter.power, self.sender)
        if not reply.refusal():
            self.keep_date(letter)
            slot["outcome"] = reply.lines()[0] if letter.kind() == "PRESS" else "OK"
            self.save()

    # Answers

    def answer(self, body: str, secrets: Optional[list] = None) -> bool:
        """Sends an answer to the mail's sender, unless he got very many of late."""
        if not self.may_be_told("answers", HOUR, MOST_ANSWERS):
            self.log.append("no answer: too many in an hour")
            return True
        secrets = secrets or []
        # Secrets are taken out before the subject is cut: a part of one must not stay.
        subject = mailing.without(one_line(texts.header(self.head, "Subject"), 2000), secrets)
        subject = re.sub(r"(?i)secret\W+\S+", "SECRET ********", subject)[:100]
        subject = subject if subject.lower().startswith("re:") else f"Re: {subject}"
        return mailing.send(self.settings, self.sender, subject, mailing.without(body, secrets),
                            "auto-replied", self.head)

    def may_be_told(self, what: str, seconds: float, most: int) -> bool:
        told = keeping.json_of(self.settings.state / "told.json").get(self.sender, {})
        return sum(1 for it in told.get(what, []) if 0 <= now() - it < seconds) < most

    def told(self, *kinds: str) -> None:
        path = self.settings.state / "told.json"
        book = keeping.json_of(path)
        for kind in kinds:
            book.setdefault(self.sender, {}).setdefault(kind, []).append(now())
        for who in list(book):
            book[who] = {key: [it for it in times if now() - it < DAY]
                         for key, times in book[who].items()}
            if not any(book[who].values()):
                del book[who]
        keeping.write_json(path, book)

    def help_sent(self, contents: Contents) -> int:
        """Tells once a day how a letter looks."""
        if not self.may_be_told("help", DAY, 1):
            self.log.append("no letter; help was sent today")
            return 0
        unread = "".join(f"Not read: {it}.\n" for it in contents.unread)
        if not self.answer("\n".join(it for it in (contents.problem, unread, HELP) if it)):
            return AGAIN
        self.told("answers", "help")
        self.log.append("no letter; help sent")
        return 0

    def notices_sent(self, found: List[letters.Found]) -> bool:
        """Tells the readers of press that there is some. It doesn't say who wrote it, or what."""
        is_all_sent = True
        for at, letter in enumerate(found):
            slot = self.record["letters"].get(str(at), {})
            if isinstance(letter, letters.Fault) or slot.get("outcome") != "OK press":
                continue
            names = letter.command.split(" ")[3:]
            for game, power, address in keeping.addresses(self.settings):
                is_reader = power in names or names == ["all"]
                if game != letter.game or power == letter.power or not is_reader \
                        or power in slot.get("noticed", []):
                    continue
                text = paragraph(PRESS_NOTICE.format(power=power, game=game)) + "\n"
                if mailing.send(self.settings, address, f"[{game}] press for {power}", text):
                    slot.setdefault("noticed", []).append(power)
                    self.save()
                else:
                    is_all_sent = False
        return is_all_sent
