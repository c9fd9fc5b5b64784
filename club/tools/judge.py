"""Letters to the judge and what it says, over HTTP."""
import http.client
import json
import re
import time
import urllib.parse
from dataclasses import dataclass
from typing import Optional

from settings import Settings

# The same bytes are sent again after these seconds: a letter acts once.
PAUSES = (0.2, 0.5, 1, 2, 4, 8)
SECONDS_FOR_AN_ANSWER = 25
MOST_BYTES = 4_000_000


class Away(Exception):
    """The judge gave no answer, however often it was asked."""


@dataclass(frozen=True)
class Reply:
    """A reply to a letter. It is sure unless an earlier try of the same bytes may have acted."""
    text: str
    is_sure: bool

    def head(self) -> list:
        """Game, author and number, as the reply's first line has them."""
        return self.text.split("\n")[0].split(" ")[1:]

    def lines(self) -> list:
        return self.text.split("\n")[1:-2]

    def refusal(self) -> str:
        """L1 to L11, or nothing."""
        found = re.match(r"L\d+(?= )", self.lines()[0]) if self.lines() else None
        return found[0] if found else ""

    def knows_author(self) -> bool:
        return len(self.head()) == 3   # to nobody it is: REPLY nobody 0

    def last_number(self) -> Optional[int]:
        """The author's last number, where L3 or L4 tells it."""
        found = re.match(r"L3 stale number, last is (\d+)$|L4 number (\d+) used by another letter$",
                         self.lines()[0] if self.lines() else "")
        return int(found[1] or found[2]) if found else None


def asked(settings: Settings, method: str, path: str, body: Optional[bytes] = None):
    """Status and body of one request. Raises ConnectionRefusedError where nothing was sent."""
    at = urllib.parse.urlsplit(settings.judge)
    kind = http.client.HTTPSConnection if at.scheme == "https" else http.client.HTTPConnection
    connection = kind(at.hostname or "127.0.0.1", at.port, timeout=SECONDS_FOR_AN_ANSWER)
    try:
        connection.request(method, at.path + path, body, {"Connection": "close"})
        answer = connection.getresponse()
        return answer.status, answer.read(MOST_BYTES)
    finally:
        connection.close()


def is_reply(text: str) -> bool:
    return re.match(r"REPLY \S+ (?:\S+ )?\d+\n", text) is not None and text.endswith("\nEND\n")


def post(settings: Settings, letter: str) -> Reply:
    """The judge's reply to a letter. A reply of 400, 403 or 409 is one too."""
    is_sure = True
    for pause in PAUSES + (None,):
        try:
            _, body = asked(settings, "POST", "/letters", letter.encode("ascii"))
            text = body.decode("latin-1")
            if is_reply(text):
                return Reply(text, is_sure)
            is_sure = False  # a web server between may have lost the judge's reply
        except ConnectionRefusedError:
            pass
        except (OSError, http.client.HTTPException):
            is_sure = False
        if pause is not None:
            time.sleep(pause)
    raise Away


def got(settings: Settings, path: str) -> Optional[str]:
    """What the judge shows at a path; None where there is nothing."""
    for pause in PAUSES + (None,):
        try:
            status, body = asked(settings, "GET", path)
            if status == 200:
                return body.decode("latin-1")
            if status == 404:
                return None
        except (OSError, http.client.HTTPException):
            pass
        if pause is not None:
            time.sleep(pause)
    raise Away


def game_state(settings: Settings, game: str) -> Optional[dict]:
    """The public part of a game: due, period, status, papers. None where there is no such game."""
    text = got(settings, f"/games/{game}")
    if text is None:
        return None
    try:
        state = json.loads(text)
        kinds = {"due": int, "period": int, "papers": int, "status": str}
        if all(isinstance(state[key], kind) for key, kind in kinds.items()):
            return state
    except (ValueError, KeyError, TypeError):
        pass
    raise Away


def paper(settings: Settings, game: str, number: int) -> Optional[str]:
    return got(settings, f"/games/{game}/papers/{number}")


def letter_text(game: str, author: str, secret: str, number: int, lines: list) -> str:
    head = ["LETTER", f"GAME {game}", f"FROM {author}", f"SECRET {secret}", f"NUMBER {number}"]
    return "".join(f"{line}\n" for line in [*head, *lines, "END"])
