"""What a connection is answered: heads as httparse reads them, routes, and the answers' bytes."""

import json
import re

from desk import MALFORMED, MOST_BYTES, next_letter, reply_of

PHRASES = {200: "OK", 400: "Bad Request", 403: "Forbidden", 404: "Not Found", 405: "Method Not Allowed", 409: "Conflict", 411: "Length Required", 413: "Payload Too Large"}
MOST_HEAD, MOST_FIELDS = 8_192, 32
END = rb"\r?\n"
START = re.compile(rb"(?:%s)*([!#$%%&'*+\-.^_`|~0-9A-Za-z]+) ([!-~\x80-\xff]+) HTTP/1\.([01])%s" % (END, END))
FIELD = re.compile(rb"([!#$%%&'*+\-.^_`|~0-9A-Za-z]+):([\t -~\x80-\xff]*)%s" % END)
LAST = re.compile(END)
GAME = re.compile(r"/games/([^/]+)")
PAPER = re.compile(r"/games/([^/]+)/papers/([^/]+)")


class Head:
    """The head of a request: its method, target, whether it is of HTTP/1.1, its fields by name, and its size."""

    def __init__(self, start, fields, size):
        self.method, self.target, self.is_newer, self.size = start[1], start[2], start[3] == b"1", size
        self.fields = [(name.lower(), value.strip(b" \t")) for name, value in fields]

    def values(self, name):
        return [value for field, value in self.fields if field == name]

    def is_well_formed(self):
        """Whether the fields are such as a request may have, and the target is a path."""
        sizes = self.values(b"content-length")
        if self.is_newer and len(self.values(b"host")) != 1:
            return False
        if not re.fullmatch(rb"/[!-~]*", self.target) or len(sizes) > 1 or (sizes and self.values(b"transfer-encoding")):
            return False
        return all(re.fullmatch(rb"[0-9]+", size) for size in sizes)


def is_text(data):
    try:
        return data.decode() is not None
    except UnicodeDecodeError:
        return False


def head_in(data):
    """The head at the front of what is sent, or None where there is none."""
    data = data[:MOST_HEAD]
    start = START.match(data)
    if not start or not is_text(start[2]):
        return None
    at, fields = start.end(), []
    while not (last := LAST.match(data, at)):
        field = FIELD.match(data, at)
        if not field or len(fields) == MOST_FIELDS:
            return None
        fields.append(field.groups())
        at = field.end()
    return Head(start, fields, last.end())


def answer_of(status, body, kind="text/plain", allow=None, has_body=True):
    body = body.encode()
    lines = [f"HTTP/1.1 {status} {PHRASES[status]}", f"Content-Type: {kind}", f"Content-Length: {len(body)}"]
    lines += [f"Allow: {allow}"] if allow else []
    return "".join(f"{line}\r\n" for line in [*lines, "Connection: close", ""]).encode() + (body if has_body else b"")


def refusal(status, has_body=True, allow=None):
    return answer_of(status, f"{status} {PHRASES[status]}\n", allow=allow, has_body=has_body)


def shown(game):
    """The public part of a game as it is answered."""
    board = game.board.lines(game.chart)
    keys = {"board": board, "due": game.due, "game": game.name, "grey": game.grey, "intent": game.board.intent, "papers": len(game.papers)}
    return json.dumps({**keys, "period": game.period, "phase": game.board.phase(), "status": game.status}, separators=(",", ":"))


def posted(desk, head, data):
    sizes = head.values(b"content-length")
    if not sizes:
        return refusal(411)
    if int(sizes[0]) > MOST_BYTES:
        return refusal(413)
    body = data[head.size : head.size + int(sizes[0])]
    if len(body) < int(sizes[0]):
        return refusal(400)
    letter, behind = next_letter(body, 0) or (None, 0)
    if not isinstance(letter, tuple) or body[behind:].strip(b"\n"):
        return answer_of(400, reply_of("nobody 0", [MALFORMED]))
    reply = desk.take(letter)
    return answer_of({"L2": 403, "L3": 409, "L4": 409}.get(reply.split("\n")[1][:2], 200), reply)


def gotten(desk, found, has_body):
    game, number = desk.games.get(found[1]), found[2] if found.re is PAPER else None
    if game is None:
        return refusal(404, has_body)
    if number is None:
        return answer_of(200, shown(game), "application/json", has_body=has_body)
    if not re.fullmatch(r"[1-9][0-9]*", number) or int(number) > len(game.papers):
        return refusal(404, has_body)
    return answer_of(200, game.papers[int(number) - 1], has_body=has_body)


def answer(desk, data):
    """What is written for all that a client sends before it ends its side; nothing where that is nothing."""
    if not data:
        return b""
    head = head_in(data)
    if head is None:
        return refusal(400)
    has_body = head.method != b"HEAD"
    if not head.is_well_formed():
        return refusal(400, has_body)
    path = head.target.decode().split("?")[0]
    if path == "/letters":
        return posted(desk, head, data) if head.method == b"POST" else refusal(405, has_body, "POST")
    found = GAME.fullmatch(path) or PAPER.fullmatch(path)
    if not found:
        return refusal(404, has_body)
    return gotten(desk, found, has_body) if head.method in (b"GET", b"HEAD") else refusal(405, has_body, "GET, HEAD")
