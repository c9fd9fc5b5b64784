"""From a mail's bytes to the lines that its sender may have written.

A line that the mail program quoted begins with > here, also where HTML had a <blockquote>."""
import email
import email.header
import email.message
import email.policy
import email.utils
import html
import re
from dataclasses import dataclass, field
from typing import List, Optional

from folding import folded

MOST_BYTES = 1_048_576
MOST_CONTAINERS = 30   # parts that hold parts: more is no mail that somebody wrote
MOST_PARTS = 200
CONTAINER = re.compile(rb"(?i)content-type:\s*(?:multipart|message)/")
TEXT_CHARSETS = re.compile(r"(?i)(utf|us-?ascii|ascii|iso|latin|windows|cp|koi8|mac|gb|big5|euc|"
                           r"shift|hz|ks_c|tis)[\w.:-]*\Z")


@dataclass
class MailText:
    """The texts of a mail, each a list of lines; whether it ends as it should; what wasn't read."""
    texts: List[List[str]] = field(default_factory=list)
    is_whole: bool = True
    unread: List[str] = field(default_factory=list)


class TooDeep(Exception):
    """The mail has more parts within parts than a mail has."""


def parsed(data: bytes) -> email.message.Message:
    if len(CONTAINER.findall(data)) > MOST_CONTAINERS:
        raise TooDeep
    return email.message_from_bytes(data, policy=email.policy.compat32)


def head_of(data: bytes) -> email.message.Message:
    """The head of a mail alone."""
    found = re.search(rb"\r?\n\r?\n", data[:262_144])
    head = data[:found.start()] if found else data[:262_144]
    return email.message_from_bytes(head + b"\n\n", policy=email.policy.compat32)


def header(mail: email.message.Message, name: str) -> str:
    """A header's text, on one line; nothing where there is none."""
    raw = str(mail.get(name) or "")[:2000]
    try:
        pieces = email.header.decode_header(raw)
        raw = "".join(decoded(part, charset or "") if isinstance(part, bytes) else part
                      for part, charset in pieces)
    except Exception:  # the library raises several kinds for a broken header
        pass
    return " ".join(raw.split())


def decoded(data: bytes, charset: str) -> str:
    """The text of these bytes, whatever charset they claim."""
    if not data.strip(b"\t\n\r") or re.fullmatch(rb"[\t\n\r -~]*", data):
        if charset.lower() not in ("utf-7", "hz"):
            return data.decode("ascii")
    tries = [charset] if TEXT_CHARSETS.match(charset) else []
    for name in [*tries, "utf-8", "cp1252"]:
        try:
            return data.decode(name)
        except (LookupError, UnicodeError, ValueError):
            continue
    return data.decode("latin-1")


def parameter(part: email.message.Message, name: str) -> str:
    try:
        value = part.get_param(name) or ""
        return (value if isinstance(value, str) else value[2]).strip().lower()
    except Exception:
        return ""


def text_in(part: email.message.Message) -> str:
    """The decoded text of a part, its line ends as LF."""
    payload = part.get_payload(decode=True)
    data = payload if isinstance(payload, bytes) else b""
    text = decoded(data, parameter(part, "charset"))
    return text.replace("\r\n", "\n").replace("\r", "\n")


KNOWN_ENCODINGS = {"", "7bit", "8bit", "binary", "quoted-printable", "base64", "x-uuencode",
                   "uuencode",
                   "x-uue", "uue"}


def is_readable(part: email.message.Message) -> bool:
    """Whether the part says once how it is encoded, and in a known way. Else what is quoted in it
    couldn't be told from what is not."""
    encodings = part.get_all("Content-Transfer-Encoding") or [""]
    kinds = part.get_all("Content-Type") or [""]
    return len(encodings) == 1 and len(kinds) == 1 \
        and str(encodings[0]).strip().lower() in KNOWN_ENCODINGS


LEFT_ENCODED = re.compile(r"=3D[\"']|[^\s=]=\n")


def is_left_encoded(part: email.message.Message) -> bool:
    """Whether HTML still looks quoted-printable: the header that said so is lost."""
    encoding = str(part.get("Content-Transfer-Encoding", "")).strip().lower()
    return part.get_content_type() == "text/html" and encoding != "quoted-printable" \
        and LEFT_ENCODED.search(text_in(part)) is not None


# Soft line ends of format=flowed

SHORTEST_WRAPPED = 60


def depth_and_text(line: str) -> tuple:
    """How often a flowed line is quoted, and its text without the space that was stuffed in."""
    text = line.lstrip(">")
    return len(line) - len(text), text[1:] if text.startswith(" ") else text


def flowed(text: str, takes_space: bool) -> str:
    """Lines of format=flowed joined again. A short line with a blank at its end wasn't wrapped."""
    out: List[list] = []
    is_open = False
    for line in text.split("\n"):
        depth, words = depth_and_text(line)
        first = len(words.split(" ")[0])
        is_long = is_open and out[-1][2] + first >= SHORTEST_WRAPPED
        if is_long and out[-1][0] == depth and words != "-- ":
            before = out[-1][1][:-1] if takes_space else out[-1][1]
            out[-1][1:] = [before + words, len(words)]
        else:
            out.append([depth, words, len(words)])
        is_open = words.endswith(" ") and words != "-- "
    return "\n".join(("> " * depth if depth else "") + words for depth, words, _ in out)


# HTML

TAG = re.compile(r"<(/?)([a-zA-Z][a-zA-Z0-9:]*)([^<>]*)>|<[!?/][^<>]*>")
VOID = {"br", "hr", "img", "input", "meta", "link", "area", "base", "col", "wbr"}
BLOCKS = {"p", "div", "tr", "li", "ul", "ol", "table", "blockquote", "pre", "h1", "h2", "h3", "h4",
          "h5", "h6", "section", "article", "header", "footer", "center", "address", "body", "hr",
          "dl", "dt", "dd", "tbody", "fieldset", "form", "main"}
HIDDEN = {"head", "style", "script", "title", "template"}
QUOTED_CLASS = re.compile(r"(?i)yahoo_quoted|protonmail_quote|moz-forward|zmail_extra")
REST_QUOTED = re.compile(r"(?i)divRplyFwdMsg|appendonsend|OLK_SRC_BODY_SECTION|"
                         r"ms-outlook-mobile-reference-message")


def without_comments(text: str) -> str:
    out, at = [], 0
    while (start := text.find("<!--", at)) >= 0:
        end = text.find("-->", start + 4)
        out.append(text[at:start])
        if end < 0:
            return "".join(out)
        at = end + 3
    return "".join(out) + text[at:]


def unescaped(text: str) -> str:
    try:
        return html.unescape(text)
    except (ValueError, OverflowError):
        return text


class Page:
    """What a reader of an HTML mail sees, as lines."""

    def __init__(self):
        self.lines: List[str] = []
        self.line: List[str] = []
        self.stack: List[tuple] = [("", False, False, 0)]   # name, hidden, kept spaces, quoted
        self.rest_is_quoted = False
        self.is_sound = True   # not where a quotation ends that never began

    def end_line(self, is_break: bool = False) -> None:
        text = "".join(self.line)
        if text.strip() or is_break:
            depth = self.stack[-1][3] or int(self.rest_is_quoted)
            self.lines.append("> " * depth + text)
        self.line = []

    def add(self, text: str) -> None:
        _, hidden, keeps_spaces, _ = self.stack[-1]
        if hidden or not text:
            return
        text = unescaped(text)
        if keeps_spaces:
            *whole, last = text.split("\n")
            for line in whole:
                self.line.append(line)
                self.end_line(True)
            self.line.append(last)
        else:
            text = re.sub(r"[ \t\n\f]+", " ", text)
            self.line.append(text if self.line else text.lstrip(" "))

    def open(self, name: str, rest: str) -> None:
        if name in BLOCKS:
            self.end_line()
        if REST_QUOTED.search(rest):
            self.end_line()
            self.rest_is_quoted = True
        if name == "br":
            self.end_line(True)
        if name in VOID or rest.endswith("/"):
            return
        _, hidden, keeps, quoted = self.stack[-1]
        style = rest.lower().replace(" ", "")
        hidden = hidden or name in HIDDEN or "display:none" in style
        keeps = keeps or name == "pre" or "white-space:pre" in style
        quoted += name == "blockquote" or bool(QUOTED_CLASS.search(rest))
        if len(self.stack) < 2000:
            self.stack.append((name, hidden if name != "body" else False, keeps, quoted))

    def close(self, name: str) -> None:
        if name in BLOCKS:
            self.end_line()
        if name in ("td", "th"):
            self.add(" ")
        for back in range(1, min(len(self.stack), 60)):
            if self.stack[-back][0] == name:
                del self.stack[-back:]
                return
            if self.stack[-back][3] > self.stack[-back - 1][3]:
                return  # a tag that closes nothing within a quotation doesn't end the quotation
        self.is_sound = self.is_sound and name != "blockquote"


def page_of(text: str) -> Page:
    page, at = Page(), 0
    text = without_comments(text)
    for tag in TAG.finditer(text):
        page.add(text[at:tag.start()])
        at = tag.end()
        if tag[2] and tag[1]:
            page.close(tag[2].lower())
        elif tag[2]:
            page.open(tag[2].lower(), tag[3][:2000])
    page.add(text[at:])
    page.end_line()
    return page


# Parts

LOOKS_LIKE_A_LETTER = re.compile(r"(?im)^[ >]*(letter|secret|game)\b")


def without_dashes(text: str) -> str:
    """The words of a text that PGP signed in clear, where a dash at a line's begin has another."""
    mark = "-----BEGIN PGP SIGNED MESSAGE-----\n"
    if mark not in text:
        return text
    before, _, signed = text.partition(mark)
    return before + mark + re.sub(r"(?m)^- ", "", signed)


def part_text(part: email.message.Message) -> str:
    text = text_in(part)
    if part.get_content_type() == "text/html":
        return folded("\n".join(page_of(text).lines) + "\n")
    if parameter(part, "format") == "flowed":
        return folded(flowed(text, parameter(part, "delsp") == "yes"))
    return without_dashes(folded(text))


def is_closed(part: email.message.Message) -> bool:
    """Whether a part of parts has its last boundary, and some part."""
    kinds = {type(defect).__name__ for defect in part.defects}
    return not kinds & {"CloseBoundaryNotFoundDefect", "StartBoundaryNotFoundDefect",
                        "InvalidBase64CharactersDefect", "InvalidBase64LengthDefect"}


def ends_a_line(part: email.message.Message, kind: str) -> bool:
    """Whether the text isn't broken off within a line."""
    text = text_in(part)
    return text.endswith("\n") or kind == "text/html" and text.rstrip().endswith(">")


def chosen(alternatives: list) -> Optional[email.message.Message]:
    """The one of several forms to read: the plain one, but where it says nothing of letters."""
    def find(kind):
        for part in alternatives:
            for inner in part.walk():
                if inner.get_content_type() == kind:
                    return part, inner
        return None, None
    plain, plain_text = find("text/plain")
    rich, _ = find("text/html")
    if plain is not None and (rich is None or LOOKS_LIKE_A_LETTER.search(part_text(plain_text))):
        return plain
    return rich if rich is not None else plain


def gather(part: email.message.Message, into: MailText) -> None:
    """Adds the texts of a part that the sender wrote into the mail itself."""
    kind = part.get_content_type()
    into.is_whole = into.is_whole and is_closed(part)
    if not is_readable(part):
        into.unread.append("a part whose encoding isn't known")
        return
    if kind.startswith("message/"):
        into.unread.append("a mail inside your mail")
    elif part.is_multipart():
        parts = [it for it in part.get_payload() if isinstance(it, email.message.Message)]
        if kind == "multipart/alternative":
            best = chosen(parts)
            parts = [best] if best is not None else []
        for inner in parts[:MOST_PARTS]:
            gather(inner, into)
    elif kind not in ("text/plain", "text/html"):
        if kind == "application/ms-tnef":
            into.unread.append("an attachment winmail.dat")
        elif kind == "application/octet-stream" and part.get_filename():
            into.unread.append("an attachment")
    elif "attachment" in str(part.get("Content-Disposition", "")).lower()[:40]:
        into.unread.append("an attachment")
    elif kind == "text/html" and not page_of(text_in(part)).is_sound:
        into.unread.append("a part whose quotations are broken")
    elif is_left_encoded(part):
        into.unread.append("a part whose encoding isn't known")
    elif len(into.texts) < MOST_PARTS:
        into.is_whole = into.is_whole and ends_a_line(part, kind)
        into.texts.append(part_text(part).split("\n"))


def text_of_mail(mail: email.message.Message) -> MailText:
    found = MailText()
    gather(mail, found)
    return found
