"""Mails that the club sends."""
import email.message
import email.utils
import re
import subprocess
from typing import Optional

from folding import folded, one_line
from settings import Settings
from texts import header

ADDRESS = re.compile(r"[A-Za-z0-9!#$%&'*+/=?^_{|}~][A-Za-z0-9.!#$%&'*+/=?^_{|}~-]{0,63}"
                     r"@[A-Za-z0-9](?:[A-Za-z0-9.-]{0,200}[A-Za-z0-9])?")
MESSAGE_ID = re.compile(r"<[!-;=?-~]{1,250}>")
SECONDS_FOR_A_MAIL = 120


def is_address(text: str) -> bool:
    return ADDRESS.fullmatch(text) is not None


def bare_address(mail: email.message.Message, name: str) -> str:
    """The address in a header, in small letters; nothing where there is none that is usable.

    The header is taken as it stands: decoded first, a name could pass for an address."""
    try:
        address = email.utils.parseaddr(str(mail.get(name) or "")[:1000])[1].lower()
    except Exception:  # the library raises several kinds for a broken header
        return ""
    return address if is_address(address) else ""


def sender_of(mail: email.message.Message) -> str:
    """Where an answer goes."""
    return bare_address(mail, "Reply-To") or bare_address(mail, "From")


def message_id(mail: email.message.Message) -> str:
    found = MESSAGE_ID.search(str(mail.get("Message-ID") or "")[:1000])
    return found[0] if found else ""


def is_automatic(mail: email.message.Message, own: str) -> bool:
    """Whether a program sent it, as a bounce, a list or a vacation notice: it gets no answer."""
    said = header(mail, "Auto-Submitted").lower().split(";")[0].strip()
    loops = [str(value).strip().lower() for value in mail.get_all("X-Loop") or []]
    sender = bare_address(mail, "From")
    return bool(
        said not in ("", "no")
        or re.match(r"(?i)(bulk|list|junk|auto_reply)", header(mail, "Precedence"))
        or mail.get("List-Id") is not None
        or mail.get("X-Autoreply") or mail.get("X-Autorespond")
        or own.lower() in loops
        or str(mail.get_unixfrom() or "").startswith("From MAILER-DAEMON")
        or str(mail.get("Return-Path") or "").replace(" ", "").strip() == "<>"
        or mail.get_content_type() == "multipart/report"
        or re.match(r"(mailer-daemon|postmaster|no-?reply|bounces?)[@+-]", sender)
        or own.lower() in (sender, sender_of(mail)))


def without(text: str, secrets: list) -> str:
    """A text in which no secret stands."""
    for secret in sorted({it for it in secrets if len(it) >= 4}, key=len, reverse=True):
        text = text.replace(secret, "*" * 8)
    return text


def send(settings: Settings, to: str, subject: str, body: str, kind: str = "auto-generated",
         about: Optional[email.message.Message] = None) -> bool:
    """Hands a mail to SENDMAIL; whether it took it."""
    head = [f"From: {settings.address}", f"To: {to}", f"Subject: {one_line(subject, 120)}",
            f"Auto-Submitted: {kind}", f"X-Loop: {settings.address}", "MIME-Version: 1.0",
            "Content-Type: text/plain; charset=us-ascii", "Content-Transfer-Encoding: 7bit"]
    earlier = message_id(about) if about is not None else ""
    if earlier:
        head += [f"In-Reply-To: {earlier}", f"References: {earlier}"]
    text = "\n".join(head) + "\n\n" + folded(body)
    try:
        done = subprocess.run([settings.sendmail, "-t", "-i", "-f", settings.address],
                              input=text.encode("ascii"), timeout=SECONDS_FOR_A_MAIL, check=False,
                              stdout=subprocess.DEVNULL)
        return done.returncode == 0
    except (OSError, subprocess.SubprocessError):
        return False
