"""What the club has set in its configuration file."""
import os
import time
from dataclasses import dataclass
from pathlib import Path
from typing import Optional

DEFAULTS = {
    "JUDGE": "http://127.0.0.1:8080",
    "STATE": "/var/lib/vettonugal-club",
    "ADDRESS": "judge@club.example",
    "SENDMAIL": "/usr/sbin/sendmail",
    "SETTLE": "2",
    "PUBLIC": "",
}


class WrongSetting(Exception):
    """A line of the configuration file can't be used."""


@dataclass(frozen=True)
class Settings:
    judge: str
    state: Path
    address: str
    sendmail: str
    settle: float
    public: Optional[Path]


def values_in(text: str, path: str) -> dict:
    """The values of KEY=VALUE lines; # begins a comment line."""
    found = dict(DEFAULTS)
    for number, line in enumerate(text.splitlines(), 1):
        line = line.strip()
        if not line or line.startswith("#"):
            continue
        key, equals, value = line.partition("=")
        if not equals:
            raise WrongSetting(f"{path}, line {number}: this is no KEY=VALUE line")
        found[key.strip()] = value.strip().strip("'\"")
    return found


def read_settings() -> Settings:
    path = os.environ.get("VETTONUGAL_CONF", "/etc/vettonugal.conf")
    try:
        text = Path(path).read_text(encoding="utf-8")
    except FileNotFoundError:
        text = ""
    except (OSError, UnicodeDecodeError) as error:
        raise WrongSetting(f"{path} can't be read: {error}") from None
    found = values_in(text, path)
    try:
        settle = float(found["SETTLE"])
    except ValueError:
        raise WrongSetting(f"{path}: SETTLE is no number of seconds") from None
    public = Path(found["PUBLIC"]) if found["PUBLIC"] else None
    return Settings(found["JUDGE"].rstrip("/"), Path(found["STATE"]), found["ADDRESS"],
                    found["SENDMAIL"], settle, public)


def now() -> float:
    """Seconds since 1970. Tests set another clock."""
    return float(os.environ.get("VETTONUGAL_NOW") or time.time())


def minute_now() -> int:
    """The tick that the clock reads: minutes since 1970."""
    return int(now() // 60)


def deadline_in(line: str) -> str:
    """What a game line (GAME g1 S1901M running DUE 29910080 ..) says of the deadline, in words."""
    words = line.split(" ")
    if words[0] == "GAME" and words[3:5] == ["running", "DUE"] and words[5].isdigit():
        return f"The next deadline is {time_of_tick(int(words[5]))}."
    return ""


def time_of_tick(tick: int) -> str:
    """A tick in words, in the machine's time zone."""
    try:
        return time.strftime("%A %Y-%m-%d %H:%M %Z", time.localtime(tick * 60))
    except (ValueError, OverflowError, OSError):
        return f"tick {tick}"
