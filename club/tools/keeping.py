"""Files of the folder STATE. Nobody else may read them; each is written by rename, so that a
reader finds the old text or the new one, never a part of one."""
import contextlib
import fcntl
import json
import os
import re
import sys
import time
from pathlib import Path

from settings import Settings, now

DAY = 86400
MOST_LOG = 1_000_000   # bytes, from which on the log is log.1 and a new one begins


def made_folder(path: Path) -> Path:
    path.mkdir(mode=0o700, parents=True, exist_ok=True)
    return path


def synced_folder(path: Path) -> None:
    """Makes a rename in this folder outlast a loss of power."""
    handle = os.open(path, os.O_RDONLY)
    try:
        os.fsync(handle)
    finally:
        os.close(handle)


def write_bytes(path: Path, data: bytes, mode: int = 0o600) -> None:
    """Writes a file whole: on the disk before it has its name."""
    made_folder(path.parent)
    half = path.with_name(f".{path.name}.{os.getpid()}")
    handle = os.open(half, os.O_WRONLY | os.O_CREAT | os.O_TRUNC, mode)
    with os.fdopen(handle, "wb") as out:
        os.fchmod(out.fileno(), mode)
        out.write(data)
        out.flush()
        os.fsync(out.fileno())
    os.replace(half, path)
    synced_folder(path.parent)


def write_text(path: Path, text: str, mode: int = 0o600) -> None:
    write_bytes(path, text.encode("utf-8"), mode)


def text_of(path: Path) -> str:
    """What a file holds; nothing where there is none."""
    try:
        return path.read_text(encoding="utf-8", errors="replace")
    except FileNotFoundError:
        return ""


def json_of(path: Path) -> dict:
    """The object that a file holds; an empty one where it holds none."""
    try:
        found = json.loads(text_of(path) or "{}")
    except ValueError:
        return {}
    return found if isinstance(found, dict) else {}


def write_json(path: Path, value: dict) -> None:
    write_text(path, json.dumps(value, indent=1, sort_keys=True) + "\n")


@contextlib.contextmanager
def locked(path: Path, wait: bool = True):
    """Holds the lock of a file; says whether it was got. The system drops it as a process ends."""
    made_folder(path.parent)
    handle = os.open(path, os.O_RDWR | os.O_CREAT | os.O_CLOEXEC, 0o600)
    try:
        fcntl.flock(handle, fcntl.LOCK_EX | (0 if wait else fcntl.LOCK_NB))
        yield True
    except BlockingIOError:
        yield False
    finally:
        os.close(handle)


def log(settings: Settings, line: str) -> None:
    """One line in STATE/log. Callers pass no secret and no press."""
    stamp = time.strftime("%Y-%m-%d %H:%M:%S", time.localtime(now()))
    clean = re.sub(r"[^ -~]", "?", line)[:500]
    try:
        with locked(settings.state / "log.lock"):
            path = settings.state / "log"
            if path.exists() and path.stat().st_size >= MOST_LOG:
                path.replace(settings.state / "log.1")
            handle = os.open(path, os.O_WRONLY | os.O_CREAT | os.O_APPEND, 0o600)
            with os.fdopen(handle, "w") as out:
                out.write(f"{stamp} {clean}\n")
    except OSError:
        pass  # a log that can't be written must not keep a letter from the judge


def remove_older(folder: Path, pattern: str, seconds: float) -> None:
    for path in folder.glob(pattern):
        with contextlib.suppress(OSError):
            if time.time() - path.stat().st_mtime > seconds:
                path.unlink()


def games(settings: Settings) -> list:
    """The names in the file of games, in its order."""
    lines = (line.strip() for line in text_of(settings.state / "games").splitlines())
    return [line for line in lines if re.fullmatch(r"[a-z][a-z0-9]{0,15}", line)]


def change_games(settings: Settings, game: str, is_in: bool) -> None:
    """Puts a game into the file of games, or takes it out; writes the public list too."""
    with locked(settings.state / "games.lock"):
        names = [name for name in games(settings) if name != game] + ([game] if is_in else [])
        if names != games(settings):
            write_text(settings.state / "games", "".join(f"{name}\n" for name in names))
        write_public(settings, names)


def write_public(settings: Settings, names: list) -> None:
    """The list that the web page reads, where it isn't so already. No game waits for it."""
    if settings.public is None:
        return
    path, text = settings.public / "games.txt", "".join(f"{name}\n" for name in names)
    try:
        if not path.exists() or text_of(path) != text:
            write_text(path, text, 0o644)
    except OSError as error:
        print(f"vettonugal: the list of games can't be written: {error}", file=sys.stderr)


def addresses(settings: Settings) -> list:
    """Who is known by address: rows of game, power, address."""
    rows = [line.split() for line in text_of(settings.state / "addresses").splitlines()]
    return [tuple(row) for row in rows if len(row) == 3]


def change_address(settings: Settings, game: str, power: str, address: str = "") -> None:
    """Puts in a seat's address, the latest alone; without one takes the seat's out."""
    with locked(settings.state / "addresses.lock"):
        old = addresses(settings)
        if address and (game, power, address) in old:
            return
        rows = [row for row in old if row[:2] != (game, power)]
        rows += [(game, power, address)] if address else []
        if rows != old:
            text = "".join(" ".join(row) + "\n" for row in rows)
            write_text(settings.state / "addresses", text)
