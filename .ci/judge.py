"""Runs of the built program: over words and an input, or as a service that clients call.

The program is the one that `rt ci` leaves in crates/dip_judge/out, or that of the path that a
script is given: each script calls `take_program` first. The stores that runs leave are looked at
with the stock `sqlite3`."""
import concurrent.futures
import contextlib
import errno
import multiprocessing
import os
import shutil
import socket
import sqlite3
import subprocess
import sys
import time

TOP = os.path.dirname(os.path.dirname(os.path.abspath(__file__)))
PROGRAM = f"{TOP}/crates/dip_judge/out/dip_judge"
# After so many seconds a run, a client or a service counts as hung.
SECONDS = 120
# Where folders are made: in memory if the system keeps files there, so that no disk is waited for.
ROOM = "/dev/shm" if os.access("/dev/shm", os.W_OK) else None
MASTER = "master-key"
# The words of the commands that most runs are of.
IN_MEMORY, STORED = f"letters --master {MASTER}", "letters --store club.db"
INIT = f"init --store club.db --master {MASTER}"
# The files of a store, by the ends of their names.
TAILS = ("", "-wal", "-shm")
# What a client meets whose connection was shut by the other side.
GONE = (errno.ECONNRESET, errno.EPIPE, errno.ENOTCONN)


def take_program(words):
    """Takes the program whose path comes first in these words, or the built one if there are none;
    ends the script with status 1 if there is no such program."""
    global PROGRAM
    PROGRAM = os.path.abspath(words[0] if words else PROGRAM)
    if not os.access(PROGRAM, os.X_OK):
        print(f"{PROGRAM}: there is no built program")
        sys.exit(1)


def processes():
    """A pool of processes that have all that the script has, also which program it took."""
    context = multiprocessing.get_context("fork")
    return concurrent.futures.ProcessPoolExecutor(mp_context=context)


def command(words):
    """The program with these words: a list, or a text in which `~` stands for a space."""
    parts = [it.replace("~", " ") for it in words.split()] if isinstance(words, str) else words
    return [PROGRAM, *parts]


def run(words, given, folder, seconds=SECONDS, **how):
    """The status of a run, what it writes and what it tells on standard error, in bytes."""
    how = {"input": given, "capture_output": True, "cwd": folder, "timeout": seconds, **how}
    ended = subprocess.run(command(words), **how)
    return ended.returncode, ended.stdout, ended.stderr


def run_text(words, given, folder):
    """The same of a text, as texts; the status is None if the run can't start or doesn't end."""
    try:
        status, written, told = run(words, given.encode(), folder)
    except (OSError, subprocess.TimeoutExpired) as error:
        return None, "", str(error)
    return status, written.decode(errors="replace"), told.decode(errors="replace")


def differences(words, wanted, found):
    """What differs of the status, of what is written, of what is told and of what is answered."""
    names = ("status", "written", "told", "answered")
    pairs = zip(names, wanted, found)
    return [f"dip_judge {words}: {it}: {b!r}, and not {a!r}" for it, a, b in pairs if b != a]


def free_port():
    """A port that is free now."""
    with socket.socket() as free:
        free.bind(("127.0.0.1", 0))
        return free.getsockname()[1]


def listening(port):
    """What a service tells once it listens."""
    return f"dip_judge: listens on 127.0.0.1:{port}\n".encode()


@contextlib.contextmanager
def may_be_shut():
    """Passes over that the other side has shut the connection."""
    try:
        yield
    except OSError as error:
        if error.errno not in GONE:
            raise


def send(connected, request, is_open=False, step=None):
    """Sends a request, in pieces of a size, and ends the client's side unless it stays open."""
    size = step or len(request) or 1
    with may_be_shut():
        for at in range(0, len(request), size):
            connected.sendall(request[at : at + size])
        if not is_open:
            connected.shutdown(socket.SHUT_WR)


def read_from(connected):
    """What a client reads to the end, or until its connection is shut, which is closed then."""
    told = b""
    with may_be_shut(), connected:
        while more := connected.recv(65_536):
            told += more
    return told


class Service:
    """`serve` over a store for so many clients, in a folder. It ends with its block at the
    latest."""

    def __init__(self, folder, count, store="club.db", more="", **how):
        # It is bound and not listened on, so that the service may have this port and nobody else.
        self.holder = socket.socket()
        self.holder.setsockopt(socket.SOL_SOCKET, socket.SO_REUSEADDR, 1)
        self.holder.bind(("127.0.0.1", 0))
        self.port = self.holder.getsockname()[1]
        self.words = f"serve --store {store} --count {count} --port {self.port}{more}"
        pipes = {"stdin": subprocess.DEVNULL, "stdout": subprocess.PIPE, "stderr": subprocess.PIPE}
        self.process = subprocess.Popen(command(self.words), cwd=folder, **{**pipes, **how})

    def __enter__(self):
        return self

    def __exit__(self, *_):
        self.process.kill()
        self.process.communicate()
        self.holder.close()

    def connected(self):
        """A client's connection, once the service listens; fails if it has ended before."""
        until = time.monotonic() + SECONDS
        while self.process.poll() is None and time.monotonic() < until:
            with contextlib.suppress(ConnectionRefusedError):
                return socket.create_connection(("127.0.0.1", self.port), timeout=SECONDS)
            time.sleep(0.001)
        raise ConnectionRefusedError("the service doesn't listen")

    def client(self, request, is_open=False, step=None):
        """A client that has sent a request and ended its side, or keeps it open."""
        connected = self.connected()
        connected.setsockopt(socket.IPPROTO_TCP, socket.TCP_NODELAY, 1)
        send(connected, request, is_open, step)
        return connected

    def asked(self, request, step=None):
        """What is answered to a request; nothing if the service doesn't listen."""
        with contextlib.suppress(ConnectionRefusedError):
            return read_from(self.client(request, step=step))
        return b""

    def ended(self):
        """The status of the service once it has ended, what it writes and what it tells."""
        written, told = self.process.communicate(timeout=SECONDS)
        return self.process.returncode, written, told

    def ended_quietly(self):
        """The same, without the line that it listens."""
        status, written, told = self.ended()
        return status, written, told.removeprefix(listening(self.port))


def remove_store(path):
    """Removes a store's files."""
    for tail in TAILS:
        with contextlib.suppress(FileNotFoundError):
            os.remove(f"{path}{tail}")


def copy_store(source, path):
    """Puts a copy of a store's file in the place of a store."""
    remove_store(path)
    shutil.copyfile(source, path)


def rows(path, sql, *values):
    """The rows that a text of SQL shows of a store, or leaves changed."""
    with contextlib.closing(sqlite3.connect(path)) as base, base:
        return base.execute(sql, values).fetchall()


def content_of(path):
    """All that a store holds, as a text of SQL by lines."""
    with contextlib.closing(sqlite3.connect(path)) as base:
        return list(base.iterdump())


# The tables of version 1 of the schema, as they were made, and what version 2 has besides.
OLD_TABLES = (
    "CREATE TABLE desk (id INTEGER NOT NULL UNIQUE, version INTEGER NOT NULL, map BLOB NOT NULL,"
    " digest BLOB NOT NULL, last INTEGER NOT NULL, kept BLOB NOT NULL, reply TEXT NOT NULL) STRICT",
    "CREATE TABLE game (name TEXT NOT NULL PRIMARY KEY, year INTEGER NOT NULL,"
    " phase INTEGER NOT NULL, status TEXT NOT NULL, due INTEGER NOT NULL, period INTEGER NOT NULL,"
    " grey INTEGER NOT NULL, papers INTEGER NOT NULL, standoff TEXT NOT NULL) STRICT",
    "CREATE TABLE seat (game TEXT NOT NULL, power TEXT NOT NULL, digest BLOB NOT NULL,"
    " vote INTEGER NOT NULL, last INTEGER NOT NULL, kept BLOB NOT NULL, reply TEXT NOT NULL,"
    " sent INTEGER NOT NULL, items INTEGER NOT NULL, PRIMARY KEY (game, power)) STRICT",
    "CREATE TABLE unit (game TEXT NOT NULL, province TEXT NOT NULL, dislodged INTEGER NOT NULL,"
    " power TEXT NOT NULL, kind INTEGER NOT NULL, coast TEXT NOT NULL, origin TEXT NOT NULL,"
    " PRIMARY KEY (game, province, dislodged)) STRICT",
    "CREATE TABLE centre (game TEXT NOT NULL, province TEXT NOT NULL, power TEXT NOT NULL,"
    " PRIMARY KEY (game, province)) STRICT",
    "CREATE TABLE pending (game TEXT NOT NULL, power TEXT NOT NULL, province TEXT NOT NULL,"
    " line TEXT NOT NULL, PRIMARY KEY (game, power, province)) STRICT",
    "CREATE TABLE box (game TEXT NOT NULL, power TEXT NOT NULL, number INTEGER NOT NULL,"
    " grey INTEGER NOT NULL, writer TEXT NOT NULL, addressees TEXT NOT NULL, body TEXT NOT NULL,"
    " PRIMARY KEY (game, power, number)) STRICT",
    "CREATE TABLE paper (game TEXT NOT NULL, number INTEGER NOT NULL, body TEXT NOT NULL,"
    " PRIMARY KEY (game, number)) STRICT",
)
OLD = ("desk", "game", "seat", "unit", "centre", "pending", "box", "paper")
NEW = (*OLD, "ballot", "choice")


def make_old_store(new, old):
    """Makes a store of version 1 with what this one of version 2 holds, by its ballots."""
    with contextlib.closing(sqlite3.connect(old)) as base, base:
        for it in OLD_TABLES:
            base.execute(it)
        base.execute("ATTACH ? AS new", (new,))
        for it in OLD:
            base.execute(f"INSERT INTO main.{it} SELECT * FROM new.{it} ORDER BY rowid")
        base.execute("UPDATE desk SET version = 1")
        voted = "SELECT names = 'YES' FROM new.ballot b WHERE b.game = seat.game"
        base.execute(f"UPDATE seat SET vote = ({voted} AND b.power = seat.power)")
