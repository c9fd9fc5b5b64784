"""`vettonugal master` and `vettonugal create`: the master's letters."""
import datetime
import re
import secrets
import sys
from typing import List

import keeping
import letters
import mailing
from folding import folded
from judge import Away, Reply, game_state, letter_text, post
from settings import Settings, minute_now, time_of_tick

AGAIN = 75
STANDARD = "austria england france germany italy russia turkey"
MOST_TICK, MOST_PERIOD = 999_999_999_999, 999_999
MINUTES = {"d": 1440, "h": 60, "m": 1}


class Refused(Exception):
    """The tool doesn't send this letter; nothing was sent."""


def master_secret(settings: Settings) -> str:
    path = settings.state / "master.secret"
    secret = keeping.text_of(path).strip()
    if secret and path.stat().st_mode & 0o077:
        path.chmod(0o600)
    if not letters.SECRET.fullmatch(secret):
        raise Refused(f"{path} doesn't hold the master's secret: 8 to 64 characters without a "
                      "space")
    return secret


def sent_by_master(settings: Settings, game: str, lines: List[str]) -> Reply:
    """The judge's reply to a letter of the master's. The tool keeps the number.

    A number that another way has used meanwhile is found again from L3 or L4. The caller holds
    master.lock, so that two commands never take one number."""
    path = settings.state / "master.number"
    text = keeping.text_of(path).strip()
    number = (int(text) if text.isdigit() else 0) + 1
    secret = master_secret(settings)
    for _ in range(5):
        reply = post(settings, letter_text(game, "master", secret, number, lines))
        last = reply.last_number()
        if last is None:
            break
        if reply.refusal() == "L3" and not reply.is_sure:
            raise Refused("The letter may have acted, but its reply was lost, and a newer letter "
                          "of the master's came after it. Look at the game before you send it "
                          "again.")
        number = last + 1
    if reply.knows_author():
        keeping.write_text(path, f"{number}\n")
    return reply


def master_lock(settings: Settings):
    return keeping.locked(settings.state / "master.lock")


# Guards

def guard_due(due: int, may_be_past: bool) -> None:
    """A game whose first due tick is over would be played at once, with nobody's orders."""
    if due <= minute_now() and not may_be_past:
        raise Refused(f"The first deadline, {time_of_tick(due)}, is in the past: the first phase "
                      "would be played at once. Nothing was sent. A due tick counts minutes since "
                      f"1970; now it is {minute_now()}. With --past it is sent all the same.")


def guard_clock(settings: Settings) -> None:
    """A clock that went back is wrong now, or was wrong when the last tick was sent."""
    text = keeping.text_of(settings.state / "tick.last").strip()
    last = int(text) if text.isdigit() else 0
    if minute_now() < last:
        raise Refused(f"The clock reads {time_of_tick(minute_now())}, and at the last tick it read "
                      f"{time_of_tick(last)}. Nothing was sent. Set the clock right. If it is "
                      f"right, remove the file {settings.state / 'tick.last'}.")


def clock_noted(settings: Settings) -> None:
    """Keeps what the clock reads as a tick is sent."""
    keeping.write_text(settings.state / "tick.last", f"{minute_now()}\n")


def guard_tick(settings: Settings, game: str, tick: int, may_be_late: bool) -> None:
    """Nothing takes a TICK back, so one that is likely wrong isn't sent."""
    state = game_state(settings, game)
    if state is None:
        raise Refused(f"There is no game {game}.")
    if tick > max(minute_now(), state["due"]):
        raise Refused(f"TICK {tick} is in the future ({time_of_tick(tick)}): the next deadline "
                      f"would come after that. Nothing was sent. Now it is {minute_now()}.")
    if tick > state["due"] + state["period"] and not may_be_late:
        raise Refused(f"TICK {tick} is more than a period after the deadline of {game}, "
                      f"{time_of_tick(state['due'])}. Nothing was sent. With --late it is sent all "
                      "the same.")


def guarded(settings: Settings, game: str, command: str, options) -> None:
    create = re.match(r"CREATE DUE (\d+) PERIOD ", command)
    tick = re.fullmatch(r"TICK (\d+)", command)
    if create:
        guard_due(int(create[1]), options.past)
    if tick:
        guard_clock(settings)
        guard_tick(settings, game, int(tick[1]), options.late)
        clock_noted(settings)


# vettonugal master

def arguments_of_master(parser) -> None:
    parser.add_argument("game", help="the game's name")
    parser.add_argument("command", nargs="+", metavar="COMMAND",
                        help="as PAUSE, RESUME, PERIOD 1440, ANNOUNCE, REPLACE england, TICK "
                             "29910080, CLOSE, or CREATE with its words")
    parser.add_argument("--past", action="store_true",
                        help="CREATE also with a deadline in the past")
    parser.add_argument("--late", action="store_true", help="TICK also more than a period late")
    parser.epilog = ("The lines of ANNOUNCE and the SEAT lines of CREATE are read from standard "
                     "input. REPLACE without a secret makes one and prints it once; a secret that "
                     "you write into the command can be seen by others of this machine while it "
                     "runs.")


def body_for(command: str) -> list:
    """The lines that belong to a command, from standard input."""
    word = command.split(" ")[0]
    if word not in ("ANNOUNCE", "CREATE"):
        return []
    is_given = sys.stdin is not None and not sys.stdin.isatty()
    given = sys.stdin.buffer.read(1_000_000) if is_given else b""
    lines = [line.rstrip() for line in folded(given.decode("utf-8", "replace")).split("\n")]
    if word == "CREATE":
        seats = [" ".join(line.split()) for line in lines if line.strip()]
        if not seats:
            raise Refused("CREATE wants a line SEAT, power and secret, for each power on standard "
                          "input. Nothing was sent. `vettonugal create` makes the secrets itself.")
        return seats
    texts = letters.wrapped(letters.press_lines(lines))
    if not 1 <= len(texts) <= letters.MOST_PRESS:
        raise Refused("ANNOUNCE wants 1 to 80 lines of text on standard input. Nothing was sent.")
    return [f"> {line}" for line in texts]


def command_line(words: List[str]) -> tuple:
    """The command as the judge reads it, and a new secret where REPLACE has none."""
    words = folded(" ".join(words)).split()
    words[0] = words[0].upper()
    if words[0] == "REPLACE" and len(words) == 2:
        secret = new_secret()
        return f"REPLACE {words[1].lower()} {secret}", secret
    if words[0] == "CREATE":
        words = [word.upper() for word in words]
    return " ".join(words), ""


def run_master(options, settings: Settings) -> int:
    game = options.game
    command, secret = command_line(options.command)
    with master_lock(settings):
        guarded(settings, game, command, options)
        body = body_for(command)
        state = game_state(settings, game)
        if state is not None:
            papers_seen(settings, game, state["papers"])
        if command.startswith("REPLACE "):
            forget_seat(settings, game, command.split(" ")[1])
        if command.startswith("CREATE"):
            reply = opened(settings, game, command, body)
        else:
            reply = sent_by_master(settings, game, [command, *body])
    sys.stdout.write(reply.text)
    is_done = reply.lines()[0].startswith("OK")
    if is_done and command.startswith("REPLACE "):
        forget_seat(settings, game, command.split(" ")[1])   # he may have written in between
        if secret:
            print(f"The new secret of {command.split(' ')[1]} is {secret}")
    return 0 if is_done else 1


def forget_seat(settings: Settings, game: str, power: str) -> None:
    """The player who left gets no more papers, and his mails no longer count as the newest."""
    keeping.change_address(settings, game, power)
    with keeping.locked(settings.state / "mail.lock"):
        path = settings.state / "dates.json"
        dates = keeping.json_of(path)
        if dates.pop(f"{game} {power}", None) is not None:
            keeping.write_json(path, dates)


def opened(settings: Settings, game: str, command: str, seats: List[str]) -> Reply:
    """Sends CREATE. The game is in the file of games before, so that no open game lacks there."""
    was_in = game in keeping.games(settings)
    keeping.change_games(settings, game, True)
    reply = sent_by_master(settings, game, [command, *seats])
    if reply.lines()[0].startswith("OK"):
        start_papers(settings, game)
    elif not was_in and reply.refusal() != "L11":
        keeping.change_games(settings, game, False)
    return reply


# vettonugal create

def arguments_of_create(parser) -> None:
    parser.usage = ("vettonugal create [-h] game --deadline 'YYYY-MM-DD HH:MM' --every TIME\n"
                    "       [--grey] [--intent] [--powers A,B] [--past]\n"
                    "       [--send POWER=ADDRESS [POWER=ADDRESS ...]]")
    parser.add_argument("game",
                        help="its name, before all options: a letter first, then letters and digits")
    parser.add_argument("--deadline", required=True, metavar="'YYYY-MM-DD HH:MM'",
                        help="the first deadline, in this machine's time zone")
    parser.add_argument("--every", required=True, metavar="TIME",
                        help="the time from one deadline to the next: 7d, 48h or 90m")
    parser.add_argument("--grey", action="store_true", help="the game takes grey press")
    parser.add_argument("--intent", action="store_true", help="the game has the option INTENT")
    parser.add_argument("--powers", default=STANDARD, metavar="A,B",
                        help="the powers of the map; the seven of the standard map by default")
    parser.add_argument("--send", action="append", default=[], metavar="POWER=ADDRESS", nargs="+",
                        help="mails this seat's secret to its player, and doesn't print it")
    parser.add_argument("--past", action="store_true",
                        help="opens it also if the deadline is past: it is played at once")


def new_secret() -> str:
    """Sixteen letters and digits, none of which looks like another."""
    return "".join(secrets.choice("abcdefghjkmnpqrstuvwxyz23456789") for _ in range(16))


def tick_of(text: str) -> int:
    try:
        moment = datetime.datetime.strptime(text.strip(), "%Y-%m-%d %H:%M")
        return int(moment.astimezone().timestamp() // 60)
    except (ValueError, OverflowError, OSError):
        raise Refused(f"'{text}' is no deadline: write it as '2026-12-31 20:00'") from None


def period_of(text: str) -> int:
    found = re.fullmatch(r"([1-9][0-9]{0,6})([dhm])", text.strip())
    period = int(found[1]) * MINUTES[found[2]] if found else 0
    if not 1 <= period <= MOST_PERIOD:
        raise Refused(f"'{text}' is no period: write it as 7d, 48h or 90m, 694d at most")
    return period


def powers_of(text: str) -> list:
    powers = text.lower().replace(",", " ").split()
    if not 1 <= len(powers) <= 7 or len(set(powers)) < len(powers) \
            or not all(letters.POWER.fullmatch(power) for power in powers):
        raise Refused("--powers wants one to seven names, each once, with commas between them")
    return powers


def receivers_of(pairs: List[str], powers: List[str]) -> dict:
    """Address by power."""
    found = {}
    for pair in pairs:
        power, _, address = pair.partition("=")
        if power not in powers or power in found or not mailing.is_address(address):
            raise Refused(f"--send {pair}: write a power of the game and an address, each power "
                          "once, as in england=ann@example.org")
        found[power] = address
    return found


def run_create(options, settings: Settings) -> int:
    if not letters.GAME.fullmatch(options.game):
        raise Refused(f"'{options.game}' is no name of a game: a small letter first, then letters "
                      "and digits, 16 at most")
    due, period = tick_of(options.deadline), period_of(options.every)
    powers = powers_of(options.powers)
    send_to = receivers_of([pair for pairs in options.send for pair in pairs], powers)
    if not 0 <= due <= MOST_TICK:
        raise Refused("the deadline is before 1970")
    command = f"CREATE DUE {due} PERIOD {period} GREY {'YES' if options.grey else 'NO'}"
    command += " INTENT YES" if options.intent else ""
    given = {power: new_secret() for power in powers}
    seats = [f"SEAT {power} {secret}" for power, secret in given.items()]
    with master_lock(settings):
        guarded(settings, options.game, command, options)
        try:
            reply = opened(settings, options.game, command, seats)
        except Away:
            print(f"The judge gave no answer. Whether {options.game} is open can't be told. Create "
                  "it again later; if the name is taken then (L11), give each seat a new secret by "
                  f"`vettonugal master {options.game} REPLACE england` and so on.", file=sys.stderr)
            return AGAIN
    sys.stdout.write(reply.text)
    if not reply.lines()[0].startswith("OK"):
        return 1
    return secrets_given(settings, options.game, given, send_to, due)


def start_papers(settings: Settings, game: str) -> None:
    """Paper 1, the opening, isn't mailed; all later ones are."""
    path = settings.state / "papers" / f"{game}.json"
    keeping.write_json(path, {"all": 1, "to": {}})


def papers_seen(settings: Settings, game: str, count: int) -> dict:
    """Which papers were mailed: to all, and to single addresses. A game that the tools didn't open
    begins with its present papers mailed; so does each after the store went back to a copy, which
    is known by fewer papers. It is looked at before any command that may make one."""
    path = settings.state / "papers" / f"{game}.json"
    seen = keeping.json_of(path)
    is_kept = isinstance(seen.get("all"), int) and isinstance(seen.get("to"), dict)
    if not is_kept or seen["all"] > count:
        seen = {"all": count, "to": {}}
        keeping.write_json(path, seen)
    return seen


def secrets_given(settings: Settings, game: str, given: dict, send_to: dict, due: int) -> int:
    """Prints each secret once, or mails it. One that can't be mailed is printed."""
    print(f"The first deadline of {game} is {time_of_tick(due)}.")
    status = 0
    for power, secret in given.items():
        address = send_to.get(power)
        if address and mailing.send(settings, address, f"[{game}] You play {power}",
                                    welcome(settings, game, power, secret, due)):
            print(f"{power}: the secret was mailed to {address}")
            continue
        if address:
            status = 1
            print(f"{power}: no mail could be sent to {address}", file=sys.stderr)
        print(f"{power} {secret}")
    return status


def welcome(settings: Settings, game: str, power: str, secret: str, due: int) -> str:
    return (f"You play {power} in game {game}. Your secret is\n\n    {secret}\n\n"
            "Whoever has it can play for you, so keep it. The first deadline is\n"
            f"{time_of_tick(due)}.\n\n"
            f"Send your letters to {settings.address}. To see the game, write:\n\n"
            f"LETTER\nGAME {game}\nFROM {power}\nSECRET {secret}\nSHOW\nEND\n")
