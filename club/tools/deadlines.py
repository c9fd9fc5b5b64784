"""`vettonugal tick`: plays each game that is due, and mails the papers.

It may be stopped anywhere and run again. A game that was played isn't due any more; who got which
paper is kept after each mail."""
import sys

import keeping
import mailing
from judge import Away, game_state, paper
from master import (AGAIN, Refused, clock_noted, guard_clock, master_lock, papers_seen,
                    sent_by_master)
from settings import Settings, deadline_in, minute_now, time_of_tick

# A game that is played late by at most this part of its period keeps its deadlines as they were.
# One that is played later gets a full period from now on.
PUNCTUAL = 10


def arguments(parser) -> None:
    parser.add_argument("--late", metavar="GAME",
                        help="plays this game, though its deadline is more than a period ago")
    parser.epilog = ("Run it each minute by cron or a timer. Status 0: all is done. 1: a game "
                     "could not be played or a mail not be sent, as standard error says. 75: the "
                     "judge is away.")


def run(options, settings: Settings) -> int:
    with keeping.locked(settings.state / "tick.lock", wait=bool(options.late)) as is_held:
        if not is_held:
            return 0  # the run before this one isn't done yet
        names = [options.late] if options.late else keeping.games(settings)
        if options.late and options.late not in keeping.games(settings):
            raise Refused(f"{options.late} isn't in the file of games, {settings.state / 'games'}")
        keeping.write_public(settings, keeping.games(settings))
        status = 0
        for game in names:
            try:
                status = max(status, game_done(settings, game, bool(options.late)))
            except Refused as refused:
                complain(f"{game}: {refused}")
                status = max(status, 1)
            except Away:
                complain(f"{game}: the judge gives no answer")
                return AGAIN
        return status


def complain(text: str) -> None:
    print(f"vettonugal tick: {text}", file=sys.stderr)


def game_done(settings: Settings, game: str, may_be_late: bool) -> int:
    """Plays a game where it is due, then mails what is new; also where it wasn't played."""
    state = game_state(settings, game)
    if state is None:
        raise Refused("the judge knows no such game")
    seen = papers_seen(settings, game, state["papers"])
    status = 0
    try:
        if played(settings, game, may_be_late):
            state = game_state(settings, game) or state
        elif may_be_late:
            raise Refused(f"it isn't due: it is {state['status']}, and its deadline is "
                          f"{time_of_tick(state['due'])}")
    except Refused as refused:
        complain(f"{game}: {refused}")
        status = 1
    return max(status, papers_mailed(settings, game, seen, state["papers"]))


# Playing

def played(settings: Settings, game: str, may_be_late: bool) -> bool:
    """Whether the game was due and is played now. It is looked at under the master's lock, so that
    a TICK sent by hand meanwhile isn't sent again."""
    with master_lock(settings):
        state = game_state(settings, game)
        if state is None or state["status"] != "running" or minute_now() < state["due"]:
            return False
        guard_clock(settings)
        guard_late(game, state, may_be_late)
        tick = tick_for(state)
        clock_noted(settings)
        reply = sent_by_master(settings, game, [f"TICK {tick}"])
    line = reply.lines()[0]
    if not line.startswith("OK"):
        raise Refused(f"it was not played: {line}")
    keeping.log(settings, f"{game}: TICK {tick}: {line}")
    return True


def guard_late(game: str, state: dict, may_be_late: bool) -> None:
    if minute_now() > state["due"] + state["period"] and not may_be_late:
        raise Refused(f"it was not played, since its deadline, {time_of_tick(state['due'])}, is "
                      "more than a period ago. Look whether the clock is right and whether the "
                      f"players know. To play it all the same: vettonugal tick --late {game}")


def tick_for(state: dict) -> int:
    """The tick to send: the due one where the game is played about in time, so that the deadlines
    keep their time of the day; else the present one."""
    late = minute_now() - state["due"]
    return state["due"] if late * PUNCTUAL <= state["period"] else minute_now()


# Papers

def readers(settings: Settings, game: str) -> list:
    """The addresses of a game's players, each once."""
    return sorted({row[2] for row in keeping.addresses(settings) if row[0] == game})


def papers_mailed(settings: Settings, game: str, seen: dict, count: int) -> int:
    """Mails each paper to each address that hasn't got it; 1 where one couldn't be mailed."""
    path = settings.state / "papers" / f"{game}.json"
    if seen["all"] >= count:
        return 0
    papers = {number: paper(settings, game, number) for number in range(seen["all"] + 1, count + 1)}
    is_all_sent = True
    told = readers(settings, game)
    for address in told:
        for number in range(max(seen["to"].get(address, 0), seen["all"]) + 1, count + 1):
            if papers[number] is None or not mailed(settings, address, game, papers[number]):
                complain(f"{game}: paper {number} could not be mailed to {address}")
                is_all_sent = False
                break
            seen["to"][address] = number
            keeping.write_json(path, seen)
    if not is_all_sent:
        return 1
    if readers(settings, game) == told:   # else somebody wrote just now: he is told the next time
        keeping.write_json(path, {"all": count, "to": {}})
    return 0


def mailed(settings: Settings, address: str, game: str, text: str) -> bool:
    words = text.split("\n")[0].split(" ")   # PAPER 3 S1901M
    subject = f"[{game}] paper {words[1]}: {words[2]}"
    deadline = "".join(map(deadline_in, text.split("\n")))
    return mailing.send(settings, address, subject, f"{text}\n{deadline}\n" if deadline else text)
