"""What each refusal asks of a player, and a reply with that beside it."""
import re
from typing import List

from folding import paragraph
from settings import deadline_in

ORDERS = {
    "O1": "Write it as in these: A par H, A par - bur, F mao - spa/nc, A gas S A par - bur, F nth "
          "C A lon - bel, A mun R boh, A mun D, BUILD F stp/nc, REMOVE A par.",
    "O2": "A province has a code of three letters; the player's page lists them.",
    "O3": "You have no unit there. SHOW lists your units; in a retreat it must have a *.",
    "O4": "The unit there is of the other kind: an army is A, a fleet is F. A fleet takes no VIA, "
          "and an army carries nobody.",
    "O5": "The unit can't come there in one move. A fleet doesn't go inland.",
    "O6": "The fleet can come to two coasts there. Name one, as spa/nc.",
    "O7": "There is no such coast, the fleet doesn't come to it, or an army has named one.",
    "O8": "No unit of that kind is there.",
    "O9": "Your unit couldn't go to where it supports, or the other unit couldn't make that move.",
    "O10": "No chain of fleets in seas could carry the army, or your fleet isn't in a sea.",
    "O11": "Moves are for a phase that ends with M, retreats for R, builds and removals for A.",
    "O12": "It is no home centre of yours, you don't own it, or a unit is there.",
    "O13": "As many as you may have are ordered already, or you may have none of that kind. Send "
           "WITHDRAW, then your orders anew.",
    "O14": "Somebody is there, the attacker came from there, a standoff was there, or it is too "
           "far.",
}
LETTERS = {
    "L1": "A power is named that this game doesn't have, or one is named twice, or you yourself.",
    "L2": "Nobody has that secret under that name in that game. Look at GAME, FROM and SECRET; "
          "which of them is wrong isn't told. If your secret is lost, ask the master for a new "
          "one.",
    "L3": "You have used a greater number. Leave the line NUMBER out, and a right one is put in. "
          "SHOW tells what stands.",
    "L4": "You have used that number for another letter. Leave the line NUMBER out, and a right "
          "one is put in.",
    "L5": "The letter is too long: send two.",
    "L6": "You have sent as many press letters as a game allows.",
    "L7": "This game has no grey press. Send it as PRESS WHITE, if you want.",
    "L8": "The game is over: only SHOW and INBOX are answered.",
    "L9": "This command is the master's.",
}


def explained(reply_lines: List[str], body: List[str]) -> list:
    """The lines of a reply; below each refusal the line that was meant, and what to do."""
    out = []
    told = set()
    for line in reply_lines:
        out.append(line)
        order = re.match(r"(O\d+) line (\d+): ", line)
        if order and 1 <= int(order[2]) <= len(body):
            out.append(f"    Your line {order[2]}: {body[int(order[2]) - 1]}")
        found = order or re.match(r"(L\d+) ", line)
        if deadline_in(line):
            out.append(paragraph(deadline_in(line), "    "))
        words = {**ORDERS, **LETTERS}.get(found[1]) if found else None
        if words and found[1] not in told:
            out.append(paragraph(words, "    "))
            told.add(found[1])
    return out


HELP = """\
No letter to the judge was found in your mail. A letter looks like this, with your own game,
power and secret:

    LETTER
    GAME g1
    FROM england
    SECRET your-secret
    ORDERS
    F edi - nth
    A lvp - yor
    END

In place of ORDERS and its lines you may write SHOW, INBOX 1, WITHDRAW, VOTE YES, VOTE NO,
or PRESS WHITE TO france italy with lines of text, each of which begins with > and a blank.
Write it into the mail itself, not into an attachment, and not into a quoted mail.
"""
