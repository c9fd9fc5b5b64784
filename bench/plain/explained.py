"""Explanations of phases, looked at by the rules alone, beside the papers of the phases."""

import re

STRENGTH = r"(attack|hold|defend|prevent) (at least |at most )?(\d+)(?: \(([^()]*)\))?"
ORDER = re.compile(r"[a-z]+ ((?:A|F) .*): (.*)")


def order_lines(paper):
    """The orders of a phase's paper, each with what became of it."""
    return [(found[1], found[2]) for found in map(ORDER.fullmatch, paper.splitlines()[1:]) if found and found[1][:2] in ("A ", "F ")]


def wrong_numbers(line):
    """The strengths in a line that name another number of units than they count: those that are the same whatever is open."""
    wrong = []
    for _, bound, number, named in re.findall(STRENGTH, line):
        units = named.split("; ")[0].split(", ") if named else []
        counted = 0 if named.endswith((" leaves", " has no route")) or " lost to " in named else len(units)
        if not bound and counted != int(number) and "if uncut" not in named:
            wrong.append(f"{number} of {named}")
    return wrong


def wanted_lines(paper):
    """What a movement's explanation has to say, by the outcomes of its paper: the beginning of a line, or the order in a line of several."""
    wanted = []
    for order, outcome in order_lines(paper):
        came = outcome.split(", ")[0]
        if came in ("moves", "bounced"):
            wanted.append((order, " succeeds: " if came == "moves" else " fails: "))
        elif came in ("given", "cut"):
            wanted.append((order, f" is {came}: "))
    return wanted


def wrong_movement(paper, lines):
    wrong = [f"{line}: {found}" for line in lines for found in wrong_numbers(line)]
    circles = [line for line in lines if line.startswith("circle: ")]
    # (with the option INTENT an army is said to go by convoy that its own fleet carries)
    lines, circles = ([line.replace(" VIA", "") for line in them] for them in (lines, circles))
    for order, words in ((order.replace(" VIA", ""), words) for order, words in wanted_lines(paper)):
        found = [line for line in lines if line.startswith(f"{order}{words}")]
        found += [line for line in circles if words == " succeeds: " and order in line[8:].replace(" move together", "").split(", ")]
        if len(found) != 1:
            wrong.append(f"{order}{words}has {len(found)} lines")
    return wrong


def wrong_retreats(paper, lines):
    wanted = [f"{order} {outcome}" for order, outcome in order_lines(paper)]
    wrong = [f"{it} has no line of its own" for it in wanted if sum(line.startswith(it) for line in lines) != 1]
    return wrong + (["lines"] if len(wanted) != len(lines) else [])


def wrong_winter(paper, lines):
    told = [line for line in paper.splitlines()[1:] if re.search(r": (built|removed|removed in disorder)$", line) or " waives " in line]
    kinds = (" is built: ", " is removed by order: ", " is removed in disorder: ", " waives ")
    return [line for line in lines if sum(kind in line for kind in kinds) != 1] + (["lines"] if len(told) != len(lines) else [])


def wrong_lines(paper, text):
    """What is wrong with the explanation of a phase's paper."""
    season = paper.split("\n", 1)[0][-1]
    if text == "nothing was to be decided\n":
        idle = {"M": wanted_lines, "R": order_lines, "A": lambda it: [line for line in it.splitlines() if " waives " in line or re.search(r": (built|removed)", line)]}
        return ["nothing was to be decided"] if idle[season](paper) else []
    return {"M": wrong_movement, "R": wrong_retreats, "A": wrong_winter}[season](paper, text.splitlines())
