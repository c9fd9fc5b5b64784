"""Runs the tool and kills it after its KILL_AT-th step: a write, a removal, a request or a mail;
or, where KILL_AT is `post`, after the first letter that isn't an inquiry for a number.

Writes the number of steps to KILL_COUNT when the tool comes to its end."""
import atexit
import os
import runpy
import signal
import subprocess
import sys

sys.dont_write_bytecode = True
HERE = os.path.dirname(os.path.abspath(__file__))
TOOLS = os.environ.get("VETTONUGAL_TOOLS") or os.path.join(HERE, "..", "tools")
sys.path.insert(0, TOOLS)
import judge  # noqa: E402

AT = os.environ["KILL_AT"]
steps = 0


def step() -> None:
    global steps
    steps += 1
    if str(steps) == AT:
        os.kill(os.getpid(), signal.SIGKILL)


def asked_once(settings, method, path, body=None, ask=judge.asked):
    result = ask(settings, method, path, body)
    if AT == "post" and method == "POST" and b"INBOX 999999" not in body:
        os.kill(os.getpid(), signal.SIGKILL)
    return result


def stepped(function):
    """The function, with a step after it. What comes before it is after the step before."""
    def run(*given, **named):
        result = function(*given, **named)
        step()
        return result
    return run


@atexit.register
def tell() -> None:
    with open(os.environ["KILL_COUNT"], "w", encoding="ascii") as out:
        out.write(str(steps))


os.replace, os.unlink = stepped(os.replace), stepped(os.unlink)
subprocess.run, judge.asked = stepped(subprocess.run), stepped(asked_once)
runpy.run_path(os.path.join(TOOLS, "vettonugal"), run_name="__main__")
