"""Requests by chance, most of them such as a client sends."""

from chance_letters import MASTERS, QUIET

METHODS = ["GET"] * 6 + ["HEAD"] * 2 + ["POST"] * 8 + ["PUT", "get", "DELETE", "OPTIONS", "M-X", "P@"]
NUMBERS = ["1", "1", "2", "3", "0", "01", "x", "999999999", "9999999999999999999999", "", "+1", "-1", "1.0"]
TARGETS = ["/", "/letters/", "/games", "/games/", "//letters", "/games/g1/", "/games/g1/papers", "/games/g1/papers/", "/games/g1/papers/1/", "/games//papers/1", "*", "http://x/letters", "letters", "/letters?x=1", "/letters?", "/games/g1?a/b", "/games/g1#x", "/lett%65rs", "/games/g1/papers/1?x", "/\x7f", "/\u00e9", "/games/g1\u00c3\u00a9", "/?", "/Letters"]
FIELDS = ["Accept: */*", "X-A: b", "User-Agent: curl/8", "Content-Type: text/plain", "x:", "X-B:\tq\t", "A: \u00e9", "Expect: 100-continue", "Connection: keep-alive"]
ODD = ["Transfer-Encoding: chunked", "transfer-encoding: identity", "A B: c", "A : c", ": c", " A: c", "A: b\x01", "A: b\x7f", "Content-Length:", "Content-Length: 0", "Host: y"]
BODIES = [b"", b"\n", b"END\n", b"x" * 100, b"y" * 16_384, b"LETTER\n", b"\xff\n"]


def letter(players, dice):
    """A letter to be posted, which may be late, another's or none."""
    game, power = dice.choice(["g1", "b2", "g9"]), dice.choice(players.chart.powers)
    sender = "master" if dice.random() < 0.2 else power
    command = dice.choice(MASTERS) if sender == "master" else dice.choice([dice.choice(QUIET), players.press(power), "ORDERS\nA par H\nF lon - nth\n"])
    secret = "wrong-secret" if dice.random() < 0.05 else players.secret(game, sender)
    data = f"LETTER\nGAME {game}\nFROM {sender}\nSECRET {secret}\nNUMBER {dice.randint(1, 40)}\n{command}END\n".encode()
    return dice.choice([data] * 16 + [b"\n" + data + b"\n\n", data + data, data + b"x", data[:-1], dice.choice(BODIES)])


def target(dice, method):
    if method == "POST" and dice.random() < 0.85:
        return "/letters"
    game = dice.choice(["g1", "g1", "b2", "g9", "G1", "%671"])
    return dice.choice([f"/games/{game}", f"/games/{game}/papers/{dice.choice(NUMBERS)}", dice.choice(TARGETS), "/letters"])


def fields(dice, method, size):
    found = [dice.choice(["Host: x", "host:x", "HOST:  judge.example \t", "Host:"])] if dice.random() < 0.95 else []
    found += dice.choices(FIELDS, k=dice.choice([0, 0, 1, 3]))
    found += [dice.choice(ODD)] if dice.random() < 0.1 else []
    found += ["X-N: v"] * dice.choice([27, 28, 29, 30, 31, 32]) if dice.random() < 0.03 else []
    found += ["X-L: " + "y" * dice.choice([8_000, 8_090, 8_100, 8_110, 8_120, 8_130, 8_192])] if dice.random() < 0.03 else []
    if (method == "POST" or dice.random() < 0.1) and dice.random() < 0.96:
        odd = dice.choice([size + 1, max(size - 1, 0), f"0{size}", "+5", "-1", "5,5", "", "abc", 16_385, 16_384, "9" * 23, 0, f" {size} ", "1e1"])
        found.insert(dice.randint(0, len(found)), f"Content-Length: {odd if dice.random() < 0.15 else size}")
    return found


def request(players, dice):
    """All that a client sends before it ends its side."""
    method, body = dice.choice(METHODS), letter(players, dice)
    end = dice.choice(["\r\n"] * 20 + ["\n"] * 3 + ["\r"])
    space = dice.choice([" "] * 40 + ["  ", "\t", ""])
    version = dice.choice(["HTTP/1.1"] * 30 + ["HTTP/1.0"] * 3 + ["HTTP/2.0", "http/1.1", "HTTP/1.1 "])
    start = dice.choice([""] * 20 + ["\r\n", "\n", "\r\n\n", " ", "\r"]) + f"{method}{space}{target(dice, method)} {version}"
    head = "".join(line + end for line in [start, *fields(dice, method, len(body)), ""])
    data = head.encode("latin-1") + (body if method == "POST" else b"")
    if dice.random() < 0.05:
        data = data[: dice.randrange(len(data) + 1)]
    if dice.random() < 0.04:
        at = dice.randrange(len(data) + 1)
        data = data[:at] + bytes([dice.randrange(256)]) + data[at + 1 :]
    return data + (b"GET / HTTP/1.1\r\n\r\n" if dice.random() < 0.03 else b"")
