"""A club for tests: the judge on a free port, a proxy before it, a stub in place of sendmail."""
import email
import os
import re
import shutil
import socket
import subprocess
import sys
import tempfile
import threading
import time
import urllib.request

HERE = os.path.dirname(os.path.abspath(__file__))
TOOLS = os.environ.get("VETTONUGAL_TOOLS") or os.path.join(HERE, "..", "tools")
MASTER = "master-secret-of-the-test"
START = 1_800_000_000
STUB = """#!/bin/sh
[ -e "$0.fails" ] && exit 75
n=$(mktemp {box}/m.XXXXXXXX) && {{ echo "$*"; cat; }} > "$n" && mv "$n" "$n.sent"
"""


def free_port() -> int:
    with socket.socket() as it:
        it.bind(("127.0.0.1", 0))
        return it.getsockname()[1]


class Proxy:
    """Hands requests on to the judge. It can lose an answer, or say 502."""

    def __init__(self, judge_port: int):
        self.judge_port, self.lose, self.fail, self.requests = judge_port, 0, 0, []
        self.socket = socket.create_server(("127.0.0.1", 0), backlog=100)
        self.port = self.socket.getsockname()[1]
        threading.Thread(target=self.serve, daemon=True).start()

    def serve(self):
        while True:
            client, _ = self.socket.accept()
            threading.Thread(target=self.answer, args=(client,), daemon=True).start()

    def answer(self, client):
        try:
            with client:
                data = read_request(client)
                self.requests.append(data)
                is_letter = data.startswith(b"POST")
                if is_letter and self.fail > 0:
                    self.fail -= 1
                    client.sendall(b"HTTP/1.1 502 Bad Gateway\r\nContent-Length: 3\r\n\r\n502")
                    return
                with socket.create_connection(("127.0.0.1", self.judge_port), 20) as judge:
                    judge.sendall(data)
                    told = b""
                    while piece := judge.recv(65536):
                        told += piece
                if is_letter and self.lose > 0 and b"INBOX 999999" not in data:
                    self.lose -= 1
                    return
                client.sendall(told)
        except OSError:
            pass

    def letters(self) -> list:
        """The letters that were posted, inquiries for a number left out."""
        bodies = [it.split(b"\r\n\r\n", 1)[1] for it in self.requests if it.startswith(b"POST")]
        return [it.decode("ascii") for it in bodies if b"INBOX 999999" not in it]


def read_request(client) -> bytes:
    data = b""
    while b"\r\n\r\n" not in data:
        piece = client.recv(65536)
        if not piece:
            return data
        data += piece
    size = re.search(rb"(?i)content-length: *(\d+)", data)
    whole = data.index(b"\r\n\r\n") + 4 + (int(size[1]) if size else 0)
    while len(data) < whole and (piece := client.recv(65536)):
        data += piece
    return data


class Club:
    """The judge, and the tools' settings, in a folder of its own."""

    def __init__(self, program: str):
        self.folder = tempfile.mkdtemp(prefix="vettonugal-test.")
        self.state, self.box = f"{self.folder}/state", f"{self.folder}/box"
        for name in (self.state, self.box, f"{self.folder}/public"):
            os.mkdir(name, 0o755)
        self.now, self.number = START, 0
        store, port = f"{self.folder}/club.db", free_port()
        subprocess.run([program, "init", "--store", store, "--master", MASTER], check=True)
        self.judge = subprocess.Popen([program, "serve", "--store", store, "--port", str(port),
                                       "--count",
                                       "999999"], stderr=subprocess.DEVNULL)
        self.judge_url, self.proxy = f"http://127.0.0.1:{port}", Proxy(port)
        self.stub = f"{self.folder}/sendmail"
        with open(self.stub, "w", encoding="ascii") as out:
            out.write(STUB.format(box=self.box))
        os.chmod(self.stub, 0o755)
        with open(f"{self.state}/master.secret", "w", encoding="ascii") as out:
            out.write(MASTER + "\n")
        self.conf = self.write_conf("conf")
        self.seen, self.said = set(), ""
        self.wait_for_judge()

    def write_conf(self, name: str, **changes) -> str:
        values = {"JUDGE": f"http://127.0.0.1:{self.proxy.port}", "STATE": self.state,
                  "SENDMAIL": self.stub,
                  "ADDRESS": "judge@club.example", "SETTLE": "0", "PUBLIC": f"{self.folder}/public",
                  **changes}
        with open(f"{self.folder}/{name}", "w", encoding="ascii") as out:
            out.write("# for a test\n" + "".join(f"{key}={value}\n" for key,
                                                 value in values.items()))
        return f"{self.folder}/{name}"

    def wait_for_judge(self):
        for _ in range(200):
            try:
                socket.create_connection(("127.0.0.1", int(self.judge_url.split(":")[2]))).close()
                return
            except OSError:
                time.sleep(0.05)
        raise SystemExit("the judge doesn't listen")

    def end(self):
        self.judge.kill()
        self.judge.wait()
        shutil.rmtree(self.folder)

    # The tools

    def environment(self, **more) -> dict:
        return {**os.environ, "VETTONUGAL_CONF": self.conf, "VETTONUGAL_NOW": str(self.now),
                "TZ": "UTC",
                "VETTONUGAL_TOOLS": TOOLS, **{key: str(value) for key, value in more.items()}}

    def tool(self, *words, given: bytes = b"", **more):
        done = subprocess.run([sys.executable, f"{TOOLS}/vettonugal", *words], input=given,
                              env=self.environment(**more), capture_output=True, timeout=120,
                              check=False)
        return self.told(done)

    def told(self, done):
        done.stdout, done.stderr = done.stdout.decode(), done.stderr.decode()
        return done

    def mail(self, data: bytes, **more):
        done = self.tool("mail", given=data, **more)
        self.said += done.stdout + done.stderr
        return done

    def killed(self, at, *words, given: bytes = b"") -> int:
        """Kills the tool at a step; the number of its steps where it came to its end before."""
        count = f"{self.folder}/steps"
        if os.path.exists(count):
            os.unlink(count)
        subprocess.run([sys.executable, f"{HERE}/killed.py", *words], input=given,
                       capture_output=True,
                       env=self.environment(KILL_AT=at, KILL_COUNT=count), timeout=120, check=False)
        return int(open(count, encoding="ascii").read()) if os.path.exists(count) else 0

    # Around them

    def sent(self) -> list:
        """The mails that were sent since this was asked last, in no order."""
        out = []
        for name in os.listdir(self.box):
            if name.endswith(".sent") and name not in self.seen:
                self.seen.add(name)
                with open(f"{self.box}/{name}", encoding="ascii") as it:
                    arguments, _, text = it.read().partition("\n")
                message = email.message_from_string(text)
                message.arguments = arguments
                out.append(message)
        return out

    def post(self, *lines) -> str:
        """Posts a letter straight to the judge, as the web page does."""
        body = "".join(f"{line}\n" for line in ["LETTER", *lines, "END"]).encode()
        request = urllib.request.Request(f"{self.judge_url}/letters", body)
        try:
            with urllib.request.urlopen(request, timeout=30) as answer:
                return answer.read().decode()
        except urllib.error.HTTPError as error:
            return error.read().decode()

    def get(self, path: str) -> str:
        with urllib.request.urlopen(f"{self.judge_url}{path}", timeout=30) as answer:
            return answer.read().decode()

    def kept(self, name: str) -> str:
        path = f"{self.state}/{name}"
        return open(path, encoding="utf-8").read() if os.path.exists(path) else ""
