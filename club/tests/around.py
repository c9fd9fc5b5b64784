"""What stands around the judge in tests by hand: the service, and nginx with the club's site."""

import contextlib
import os
import pathlib
import re
import shutil
import signal
import socket
import subprocess
import threading
import time

CLUB = pathlib.Path(__file__).resolve().parent.parent


def install(needs):
    """Installs what this machine lacks: a command, and the package that has it."""
    missing = [package for command, package in needs.items() if not shutil.which(command)]
    if not missing:
        return
    quiet = {**os.environ, "DEBIAN_FRONTEND": "noninteractive"}
    subprocess.run(["apt-get", "update", "-qq"], check=True)
    words = ["apt-get", "install", "-y", "-qq", *missing]
    subprocess.run(words, check=True, stdout=subprocess.DEVNULL, env=quiet)


def free_port():
    with socket.socket() as it:
        it.bind(("127.0.0.1", 0))
        return it.getsockname()[1]


class Service:
    """The judge, begun anew whenever it ends, as its unit for systemd has it."""

    def __init__(self, program, store, port, pause=0.1):
        self.words = [program, "serve", "--store", store, "--port", str(port), "--count", "999999"]
        self.port, self.pause, self.judge, self.is_wanted = port, pause, None, True
        self.start()

    def start(self):
        self.is_wanted = True
        threading.Thread(target=self.keep, daemon=True).start()
        self.wait()

    def keep(self):
        while self.is_wanted:
            self.judge = subprocess.Popen(self.words, stderr=subprocess.DEVNULL)
            self.judge.wait()
            time.sleep(self.pause)

    def wait(self):
        for _ in range(1_000):
            with contextlib.suppress(OSError):
                return socket.create_connection(("127.0.0.1", self.port)).close()
            time.sleep(0.02)
        raise SystemExit("the judge doesn't listen")

    def kill(self):
        self.judge.send_signal(signal.SIGKILL)

    def stop(self):
        self.is_wanted = False
        self.judge.terminate()
        self.judge.wait()
        time.sleep(2 * self.pause)


class Site:
    """nginx with the club's site, as the package has it but for its paths, ports and limits."""

    def __init__(self, folder, port, judges, limits):
        """Of each name one club, whose judge serves on its port; `limits` gives of a name what else
        of its site is replaced by what."""
        self.folder = str(folder)
        os.makedirs(f"{folder}/log", exist_ok=True)
        os.makedirs(f"{folder}/public", exist_ok=True)
        sites = "\n".join(self.site(name, judge, limits) for name, judge in judges.items())
        sites = sites.replace("listen 80;", f"listen 127.0.0.1:{port} backlog=4096;", 1)
        sites = sites.replace("listen 80;", f"listen 127.0.0.1:{port};")
        kinds = ("client_body", "proxy", "fastcgi", "uwsgi", "scgi")
        paths = "".join(f"{it}_temp_path {folder}/log/{it};\n" for it in kinds)
        pathlib.Path(folder, "nginx.conf").write_text(
            f"user root;\nworker_rlimit_nofile 8192;\npid {folder}/nginx.pid;\n"
            f"error_log {folder}/log/error.log;\nevents {{ worker_connections 4096; }}\n"
            f"http {{\ninclude /etc/nginx/mime.types;\naccess_log {folder}/log/access.log;\n"
            f"{paths}{sites}\n}}\n",
            encoding="ascii",
        )
        self.nginx()

    def site(self, name, judge, limits):
        """The site of one club. Each has zones and a judge of its own."""
        text = (CLUB / "nginx/vettonugal").read_text(encoding="ascii")
        changes = {
            "127.0.0.1:8080": f"127.0.0.1:{judge}",
            "/usr/share/vettonugal/web": f"{CLUB}/web",
            "/var/lib/vettonugal-public": f"{self.folder}/public",
            "/var/log/nginx": f"{self.folder}/log",
            "judge.club.example": name,
            "vettonugal_": f"{name.split('.')[0]}_",
            **limits(name),
        }
        for old, new in changes.items():
            if old not in text:
                raise SystemExit(f"the site has no {old}")
            text = text.replace(old, new)
        text = re.sub(r"(?m)^ *listen \[::\]:80;\n", "", text)
        return re.sub(r"(?m)^#.*\n", "", text)

    def nginx(self, *words):
        command = ["nginx", "-p", self.folder, "-c", f"{self.folder}/nginx.conf", *words]
        subprocess.run(command, check=True, stderr=subprocess.DEVNULL)

    def stop(self):
        self.nginx("-s", "stop")
