"""A PostgreSQL server of a test's own: in a temporary folder, on a socket, with extensions that the system doesn't have.

PostgreSQL finds its files beside its programs. So the folder has copies of the programs and links to the rest, and what
`make install DESTDIR=..` adds is there for this server alone.
"""
import os
import pwd
import shutil
import subprocess
import tempfile
import time
from typing import Optional, Sequence

# Who runs the server where the tests are run by root, which PostgreSQL refuses.
USERS = ("postgres", "nobody")


def configured(name: str) -> Optional[str]:
    """Returns a folder by pg_config, such as 'bindir', or None where pg_config isn't there."""
    if not shutil.which("pg_config"):
        return None
    return subprocess.run(["pg_config", f"--{name}"], stdout=subprocess.PIPE, text=True, check=True).stdout.strip()


def lacks() -> Optional[str]:
    """Returns the first package that a server with extensions needs and that isn't here, or None."""
    if not shutil.which("pg_config") or not os.path.isfile(configured("pgxs") or ""):
        return "postgresql-server-dev-15"
    if not os.path.isfile(f"{configured('bindir')}/postgres"):
        return "postgresql-15"
    return None


def has_extension(name: str) -> bool:
    """Whether the system has an extension."""
    return os.path.isfile(f"{configured('sharedir')}/extension/{name}.control")


class Server:
    """A running server, and the user `postgres` in it, without a password."""

    def __init__(self) -> None:
        self.room = tempfile.mkdtemp(prefix="sfq-postgresql-")
        os.chmod(self.room, 0o755)
        self.data = f"{self.room}/data"
        self.user: Optional[str] = None
        self.process: Optional[subprocess.Popen[bytes]] = None
        if os.getuid() == 0:
            known = {it.pw_name for it in pwd.getpwall()}
            self.user = next(it for it in USERS if it in known)
        self.bin = f"{self.room}{configured('bindir')}"
        self.link_farm()

    def link_farm(self) -> None:
        """Copies the programs, and links to what else they need."""
        shutil.copytree(str(configured("bindir")), self.bin)
        for name, inside in (("pkglibdir", None), ("sharedir", "extension")):
            self.link(str(configured(name)), inside)

    def link(self, folder: str, inside: Optional[str]) -> None:
        """Links to each entry of a folder, and to each of the folder `inside` in it."""
        os.makedirs(self.room + folder)
        for it in os.listdir(folder):
            if it == inside:
                self.link(f"{folder}/{it}", None)
            else:
                os.symlink(f"{folder}/{it}", f"{self.room}{folder}/{it}")

    def as_user(self, words: Sequence[str]) -> Sequence[str]:
        """Returns the words that run a command as the server's user."""
        if not self.user:
            return words
        return ["setpriv", f"--reuid={self.user}", f"--regid={pwd.getpwnam(self.user).pw_gid}", "--clear-groups", "--", *words]

    def start(self) -> None:
        """Makes the database and starts the server; returns when it serves."""
        os.mkdir(self.data, 0o700)
        if self.user:
            os.chown(self.data, pwd.getpwnam(self.user).pw_uid, pwd.getpwnam(self.user).pw_gid)
        made = self.as_user([f"{self.bin}/initdb", "-D", self.data, "-U", "postgres", "-A", "trust", "-E", "UTF8", "--locale=C", "-N"])
        subprocess.run(made, cwd="/", stdout=subprocess.DEVNULL, check=True)
        words = [f"{self.bin}/postgres", "-D", self.data, "-k", self.data, "-c", "listen_addresses=", "-c", "fsync=off"]
        with open(f"{self.room}/log", "wb") as log:
            self.process = subprocess.Popen(self.as_user(words), cwd="/", stdout=log, stderr=log)
        for _ in range(600):
            if subprocess.run([f"{self.bin}/pg_isready", "-q", "-h", self.data]).returncode == 0:
                return
            if self.process.poll() is not None:
                break
            time.sleep(0.1)
        with open(f"{self.room}/log", encoding="utf-8", errors="replace") as log:
            raise RuntimeError(log.read())

    def environment(self) -> dict[str, str]:
        return {**os.environ, "PGHOST": self.data, "PGUSER": "postgres", "PGOPTIONS": "", "LC_ALL": "C"}

    def run(self, text: str, database: str = "postgres") -> tuple[str, str, int]:
        """Runs commands by psql, and returns what it wrote, without headers, and its status."""
        words = [f"{self.bin}/psql", "-X", "-q", "-A", "-t", "-v", "ON_ERROR_STOP=1", "-d", database]
        ran = subprocess.run(words, input=text, capture_output=True, text=True, env=self.environment(), cwd="/")
        return ran.stdout, ran.stderr, ran.returncode

    def stop(self) -> None:
        """Ends the server, and removes its folder."""
        if self.process and self.process.poll() is None:
            self.process.terminate()
            try:
                self.process.wait(30)
            except subprocess.TimeoutExpired:
                self.process.kill()
                self.process.wait()
        shutil.rmtree(self.room, ignore_errors=True)
