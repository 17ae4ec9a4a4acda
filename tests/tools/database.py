"""A PostgreSQL server of a test's own: the one that is installed (Debian's postgresql), in a temporary folder, at a socket there alone. It
can be killed, started again and paused."""
import contextlib
import glob
import json
import os
import pathlib
import pwd
import signal
import subprocess
import sys
import tempfile
import time

SETTINGS = ("listen_addresses=''", "max_wal_size=4GB", "logging_collector=off", "fsync=off")


def programs():
    """The folder of the newest server that is installed, or None."""
    found = sorted(glob.glob("/usr/lib/postgresql/*/bin/initdb"), key=lambda path: float(path.split("/")[4]))
    return found[-1].removesuffix("initdb") if found else None


def python_with(module):
    """The interpreter that has this module, or None: Debian's packages are those of its own."""
    for python in (sys.executable, "/usr/bin/python3"):
        if os.access(python, os.X_OK) and subprocess.run([python, "-c", f"import {module}"], capture_output=True).returncode == 0:
            return python
    return None


def is_running(process):
    """Whether there is such a process that hasn't ended: one that nobody has waited for stays in the list."""
    try:
        return pathlib.Path(f"/proc/{process}/stat").read_text().rpartition(") ")[2][0] != "Z"
    except OSError:
        return False


class Server:
    """A server in a folder, in a block."""

    def __init__(self):
        self.programs = programs()
        self.database, self.count = "postgres", 0
        # The server refuses to run as root.
        self.user = "postgres" if os.geteuid() == 0 else None

    def call(self, name, *words):
        return subprocess.run([self.programs + name, *words], user=self.user, cwd=self.folder.name, check=True, capture_output=True)

    def __enter__(self):
        self.folder = tempfile.TemporaryDirectory()
        if self.user:
            os.chown(self.folder.name, pwd.getpwnam(self.user).pw_uid, -1)
        self.call("initdb", "-D", "data", "-A", "trust", "-E", "UTF8", "--locale=C.UTF-8", "-U", "tester", "--no-sync")
        self.start()
        return self

    def __exit__(self, *_):
        self.kill()
        self.folder.cleanup()

    def start(self):
        options = " ".join(f"-c {setting}" for setting in (*SETTINGS, f"unix_socket_directories={self.folder.name}"))
        end = time.monotonic() + 30
        while True:
            try:
                self.call("pg_ctl", "-D", "data", "-w", "-o", options, "-l", "log", "start")
                return
            except subprocess.CalledProcessError:
                # What a killed one leaves behind isn't gone yet.
                if time.monotonic() > end:
                    raise
            time.sleep(0.2)

    def processes(self):
        """The server's first process and its children."""
        try:
            first = pathlib.Path(self.folder.name, "data/postmaster.pid").read_text().split()[0]
            children = pathlib.Path(f"/proc/{first}/task/{first}/children").read_text().split()
        except FileNotFoundError:
            return []
        return [int(first), *map(int, children)]

    def kill(self):
        """Ends all of it at once, by SIGKILL."""
        processes = self.processes()
        self.send(signal.SIGKILL)
        end = time.monotonic() + 10
        while any(map(is_running, processes)) and time.monotonic() < end:
            time.sleep(0.01)

    def pause(self):
        self.send(signal.SIGSTOP)

    def go_on(self):
        self.send(signal.SIGCONT)

    def send(self, number):
        for process in self.processes():
            with contextlib.suppress(ProcessLookupError):
                os.kill(process, number)

    def new_database(self):
        """Another one, with nothing in it, is asked from now on."""
        self.count += 1
        self.database = f"d{self.count}"
        self.call("createdb", "-h", self.folder.name, "-U", "tester", self.database)

    @property
    def environment(self):
        return os.environ | {"PGCLIENTENCODING": "UTF8", "PGHOST": self.folder.name, "PGUSER": "tester", "PGDATABASE": self.database}

    def ask(self, query):
        """The rows of a query, each as JSON."""
        done = subprocess.run(["psql", "-X", "-q", "-A", "-t", "-v", "ON_ERROR_STOP=1", "-c", query], env=self.environment, capture_output=True)
        if done.returncode:
            raise OSError(done.stderr.decode())
        return [json.loads(line) for line in done.stdout.decode().splitlines()]
