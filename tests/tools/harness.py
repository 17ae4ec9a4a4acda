"""What the tests of contrib/ stand on: a station on loopback, one that isn't itself, streams, the tools, judgement."""
import contextlib
import http.client
import os
import pathlib
import socket
import subprocess
import sys
import threading
import time

TOP = pathlib.Path(__file__).resolve().parent.parent.parent
CONTRIB = TOP / "contrib"
EXAMPLES = TOP / "examples"
PROGRAM = None  # the program under test, which the caller sets
SECONDS = 60
# The tools run as an operator's do, who hasn't set it: what isn't flushed is kept back.
os.environ.pop("PYTHONUNBUFFERED", None)

sys.path.insert(0, str(CONTRIB))
sys.dont_write_bytecode = True
import bmplines
from bmp import message, tlv

TESTS = []


def test(function):
    TESTS.append(function)
    return function


def same(found, wanted, what=""):
    if found != wanted:
        raise AssertionError(f"{what}: found {found!r:.800}, wanted {wanted!r:.800}")


# Running things.


def run(words, timeout=SECONDS, **more):
    return subprocess.run([str(word) for word in words], capture_output=True, timeout=timeout, **more)


def bmpq(*words, status=0):
    done = run([CONTRIB / "bmpq", *words])
    same(done.returncode, status, f"bmpq {words}: {done.stderr}")
    return done.stdout


def replay(stream, query, *options):
    return run([PROGRAM, "replay", *options, query], stdin=open(stream, "rb")).stdout


def free_ports(count):
    """The first of so many ports in a row that are free now, below those that the system gives to connections."""
    low, high = 15_000, 32_700
    start = os.getpid() * 80 % (high - low)
    for step in range(0, high - low - count, count):
        first = low + (start + step) % (high - low - count)
        with contextlib.ExitStack() as held:
            try:
                for port in range(first, first + count):
                    held.enter_context(socket.create_server(("127.0.0.1", port)))
            except OSError:
                continue
            return first
    raise AssertionError("no free ports")


@contextlib.contextmanager
def closed_port():
    """A port at which nobody listens."""
    with socket.socket() as held:
        held.bind(("127.0.0.1", 0))
        yield held.getsockname()[1]


class Serving:
    """A station of so many lanes and askers, in a block."""

    def __init__(self, feeds, askers, rounds=64, options=()):
        self.feeds, self.askers = feeds, askers
        self.feed_port = free_ports(feeds + askers)
        self.ask_port = self.feed_port + feeds
        self.words = [PROGRAM, "serve", *options, "--feeds", feeds, "--askers", askers, "--feed-port", self.feed_port,
                      "--ask-port", self.ask_port, "--rounds", rounds]

    def __enter__(self):
        self.child = subprocess.Popen([str(word) for word in self.words], stdout=subprocess.PIPE, stderr=subprocess.DEVNULL)
        same(self.child.stdout.readline(), b"ready\n", "serve")
        return self

    def __exit__(self, *_):
        self.child.kill()
        self.child.wait()
        self.child.stdout.close()

    def feed(self, lane, data):
        """Streams bytes into a lane, and leaves the connection open."""
        link = socket.create_connection(("127.0.0.1", self.feed_port + lane), timeout=SECONDS)
        link.sendall(data)
        return link

    def wait(self, lane, messages):
        """Waits until a lane has so many messages in its session."""
        end = time.monotonic() + SECONDS
        with bmplines.Station("127.0.0.1", self.ask_port, SECONDS) as station:
            while time.monotonic() < end:
                _, rows = station.rows("routers")
                if rows[lane].get("messages") == messages:
                    return
                time.sleep(0.02)
        raise AssertionError(f"lane {lane} has no {messages} messages: {rows}")


class Shared(Serving):
    """A station whose routers share a port, and whose clients do; which lane a router has is the system's choice."""

    def __init__(self, feeds, askers):
        super().__init__(feeds, askers, "forever", ("--ports", "shared"))

    def send(self, data):
        """Streams bytes of whole messages to some lane, waits until it has them, and gives the lane and the connection, which
        stays open."""
        count, at = 0, 0
        while at < len(data):
            at += int.from_bytes(data[at + 1:at + 5], "big")
            count += 1
        link = self.feed(0, data)
        found = []

        def has_come():
            with bmplines.Station("127.0.0.1", self.ask_port, SECONDS) as station:
                found[:] = [row["router"] for row in station.rows("routers")[1] if row.get("messages") == count]
            return found

        wait_for(has_come, f"{count} messages")
        return found[0], link


def wait_for(holds, what):
    end = time.monotonic() + SECONDS
    while not holds():
        if time.monotonic() > end:
            raise AssertionError(f"{what}: it didn't come")
        time.sleep(0.02)


class Stub:
    """Something at a client's port that says to each query what a function gives: bytes, and then nothing more, where the
    function gives them in a list of one. It tells how many connections came."""

    def __init__(self, say):
        self.say = say
        self.connections = 0
        self.listener = socket.create_server(("127.0.0.1", 0))
        self.port = self.listener.getsockname()[1]
        self.threads = []
        self.links = []

    def __enter__(self):
        self.accepting = threading.Thread(target=self.accept)
        self.accepting.start()
        return self

    def __exit__(self, *_):
        self.listener.shutdown(socket.SHUT_RDWR)
        self.listener.close()
        self.accepting.join()
        for link in self.links:
            with contextlib.suppress(OSError):
                link.shutdown(socket.SHUT_RDWR)
        for thread in self.threads:
            thread.join()

    def accept(self):
        while True:
            try:
                link, _ = self.listener.accept()
            except OSError:
                return
            self.connections += 1
            self.links.append(link)
            self.threads.append(threading.Thread(target=self.talk, args=(link,)))
            self.threads[-1].start()

    def talk(self, link):
        with contextlib.suppress(OSError), link, link.makefile("rb") as lines:
            for line in lines:
                said = self.say(line.rstrip(b"\n").decode())
                if isinstance(said, list):
                    link.sendall(said[0])
                    return
                link.sendall(said)


def reply(*lines, at=7):
    """A reply with these lines."""
    return b"".join(line + b"\n" for line in (b"at %d" % at, *lines, b"end %d" % len(lines)))


class LookingGlass:
    """The looking glass over a client's port, in a block."""

    def __init__(self, port, *options):
        self.port = free_ports(1)
        self.words = [CONTRIB / "bmp-lookingglass", "--port", port, "--http-port", self.port, *options]

    def __enter__(self):
        self.child = subprocess.Popen([str(word) for word in self.words])
        end = time.monotonic() + SECONDS
        while True:
            try:
                socket.create_connection(("127.0.0.1", self.port), timeout=SECONDS).close()
                return self
            except ConnectionRefusedError:
                if time.monotonic() > end or self.child.poll() is not None:
                    raise
                time.sleep(0.02)

    def __exit__(self, *_):
        self.child.kill()
        self.child.wait()

    def get(self, target, method="GET"):
        """The status, the headers and the body."""
        link = http.client.HTTPConnection("127.0.0.1", self.port, timeout=SECONDS)
        try:
            link.request(method, target)
            answer = link.getresponse()
            return answer.status, answer.headers, answer.read()
        finally:
            link.close()


# Streams.


OPEN = b"\xff" * 16 + bytes([0, 29, 1, 4, 0xFB, 0xF0, 0, 180, 192, 0, 2, 254, 0])


def loc_rib_up(table):
    header = bytes([3, 0]) + bytes(8) + bytes(16) + (64496).to_bytes(4, "big") + bytes([192, 0, 2, 254]) + bytes(8)
    return message(3, header + bytes(16) + bytes(4) + OPEN + OPEN + tlv(3, table))


HOSTILE = b'q"uo\\te%2\x00\n\r\x1b[31m\xff\xc3\xa4{}= end'
