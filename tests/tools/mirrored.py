"""What the tests of bmp-mirror stand on: histories of a router, the tables that they leave, and readers of the copies.

One lane serves one connection after another, so the revision says which messages had come: each connection is an opening, its messages
and a closing. The table at each revision is that of `replay` on the messages of that connection up to there.
"""
import collections
import contextlib
import functools
import json
import signal
import socket
import struct
import subprocess
import sys
import tempfile
import threading
import time
import urllib.request
import uuid

import bmp
import copies
import database
import harness
from harness import CONTRIB, SECONDS, same
from texts import full_text, route_text

STATION = "fra1"


# What a router sends.


class Router(copies.Router):
    """A router whose routes have attributes of all kinds, some of them malformed, which an update withdraws or has as they are."""

    def further(self):
        """Some of the attributes that a whole line tells behind `other=`, in the order of their types."""
        draw = self.draw
        found = [(0x80, 9, bytes(3) + bytes([draw.randrange(4)])), (0x80, 10, bytes(range(4 * draw.randrange(1, 4)))),
                 (0xC0, 16, b"".join(draw.choice([b"\0\2\xfb\xf4\0\0\0d", b"\2\3\0\1\0\0\0d", b"\3\x0c" + bytes(5) + b"\7"]) for _ in range(draw.randrange(1, 3)))),
                 (0x80, 26, b"\1\0\x0b" + draw.randrange(1 << 64).to_bytes(8, "big")), (0xE0, 32, struct.pack(">3I", *(draw.randrange(1 << 32) for _ in range(3)))),
                 (0xC0, 32, bytes(5)), (0xC0, 35, struct.pack(">I", draw.randrange(1 << 32))), (0xC0, 99, bytes(draw.randrange(9)))]
        chosen = {kind: (flags, value) for flags, kind, value in draw.sample(found, draw.randrange(4))}
        return b"".join(bmp.attribute(flags, kind, value) for kind, (flags, value) in sorted(chosen.items()))

    def update(self):
        draw = self.draw
        peer = draw.choice(copies.PEERS)
        view = draw.choice(copies.views_of(peer))
        gone, come = ([octets for _, octets in self.places(peer, view, 4, most)] for most in (4, 8))
        attributes = b""
        if come:
            path = [bmp.ASN, *(draw.randrange(1, 1 << 32) for _ in range(draw.randrange(4)))]
            attributes = bmp.usual_attributes(path, draw.choice([None, draw.randrange(1 << 32)]), "192.0.2.9") + self.further()
        if draw.random() < 0.3:
            return super().update()
        return self.sent(bmp.monitoring(peer, view, b"".join(gone), attributes, b"".join(come)))


def history(draw):
    """The messages of one connection, in pieces that are sent with a pause between them, and its end, which is no message."""
    router = Router(draw, False)
    pieces = [router.open()] + [router.some() for _ in range(draw.randrange(12))]
    end = draw.choice([b"", b"", bmp.termination(), bmp.peer_up(copies.PEERS[0])[:-5], b"\4" + bytes(20)])
    return pieces, end


def messages(data):
    found, at = [], 0
    while at < len(data):
        end = at + int.from_bytes(data[at + 1:at + 5], "big")
        found.append(data[at:end])
        at = end
    return found


class Tables:
    """The tables of a station with one lane, by its revisions: `opened` is told of each connection, before it is made."""

    def __init__(self):
        self.connections = []
        self.revision = 0

    def opened(self, sent):
        """A connection that will send these messages whole."""
        self.connections.append((self.revision, sent))
        self.revision += len(sent) + 2

    @functools.lru_cache(maxsize=None)
    def at(self, revision):
        """The rows at a revision: of each the text of its line from the peer on."""
        begun, sent = next(((begun, sent) for begun, sent in reversed(self.connections) if begun < revision), (0, None))
        if sent is None or revision - begun - 1 > len(sent):
            return frozenset()
        done = subprocess.run([harness.PROGRAM, "replay", "full", "table"], input=b"".join(sent[:revision - begun - 1]), capture_output=True)
        at, *lines = done.stdout.decode().splitlines()
        same(at, f"at {revision - begun}", "the revision of a replay")
        return frozenset(line.split(" ", 2)[2] for line in lines if line.startswith("route "))


def difference(found, wanted):
    """What is too much and what is missing, in a few words."""
    return f"too much {sorted(found - wanted)[:2]}, missing {sorted(wanted - found)[:2]}"


# Who runs.


class Mirror:
    """A bmp-mirror, in a block. It may be killed and started again."""

    def __init__(self, output, port, *options, python=sys.executable, stdout=None, environment=None):
        with harness.closed_port() as self.http_port:
            pass
        self.words = [python, CONTRIB / "bmp-mirror", output, "--station", STATION, "--port", port, "--http-port", self.http_port, "--timeout", 20,
                      *options]
        self.stdout, self.environment = stdout, environment
        self.child = None

    def __enter__(self):
        self.start()
        return self

    def __exit__(self, *_):
        self.kill()

    def start(self):
        self.said = tempfile.TemporaryFile()
        self.child = subprocess.Popen([str(word) for word in self.words], stdout=self.stdout, stderr=self.said, env=self.environment)

    def kill(self):
        if self.child is not None:
            self.child.kill()
            self.child.wait()
            if self.child.stdout:
                self.child.stdout.close()
            self.said.seek(0)
            text = self.said.read().decode()
            self.said.close()
            self.child = None
            if "Traceback" in text:
                raise AssertionError(text[-2000:])
            return text

    def metrics(self):
        """Each metric by its name and its labels' text."""
        end = time.monotonic() + SECONDS
        while True:
            try:
                text = urllib.request.urlopen(f"http://127.0.0.1:{self.http_port}/metrics", timeout=SECONDS).read().decode()
                break
            except OSError:
                # It has just been started.
                if time.monotonic() > end:
                    raise
            time.sleep(0.05)
        return {name: float(value) for name, value in (line.rsplit(" ", 1) for line in text.splitlines() if not line.startswith("#"))}


class Lines:
    """A mirror whose lines are read, and what they leave: at each mark the rows of its lane are kept, to be judged."""

    name = "lines"

    def __init__(self, port, *options):
        self.mirror = Mirror("lines", port, *options, stdout=subprocess.PIPE)
        self.marks = []
        self.faults = []
        self.may_read = threading.Event()
        self.may_read.set()

    def start(self):
        self.mirror.start()
        self.thread = threading.Thread(target=self.read, args=(self.mirror.child.stdout,))
        self.thread.start()

    def kill(self):
        self.may_read.set()
        self.mirror.child.kill()
        self.thread.join()
        return self.mirror.kill()

    def read(self, lines):
        state = collections.defaultdict(dict)
        self.count = 0
        try:
            for number, line in enumerate(lines):
                self.may_read.wait()
                if not line.endswith(b"\n"):
                    return  # it was killed in the middle
                self.take(state, number, line)
                self.count += 1
        except Exception as fault:  # told in the end
            self.faults.append(f"{fault!r} of {line[:300]!r}")

    def take(self, state, number, line):
        fields = json.loads(line)
        same(list(fields), ["key", "value"], "names")
        same(json.dumps(fields, separators=(",", ":")).encode() + b"\n", line, "the one form of a line")
        key, value = fields["key"], fields["value"]
        station, *words = key.split(" ")
        same((station, number == 0), (STATION, value is not None and value["kind"] == "begin"), key)
        if not words:
            return
        lane = state[int(words[0])]
        if len(words) > 3:
            place = " ".join(words[1:])
            if value is None:
                del lane[place]
            else:
                same(place, f"{value['peer']} {value['view']} {value['prefix']}" + (f" id={value['id']}" if value["id"] is not None else ""), "key")
                lane[place] = route_text(value) + full_text(value)
        elif len(words) == 1:
            same(value["rows"], len(lane), "rows of a mark")
            self.marks.append((value["run"], value["step"], value["revision"], int(words[0]), frozenset(lane.values())))

    def pause(self):
        self.may_read.clear()

    def go_on(self):
        self.may_read.set()

    def end(self):
        """Nothing more is read."""

    def last(self, router=0):
        return next((mark for mark in reversed(self.marks) if mark[3] == router), None)


class Cut:
    """A port that hands on to a station's, and now and then ends a connection in the middle of what the station says."""

    def __init__(self, port, draw, most):
        self.port_behind, self.draw, self.most = port, draw, most
        self.listener = socket.create_server(("127.0.0.1", 0))
        self.port = self.listener.getsockname()[1]
        self.cuts = 0
        threading.Thread(target=self.accept, daemon=True).start()

    def accept(self):
        with contextlib.suppress(OSError):
            while True:
                link, _ = self.listener.accept()
                threading.Thread(target=self.hand_on, args=(link,), daemon=True).start()

    def hand_on(self, link):
        with contextlib.suppress(OSError), link, socket.create_connection(("127.0.0.1", self.port_behind)) as behind:
            left = self.draw.randrange(self.most)
            threading.Thread(target=self.pump, args=(link, behind), daemon=True).start()
            while data := behind.recv(1 << 16):
                link.sendall(data[:left])
                left -= len(data)
                if left <= 0:
                    self.cuts += 1
                    break
            for one in link, behind:
                one.shutdown(socket.SHUT_RDWR)

    def pump(self, link, behind):
        with contextlib.suppress(OSError):
            while data := link.recv(1 << 16):
                behind.sendall(data)
            behind.shutdown(socket.SHUT_RDWR)

    def close(self):
        self.listener.shutdown(socket.SHUT_RDWR)
        self.listener.close()


def joined(values, form="{}"):
    return ",".join(form.format(value) for value in values) or "-"


def or_dash(value):
    return "-" if value is None else value


def route_of(row):
    """The line of a route from the peer on, by the columns of bmp_route."""
    aggregator = None if row["aggregator_as"] is None else f"{row['aggregator_as']}:{row['aggregator_id']}"
    text = (f"{row['peer']} {row['view']} {row['prefix']} next={or_dash(row['next_hops'])} origin={or_dash(row['origin'])} "
            f"path={or_dash(row['path_text'])} med={or_dash(row['med'])} pref={or_dash(row['local_pref'])} "
            f"atomic={'yes' if row['atomic'] else 'no'} agg={or_dash(aggregator)} comm={joined(row['communities'])} other={joined(row['other_types'])}")
    if row["path_id"] is not None:
        text += f" id={row['path_id']}"
    return (f"{text} flags={joined(row['flags'], '{:02x}')} large={joined(row['large_communities'])} ext={joined(row['ext_communities'])} "
            f"otc={or_dash(row['otc'])} aigp={or_dash(row['aigp'])} originator={or_dash(row['originator'])} clusters={joined(row['clusters'])} "
            f"raw={joined(row['raw'])}")


class PostgreSQL:
    """A mirror into a database, which psql reads again and again: a mark and its rows in one statement."""

    name = "postgresql"

    def __init__(self, server, port, *options):
        self.server = server
        self.mirror = Mirror("postgresql", port, *options, python=database.python_with("psycopg"), environment=server.environment)
        self.marks = []
        self.faults = []
        self.is_over = threading.Event()
        self.reading = threading.Lock()
        self.thread = threading.Thread(target=self.watch)

    def start(self):
        self.mirror.start()
        same(self.faults, [], self.name)
        if not self.thread.is_alive():
            self.thread.start()

    def kill(self):
        return self.mirror.kill()

    def end(self):
        self.is_over.set()
        self.server.go_on()
        if self.thread.is_alive():
            self.thread.join()

    def pause(self):
        self.server.pause()

    def go_on(self):
        self.server.go_on()

    def watch(self):
        while not self.is_over.wait(0.02):
            try:
                with self.reading:
                    self.read()
            except OSError:
                pass  # the server is away, or has no tables yet
            except Exception as fault:  # told in the end
                self.faults.append(repr(fault))
                return

    def read(self):
        found = self.server.ask("SELECT row_to_json(found) FROM (SELECT router, run, step, revision, rows, (SELECT coalesce(jsonb_agg(r), '[]') FROM "
                                "bmp_route r WHERE (r.station, r.router) = (m.station, m.router)) AS routes "
                                f"FROM bmp_mirror m WHERE station = '{STATION}') found")
        for mark in found:
            rows = [route_of(row) for row in mark["routes"]]
            same((len(rows), len(set(rows))), (mark["rows"], len(rows)), "rows of a mark")
            told = (mark["run"], mark["step"], mark["revision"], mark["router"], frozenset(rows))
            last = self.last(mark["router"])
            if last is None or told[:4] != last[:4]:
                self.marks.append(told)

    def last(self, router=0):
        return next((mark for mark in reversed(self.marks) if mark[3] == router), None)


class NatsServer:
    """A NATS server with JetStream, in a block, where one is installed."""

    def __enter__(self):
        self.folder = tempfile.TemporaryDirectory()
        self.port = harness.free_ports(1)
        self.start()
        return self

    def __exit__(self, *_):
        self.kill()
        self.folder.cleanup()

    def start(self):
        words = ["nats-server", "-a", "127.0.0.1", "-p", str(self.port), "-js", "-sd", self.folder.name]
        self.child = subprocess.Popen(words, stdout=subprocess.DEVNULL, stderr=subprocess.DEVNULL)
        harness.wait_for(self.answers, "a NATS server")

    def answers(self):
        try:
            with NatsLink(self.port):
                return True
        except OSError:
            return False

    def kill(self):
        self.child.kill()
        self.child.wait()

    def pause(self):
        self.child.send_signal(signal.SIGSTOP)

    def go_on(self):
        self.child.send_signal(signal.SIGCONT)

    def new_stream(self):
        with NatsLink(self.port) as link:
            link.ask("$JS.API.STREAM.DELETE.BMP", b"")


class NatsLink:
    """A client of a NATS server, by its text protocol."""

    def __init__(self, port):
        self.socket = socket.create_connection(("127.0.0.1", port), SECONDS)
        self.lines = self.socket.makefile("rb")
        self.answers = f"answers.{uuid.uuid4().hex}"
        self.socket.sendall(b'CONNECT {"verbose":false,"headers":true}\r\nSUB %s 1\r\nPING\r\n' % self.answers.encode())
        while self.line() != b"PONG":
            pass

    def __enter__(self):
        return self

    def __exit__(self, *_):
        self.lines.close()
        self.socket.close()

    def line(self):
        line = self.lines.readline()
        if not line:
            raise ConnectionError("the server closed the connection")
        return line.rstrip()

    def messages(self):
        """The subject and the body of each message."""
        while True:
            words = self.line().split()
            if words[0] == b"PING":
                self.socket.sendall(b"PONG\r\n")
            elif words[0] in (b"MSG", b"HMSG"):
                head = int(words[-2]) if words[0] == b"HMSG" else 0
                yield words[1].decode(), self.lines.read(int(words[-1]) + 2)[head:-2]

    def send(self, subject, body):
        self.socket.sendall(b"PUB %s %s %d\r\n%s\r\n" % (subject.encode(), self.answers.encode(), len(body), body))

    def ask(self, subject, body):
        self.send(subject, body)
        return next(body for subject, body in self.messages() if subject == self.answers)


class Nats:
    """A mirror into a stream. One client takes what goes to the stream as it comes, and at rest another reads what is kept there."""

    name = "nats"

    def __init__(self, server, port, *options):
        self.server = server
        self.mirror = Mirror("nats", port, "--to", f"127.0.0.1:{server.port}", *options)
        self.marks = []
        self.faults = []
        self.kept = {}
        self.is_over = False
        self.thread = threading.Thread(target=self.watch)

    def start(self):
        if not self.thread.is_alive():
            self.is_there = threading.Event()
            self.thread.start()
            self.is_there.wait(SECONDS)
        self.mirror.start()

    def kill(self):
        return self.mirror.kill()

    def pause(self):
        self.server.pause()

    def go_on(self):
        self.server.go_on()

    def end(self):
        self.is_over = True
        self.server.go_on()
        with contextlib.suppress(OSError), NatsLink(self.server.port) as link:
            link.send(f"bmp.{STATION}.over", b"")
            link.ask("$JS.API.STREAM.INFO.BMP", b"")
        self.thread.join()

    def watch(self):
        while not self.is_over:
            try:
                with NatsLink(self.server.port) as link:
                    # What was kept before is read again: who was away has missed what came.
                    link.socket.sendall(f"SUB bmp.{STATION}.> 2\r\nPING\r\n".encode())
                    while link.line() != b"PONG":
                        pass
                    self.kept = self.stored()
                    self.is_there.set()
                    for subject, body in link.messages():
                        if self.is_over:
                            return
                        self.take(subject, body)
            except OSError:
                time.sleep(0.05)  # the server is away
            except Exception as fault:  # told in the end
                self.faults.append(repr(fault))
                self.is_there.set()
                return

    def take(self, subject, body):
        if not body:
            self.kept.pop(subject, None)
            return
        value = json.loads(body)
        same(json.dumps(value, separators=(",", ":")).encode(), body, "the one form of a value")
        if value["kind"] == "mark":
            rows = frozenset(text for text, router in self.kept.values() if router == value["router"])
            same(len(rows), value["rows"], "rows of a mark")
            self.marks.append((value["run"], value["step"], value["revision"], value["router"], rows))
        elif value["kind"] == "route":
            self.kept[subject] = nats_row(subject, value)

    def stored(self):
        """The rows that the stream keeps."""
        found = {}
        with NatsLink(self.server.port) as link:
            made = json.loads(link.ask("$JS.API.CONSUMER.CREATE.BMP", json.dumps({"stream_name": "BMP", "config": {
                "deliver_policy": "last_per_subject", "ack_policy": "none", "filter_subject": f"bmp.{STATION}.>"}}).encode()))
            left = made.get("num_pending", 0)
            if left:
                link.send(f"$JS.API.CONSUMER.MSG.NEXT.BMP.{made['name']}", json.dumps({"batch": left, "expires": 10**10}).encode())
            for subject, body in link.messages() if left else ():
                left -= 1
                if body:
                    value = json.loads(body)
                    if value["kind"] == "route":
                        found[subject] = nats_row(subject, value)
                if not left:
                    break
        return found

    def last(self, router=0):
        return next((mark for mark in reversed(self.marks) if mark[3] == router), None)


def nats_row(subject, value):
    """The line of a route from the peer on, and its lane; its subject is the one that it must have."""
    words = [value["peer"], value["view"], value["prefix"].replace("/", "-"), *([str(value["id"])] if value["id"] is not None else [])]
    same(subject, ".".join(["bmp", STATION, str(value["router"]), *(word.replace(".", "_") for word in words)]), "a subject")
    return route_text(value) + full_text(value), value["router"]


class KafkaBroker:
    """librdkafka's mock of a broker, in a block: it has no compaction, and what is in it is gone with it."""

    def __init__(self):
        self.python = database.python_with("confluent_kafka")

    def __enter__(self):
        self.child = subprocess.Popen([self.python, harness.TOP / "tests/tools/kafka.py", "broker"], stdin=subprocess.PIPE, stdout=subprocess.PIPE,
                                      stderr=subprocess.DEVNULL)
        self.address = self.child.stdout.readline().decode().strip()
        return self

    def __exit__(self, *_):
        self.child.kill()
        self.child.wait()
        self.child.stdin.close()
        self.child.stdout.close()


class Kafka:
    """A mirror into a topic of a broker of its own, of which all messages are read as they come."""

    name = "kafka"

    def __init__(self, port, *options):
        self.broker = KafkaBroker()
        self.broker.__enter__()
        self.mirror = Mirror("kafka", port, "--to", self.broker.address, *options, python=self.broker.python)
        self.marks = []
        self.faults = []
        self.kept = collections.defaultdict(dict)
        self.partitions = {}
        self.reader = subprocess.Popen([self.broker.python, harness.TOP / "tests/tools/kafka.py", "read", self.broker.address], stdout=subprocess.PIPE,
                                       stderr=subprocess.DEVNULL)
        same(self.reader.stdout.readline(), b"ready\n", "a reader of Kafka")
        self.thread = threading.Thread(target=self.watch)
        self.thread.start()

    def start(self):
        self.mirror.start()

    def kill(self):
        return self.mirror.kill()

    def pause(self):
        self.broker.child.send_signal(signal.SIGSTOP)

    def go_on(self):
        self.broker.child.send_signal(signal.SIGCONT)

    def end(self):
        self.go_on()
        self.reader.kill()
        self.reader.wait()
        self.thread.join()
        self.reader.stdout.close()
        self.broker.__exit__()

    def watch(self):
        try:
            for line in self.reader.stdout:
                if line.endswith(b"\n"):
                    self.take(*json.loads(line))
        except Exception as fault:  # told in the end
            self.faults.append(repr(fault))

    def take(self, partition, key, text):
        station, router, *words = key.split(" ")
        same((station, self.partitions.setdefault(router, partition)), (STATION, partition), "the partition of a lane")
        rows, value = self.kept[int(router)], text and json.loads(text)
        if len(words) > 2:
            if value is None:
                rows.pop(key, None)
            else:
                rows[key] = route_text(value) + full_text(value)
        elif not words:
            same(len(rows), value["rows"], "rows of a mark")
            self.marks.append((value["run"], value["step"], value["revision"], value["router"], frozenset(rows.values())))

    def last(self, router=0):
        return next((mark for mark in reversed(self.marks) if mark[3] == router), None)
