"""The output `nats` of bmp-mirror: a stream of NATS JetStream that keeps one message a subject. It is no part of what is proved.

A subject is `bmp.STATION.ROUTER.PEER.VIEW.PREFIX[.ID]`, with `_` for `.` and `-` for the `/` of a prefix, so that no two rows share one. A
row that is gone is a message without a body. `bmp.STATION.ROUTER.mark` has the lane's mark, put by the sequence number of the last one.
"""
import contextlib
import json
import os
import socket
import ssl
import urllib.parse

from bmpmirror import Away, Keyed, Mark, Taken, as_json

SECONDS = 30
# So many messages may wait to be acknowledged, and so many bytes to be sent.
WINDOW = 2000
PIECE = 1 << 16
# So many messages are asked for at once where all that is there is read.
BATCH = 5000
GONE = {"KV-Operation": "DEL"}


class Link:
    """A connection by the text protocol of NATS."""

    def __init__(self, to):
        place = urllib.parse.urlsplit(to if "//" in to else f"//{to}")
        self.socket = socket.create_connection((place.hostname or "127.0.0.1", place.port or 4222), SECONDS)
        self.lines = self.socket.makefile("rb", PIECE)
        info = json.loads(self.line().removeprefix(b"INFO "))
        if place.scheme == "tls" or info.get("tls_required"):
            self.socket = ssl.create_default_context().wrap_socket(self.socket, server_hostname=place.hostname)
            self.lines = self.socket.makefile("rb", PIECE)
        names = {"user": "NATS_USER", "pass": "NATS_PASSWORD", "auth_token": "NATS_TOKEN"}
        secrets = {name: os.environ[variable] for name, variable in names.items() if variable in os.environ}
        words = {"verbose": False, "pedantic": False, "headers": True, "no_responders": True, "name": "bmp-mirror", "lang": "python", "version": "1"}
        self.inbox = f"_INBOX.{os.urandom(12).hex()}"
        self.number = 0
        self.waiting, self.size, self.open = [], 0, 0
        self.socket.sendall(f"CONNECT {as_json(words | secrets)}\r\nSUB {self.inbox}.* 1\r\nPING\r\n".encode())
        while (line := self.line()) != b"PONG":
            if line.startswith(b"-ERR"):
                raise Away(f"NATS: {line.decode(errors='replace')}")

    def close(self):
        self.lines.close()
        self.socket.close()

    def line(self):
        line = self.lines.readline()
        if not line.endswith(b"\r\n"):
            raise Away("NATS closed the connection")
        return line[:-2]

    def message(self):
        """The next message: its subject, where it may be answered, its headers and its body."""
        while True:
            word, *words = self.line().split(b" ")
            if word == b"PING":
                self.socket.sendall(b"PONG\r\n")
            elif word == b"-ERR":
                raise Away(f"NATS: {b' '.join(words).decode(errors='replace')}")
            elif word in (b"MSG", b"HMSG"):
                has_headers = word == b"HMSG"
                size, head = int(words[-1]), int(words[-2]) if has_headers else 0
                data = self.lines.read(size + 2)
                if len(data) != size + 2:
                    raise Away("NATS closed the connection")
                answer = words[2].decode() if len(words) == 4 + has_headers else None
                return words[0].decode(), answer, data[:head], data[head:size]

    def send(self, subject, body, answer, headers):
        """A message; it goes out with others."""
        if headers:
            head = ("NATS/1.0\r\n" + "".join(f"{name}: {value}\r\n" for name, value in headers.items()) + "\r\n").encode()
            text = f"HPUB {subject} {answer} {len(head)} {len(head) + len(body)}\r\n".encode() + head + body + b"\r\n"
        else:
            text = f"PUB {subject} {answer} {len(body)}\r\n".encode() + body + b"\r\n"
        self.waiting.append(text)
        self.size += len(text)
        if self.size > PIECE:
            self.push()

    def push(self):
        self.socket.sendall(b"".join(self.waiting))
        self.waiting, self.size = [], 0

    def put(self, subject, body, headers=None):
        """A message for the stream, which acknowledges it; some may wait for that."""
        self.send(subject, body, f"{self.inbox}.put", headers)
        self.open += 1
        self.drain(WINDOW)

    def drain(self, most):
        """Waits until no more than so many messages aren't acknowledged."""
        if self.open > most:
            self.push()
        while self.open > most:
            subject, _, head, body = self.message()
            if subject == f"{self.inbox}.put":
                self.open -= 1
                acknowledged(head, body)

    def ask(self, subject, body=b"", headers=None):
        """The answer to a request, when all before it is acknowledged."""
        self.drain(0)
        self.number += 1
        answer = f"{self.inbox}.{self.number}"
        self.send(subject, body, answer, headers)
        self.push()
        while True:
            found, _, head, body = self.message()
            if found == answer:
                return head, body


def acknowledged(head, body):
    """The answer of the stream to a message: a fault where it didn't take it."""
    if not body:
        raise Away(f"no stream takes it: {head[:40].decode(errors='replace').split(chr(13))[0]}")
    answer = json.loads(body)
    if "error" in answer:
        raise Away(f"NATS: {answer['error'].get('description')}")
    return answer


def token(word):
    return word.replace(".", "_").replace("/", "-")


class Nats(Keyed):
    """A stream, which is made where there is none."""

    def __init__(self, station, say, given):
        super().__init__(station, say)
        self.to, self.stream = given.to, given.stream
        self.link = None
        self.sequences = {}

    def close(self):
        if self.link is not None:
            self.link.close()
            self.link = None

    @contextlib.contextmanager
    def faults(self):
        try:
            yield
        except (OSError, ValueError) as fault:
            raise Away(f"NATS: {fault}") from fault

    def open(self):
        with self.faults():
            self.link = Link(self.to)
            answer = self.api(f"STREAM.INFO.{self.stream}")
            if answer.get("error", {}).get("code") == 404:
                answer = self.api(f"STREAM.CREATE.{self.stream}", {"name": self.stream, "subjects": ["bmp.>"], "max_msgs_per_subject": 1,
                                                                  "storage": "file", "retention": "limits", "discard": "old", "num_replicas": 1})
        if "error" in answer:
            raise Away(f"the stream {self.stream}: {answer['error'].get('description')}")
        if answer["config"].get("max_msgs_per_subject") != 1:
            raise Away(f"the stream {self.stream} doesn't keep one message a subject")

    def api(self, what, value=None):
        head, body = self.link.ask(f"$JS.API.{what}", as_json(value).encode() if value else b"")
        if not body:
            raise Away("the server has no JetStream")
        return json.loads(body)

    def have(self):
        """All that is there of the station is read."""
        self.lanes.clear()
        self.told, self.sequences = {}, {}
        marks = {}
        with self.faults():
            front = f"bmp.{self.texts.station}."
            made = self.api(f"CONSUMER.CREATE.{self.stream}", {"stream_name": self.stream, "config": {
                "deliver_policy": "last_per_subject", "ack_policy": "none", "filter_subject": front + ">", "inactive_threshold": SECONDS * 10**9}})
            if "error" in made:
                raise Away(f"the stream {self.stream}: {made['error'].get('description')}")
            left, asked, answer = made["num_pending"], 0, f"{self.link.inbox}.have"
            while left:
                if not asked:
                    asked = min(left, BATCH)
                    self.link.send(f"$JS.API.CONSUMER.MSG.NEXT.{self.stream}.{made['name']}",
                                   as_json({"batch": asked, "expires": SECONDS * 10**9}).encode(), answer, None)
                    self.link.push()
                subject, reply, head, body = self.link.message()
                if head.startswith((b"NATS/1.0 4", b"NATS/1.0 5")) and not subject.startswith(front):
                    raise Away(f"the stream {self.stream}: {head.decode(errors='replace').splitlines()[0]}")
                if subject.startswith(front):
                    left, asked = left - 1, asked - 1
                    self.learn(marks, subject.removeprefix(front).split("."), reply, body)
            self.api(f"CONSUMER.DELETE.{self.stream}.{made['name']}")
        for router in self.lanes:
            marks.setdefault(router, None)
        return marks

    def learn(self, marks, words, reply, body):
        """A message that is there: a row, a mark, or what is told of a router or a peer."""
        router = int(words[0])
        if words[1:] == ["mark"]:
            # The sequence number in the stream is in the place for an acknowledgement, which newer servers write with two words more.
            fields = reply.split(".")
            self.sequences[router] = int(fields[5 if len(fields) == 9 else 7])
            if body:
                value = json.loads(body)
                marks[router] = Mark(value["run"], value["step"], value["revision"], value["rows"])
        elif body and len(words) == 2:
            self.told[self.texts.key(router, words[1].replace("_", "."))] = body.decode()
        elif body:
            peer, view, prefix, *identifier = words[1:]
            place = " ".join([view, prefix.replace("-", "/").replace("_", "."), *(f"id={word}" for word in identifier)])
            self.lanes[router].learn(peer.replace("_", "."), place, self.digest(body.decode()))

    def subject(self, key):
        station, *words = key.split(" ")
        return ".".join(["bmp", station, *(token(word.removeprefix("id=")) for word in words)])

    def put(self, router, key, value):
        with self.faults():
            self.link.put(self.subject(key), b"" if value is None else value.encode(), GONE if value is None else None)

    def flush(self):
        with self.faults():
            self.link.drain(0)

    def put_mark(self, router, mark, held):
        with self.faults():
            head, body = self.link.ask(f"bmp.{self.texts.station}.{router}.mark", self.texts.mark(router, mark).encode(),
                                       {"Nats-Expected-Last-Subject-Sequence": self.sequences.get(router, 0)})
            answer = json.loads(body) if body else {}
            if answer.get("error", {}).get("err_code") == 10071:
                raise Taken(f"another bmp-mirror writes lane {router} of {self.texts.station}")
            self.sequences[router] = acknowledged(head, body)["seq"]
