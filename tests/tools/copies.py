"""Copies of lanes, kept by the changes that a client is told, and compared with the tables that another one is told.

Eight routers announce, withdraw, let peers come and go, close and come back, all by chance. A client of each lane asks `steps
table router N` once, and then `changes N S` again and again; where steps are missed it begins anew. Another client of the lane
asks `steps table router N`. The table after T steps, whatever T is that it was told, must be the copy after T steps, row for row
and in the order of rows. Now and then a router rests, and then the copy must be what the router announced.

Every other lane asks for whole lines, by `steps full table router N` and `full changes N S`.

The last two lanes ask over two connections: one is told the table, another the changes, and that one is opened anew now and then.

Beside each copy stands one that takes no heed of `down`. It must differ in the end, or the comparison has seen nothing.
"""
import collections
import functools
import ipaddress
import random
import re
import struct
import threading
import time

import bmp

LANES = 8
ASKERS = 3 * LANES  # a table, its changes and another table of each lane
APART = (6, 7)  # the lanes whose table and changes come over two connections
WHOLE = (1, 3, 5, 7)  # the lanes whose clients ask for whole lines
TIMES = ["seen=-", "told=-"]  # what such a line of a change has behind what it has without them
SECONDS = 60  # for one wait
KEPT = 1024  # so many steps of a lane are kept
VIEWS = ("adj-in-pre", "adj-in-post", "adj-out-pre", "adj-out-post", "loc")


class Wrong(Exception):
    """What the station did that it must not do."""


def need(holds, message):
    if not holds:
        raise Wrong(message)


# The copy.


@functools.lru_cache(maxsize=65536)
def address_order(text):
    """IPv4 before IPv6, then by bytes."""
    address = ipaddress.ip_address(text)
    return address.version, address.packed


@functools.lru_cache(maxsize=65536)
def order(place):
    """Where a row stands among those of a table: by peer, view, prefix and path identifier."""
    key, view, prefix, identifier = place
    kind, distinguisher, peer = key.split("-")
    address, bits = prefix.split("/")
    return int(kind), distinguisher, address_order(peer), VIEWS.index(view), address_order(address), int(bits), -1 if identifier is None else identifier


def place_of(words):
    """The place of a row by its words from the peer on, of which one may be its path identifier."""
    identifiers = [int(word[3:]) for word in words[3:] if word.startswith("id=")]
    return words[0], words[1], words[2], identifiers[0] if identifiers else None


class Copy:
    """The rows of a lane after so many steps: the text of each behind its lane, by its place. Some kinds of steps may be taken no
    heed of, which is wrong."""

    def __init__(self, number, rows, unheeded=()):
        self.number, self.rows, self.unheeded = number, dict(rows), unheeded

    def step(self, words):
        """Takes the next step: what it did, and of what."""
        self.number += 1
        what, *more = words
        if what in self.unheeded:
            return
        if what in ("opened", "closed"):
            self.rows.clear()
        elif what in ("up", "down"):
            self.rows = {place: text for place, text in self.rows.items() if place[0] != more[0]}
        elif what == "announce":
            self.rows[place_of(more)] = " ".join(more)
        else:
            need(what == "withdraw", f"a step {words}")
            self.rows.pop(place_of(more), None)

    def texts(self):
        return [self.rows[place] for place in sorted(self.rows, key=order)]


def asked(lane, query):
    """A query of a lane's clients: for whole lines in some lanes."""
    if lane not in WHOLE:
        return query
    return query.replace("steps ", "steps full ") if query.startswith("steps ") else f"full {query}"


def without_times(words):
    """The words of a step, without those of its times."""
    at = [place for place in range(len(words)) if words[place:place + 2] == TIMES]
    need(len(at) == 1, f"the times of {words}")
    return words[:at[0]] + words[at[0] + 2:]


def told_table(lane, lines):
    """How many steps the lane made, and the texts of its rows, by the reply to `steps table router N`."""
    need(lines and re.fullmatch(f"steps {lane} [0-9]+", lines[0]), f"`steps table router {lane}` begins with {lines[:1]}")
    front = f"route {lane} "
    need(all(line.startswith(front) for line in lines[1:]), f"rows of other lanes than {lane}")
    return int(lines[0].split(" ")[2]), [line[len(front):] for line in lines[1:]]


def told_changes(lane, first, lines):
    """How many steps the lane made, how many are missed, and the words of the others, by the reply to `changes N S`."""
    need(lines and re.fullmatch(f"steps {lane} [0-9]+", lines[0]), f"`changes {lane} {first}` begins with {lines[:1]}")
    total = int(lines[0].split(" ")[2])
    oldest = max(0, total - KEPT)
    missed = max(0, oldest - first)
    wanted = [f"missed {missed}"] if missed else []
    need(lines[1:1 + len(wanted)] == wanted, f"of {total} steps from {first} on there is {lines[1:2]}")
    steps = [line.split(" ") for line in lines[1 + len(wanted):]]
    numbers = [f"change {lane} {number}" for number in range(max(first, oldest), total)]
    need([" ".join(words[:3]) for words in steps] == numbers, f"of {total} steps from {first} on there are {len(steps)}, or others")
    return total, missed, [without_times(words[3:]) if lane in WHOLE else words[3:] for words in steps]


class Followed:
    """A copy of one lane that is kept up to date, and the last of its steps, by which it is known as it was."""

    def __init__(self, lane):
        self.lane = lane
        self.before = self.now = self.wrong = None
        self.steps = collections.deque()

    def begin(self, lines):
        number, texts = told_table(self.lane, lines)
        rows = {place_of(text.split(" ")): text for text in texts}
        self.before, self.now, self.wrong = Copy(number, rows), Copy(number, rows), Copy(number, rows, ("down",))
        self.steps.clear()
        need(self.now.texts() == texts, f"the rows of lane {self.lane} are in another order, or twice")

    def follow(self, total, steps):
        for words in steps:
            self.now.step(words)
            self.wrong.step(words)
            self.steps.append(words)
        need(self.now.number == total, f"{self.now.number} steps of lane {self.lane} in place of {total}")
        while len(self.steps) > 4 * KEPT:
            self.before.step(self.steps.popleft())

    def is_left_behind(self, told):
        """Whether one of these tables comes after more steps than a lane keeps."""
        return self.now is not None and any(number > self.now.number + KEPT for number, _ in told)

    def after(self, number, is_wrong):
        """The texts of the rows after so many steps, or None where that isn't known; the wrong copy is known as it is alone."""
        if is_wrong:
            return self.wrong.texts() if number == self.now.number else None
        if not self.before.number <= number <= self.now.number:
            return None
        if number == self.now.number:
            return self.now.texts()
        copy = Copy(self.before.number, self.before.rows)
        for words in list(self.steps)[:number - self.before.number]:
            copy.step(words)
        return copy.texts()


# The routers.


def key_of(peer):
    return f"{peer.kind}-{peer.distinguisher:016x}-{peer.address}"


PEERS = [bmp.Peer(0, 0, "192.0.2.1"), bmp.Peer(0, 0, "2001:db8::1"), bmp.Peer(0, 0, "192.0.2.2", True), bmp.Peer(1, 7, "192.0.2.1"),
         bmp.Peer(bmp.LOC_RIB, 0, "0.0.0.0")]
PREFIXES = {4: [f"10.{number}.0.0/{bits}" for number in range(6) for bits in (16, 24)], 6: [f"2001:db8:{number:x}::/48" for number in range(1, 9)]}
IDENTIFIERS = (1, 2, 300)


def views_of(peer):
    return ["loc"] if peer.kind == bmp.LOC_RIB else VIEWS[:4]


class Router:
    """What a router of a lane sends, and the rows that it leaves: for each place the text of its row, a whole line or not."""

    def __init__(self, draw, is_whole):
        self.draw, self.is_whole = draw, is_whole
        self.up = set()
        self.rows = {}
        self.messages = 0

    def open(self):
        self.up.clear()
        self.rows.clear()
        self.messages = 0
        return self.sent(bmp.initiation(b"copied")) + b"".join(self.peer_up(peer) for peer in PEERS) + b"".join(self.update() for _ in range(20))

    def sent(self, message):
        self.messages += 1
        return message

    def leave(self, peer):
        self.rows = {place: text for place, text in self.rows.items() if place[0] != key_of(peer)}

    def peer_up(self, peer):
        self.up.add(peer)
        self.leave(peer)
        return self.sent(bmp.peer_up(peer))

    def peer_down(self, peer):
        self.up.discard(peer)
        self.leave(peer)
        return self.sent(bmp.peer_down(peer))

    def places(self, peer, view, family, most):
        """Some places: the words of each, and its bytes as an UPDATE has them."""
        prefixes = self.draw.sample(PREFIXES[family], self.draw.randrange(most))
        identifiers = [self.draw.choice(IDENTIFIERS) if peer.add_path and family == 4 else None for _ in prefixes]
        return [((key_of(peer), view, prefix, identifier), bmp.nlri(prefix, identifier)) for prefix, identifier in zip(prefixes, identifiers)]

    def update(self):
        """An UPDATE that withdraws and announces some. Of a peer that isn't up it is an orphan, and changes nothing."""
        peer = self.draw.choice(PEERS)
        view = self.draw.choice(views_of(peer))
        gone = {family: self.places(peer, view, family, 4) for family in (4, 6)}
        come = {family: self.places(peer, view, family, 8) for family in (4, 6)}
        path = [bmp.ASN, *(self.draw.randrange(1, 1 << 32) for _ in range(self.draw.randrange(4)))]
        med, large = (self.draw.choice([None, self.draw.randrange(1 << 32)]) for _ in range(2))
        if peer in self.up:
            for place, _ in gone[4] + gone[6]:
                self.rows.pop(place, None)
            for next_hop, (place, _) in [("192.0.2.9", it) for it in come[4]] + [("2001:db8::9", it) for it in come[6]]:
                self.rows[place] = row_text(place, next_hop, path, med, large, self.is_whole)
        unreached, reached = (b"".join(octets for _, octets in places) for places in (gone[6], come[6]))
        attributes = b""
        if come[4] or come[6]:
            attributes += bmp.usual_attributes(path, med, "192.0.2.9" if come[4] else None)
        if come[6]:
            next_hop = ipaddress.ip_address("2001:db8::9").packed
            attributes += bmp.attribute(0x80, 14, b"\0\2\1" + bytes([len(next_hop)]) + next_hop + b"\0" + reached)
        if gone[6]:
            attributes += bmp.attribute(0x80, 15, b"\0\2\1" + unreached)
        if large is not None and (come[4] or come[6]):
            attributes += bmp.attribute(0xc0, 32, struct.pack(">III", bmp.ASN, 1, large))
        withdrawn, routes = (b"".join(octets for _, octets in places) for places in (gone[4], come[4]))
        return self.sent(bmp.monitoring(peer, view, withdrawn, attributes, routes))

    def some(self):
        """Some messages: mostly a few UPDATEs, else a peer that comes or goes, or more steps than are kept."""
        what = self.draw.random()
        if what < 0.1:
            return self.peer_up(self.draw.choice(PEERS))
        if what < 0.2:
            return self.peer_down(self.draw.choice(PEERS))
        if what < 0.22:
            return b"".join(self.peer_up(peer) for peer in PEERS) + b"".join(self.update() for _ in range(KEPT // 2))
        return b"".join(self.update() for _ in range(self.draw.randrange(1, 12)))

    def texts(self):
        return [self.rows[place] for place in sorted(self.rows, key=order)]


def row_text(place, next_hop, path, med, large, is_whole):
    """The row of a route of ours, as a reply has it behind its lane; `large` is the last number of its large community."""
    key, view, prefix, identifier = place
    text = (f"{key} {view} {prefix} next={next_hop} origin=igp path={'_'.join(map(str, path))} med={'-' if med is None else med} pref=- "
            f"atomic=no agg=- comm=- other={'-' if large is None else 32}")
    if identifier is not None:
        text += f" id={identifier}"
    if is_whole:
        text += f" flags={'-' if large is None else 'c0'} large={'-' if large is None else f'{bmp.ASN}:1:{large}'}"
        text += " ext=- otc=- aigp=- originator=- clusters=- raw=-"
    return text


class Copies:
    """Routers and clients of eight lanes. `feed` gives a connection of a lane's router, `client` one of an asker: `ask` of it gives
    the revision and the rows of a reply, and `close` ends it."""

    def __init__(self, feed, client, seconds, seed, is_wrong=False):
        self.feed, self.client, self.is_wrong = feed, client, is_wrong
        self.draws = [[random.Random(f"{seed} {what} {lane}") for lane in range(LANES)] for what in ("router", "client")]
        self.end = time.monotonic() + seconds
        self.resting = [None] * LANES  # a router that rests, an event for the end of its rest, and whether it is the last
        self.is_over = [threading.Event() for _ in range(LANES)]
        self.lock = threading.Lock()
        self.counts = collections.Counter()
        self.faults = []

    def count(self, what, number=1):
        with self.lock:
            self.counts[what] += number

    # a lane's router

    def router(self, lane):
        draw = self.draws[0][lane]
        while True:
            router = Router(draw, lane in WHOLE)
            with self.feed(lane) as connection:
                connection.sendall(router.open())
                for _ in range(draw.randrange(40)):
                    if time.monotonic() > self.end:
                        break
                    connection.sendall(router.some())
                    time.sleep(draw.random() / 10)
                is_last = time.monotonic() > self.end
                if is_last or draw.random() < 0.5:
                    self.rest(lane, router, is_last)
                if is_last or self.faults:
                    return
                self.leave(connection, router)

    def rest(self, lane, router, is_last):
        """Sends nothing until the copy was found to be what was sent."""
        done = threading.Event()
        self.resting[lane] = router, done, is_last
        need(done.wait(SECONDS) or self.faults, f"the router of lane {lane} rests for ever")

    def leave(self, connection, router):
        how = router.draw.choice(["terminated", "closed", "cut short", "reset", "broken"])
        self.count(how)
        if how == "terminated":
            connection.sendall(bmp.termination())
        elif how == "cut short":
            connection.sendall(bmp.peer_up(PEERS[0])[:-5])
        elif how == "broken":
            connection.sendall(b"\4" + bytes(20))
        elif how == "reset":
            bmp.reset(connection)

    # a lane's clients

    def asks(self, lane):
        draw = self.draws[1][lane]
        first, second = self.client(3 * lane), self.client(3 * lane + 1)
        apart = self.client(3 * lane + 2) if lane in APART else first
        followed, waiting, is_late = Followed(lane), [], False
        try:
            while not self.is_over[lane].is_set() and not self.faults:
                resting = self.resting[lane]
                # A client that is late asks once more steps were made than are kept.
                is_late = (is_late or draw.random() < 0.005) and not resting and not followed.is_left_behind(waiting)
                turn = [lambda: waiting.append(told_table(lane, second.ask(asked(lane, f"steps table router {lane}"))[1]))]
                if not is_late:
                    turn.append(lambda: self.poll(lane, followed, first, apart))
                draw.shuffle(turn)
                for ask in turn:
                    ask()
                waiting = [told for told in waiting if not self.compared(followed, *told)]
                if resting:
                    self.judge_rest(lane, resting, followed, second)
                if lane in APART and draw.random() < 0.02:
                    apart.close()
                    apart = self.client(3 * lane + 2)
                if draw.random() < 0.02:
                    time.sleep(draw.random() / 4)
        finally:
            for client in {first, second, apart}:
                client.close()

    def poll(self, lane, followed, first, apart):
        """Asks for the table, or for the changes since."""
        if followed.now is None:
            followed.begin(first.ask(asked(lane, f"steps table router {lane}"))[1])
            self.count("begun")
            return
        since = followed.now.number
        total, missed, steps = told_changes(lane, since, apart.ask(asked(lane, f"changes {lane} {since}"))[1])
        if total < since:
            # What is told last on one connection may be what was told first on another.
            need(lane in APART, f"{total} steps of lane {lane} after {since}")
            self.count("behind")
        elif missed:
            self.count("missed")
            followed.now = None
        else:
            self.count("steps", len(steps))
            followed.follow(total, steps)

    def compared(self, followed, number, texts):
        """Whether nothing more is to be waited for: the copy was compared, or is known no more as it was."""
        if followed.now is None or number > followed.now.number:
            return False
        kept = followed.after(number, self.is_wrong)
        if kept is None:
            self.count("passed over")
            return True
        need(kept == texts, f"lane {followed.lane} after {number} steps: {first_difference(kept, texts)}")
        self.count("compared")
        if number == followed.now.number and followed.wrong.texts() != texts:
            self.count("wrong")
        return True

    def judge_rest(self, lane, resting, followed, client):
        """Where the station has all that a resting router sent, the copy is what that leaves; then the router goes on."""
        router, done, is_last = resting
        if f" live peers={len(router.up)} messages={router.messages} " not in client.ask("routers")[1][lane]:
            return
        number, texts = told_table(lane, client.ask(asked(lane, f"steps table router {lane}"))[1])
        need(texts == router.texts(), f"the table of lane {lane} isn't what was sent: {first_difference(texts, router.texts())}")
        if followed.now is None or followed.now.number != number:
            return
        need(self.is_wrong or followed.now.texts() == texts, f"lane {lane} at rest: {first_difference(followed.now.texts(), texts)}")
        self.count("at rest")
        self.resting[lane] = None
        if is_last:
            self.is_over[lane].set()
        done.set()

    # both

    def guarded(self, work, lane):
        try:
            work(lane)
        except (BrokenPipeError, ConnectionResetError) as fault:
            self.fault(f"{work.__name__} of lane {lane}: the connection broke: {fault}")
        except Exception as fault:  # told in the end
            self.fault(f"{work.__name__} of lane {lane}: {fault}")

    def fault(self, what):
        with self.lock:
            self.faults.append(what)

    def run(self):
        """What is wrong, in a list, and how often each thing happened."""
        works = [threading.Thread(target=self.guarded, args=(work, lane), daemon=True) for work in (self.router, self.asks) for lane in range(LANES)]
        for work in works:
            work.start()
        for work in works:
            work.join(max(0, self.end - time.monotonic()) + 2 * SECONDS)
            if work.is_alive():
                self.fault("a router or a client waits for ever")
                break
        for what in ("compared", "at rest", "missed", "wrong"):
            if not self.faults and not self.counts[what]:
                self.fault({"wrong": "a copy that takes no heed of `down` was never another"}.get(what, f"nothing was {what}"))
        return self.faults, self.counts


def first_difference(kept, wanted):
    for mine, other in zip(kept, wanted):
        if mine != other:
            return f"the copy has {mine!r}, the station {other!r}"
    return f"the copy has {len(kept)} rows, the station {len(wanted)}"
