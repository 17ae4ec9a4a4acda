"""Follows all lanes of a station: what changed is folded to one row a key, for whoever writes it somewhere. It is no part of what is
proved.

`Follower` reads on one connection, and never waits for a writer. Where a lane begins its table is asked for on a second connection of the
same run of the station, while the changes go on: of these the ones from the table's step on are applied. That a copy which is kept so is
exact at each reply is proved (docs/PROOFS.md).
"""
import contextlib
import os
import re
import socket
import threading
import time
import traceback
import uuid

from bmplines import Station, StationError, UnknownLine, Unreachable, check_reply, key_of, parse

# The step that no lane reaches: asked from there, a lane tells its number of steps alone.
NO_STEP = 2**64 - 1
# How long to wait between two rounds: less where many steps came, more where few did. A lane keeps 1,024 steps, so none is missed where
# a router that said nothing begins to make 10,000 a second.
LEAST_WAIT, MOST_WAIT = 0.002, 0.1
FEW, MANY, VERY_MANY = 64, 256, 512
PLACE = re.compile(r"(?:adj-in-pre|adj-in-post|adj-out-pre|adj-out-post|loc) [0-9a-f.:]+/[0-9]+(?: id=[0-9]+)?")
# How long to wait before a connection is tried for again, at first and at most.
FIRST_PAUSE, MOST_PAUSE = 0.1, 10.0


class Broken(Exception):
    """The run is over: a connection to the station is gone."""


class Fold:
    """Steps of a lane, one after another, as one: what they take away at first, and what each place that they speak of has in the end,
    which is a text or nothing. Places are those of a peer, behind its key."""

    def __init__(self):
        self.is_all = False
        self.cleared = set()
        self.peers = {}
        self.count = 0

    def clear(self):
        """The lane opened or closed: it has no rows."""
        self.is_all = True
        self.cleared.clear()
        self.peers.clear()
        self.count = 0

    def clear_peer(self, peer):
        self.count -= len(self.peers.pop(peer, ()))
        if not self.is_all:
            self.cleared.add(peer)

    def put(self, peer, place, text):
        """What the place has now: a text, or None."""
        rows = self.peers.setdefault(peer, {})
        before = len(rows)
        rows[place] = text
        self.count += len(rows) - before

    def then(self, later):
        """Adds what came later."""
        if later.is_all:
            self.clear()
        for peer in later.cleared:
            self.clear_peer(peer)
        for peer, rows in later.peers.items():
            for place, text in rows.items():
                self.put(peer, place, text)

    def has_cleared(self, peer):
        return self.is_all or peer in self.cleared

    def step(self, words):
        """Adds a step, by its words behind its number: at most four, the last one the rest."""
        what = words[0]
        if what == "announce":
            peer, view, rest = words[1:]
            prefix, _, text = rest.partition(" ")
            identifier, attributes = split_attributes(text)
            self.put(*place_of(peer, view, prefix, identifier), attributes)
        elif what == "withdraw":
            peer, view, rest = words[1:]
            prefix, *more = rest.split(" ")
            identifier = f" {more[0]}" if more and more[0].startswith("id=") else ""
            self.put(*place_of(peer, view, prefix, identifier), None)
        elif what in ("up", "down"):
            self.clear_peer(words[1])
        elif what in ("opened", "closed"):
            self.clear()
        else:
            raise UnknownLine(" ".join(words))


def place_of(peer, view, prefix, identifier):
    """A peer's key and a place of it."""
    place = f"{view} {prefix}{identifier}"
    if not PLACE.fullmatch(place):
        raise UnknownLine(place)
    return key_of(peer), place


def split_attributes(text):
    """The path identifier in a whole line's attributes as the end of a place, ` id=I` or nothing, and the attributes without it and
    without the times of the step, as a `route` line has them."""
    other, flags = text.find(" other="), text.find(" flags=")
    if not 0 < other < flags:
        raise UnknownLine(text)
    end = text.index(" ", other + 1)
    if end == flags:
        return "", text
    identifier = ""
    for word in text[end + 1:flags].split(" "):
        if word.startswith("id="):
            identifier = " " + word
        elif not word.startswith(("seen=", "told=")):
            raise UnknownLine(text)
    return identifier, text[:end] + text[flags:]


class Lane:
    """What is known of a lane: how many steps it made, and those that wait for the writer, folded. Where these are lost, or the writer
    never had a table, `fold` is None."""

    def __init__(self, number):
        self.number = number
        self.entries = self.asked = 0
        self.total = self.revision = 0
        self.fold = None
        # The steps that came since a table was asked for that hasn't told its step yet.
        self.early = None
        # The step from which on those are kept that come early.
        self.floor = 0
        # The step of the table, before which none is applied, and the one up to which the writer has them.
        self.base = self.taken = 0
        # When the first step came that the writer doesn't have, and that it hasn't asked for.
        self.late = self.later = None

    @property
    def is_followed(self):
        return self.fold is not None or self.early is not None

    def lose(self):
        self.fold = self.early = None


class Run:
    """One run of the station: two connections that were open without a break."""

    def __init__(self, follower):
        self.follower = follower
        self.name = uuid.uuid4().hex
        self.is_broken = False
        self.lock = threading.Lock()
        self.lanes = {}
        self.stirred = True
        with contextlib.ExitStack() as stack:
            self.changes = stack.enter_context(follower.connect())
            self.tables = stack.enter_context(follower.connect())
            self.cut()
            for lane in self.lanes.values():
                self.poll(lane)
            stack.pop_all()

    def end(self):
        self.is_broken = True
        self.changes.shut()
        self.tables.shut()

    # On the first connection, by the reader.

    def cut(self):
        """How many entries each lane has."""
        at, *rows, end = [parse(line) for line in self.changes.ask("cut")]
        check_reply(at, len(rows), end)
        for row in rows:
            lane = self.lanes.get(row["router"])
            if lane is None:
                lane = self.lanes[row["router"]] = Lane(row["router"])
            lane.entries = row["entries"]
        self.revision = at["revision"]

    def poll(self, lane):
        """What came since, if anything did; the number of steps."""
        if lane.entries == lane.asked:
            return 0
        asked, since = lane.entries, lane.total if lane.is_followed else NO_STEP
        at, *lines, end = [line.decode("ascii") for line in self.changes.ask(f"full changes {lane.number} {since}")]
        revision, total, missed, steps = changes_of(lane.number, since, at, lines, end)
        now = time.monotonic()
        with self.lock:
            lane.asked = asked
            came = total - lane.total
            if came and lane.late is None:
                lane.late = now
            if came and lane.later is None:
                lane.later = now
            # A table may have been asked for since this was asked: it is to tell a step that isn't before this one.
            if since == NO_STEP:
                lane.floor = total
            elif missed:
                if lane.is_followed:
                    self.follower.count("missed", lane.number)
                lane.lose()
            elif lane.early is not None:
                lane.early += steps
            elif lane.fold is not None:
                self.apply(lane, steps)
            if any(step[0] not in ("announce", "withdraw") for _, step in steps) or missed or since == NO_STEP:
                self.stirred = True
            lane.total, lane.revision = total, revision
        return came

    def apply(self, lane, steps):
        for number, words in steps:
            if number >= lane.base:
                lane.fold.step(words)

    def bound(self):
        """Of what waits no more than so many rows: a lane that has most begins anew when its turn comes."""
        with self.lock:
            folds = [lane for lane in self.lanes.values() if lane.fold is not None]
            waiting = sum(lane.fold.count for lane in folds)
            while waiting > self.follower.most_rows:
                lane = max(folds, key=lambda one: one.fold.count)
                waiting -= lane.fold.count
                folds.remove(lane)
                lane.lose()
                self.follower.count("missed", lane.number)

    # For the writer.

    def table(self, lane):
        """The table of a lane: its revision, its step and its rows as they come, each a peer, a place and a text. From its step on the
        changes are kept."""
        with self.told():
            with self.lock:
                lane.fold, lane.early, lane.floor = None, [], lane.total
            try:
                # What is told last on one connection may be what was told first on another.
                while True:
                    _, total, _, _ = changes_of(lane.number, NO_STEP, *split_reply(self.tables.ask(f"full changes {lane.number} {NO_STEP}")))
                    if total >= lane.floor:
                        break
                    time.sleep(LEAST_WAIT)
                reply = self.tables.ask(f"steps full table router {lane.number}")
                revision = parse(next(reply))["revision"]
                first = parse(next(reply))
                if first["line"] != "steps" or first["router"] != lane.number:
                    raise UnknownLine(f"a table of lane {lane.number} that begins with {first}")
            except BaseException:
                with self.lock:
                    lane.lose()
                raise
            with self.lock:
                lane.base = lane.taken = first["steps"]
                if lane.base < lane.floor:
                    lane.lose()
                if lane.early is not None:
                    lane.fold, steps, lane.early = Fold(), lane.early, None
                    self.apply(lane, steps)
                lane.later = None if lane.total <= lane.base else time.monotonic()
        return revision, first["steps"], self.rows(lane.number, reply)

    def rows(self, router, reply):
        front = f"route {router} "
        count = 1
        with self.told():
            for line in reply:
                text = line.decode("ascii")
                if text.startswith("end "):
                    if text != f"end {count}":
                        raise UnknownLine(f"{text} behind {count} lines")
                    return
                if not text.startswith(front):
                    raise UnknownLine(text)
                words = text[len(front):].split(" ", 3)
                if len(words) != 4:
                    raise UnknownLine(text)
                identifier, attributes = split_attributes(words[3])
                count += 1
                yield *place_of(*words[:3], identifier), attributes

    def take(self, lane):
        """What waits, with the step and the revision after it: None where nothing came, or a table is wanted."""
        with self.lock:
            if lane.fold is None or lane.total < lane.base or lane.total == lane.taken:
                return None
            fold, lane.fold = lane.fold, Fold()
            lane.taken, lane.later = lane.total, None
            return fold, lane.total, lane.revision

    def give_back(self, lane, fold, step):
        """What was taken waits again: it couldn't be written."""
        with self.lock:
            if lane.fold is not None:
                fold.then(lane.fold)
                lane.fold, lane.taken = fold, step

    def give_up(self, lane):
        """What waits is dropped: the lane begins anew when its turn comes."""
        with self.lock:
            lane.lose()

    def has_written(self, lane):
        """The writer has all that it took."""
        with self.lock:
            lane.late = lane.later

    def facts(self):
        """What the station says of its routers and peers: the replies to `routers`, `peers` and `marks`, each with its revision."""
        with self.lock:
            self.stirred = False
        with self.told():
            return [self.tables.rows(query) for query in ("routers", "peers", "marks")]

    def ask(self, query):
        with self.told():
            return self.tables.rows(query)

    @contextlib.contextmanager
    def told(self):
        """Faults of the second connection end the run."""
        try:
            yield
        except (Unreachable, StationError, UnknownLine, ValueError) as fault:
            if not self.is_broken:
                self.follower.say(fault)
            self.end()
            raise Broken(fault) from fault


def split_reply(reply):
    at, *lines, end = [line.decode("ascii") for line in reply]
    return at, lines, end


def changes_of(router, since, at, lines, end):
    """The revision, the lane's number of steps, how many of those that were asked for are missed, and the others: each its number and its
    words."""
    head = at.split(" ")
    first = lines[0].split(" ") if lines else []
    if head[0] != "at" or first[:2] != ["steps", str(router)] or end != f"end {len(lines)}":
        raise UnknownLine(f"a reply to `full changes {router} {since}` with {at}, {lines[:1]} and {end}")
    total, missed, place = int(first[2]), 0, 1
    if len(lines) > 1 and lines[1].startswith("missed "):
        missed, place = int(lines[1].removeprefix("missed ")), 2
    steps = []
    number = since + missed
    for line in lines[place:]:
        words = line.split(" ", 6)
        if words[:3] != ["change", str(router), str(number)]:
            raise UnknownLine(f"step {number} of lane {router} is {line}")
        steps.append((number, words[3:]))
        number += 1
    if since != NO_STEP and number != total:
        raise UnknownLine(f"{number} steps of lane {router} in place of {total}")
    return int(head[1]), total, missed, steps


class Link(Station):
    """A connection that another thread may end."""

    def shut(self):
        with contextlib.suppress(OSError):
            self.socket.shutdown(socket.SHUT_RDWR)


class Follower:
    """Reads what a station tells, run after run, in a thread of its own."""

    def __init__(self, host, port, seconds, say, most_rows, most_wait=MOST_WAIT):
        self.host, self.port, self.seconds, self.say, self.most_rows = host, port, seconds, say, most_rows
        self.most_wait = max(LEAST_WAIT, min(most_wait, MOST_WAIT))
        self.counts = {}
        self.changed = threading.Condition()
        self.run = None
        self.is_over = False

    def connect(self):
        return Link(self.host, self.port, self.seconds)

    def count(self, what, router, number=1):
        self.counts[what, router] = self.counts.get((what, router), 0) + number

    def start(self):
        threading.Thread(target=self.guarded, daemon=True).start()

    def guarded(self):
        """A copy that nobody keeps up is worse than none."""
        try:
            self.follow()
        except BaseException:
            traceback.print_exc()
            os._exit(1)

    def follow(self):
        pause, said = FIRST_PAUSE, None
        while True:
            begun = time.monotonic()
            try:
                run = Run(self)
                said = None
                with self.changed:
                    self.run = run
                    self.changed.notify_all()
                self.read(run)
            except (Unreachable, StationError, UnknownLine, ValueError) as fault:
                if str(fault) != said and not (self.run and self.run.is_broken):
                    self.say(fault)
                    said = str(fault)
            with self.changed:
                if self.run is not None:
                    self.run.end()
                self.run = None
            if time.monotonic() - begun > MOST_PAUSE:
                pause = FIRST_PAUSE
            time.sleep(pause)
            pause = min(2 * pause, MOST_PAUSE)

    def read(self, run):
        wait = self.most_wait
        while not run.is_broken:
            run.cut()
            most = max(map(run.poll, list(run.lanes.values())), default=0)
            run.bound()
            if most > MANY:
                wait = max(LEAST_WAIT, wait / 2)
            elif most < FEW:
                wait = min(self.most_wait, wait * 2)
            if most <= VERY_MANY:
                time.sleep(wait)

    def wait(self, seconds):
        """The present run, when there is one; None where there is none in so many seconds."""
        with self.changed:
            self.changed.wait_for(lambda: self.run is not None, seconds)
            return self.run
