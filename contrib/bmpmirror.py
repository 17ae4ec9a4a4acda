"""Keeps a copy of a station's tables somewhere else: what is written, where it differs, and when. It is no part of what is proved.

An output is one engine behind a few calls (`Output`). `Writer` hands on to it, lane by lane, what `bmpfollow` has read: a whole table
where a lane begins, then what changed, each with a mark that says at which step and revision the copy is the station's table.
"""
import collections
import contextlib
import datetime
import functools
import hashlib
import json
import os
import time

from bmpfollow import FIRST_PAUSE, MOST_PAUSE, Broken
from bmplines import UnknownLine, attributes_of

# How long the rows of routers and peers may be old, and how often a lane that is held is looked at.
FACTS_SECONDS = 10
HELD_SECONDS = 0.5

# The copy of a lane is the station's table after this step of this run, at this revision, and has so many rows.
Mark = collections.namedtuple("Mark", "run step revision rows")


class Away(Exception):
    """The engine can't be reached, or went away: it is tried for again."""


class Taken(Exception):
    """Something else writes the copy of this station."""


class Done(Exception):
    """Nobody takes what is written any more."""


def now():
    """The time of this machine, in UTC."""
    return datetime.datetime.now(datetime.timezone.utc).isoformat(timespec="milliseconds").replace("+00:00", "Z")


# Keys and values, as JSON of one form: equal rows are equal bytes.


def as_json(value):
    return json.dumps(value, separators=(",", ":"))


@functools.lru_cache(maxsize=65536)
def attributes_text(text):
    """What a value has behind `id`, without its first bracket. A number of 64 bits is a text, since some readers of JSON keep 53."""
    fields = dict(attributes_of(text))
    if fields["aigp"] is not None:
        fields["aigp"] = str(fields["aigp"])
    return as_json(fields)[1:]


def split_words(place):
    """The view, the prefix and the path identifier of a place, which is a text of digits or None."""
    view, prefix, *more = place.split(" ")
    return view, prefix, more[0].removeprefix("id=") if more else None


class Texts:
    """The keys and values of a station. Peers, views and prefixes have no character that JSON would write otherwise."""

    def __init__(self, station):
        self.station = station

    def key(self, router, *words):
        return " ".join((self.station, str(router), *words))

    def head(self, kind, router):
        return f'{{"kind":"{kind}","station":"{self.station}","router":{router}'

    def route(self, router, peer, place, attributes):
        view, prefix, identifier = split_words(place)
        return (f'{self.head("route", router)},"peer":"{peer}","view":"{view}","prefix":"{prefix}","id":{identifier or "null"},'
                f"{attributes_text(attributes)}")

    def mark(self, router, mark):
        return as_json({"kind": "mark", "station": self.station, "router": router, **mark._asdict(), "time": now()})

    def facts(self, facts):
        """The keys of the routers and peers, each with its value, which has the revision at which the station said so."""
        routers, peers, marks = facts
        complete = complete_of(marks[1])
        for row in routers[1]:
            if row["state"] != "idle":
                yield self.key(row["router"], "router"), self.fact("router", routers[0], row)
        for row in peers[1]:
            of = complete.get((row["router"], row["peer"]), [])
            yield self.key(row["router"], row["peer"]), self.fact("peer", peers[0], row | {"complete": of})

    def fact(self, kind, revision, row):
        fields = {name: value for name, value in row.items() if name not in ("line", "router")}
        return f'{self.head(kind, row["router"])},{as_json(fields | {"revision": revision})[1:]}'


def complete_of(marks):
    """Of each peer its tables whose End-of-RIB came."""
    found = {}
    for mark in marks:
        if mark["complete"]:
            found.setdefault((mark["router"], mark["peer"]), []).append(f"{mark['view']}/{mark['family']}")
    return found


# Where it is written.


class Output:
    """An engine. Each call but `close` may raise `Away`, after which `open` is called and then `have` of all lanes; and `Taken`."""

    def __init__(self, station, say):
        self.texts, self.say = Texts(station), say

    def open(self):
        """Connects, and makes what isn't there."""

    def close(self):
        """Ends the connection, if there is one."""

    def have(self):
        """The mark of each lane that it has rows or a mark of: None where it is not known what the rows are."""
        return {}

    def table(self, router, rows, mark_of, held):
        """Makes the copy of a lane these rows, each a peer, a place and attributes, where it differs; then writes the mark that `mark_of`
        gives for the number of rows. `held` is the mark that is there now, or None. Gives the mark, and how many rows differed."""
        raise NotImplementedError

    def changes(self, router, fold, mark_of, held):
        """The same for what changed since `held`."""
        raise NotImplementedError

    def facts(self, facts):
        """Writes what routers and peers there are, where it differs."""
        raise NotImplementedError


class Keyed(Output):
    """An engine that has values by keys. What it has is known by a digest of each value, and only what differs is put."""

    def __init__(self, station, say):
        super().__init__(station, say)
        # Nobody can look for two values of one digest.
        self.secret = os.urandom(32)
        self.lanes = collections.defaultdict(Known)
        self.told = {}

    def put(self, router, key, value):
        """Puts a value, or takes the key away where it is None."""
        raise NotImplementedError

    def put_mark(self, router, mark, held):
        """Puts the mark once all before it is there, and waits until it is there too."""
        raise NotImplementedError

    def flush(self):
        """Waits until all that was put is there."""

    def digest(self, value):
        return hashlib.blake2b(value.encode("ascii"), digest_size=16, key=self.secret).digest()

    def take_all(self, router, known, peer=None, stays=()):
        """Takes away all rows that are known, or those of a peer, but these."""
        for one in list(known.peers) if peer is None else (peer,):
            for place in [place for place in known.peers.get(one, ()) if place not in stays]:
                known.forget(one, place)
                self.put(router, self.texts.key(router, one, place), None)

    def table(self, router, rows, mark_of, held):
        old, new, count = self.lanes[router], Known(), 0
        try:
            for peer, place, attributes in rows:
                value = self.texts.route(router, peer, place, attributes)
                digest = self.digest(value)
                if old.forget(peer, place) != digest:
                    self.put(router, self.texts.key(router, peer, place), value)
                    count += 1
                new.learn(peer, place, digest)
            count += old.count
            self.take_all(router, old)
        finally:
            # Where it was broken off it has what is new, and what of the old wasn't spoken of.
            for peer, places in old.peers.items():
                for place, digest in places.items():
                    new.learn(peer, place, digest)
            self.lanes[router] = new
        return self.finish(router, mark_of, held, count)

    def changes(self, router, fold, mark_of, held):
        known = self.lanes[router]
        before, count = known.count, 0
        for peer in list(known.peers) if fold.is_all else fold.cleared:
            self.take_all(router, known, peer, fold.peers.get(peer, ()))
        count += before - known.count
        for peer, rows in fold.peers.items():
            for place, attributes in rows.items():
                count += self.change(router, known, peer, place, attributes)
        return self.finish(router, mark_of, held, count)

    def change(self, router, known, peer, place, attributes):
        """Makes one row this, or none; gives 1 where it differed."""
        if attributes is None:
            if known.forget(peer, place) is None:
                return 0
            value = None
        else:
            value = self.texts.route(router, peer, place, attributes)
            digest = self.digest(value)
            if known.peers.get(peer, {}).get(place) == digest:
                return 0
            known.learn(peer, place, digest)
        self.put(router, self.texts.key(router, peer, place), value)
        return 1

    def finish(self, router, mark_of, held, count):
        mark = mark_of(self.lanes[router].count)
        self.put_mark(router, mark, held)
        return mark, count

    def facts(self, facts):
        found = dict(self.texts.facts(facts))
        for key, value in found.items():
            if self.told.get(key) != value:
                self.put(router_in(key), key, value)
        for key in self.told.keys() - found.keys():
            self.put(router_in(key), key, None)
        self.flush()
        self.told = found


def router_in(key):
    return int(key.split(" ")[1])


class Known:
    """What an engine has of a lane: of each peer the digests of its rows, by their places."""

    def __init__(self):
        self.peers = {}
        self.count = 0

    def learn(self, peer, place, digest):
        rows = self.peers.setdefault(peer, {})
        self.count += place not in rows
        rows[place] = digest

    def forget(self, peer, place):
        """The digest that is known no more, or None."""
        rows = self.peers.get(peer, {})
        digest = rows.pop(place, None)
        self.count -= digest is not None
        if not rows:
            self.peers.pop(peer, None)
        return digest


# Who writes it.


class Copy:
    """What the writer knows of the copy of a lane."""

    def __init__(self):
        # Whether the engine has anything of it; the mark that stands there, and what was handed on behind it of which nobody knows whether
        # it is there.
        self.is_there = False
        self.held = None
        self.unsure = None
        # In which run of the station it was begun, and when it is looked at again, and at last begun, where it is held.
        self.run = None
        self.look = self.until = None


class Writer:
    """Writes what a follower reads, from one run of the station to the next, whatever happens to the engine."""

    def __init__(self, follower, output, interval, hold, say):
        self.follower, self.output, self.interval, self.hold, self.say = follower, output, interval, hold, say
        self.copies = collections.defaultdict(Copy)
        self.is_open = False
        self.facts_at = self.facts_run = None

    def work(self):
        """Until something else writes the copy, or nobody takes it."""
        with contextlib.closing(self.output):
            while True:
                begun = time.monotonic()
                run = self.follower.wait(1)
                if run is not None:
                    with contextlib.suppress(Broken):
                        self.turn(run)
                time.sleep(max(0, self.interval - (time.monotonic() - begun)))

    def turn(self, run):
        """Writes what waits, of all lanes; the engine is tried for again until it takes it, or the run is over."""
        pause, said = FIRST_PAUSE, None
        while not run.is_broken:
            try:
                if not self.is_open:
                    self.open(run)
                    if said:
                        self.say("the engine is back")
                self.write(run)
                return
            except Away as fault:
                if str(fault) != said:
                    self.say(fault)
                    said = str(fault)
            except (UnknownLine, ValueError, KeyError) as fault:
                # A station that is newer than its mirror.
                self.say(f"attributes of no known form: {fault}")
                run.end()
            self.is_open = False
            self.output.close()
            time.sleep(pause)
            pause = min(2 * pause, MOST_PAUSE)

    def open(self, run):
        """Connects to the engine, and finds out what it has."""
        self.output.open()
        marks = self.output.have()
        for router in marks.keys() | self.copies.keys():
            self.judge(run, router, self.copies[router], marks.get(router), router in marks)
        self.is_open = True
        self.facts_at = None

    def judge(self, run, router, copy, found, is_there):
        """What the copy of a lane is by the mark that the engine has: what was handed on last, what was before it, or another's."""
        unsure, copy.unsure = copy.unsure, None
        copy.is_there = copy.is_there or is_there
        if unsure is not None and found is not None and found[:2] == unsure.after[:2]:
            copy.held, copy.run = found, found.run
        elif copy.held is None or copy.run is None:
            # Nothing was written yet: what is there is taken over.
            copy.held = found
        elif found is None or found[:2] != copy.held[:2]:
            if found is not None:
                raise Taken(self.other(router, found))
            copy.held = copy.run = None
        elif unsure is not None and unsure.fold is not None and copy.run == run.name:
            run.give_back(run.lanes[router], unsure.fold, copy.held.step)
        elif unsure is not None:
            copy.run = None

    def other(self, router, found):
        return f"another bmp-mirror writes lane {router} of {self.output.texts.station}: run {found.run}, step {found.step}"

    def write(self, run):
        for router in sorted(run.lanes.keys() | self.copies.keys()):
            self.write_lane(run, router)
        self.write_facts(run)

    def write_lane(self, run, router):
        lane, copy = run.lanes.get(router), self.copies[router]
        if lane is None or not lane.entries and not lane.total:
            # The station has no such lane, or it was never opened: it has no rows.
            if copy.is_there and copy.run != run.name and self.is_free(run, router, copy, None):
                self.put(run, copy, router, lambda mark_of, held: self.output.table(router, (), mark_of, held), None, 0, run.revision)
            return
        if copy.run == run.name and lane.fold is not None:
            taken = run.take(lane)
            if taken is None:
                return
            fold, step, revision = taken
            if fold.is_all and self.hold:
                run.give_up(lane)
            else:
                self.put(run, copy, router, lambda mark_of, held: self.output.changes(router, fold, mark_of, held), fold, step, revision)
                run.has_written(lane)
                return
        if self.is_free(run, router, copy, lane):
            self.begin(run, router, copy, lane)

    def begin(self, run, router, copy, lane):
        revision, step, rows = run.table(lane)
        self.follower.count("begun", router)
        try:
            self.put(run, copy, router, lambda mark_of, held: self.output.table(router, rows, mark_of, held), None, step, revision)
            run.has_written(lane)
        except Away:
            # What is left of the reply is read, so that the connection can be asked again.
            for _ in rows:
                pass
            raise

    def put(self, run, copy, router, write, fold, step, revision):
        """Hands on, and keeps in mind what isn't known to be there until it is."""
        copy.unsure, copy.is_there = Unsure(Mark(run.name, step, revision, 0), fold), True
        try:
            copy.held, count = write(lambda rows: Mark(run.name, step, revision, rows), copy.held)
        except Broken:
            # The station is gone in the middle of a table. The mark stays, and so does what the output knows.
            copy.unsure = None
            raise
        copy.unsure, copy.run = None, run.name
        copy.until = None
        self.follower.count("written", router, count)

    def is_free(self, run, router, copy, lane):
        """Whether a lane that begins is handed on: not before its tables are complete, or as many seconds passed as it is held at most."""
        if not self.hold or copy.held is None:
            return True
        present = time.monotonic()
        if copy.until is None:
            copy.until, copy.look = present + self.hold, present
        if present >= copy.until:
            return True
        if lane is None or present < copy.look:
            return False
        copy.look = present + HELD_SECONDS
        state = [row["state"] for row in run.ask("routers")[1] if row["router"] == router]
        marks = run.ask(f"marks router {router}")[1] if state == ["live"] else []
        return bool(marks) and all(mark["complete"] for mark in marks)

    def write_facts(self, run):
        present = time.monotonic()
        if self.facts_at is not None and self.facts_run is run and not run.stirred and present < self.facts_at + FACTS_SECONDS:
            return
        self.output.facts(run.facts())
        self.facts_at, self.facts_run = present, run


Unsure = collections.namedtuple("Unsure", "after fold")
