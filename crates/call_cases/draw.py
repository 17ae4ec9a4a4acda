#!/usr/bin/env python3
"""Draws the last cases of `stdin` and writes their answers into `stdout`.

    crates/call_cases/draw.py [--check]

Behind the line that begins with DRAWN stand cases of `table`, `versions` and `session` of drawn changes, each of which
prints one line. Their answers are those of a dictionary of rows, which is worked from the words of the case by the RFCs
and knows nothing of the libraries. One seed gives the same cases again; both files are written anew from that line on.
With --check nothing is written, and exit status 1 says that the files aren't those of the seed.
"""
import ipaddress
import pathlib
import random
import sys

FOLDER = pathlib.Path(__file__).resolve().parent
SEED = "changes of tables"
DRAWN = "# Drawn by draw.py"
UNTIL = 2**64 - 1

TABLES = [
    "# Changes to tables: a half of the prefixes of a change are new ones of 8 to 24 bits, of both families, some with a",
    "# path identifier; the others had a change before. A fourth of the changes withdraw. Now and then the first prefixes",
    "# of 32 bits are announced, each with attributes of its own. In all 5,000 prefixes, each 250 of them searched at",
    "# drawn places",
]
LONG_TABLES = [
    "# The same, 20,000 prefixes in one table, all of whose routes are shown, and again 5,000",
]
VERSIONS = [
    "# Histories of two peers, of 40 messages and then of 40 more: Peer Ups and Peer Downs, and in each view",
    "# announcements and withdrawals; statistics, names, orphans, and connections that end and begin. The messages of a",
    "# part are taken at once",
]
SESSIONS = ["# The same, 60 messages one by one, and all those up to each of them at once"]


class Draws:
    """Numbers drawn one after another. Of the generator only `random` is used, whose numbers every Python has."""

    def __init__(self, seed):
        self.random = random.Random(seed).random

    def below(self, count):
        return int(self.random() * count)

    def one_of(self, items):
        return items[self.below(len(items))]

    def some_of(self, items, count):
        """So many of the items, none twice."""
        items = list(items)
        return [items.pop(self.below(len(items))) for _ in range(min(count, len(items)))]


# NLRI, as a family, an address as a number, a length and a path identifier, of which none is -1: in this order they are
# sorted.

WIDTHS = {4: 32, 6: 128}
MAKERS = {4: ipaddress.IPv4Address, 6: ipaddress.IPv6Address}


def nlri(family, address, bits, ident=-1):
    past = WIDTHS[family] - bits
    return family, address >> past << past, bits, ident


def text_of(item):
    family, address, bits, ident = item
    return f"{MAKERS[family](address)}/{bits}" + (f"#{ident}" if ident >= 0 else "")


def nlri_of(text):
    prefix, _, ident = text.partition("#")
    address, _, bits = prefix.partition("/")
    address = ipaddress.ip_address(address)
    return nlri(address.version, int(address), int(bits), int(ident) if ident else -1)


def nlris_of(text):
    return [nlri_of(part) for part in text.split("+")]


def rows_text(rows, items):
    return "".join(f" {text_of(item)}={rows[item]}" for item in items)


# What `table` answers.


def numbered(number):
    return nlri(4, number, 32)


def change(rows, text):
    """Makes a change of a text in a dictionary of each NLRI's MULTI_EXIT_DISC."""
    kind, what, *med = text.split(",")
    if kind == "-":
        for item in nlris_of(what):
            rows.pop(item, None)
        return
    for item in map(numbered, range(int(what))) if kind == "first" else nlris_of(what):
        rows[item] = int(med[0])


def from_place(rows, place):
    """The NLRI from a place on, in order."""
    word, _, prefix = place.partition(",")
    if not prefix:
        return sorted(rows)
    place = nlri_of(prefix)
    return sorted(item for item in rows if (item > place if word == "after" else item >= place))


def longest(rows, address):
    """The longest prefix with a route that holds an address (RFC 1812, section 5.2.4.3)."""
    if address == "-":
        return "-"
    address = ipaddress.ip_address(address)
    held = [
        (bits, text_of((family, prefix, bits, -1)))
        for family, prefix, bits, _ in rows
        if family == address.version and nlri(family, int(address), bits)[1] == prefix
    ]
    return max(held)[1] if held else "-"


def answer_table(place, most, asn, address, *changes):
    rows = {}
    for text in changes[:-1]:
        change(rows, text)
    kept = dict(rows)
    change(rows, changes[-1])
    here = from_place(rows, place)
    found = sum(numbered(number) in rows for number in range(5000))
    origins = min(sum(rows[item] % 7 == int(asn) for item in here), 200)
    told = rows_text(rows, here[:int(most)])
    before = rows_text(kept, from_place(kept, place)[:int(most)])
    return f"{len(rows)} {found} {origins} {longest(rows, address)}{told} |{before}"


# What `versions` and `session` answer.

SHOWN = [("adj-in-pre", "InPre"), ("adj-out-post", "OutPost"), ("loc", "Loc")]


class Lane:
    """What a lane's present session has (RFC 7854, section 4), and how many steps its entries made."""

    def __init__(self):
        self.steps = 0
        self.state = "Idle"
        self.begin()

    def begin(self):
        self.messages = self.bytes = self.orphans = 0
        self.name = self.descr = ""
        self.up = {}
        self.rows = {}
        self.statistics = {}
        self.touched = set()

    def forget(self, peer):
        """A Peer Up and a Peer Down end what the peer had (sections 4.9 and 4.10)."""
        for held in (self.rows, self.statistics):
            for key in [key for key in held if key[0] == peer]:
                del held[key]
        self.touched = {key for key in self.touched if key[0] != peer}

    def effect(self, word, *words):
        if word in ("up", "down"):
            self.forget(words[0])
            self.up[words[0]] = word == "up"
            self.steps += 1
        elif word in ("announce", "withdraw"):
            peer, view, prefixes, *attributes = words
            for item in nlris_of(prefixes):
                self.route(peer, view, item, attributes)
        elif word == "stat":
            peer, code, afi, safi, value = words
            if self.up.get(peer):
                self.statistics[peer, int(code), int(afi), int(safi)] = int(value)
        elif word == "name":
            self.name, = words
        elif word == "descr":
            self.descr, = words
        elif word == "orphan":
            self.orphans += 1
        elif word != "mark":
            raise ValueError(word)

    def route(self, peer, view, item, attributes):
        self.steps += 1
        if not self.up.get(peer):
            return
        self.touched.add((peer, view))
        if attributes:
            self.rows[peer, view, item] = int(attributes[0][6:], 16)
        else:
            self.rows.pop((peer, view, item), None)

    def take(self, entry):
        if entry == "open":
            self.begin()
            self.state = "Live"
            self.steps += 1
        elif entry == "close":
            self.begin()
            self.state = "Closed(Ended)"
            self.steps += 1
        else:
            length, *effects = entry.split(";")
            if self.state == "Live":
                self.messages += 1
                self.bytes = min(self.bytes + int(length), UNTIL)
            for effect in effects:
                self.effect(*effect.split(","))

    def table(self, peer, view):
        return {key[2]: med for key, med in self.rows.items() if key[:2] == (peer, view)}

    def is_said(self):
        """Whether each table that had a change has a route: one that has none may be told as a table without rows."""
        return all(self.table(*key) for key in self.touched)

    def told_of(self, peer):
        """Whether a peer is up, its first statistic, and its routes."""
        values = sorted(item for item in self.statistics.items() if item[0][0] == peer)
        told = f"; {peer} {'true' if self.up.get(peer) else 'false'} {f'Some({values[0][1]})' if values else 'None'}"
        for view, name in SHOWN:
            rows = self.table(peer, view)
            if rows:
                told += f" {name}:" + rows_text(rows, sorted(rows)[:100])
        return told

    def told(self):
        counts = (
            f"Counts {{ messages: {self.messages}, bytes: {self.bytes}, orphans: {self.orphans}, "
            "unread: 0, mirrored: 0, passed: 0 }"
        )
        peers = self.told_of("0") + self.told_of("1")
        return f"{self.state} {self.steps} {counts} {self.name} {self.descr}{peers}"

    def digits(self):
        tables = [("0", "adj-in-pre"), ("0", "adj-in-post"), ("1", "adj-in-pre")]
        return "".join(str(len(self.table(*key))) for key in tables)


def answer_versions(*entries):
    lane = Lane()
    at = entries.index("/")
    for entry in entries[:at]:
        lane.take(entry)
    kept = lane.told()
    for entry in entries[at + 1:]:
        lane.take(entry)
    return f"true true {lane.told()} | {kept}"


def answer_session(*entries):
    lane = Lane()
    out = ""
    for entry in entries:
        lane.take(entry)
        out += f" {lane.digits()}/{lane.digits()}"
    return f"{out} true"


ANSWERS = {"table": answer_table, "versions": answer_versions, "session": answer_session}


def answer(case):
    word, *words = case.split(" ")
    return ANSWERS[word](*words)


# What is drawn.


def new_nlri(draws):
    bits = 8 + draws.below(17)
    ident = draws.below(3) if draws.below(4) == 0 else -1
    if draws.below(4) == 0:
        return nlri(6, 0x20 << 120 | draws.below(65536) << 104, bits, ident)
    return nlri(4, (10 + draws.below(4)) << 24 | draws.below(65536) << 8, bits, ident)


def drawn_place(draws, seen):
    """A place to begin at, and an address to seek: of an NLRI that had a change, or of a new one."""
    at = draws.one_of(seen) if draws.below(2) else new_nlri(draws)
    family, address, bits, _ = at
    address |= draws.below(1 << 16) << WIDTHS[family] - 32
    return f"{draws.one_of(['from', 'after'])},{text_of(at[:3] + (-1,))}", MAKERS[family](address)


def drawn_change(draws, seen, count, med):
    if draws.below(60) == 0:
        return f"first,{1 + draws.below(300)},{med}"
    items = [draws.one_of(seen) if seen and draws.below(2) else new_nlri(draws) for _ in range(count)]
    seen.extend(items)
    prefixes = "+".join(map(text_of, items))
    return f"-,{prefixes}" if draws.below(4) == 0 else f"+,{prefixes},{med}"


def drawn_table(draws, prefixes, size, most, from_first):
    """A table of changes to so many prefixes, and then one to a third of those that it has."""
    seen, changes, left, med = [], [], prefixes, 0
    while left:
        count = min(left, 1 + draws.below(size))
        med += 1
        changes.append(drawn_change(draws, seen, count, med))
        left -= 0 if changes[-1].startswith("first") else count
    rows = {}
    for text in changes:
        change(rows, text)
    third = "+".join(map(text_of, draws.some_of(sorted(rows), len(rows) // 3)))
    changes.append(f"-,{third}" if draws.below(2) else f"+,{third},{med + 1}")
    place, address = drawn_place(draws, seen)
    if from_first:
        place = "first"
    return " ".join(["table", place, str(most), str(draws.below(8)), str(address), *changes])


VIEWS = ["adj-in-pre", "adj-in-post", "adj-out-pre", "adj-out-post", "loc"]


def drawn_nlri(draws):
    number = draws.below(9)
    kind = draws.below(4)
    if kind == 0:
        return nlri(6, 0x20010DB8 << 96 | number << 80, 48)
    return nlri(4, 10 << 24 | number << 16, 16, 7 if kind == 1 else -1)


def drawn_effect(draws, views, pool):
    peer = draws.below(2)
    kind = draws.below(32)
    if kind < 2:
        return f"{['up', 'down'][kind]},{peer}"
    if kind < 4:
        return f"stat,{peer},{draws.below(9)},{draws.below(3)},1,{draws.below(1 << 30)}"
    if kind == 4:
        return draws.one_of(["orphan", f"name,r{draws.below(9)}", f"descr,test{draws.below(9)}"])
    prefixes = "+".join(text_of(pool(draws)) for _ in range(1 + draws.below(3)))
    view = draws.one_of(views)
    if kind < 13:
        return f"withdraw,{peer},{view},{prefixes}"
    return f"announce,{peer},{view},{prefixes},800404{draws.below(1 << 32):08x}"


def drawn_entries(draws, count, views, pool):
    """So many messages, and where a connection ends between them, the end and the beginning of the next."""
    entries = []
    for _ in range(count):
        if draws.below(80) == 0:
            entries += ["close", "open", "48;up,0", "48;up,1"]
        effects = [drawn_effect(draws, views, pool) for _ in range(1 + draws.below(3))]
        entries.append(";".join([str(6 + draws.below(4000)), *effects]))
    return entries


def drawn_versions(draws):
    """Drawn anew until each table that had a change has a route where it is shown."""
    while True:
        first = ["open", "48;up,0", "48;up,1", *drawn_entries(draws, 40, VIEWS, drawn_nlri)]
        second = drawn_entries(draws, 40, VIEWS, drawn_nlri)
        lane = Lane()
        are_said = []
        for part in first, second:
            for entry in part:
                lane.take(entry)
            are_said.append(lane.is_said())
        if all(are_said):
            return " ".join(["versions", *first, "/", *second])


def drawn_session(draws):
    entries = drawn_entries(draws, 60, VIEWS[:2], lambda draws: nlri(4, 10 << 24 | draws.below(9) << 16, 16))
    return " ".join(["session", "open", "48;up,0", "48;up,1", *entries])


def drawn():
    """The lines behind the mark, comments and cases."""
    draws = Draws(SEED)
    lines = [f"{DRAWN}, with the answers of a dictionary of rows."]
    lines += TABLES + [drawn_table(draws, 250, 5, 12, number % 4 == 0) for number in range(20)]
    lines += LONG_TABLES + [drawn_table(draws, count, 19, 9999, True) for count in (20_000, 5_000)]
    lines += VERSIONS + [drawn_versions(draws) for _ in range(12)]
    lines += SESSIONS + [drawn_session(draws) for _ in range(4)]
    return lines


def cases_of(lines):
    return [line for line in lines if not line.startswith("#")]


def main():
    cases, answers = FOLDER / "stdin", FOLDER / "stdout"
    old_cases, old_answers = cases.read_text().splitlines(), answers.read_text().splitlines()
    marks = [at for at, line in enumerate(old_cases) if line.startswith(DRAWN)]
    at = marks[0] if marks else len(old_cases)
    count = len(cases_of(old_cases[at:]))
    lines = drawn()
    new_cases = old_cases[:at] + lines
    new_answers = old_answers[:len(old_answers) - count] + [answer(case) for case in cases_of(lines)]
    if "--check" in sys.argv[1:]:
        return int((old_cases, old_answers) != (new_cases, new_answers))
    cases.write_text("\n".join(new_cases) + "\n")
    answers.write_text("\n".join(new_answers) + "\n")
    return 0


sys.exit(main())
