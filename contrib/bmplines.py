"""The lines of a bmpstation, and a client that asks for them. It is no part of what is proved.

`parse` gives for each line of a reply its fields by the names of docs/QUERIES.md, with numbers as numbers
and lists as lists, and raises `UnknownLine` for a line that it doesn't know. `Station` holds one connection
and gives the reply of a query.
"""
import collections
import datetime
import functools
import ipaddress
import re
import socket
import time

# Of a query, and of a line of a reply: a BGP message of 65,535 bytes can't give as much text.
MOST_LINE = 1024
# The greatest AS number, and the greatest part of a large community.
MOST_NUMBER = 2**32 - 1
MOST_REPLY_LINE = 1 << 20
PIECE = 1 << 18
# How long to wait before a connection is tried for again.
PAUSE = 1

# The selectors, in the order in which they stand, and the queries that take all of them.
SELECTORS = ("router", "peer", "view", "family")
VIEWS = ("adj-in-pre", "adj-in-post", "adj-out-pre", "adj-out-post", "loc")
SELECTED = ("marks", "table", "count", "prefix", "match", "within", "origin")
# The selectors of path attributes, which stand behind these, in their order.
ATTRIBUTE_SELECTORS = ("through", "community", "other")
# The words that stand in front of a query, in their order.
FRONT = ("steps", "full")

ROUTE_FIELDS = ("next", "origin", "path", "med", "pref", "atomic", "agg", "comm", "other")
# What a whole line has of a route behind these, each with its name among the fields.
FULL_FIELDS = {"flags": "flags", "large": "large_communities", "ext": "ext_communities", "otc": "otc", "aigp": "aigp",
               "originator": "originator", "clusters": "clusters", "raw": "raw"}
SEGMENTS = {"{": ("}", "set"), "(": (")", "confed-sequence"), "[": ("]", "confed-set")}
STOPS = {"ended": (), "terminated": (), "full": (), "cutshort": ("offset",), "readfault": ("offset",),
         "broken": ("offset", "why")}


class UnknownLine(Exception):
    """A line of no form that is known here."""


class Unreachable(Exception):
    """The station can't be reached, or went away in the middle of a reply."""


class StationError(Exception):
    """The station answered `error query` or `error line`."""


class NoSuchRouter(StationError):
    """No connected router has a name, or several have it."""


class NotConnected(NoSuchRouter):
    """No connected router has a name."""


# Most words of a table stand in it often, so what was read last is kept.
@functools.lru_cache(maxsize=65536)
def number(text):
    if not (text.isascii() and text.isdigit()) or text[0] == "0" and text != "0" or len(text) > 20:
        raise ValueError(text)
    return int(text)


def unescaped(text):
    """The bytes of an escaped text, as text where they are UTF-8, else with `\\xHH` for each other byte."""
    if re.search(r"%(?![0-9A-F]{2})|[^!-~]", text):
        raise ValueError(text)
    data = re.sub(rb"%([0-9A-F]{2})", lambda m: bytes([int(m[1], 16)]), text.encode("ascii"))
    return data.decode("utf-8", "backslashreplace")


def pairs(words, names):
    """The values of `name=value` words, exactly of these names, in this order."""
    if len(words) != len(names):
        raise ValueError(words)
    values = {}
    for word, name in zip(words, names):
        found, equals, value = word.partition("=")
        if found != name or not equals:
            raise ValueError(word)
        values[name] = value
    return values


def optional(text, read):
    return None if text == "-" else read(text)


def segment_of(piece):
    """A piece of a path: a number of a sequence, or another segment by its name with its numbers."""
    if piece[0] in SEGMENTS:
        end, name = SEGMENTS[piece[0]]
        if piece[-1] != end:
            raise ValueError(piece)
        inner = piece[1:-1]
        return {name: [number(n) for n in inner.split(",")] if inner else []}
    return number(piece)


def path_of(text):
    return [] if text == "empty" else [segment_of(piece) for piece in text.split("_")]


def origin_of(path):
    """The AS that a path ends in, as the query `origin` takes it: None where its last segment is no sequence."""
    return path[-1] if path and isinstance(path[-1], int) else None


@functools.lru_cache(maxsize=65536)
def key_of(text):
    if not re.fullmatch(r"[0-9]+-[0-9a-f]{16}-[0-9a-f.:]+", text):
        raise ValueError(text)
    return text


def view_of(text):
    if text not in VIEWS:
        raise ValueError(text)
    return text


@functools.lru_cache(maxsize=65536)
def community_of(text):
    high, colon, low = text.partition(":")
    if not colon or max(number(high), number(low)) > 0xFFFF:
        raise ValueError(text)
    return text


def asked_community(text):
    """A community of any kind, as a query asks for it (RFC 1997, RFC 8092, RFC 4360)."""
    if re.fullmatch("[0-9a-f]{16}", text):
        return text
    first, *rest = text.split(":")
    if first in ("rt", "ro") and len(rest) == 2:
        # Behind an AS of two octets stands a number of four, behind an AS of four or an address one of two.
        is_address = "." in rest[0]
        administrator = int(ipaddress.IPv4Address(rest[0])) if is_address else number(rest[0])
        most = MOST_NUMBER if administrator <= 0xFFFF and not is_address else 0xFFFF
        fits = administrator <= MOST_NUMBER and number(rest[1]) <= most
    else:
        most = MOST_NUMBER if len(rest) == 2 else 0xFFFF
        fits = len(rest) in (1, 2) and all(number(one) <= most for one in (first, *rest))
    if not fits:
        raise ValueError(text)
    return text


@functools.lru_cache(maxsize=65536)
def large_community_of(text):
    parts = text.split(":")
    if len(parts) != 3 or max(map(number, parts)) > MOST_NUMBER:
        raise ValueError(text)
    return text


@functools.lru_cache(maxsize=65536)
def ext_community_of(text):
    ext_octets(text)
    return text


def ext_octets(text):
    """The eight octets, in hexadecimal, of an extended community that `asked_community` takes (RFC 4360, RFC 5668)."""
    if re.fullmatch("[0-9a-f]{16}", text):
        return text
    kind, administrator, local = text.split(":")
    subtype = {"rt": 2, "ro": 3}[kind]
    if "." in administrator:
        return f"01{subtype:02x}{int(ipaddress.IPv4Address(administrator)):08x}{number(local):04x}"
    asn = number(administrator)
    return f"00{subtype:02x}{asn:04x}{number(local):08x}" if asn <= 0xFFFF else f"02{subtype:02x}{asn:08x}{number(local):04x}"


def aggregator_of(text):
    asn, colon, identifier = text.partition(":")
    if not colon:
        raise ValueError(text)
    return {"asn": number(asn), "id": identifier}


def listed(text, read):
    return [] if text == "-" else [read(item) for item in text.split(",")]


def flag(text):
    return {"yes": True, "no": False}[text]


def cause_of(words):
    names = STOPS[words[0]]
    if len(words) != 1 + len(names):
        raise ValueError(words)
    fields = {"cause": words[0]}
    for name, word in zip(names, words[1:]):
        if name == "why" and word not in ("version", "length", "body"):
            raise ValueError(word)
        fields[name] = number(word) if name == "offset" else word
    return fields


def hexadecimal(text):
    if not re.fullmatch("(?:[0-9a-f]{2})*", text):
        raise ValueError(text)
    return text


def flags_of(text, codes):
    """The flags of each attribute by its type code, which is a text as in JSON."""
    flags = listed(text, hexadecimal)
    if len(flags) != len(codes) or any(len(one) != 2 for one in flags):
        raise ValueError(text)
    return {str(code): one for code, one in zip(codes, flags)}


def raw_of(text):
    """The value of each attribute that has no other field, by its type code."""
    found = {}
    for code, colon, value in (item.partition(":") for item in listed(text, str)):
        if not colon or code in found:
            raise ValueError(text)
        found[str(number(code))] = hexadecimal(value)
    return found


@functools.lru_cache(maxsize=16384)
def attributes_of(text):
    """The attributes of a route line, and those of a whole one. Routes with the same ones share the lists in them."""
    words = text.split(" ")
    values = pairs(words[:len(ROUTE_FIELDS)], ROUTE_FIELDS)
    fields = {
        "next": optional(values["next"], str),
        "origin": optional(values["origin"], str),
        "path": optional(values["path"], path_of),
        "med": optional(values["med"], number),
        "pref": optional(values["pref"], number),
        "atomic": flag(values["atomic"]),
        "agg": optional(values["agg"], aggregator_of),
        "comm": listed(values["comm"], community_of),
        "other": listed(values["other"], number),
    }
    if len(words) == len(ROUTE_FIELDS):
        return fields
    values = pairs(words[len(ROUTE_FIELDS):], FULL_FIELDS)
    return fields | {
        "flags": flags_of(values["flags"], fields["other"]),
        "large_communities": listed(values["large"], large_community_of),
        "ext_communities": listed(values["ext"], ext_community_of),
        "otc": optional(values["otc"], number),
        "aigp": optional(values["aigp"], number),
        "originator": optional(values["originator"], str),
        "clusters": listed(values["clusters"], str),
        "raw": raw_of(values["raw"]),
    }


def is_whole(route):
    """Whether a route, or an announcement, is of a whole line: with all of its path attributes."""
    return "raw" in route


def split_attributes(text):
    """The attributes of a route line as it has them, and the path identifier, which stands among them in a whole line."""
    attributes, found, rest = text.partition(" id=")
    identifier, _, more = rest.partition(" ")
    return f"{attributes} {more}" if more else attributes, number(identifier) if found else None


def route_of(words):
    """The fields of a route line from KEY on; the attributes are one word."""
    peer, view, prefix, rest = words
    attributes, identifier = split_attributes(rest)
    return {"peer": key_of(peer), "view": view_of(view), "prefix": prefix, "id": identifier} | attributes_of(attributes)


def endpoint_of(text):
    """From where a connection came, which stays a text: an address, in brackets where it is of IPv6, and a port."""
    found = re.fullmatch(r"(?:\[([0-9a-f:]+)\]|([0-9.]+)):([0-9]+)", text)
    if not found or number(found[3]) > 0xFFFF:
        raise ValueError(text)
    ipaddress.ip_address(found[1] or found[2])
    return text


def address_in(text):
    """The address of such a text, without its port."""
    return text.rpartition(":")[0].strip("[]")


def others_of(text):
    """How often each other family was passed over, by its AFI and SAFI as a text."""
    found = {}
    for family, colon, count in (item.partition(":") for item in listed(text, str)):
        afi, slash, safi = family.partition("/")
        if not colon or not slash or number(afi) > 0xFFFF or number(safi) > 0xFF or family in found:
            raise ValueError(text)
        found[family] = number(count)
    return found


# What the fields of a router are read by. A whole line has the last two groups too.
OPENING = {"from": endpoint_of, "since": number, "until": number}
COUNTED = dict.fromkeys(("peers", "messages", "bytes", "orphans", "unread", "mirrored", "passed"), number)
COUNTED |= dict.fromkeys(("name", "descr"), unescaped)
NOT_READ = dict.fromkeys(("tlvs", "stats", "malformed"), number) | {"others": others_of, "more": number}


def read_fields(words, readers):
    """The fields of these names; of an opening each may be missing."""
    return {name: optional(value, readers[name]) if name in OPENING else readers[name](value)
            for name, value in pairs(words, tuple(readers)).items()}


def read_router(words):
    """A router's line; of a whole one also from where its last connection came, when, and what of it wasn't read. After a close
    that has what the connection counted, too."""
    fields, rest = {"router": number(words[0]), "state": words[1]}, words[2:]
    if words[1] == "live":
        fields |= read_fields(rest, COUNTED if len(rest) == len(COUNTED) else COUNTED | OPENING | NOT_READ)
    elif words[1] == "closed":
        place = next((place for place, word in enumerate(rest) if "=" in word), len(rest))
        fields |= cause_of(rest[:place])
        if place < len(rest):
            return fields | read_fields(rest[place:], OPENING | COUNTED | NOT_READ)
    elif words[1] != "idle":
        raise ValueError(words[1])
    elif rest:
        fields |= read_fields(rest, OPENING)
    # What is open has no end, and what never was has nothing.
    if any(fields.get(name) is not None for name in (("until",) if words[1] == "live" else OPENING)):
        raise ValueError(rest)
    return fields


def read_peer(words):
    fields = {"router": number(words[0]), "peer": key_of(words[1]), "state": words[2]}
    if words[2] == "down":
        reason, name, detail = words[3:]
        fields |= {"reason": number(reason), "name": name}
        if detail.startswith("notification="):
            code, slash, subcode = detail.removeprefix("notification=").partition("/")
            return fields | {"notification": {"code": number(code), "subcode": number(subcode)}}
        if detail.startswith("event="):
            return fields | {"event": number(detail.removeprefix("event="))}
        if detail != "-":
            raise ValueError(detail)
        return fields
    if words[2] != "up":
        raise ValueError(words[2])
    names = ("asn", "id", "local", "ports")
    values = pairs(words[3:7], names)
    fields |= {"asn": number(values["asn"]), "id": values["id"], "local": values["local"],
               "ports": [number(port) for port in values["ports"].split(",")]}
    if len(words) > 7:
        values = pairs(words[7:], ("filtered", "table"))
        fields |= {"filtered": flag(values["filtered"]), "table": optional(values["table"], unescaped)}
    return fields


def read_mark(words):
    router, peer, view, family, state, *rest = words
    if state not in ("complete", "waiting"):
        raise ValueError(state)
    fields = {"router": number(router), "peer": key_of(peer), "view": view_of(view), "family": number(family),
              "complete": state == "complete"}
    return fields | {"rows": number(pairs(rest, ("rows",))["rows"])} if rest else fields


def read_stat(words):
    router, peer, code, name, *rest = words
    fields = {"router": number(router), "peer": key_of(peer), "code": number(code), "name": name}
    if len(rest) == 2:
        afi, slash, safi = rest[0].partition("/")
        fields |= {"afi": number(afi), "safi": number(safi)}
        rest = rest[1:]
    (value,) = rest
    return fields | {"value": number(value)}


def read_route(words):
    router, *rest = words
    return {"router": number(router)} | route_of(rest)


def told_of(text):
    """The time of a Per-Peer Header, which stays a text: a number of JSON may have fewer digits."""
    if not re.fullmatch(r"[0-9]+\.[0-9]{6,}", text):
        raise ValueError(text)
    return text


def read_change(words):
    router, step, what, *rest = words
    fields = {"router": number(router), "step": number(step), "change": what}
    place = next((at for at, word in enumerate(rest) if word.startswith("seen=")), None)
    if place is not None:
        values = pairs(rest[place:place + 2], ("seen", "told"))
        fields |= {"seen": optional(values["seen"], number), "told": optional(values["told"], told_of)}
        del rest[place:place + 2]
    if what == "opened" and not rest:
        return fields
    if what == "closed":
        return fields | cause_of(rest)
    if what in ("up", "down"):
        (peer,) = rest
        return fields | {"peer": key_of(peer)}
    if what == "withdraw":
        peer, view, prefix, *more = rest
        fields |= {"peer": key_of(peer), "view": view_of(view), "prefix": prefix, "id": None}
        if more:
            fields["id"] = number(pairs(more, ("id",))["id"])
        return fields
    if what != "announce":
        raise ValueError(what)
    return fields | route_of(" ".join(rest).split(" ", 3))


def read_lane(words):
    router, entries = words
    return {"router": number(router), "entries": number(entries)}


def read_steps(words):
    router, steps = words
    return {"router": number(router), "steps": number(steps)}


def read_one(name):
    def read(words):
        (value,) = words
        return {name: number(value)}

    return read


READERS = {
    "at": read_one("revision"),
    "end": read_one("lines"),
    "count": read_one("rows"),
    "missed": read_one("steps"),
    "router": read_router,
    "lane": read_lane,
    "peer": read_peer,
    "mark": read_mark,
    "stat": read_stat,
    "route": read_route,
    "steps": read_steps,
    "change": read_change,
    "stop": cause_of,
}


def parse(line):
    """The fields of a line without its end, with its first word as `line`."""
    try:
        text = line.decode("ascii")
        if not text.isprintable():
            raise ValueError(text)
        word, *words = text.split(" ", 5 if text.startswith("route ") else -1)
        return {"line": word} | READERS[word](words)
    except (UnicodeDecodeError, ValueError, KeyError, IndexError, TypeError) as fault:
        raise UnknownLine(line.decode("ascii", "backslashreplace")) from fault


class Station:
    """One connection to a station's port for clients, for one query after another. Where there is none it is tried for again
    for as many seconds as `retry` says."""

    def __init__(self, host, port, seconds, retry=0):
        end = time.monotonic() + retry
        while True:
            try:
                self.socket = socket.create_connection((host, port), timeout=seconds)
                break
            except OSError as fault:
                left = end - time.monotonic()
                if left <= 0:
                    raise Unreachable(f"{host} port {port}: {fault}") from fault
            time.sleep(min(PAUSE, left))
        self.whole = collections.deque()
        self.rest = b""

    def __enter__(self):
        return self

    def __exit__(self, *_):
        self.close()

    def close(self):
        self.socket.close()

    def line(self):
        while not self.whole:
            self.read()
        return self.whole.popleft()

    def read(self):
        try:
            data = self.socket.recv(PIECE)
        except OSError as fault:
            raise Unreachable(f"no reply: {fault}") from fault
        if not data:
            raise Unreachable("the station closed the connection")
        *lines, self.rest = (self.rest + data).split(b"\n")
        if len(self.rest) > MOST_REPLY_LINE:
            raise UnknownLine(f"a line of more than {MOST_REPLY_LINE} bytes")
        self.whole.extend(lines)

    def ask(self, query):
        """The lines of the reply, as they come, from `at` to `end`."""
        try:
            self.socket.sendall(query.encode("ascii") + b"\n")
        except OSError as fault:
            raise Unreachable(f"no query could be sent: {fault}") from fault
        line = self.line()
        if line in (b"error query", b"error line"):
            raise StationError(line.decode())
        yield line
        while not line.startswith(b"end "):
            line = self.line()
            yield line

    def rows(self, query):
        """The revision of the reply, and its lines between `at` and `end`, by their fields."""
        at, *rows, end = [parse(line) for line in self.ask(query)]
        check_reply(at, len(rows), end)
        return at["revision"], rows


def check_reply(at, count, end):
    """That a reply of so many lines begins with `at` and ends with `end` and their number."""
    if at["line"] != "at" or end["line"] != "end" or end["lines"] != count:
        raise UnknownLine("a reply that isn't `at`, its lines and `end` with their number")


def is_query(query):
    """Whether a station can be sent this as a query that it replies to, whatever its grammar says."""
    return query != "quit" and query.isascii() and query.isprintable() and 0 < len(query) <= MOST_LINE


def is_lane(text):
    """Whether digits alone stand for a router: its lane. Anything else is its name."""
    return text.isascii() and text.isdigit()


def escaped(text):
    """A text as a station writes it."""
    return "".join(chr(byte) if 0x21 <= byte <= 0x7E and byte != 0x25 else f"%{byte:02X}" for byte in text.encode("utf-8"))


def names_meant(name):
    """The names that a text stands for: itself, and the one that it is the escaped form of. A name in whose place the station has
    bytes that are no UTF-8 is known by its escaped form, or by `\\xHH` for each such byte."""
    try:
        return {name, unescaped(name)}
    except ValueError:
        return {name}


def lane_of(name, routers):
    """The lane of the one router that is connected by this name."""
    names = names_meant(name)
    found = [row["router"] for row in routers if row["state"] == "live" and row["name"] in names]
    if len(found) == 1:
        return found[0]
    if found:
        raise NoSuchRouter(f"{len(found)} connected routers have the name {name}: they are at lanes {' and '.join(map(str, found))}")
    raise NotConnected(f"no connected router has the name {name}")


def moment(seconds):
    """A time of a station, which counts seconds since 1970."""
    try:
        return datetime.datetime.fromtimestamp(seconds, datetime.timezone.utc).strftime("%Y-%m-%dT%H:%M:%SZ")
    except (OverflowError, ValueError, OSError):
        return f"{seconds} seconds after 1970"


def ends_of(name, routers):
    """How the last connections of a name ended, by whole lines: a text for each lane that has had no other since."""
    names = names_meant(name)
    for row in routers:
        if row["state"] == "closed" and row.get("name") in names:
            came = f" from {row['from']}" if row["from"] else ""
            until = f" at {moment(row['until'])}" if row["until"] is not None else ""
            cause = " ".join(str(row[word]) for word in ("cause", "offset", "why") if word in row)
            yield f"its connection{came} in lane {row['router']} closed{until}: {cause}"


def without_attributes(query):
    """The words of a query without its selectors of path attributes, and these by their names."""
    words, found = query.split(" "), {}
    for name in reversed(ATTRIBUTE_SELECTORS):
        if len(words) >= 3 and words[-2] == name:
            found[name] = words[-1]
            words = words[:-2]
    return words, found


def with_attributes(query, wanted):
    """The query with these selectors of path attributes, by their names, where it has no others of the same name."""
    words, found = without_attributes(query)
    found = wanted | found
    return " ".join([*words, *(word for name in ATTRIBUTE_SELECTORS if name in found for word in (name, found[name]))])


def split_front(query):
    """The words in front of a query, and the query behind them."""
    words, place = query.split(" "), 0
    for name in FRONT:
        place += words[place] == name and len(words) > place + 1
    return words[:place], " ".join(words[place:])


def as_full(query):
    """The query for whole lines."""
    front, rest = split_front(query)
    return " ".join([*(word for word in front if word != "full"), "full", rest])


def selectors_of(query):
    """The selectors in a query but those of path attributes, as text for another one."""
    words = without_attributes(split_front(query)[1])[0]
    found = []
    if words[0] in SELECTED or words[0] == "peers":
        while len(words) >= 3 and words[-2] in SELECTORS:
            found = words[-2:] + found
            words = words[:-2]
    return " ".join(found)
