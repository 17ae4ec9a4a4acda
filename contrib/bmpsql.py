"""What a station has, as a stream for psql. It is no part of what is proved.

One transaction makes new partitions beside those of the station that are there, fills them, and puts them in their
place; so who reads sees the old answer or the new one, and nobody waits but for the moment of the change. All of the
stream stands between `\\if` and `\\endif`, so that psql fails where the stream breaks off, whoever ended bmpq.
"""
import datetime
import functools
import re

from bmplines import attributes_of, is_whole, origin_of

STATION = r"[A-Za-z0-9][A-Za-z0-9_.-]{0,31}"

ROUTER, PEER, ROUTE = "bmp_router", "bmp_peer", "bmp_route"

# What whole lines tell. A table of before has these columns added, and the rows in it have nothing there.
WHOLE = ("flags integer[]", "large_communities text[]", "ext_communities text[]", "otc bigint", "aigp numeric", "originator inet",
         "clusters inet[]", "raw text[]")

# Of each table its columns behind `station` and `revision`, and its indexes.
TABLES = {
    ROUTER: (("router bigint NOT NULL", "state text NOT NULL", "cause text", "why text", "stop_offset bigint", "peers bigint",
              "messages bigint", "bytes numeric", "orphans bigint", "unread bigint", "mirrored bigint", "passed bigint",
              "name text", "descr text"), ("(router)",)),
    PEER: (("router bigint NOT NULL", "peer text NOT NULL", "kind integer NOT NULL", "distinguisher text NOT NULL",
            "address inet NOT NULL", "state text NOT NULL", "asn bigint", "bgp_id inet", "local_address inet",
            "local_port integer", "remote_port integer", "filtered boolean", "table_name text", "reason integer",
            "reason_name text", "notification text", "event integer", "complete text[] NOT NULL"), ("(router, peer)",)),
    ROUTE: (("router bigint NOT NULL", "peer text NOT NULL", "view text NOT NULL", "prefix cidr NOT NULL", "path_id bigint",
             "next_hop inet", "next_hops text", "origin text", "path bigint[]", "path_text text", "origin_as bigint",
             "med bigint", "local_pref bigint", "atomic boolean NOT NULL", "aggregator_as bigint", "aggregator_id inet",
             "communities text[] NOT NULL", "other_types integer[] NOT NULL") + WHOLE,
            ("USING gist (prefix inet_ops)", "(origin_as)", "(router, peer, view)")),
}

# When each station was asked last, and the revision of its routes.
STATIONS = "bmp_station"
STATION_COLUMNS = "station text PRIMARY KEY, taken_at timestamptz NOT NULL, revision numeric NOT NULL"

# Of each lane of a station that bmp-mirror keeps, the step and the revision at which its rows are the station's table.
MIRRORS = "bmp_mirror"
MIRROR_COLUMNS = ("station text, router bigint, run text NOT NULL, step numeric NOT NULL, revision numeric NOT NULL, rows bigint NOT NULL, "
                  "at timestamptz NOT NULL, PRIMARY KEY (station, router)")

# Who makes the tables at the same time as another waits for it; so does who writes the same station.
SCHEMA_LOCK = "DO $$ BEGIN PERFORM pg_advisory_xact_lock(hashtext('bmpstation')); END $$;"
STATION_LOCK = "DO $$ BEGIN PERFORM pg_advisory_xact_lock(hashtext('bmpstation'), hashtext('{station}')); END $$;"


def columns_of(table):
    return ", ".join(("station text NOT NULL", "revision numeric NOT NULL") + TABLES[table][0])


def begin():
    """The first lines, which stand there before the station is asked: an error ends psql with a status of its own."""
    yield "\\set ON_ERROR_STOP on"
    yield "\\if true"


def schema():
    yield "SET client_encoding = 'UTF8';"
    yield "SET client_min_messages = warning;"
    yield "BEGIN;"
    yield SCHEMA_LOCK
    yield f"CREATE TABLE IF NOT EXISTS {STATIONS} ({STATION_COLUMNS});"
    yield f"CREATE TABLE IF NOT EXISTS {MIRRORS} ({MIRROR_COLUMNS});"
    for table, (_, indexes) in TABLES.items():
        yield f"CREATE TABLE IF NOT EXISTS {table} ({columns_of(table)}) PARTITION BY LIST (station);"
        for place, index in enumerate(indexes):
            yield f"CREATE INDEX IF NOT EXISTS {table}_{place} ON {table} {index};"
    # Only where they are missing: to add a column waits for all who read.
    yield (f"DO $$ BEGIN IF NOT EXISTS (SELECT FROM pg_attribute WHERE attrelid = '{ROUTE}'::regclass AND attname = 'raw') THEN "
           f"ALTER TABLE {ROUTE} {', '.join(f'ADD COLUMN {column}' for column in WHOLE)}; END IF; END $$;")
    yield "COMMIT;"


def names_of(table):
    return ["station", "revision"] + [column.split(" ")[0] for column in TABLES[table][0]]


ESCAPES = {"\\": "\\\\", "\n": "\\n", "\r": "\\r", "\t": "\\t", "\0": "\\\\x00"}


def cell(value):
    """A value in the text form of COPY. PostgreSQL has no character of number 0: it stands as `\\x00`."""
    if value is None:
        return "\\N"
    if value is True or value is False:
        return "tf"[not value]
    if isinstance(value, list):
        value = "{" + ",".join(map(str, value)) + "}"
    text = str(value)
    if text.isprintable() and "\\" not in text:
        return text
    return re.sub(r"[\\\n\r\t\0]", lambda m: ESCAPES[m[0]], text)


def joined(values):
    return "\t".join(map(cell, values))


def words_of(values):
    """The elements of an array of text, each in quotation marks where it isn't plain."""
    def word(value):
        return value if re.fullmatch(r"[A-Za-z0-9:/-]+", value) else '"' + re.sub(r'(["\\])', r"\\\1", value) + '"'

    return [word(value) for value in values]


def router_cells(row):
    names = ("router", "state", "cause", "why", "offset", "peers", "messages", "bytes", "orphans", "unread", "mirrored", "passed",
             "name", "descr")
    return [row.get(name) for name in names]


def peer_cells(row, complete):
    kind, distinguisher, address = row["peer"].split("-", 2)
    notification = row.get("notification")
    ports = row.get("ports", [None, None])
    is_down = row["state"] == "down"
    return [row["router"], row["peer"], int(kind), distinguisher, address, row["state"], row.get("asn"), row.get("id"),
            row.get("local"), *ports, row.get("filtered"), row.get("table"), row.get("reason"), row["name"] if is_down else None,
            notification and f"{notification['code']}/{notification['subcode']}", row.get("event"),
            words_of(complete.get((row["router"], row["peer"]), []))]


def numbers_of(path):
    """The numbers of all segments of a path, in order."""
    if path is None:
        return None
    numbers = []
    for piece in path:
        numbers += [piece] if isinstance(piece, int) else next(iter(piece.values()))
    return numbers


def is_address(text):
    return text is not None and not text.startswith("x")


@functools.lru_cache(maxsize=16384)
def attribute_cells(text):
    """The columns behind `path_id` for the attributes of a route line."""
    row = attributes_of(text)
    hops, aggregator, path = row["next"], row["agg"] or {"asn": None, "id": None}, row["path"]
    path_text = text.split(" ", 3)[2].removeprefix("path=")
    return joined([hops.split(",")[0] if is_address(hops) else None, hops, row["origin"], numbers_of(path),
                   None if path is None else path_text, origin_of(path), row["med"], row["pref"], row["atomic"],
                   aggregator["asn"], aggregator["id"], words_of(row["comm"]), row["other"], *whole_cells(row)])


def whole_cells(row):
    """The columns of what whole lines tell: the flags as numbers, in the order of `other_types`, and nothing of another line."""
    if not is_whole(row):
        return [None] * len(WHOLE)
    return [[int(flags, 16) for flags in row["flags"].values()], row["large_communities"], row["ext_communities"], row["otc"], row["aigp"],
            row["originator"], row["clusters"], [f"{code}:{value}" for code, value in row["raw"].items()]]


def route_line(row, attributes):
    """A row of the routes: the fields that aren't attributes, and the text of these."""
    identifier = "\\N" if row["id"] is None else row["id"]
    return f"{row['router']}\t{row['peer']}\t{row['view']}\t{row['prefix']}\t{identifier}\t{attribute_cells(attributes)}"


def refuse(station):
    """What fails where bmp-mirror keeps the station: a snapshot would take its partitions away."""
    yield (f"DO $$ BEGIN IF EXISTS (SELECT FROM {MIRRORS} WHERE station = '{station}') THEN RAISE EXCEPTION 'bmpq: bmp-mirror keeps the "
           f"station {station}: DELETE FROM {MIRRORS} WHERE station = ''{station}'' hands it back'; END IF; END $$;")


def load(station, table, revision, lines):
    """What fills a new partition of a table with these lines. They don't touch the table itself: so nobody waits for them."""
    new = f'"{table}:{station}:new"'
    yield f"CREATE TABLE {new} ({columns_of(table)}, CHECK (station = '{station}'));"
    yield f"COPY {new} ({', '.join(names_of(table))}) FROM stdin;"
    head = f"{station}\t{revision}\t"
    for line in lines:
        yield head + line
    yield "\\."
    for index in TABLES[table][1]:
        yield f"CREATE INDEX ON {new} {index};"
    yield f"ANALYZE {new};"


def swap(station):
    yield f"LOCK TABLE {', '.join(f'ONLY {table}' for table in TABLES)} IN ACCESS EXCLUSIVE MODE;"
    for table in TABLES:
        old, new = f'"{table}:{station}"', f'"{table}:{station}:new"'
        yield f"DROP TABLE IF EXISTS {old};"
        yield f"ALTER TABLE {new} RENAME TO {old};"
        yield f"ALTER TABLE {table} ATTACH PARTITION {old} FOR VALUES IN ('{station}');"


def now():
    """The time of this machine, as PostgreSQL reads it."""
    return datetime.datetime.now(datetime.timezone.utc).isoformat(timespec="milliseconds")


def tell(station, taken_at, revision):
    """What says how old the rows of the station are."""
    yield (f"INSERT INTO {STATIONS} (station, taken_at, revision) VALUES ('{station}', '{taken_at}', {revision}) "
           "ON CONFLICT (station) DO UPDATE SET taken_at = EXCLUDED.taken_at, revision = EXCLUDED.revision;")


def transaction(station, taken_at, routers, peers, marks, routes):
    """The lines behind the first ones. The tables are pairs of a revision and its rows, the last one of a revision and
    pairs of a route and the text of its attributes."""
    complete = {}
    for mark in marks[1]:
        if mark["complete"]:
            complete.setdefault((mark["router"], mark["peer"]), []).append(f"{mark['view']}/{mark['family']}")
    yield from schema()
    yield "BEGIN;"
    yield STATION_LOCK.format(station=station)
    yield from refuse(station)
    yield from load(station, ROUTER, routers[0], (joined(router_cells(row)) for row in routers[1]))
    yield from load(station, PEER, peers[0], (joined(peer_cells(row, complete)) for row in peers[1]))
    yield from load(station, ROUTE, routes[0], (route_line(row, attributes) for row, attributes in routes[1]))
    yield from swap(station)
    yield from tell(station, taken_at, routes[0])
    yield "COMMIT;"
    yield "\\endif"


def failed(fault, is_begun):
    """What makes psql fail, so that no row of the stream stays. Where the transaction is begun it is among a table's rows."""
    text = re.sub(r"[^ -~]|['\\%]", "?", str(fault))
    if is_begun:
        yield ""
        yield "\\."
    yield f"DO $$ BEGIN RAISE EXCEPTION 'bmpq: {text}'; END $$;"
