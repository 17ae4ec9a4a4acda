"""The output `postgresql` of bmp-mirror: the tables of `bmpq --sql`, live. It is no part of what is proved.

Each batch is a transaction with its mark in `bmp_mirror`, so who reads both in one transaction has the station's table at that revision.
Nothing is kept here of the rows: what differs the database finds by itself.
"""
import contextlib

import psycopg

import bmpsql
from bmpmirror import Away, Mark, Output, Taken, complete_of, now, split_words

PIECE = 1 << 20
KEYS = ("router", "peer", "view", "prefix", "path_id")
# The unique index of a live partition, by which a row is found: an older PostgreSQL has no NULLS NOT DISTINCT.
ROW_INDEX = "router, peer, view, prefix, (COALESCE(path_id, -1))"
SAME_ROW = ("t.router = n.router AND t.peer = n.peer AND t.view = n.view AND t.prefix = n.prefix "
            "AND COALESCE(t.path_id, -1) = COALESCE(n.path_id, -1)")
ROUTE_NAMES = bmpsql.names_of(bmpsql.ROUTE)
VALUES = [name for name in ROUTE_NAMES if name not in ("station", "revision", *KEYS)]


class PostgreSQL(Output):
    """A database, which a station's mirror alone writes for this station."""

    def __init__(self, station, say, given):
        super().__init__(station, say)
        self.station, self.to = station, given.to
        self.link = None
        self.told = {}
        self.route, self.peer, self.router = (f'"{table}:{station}"' for table in (bmpsql.ROUTE, bmpsql.PEER, bmpsql.ROUTER))

    def close(self):
        if self.link is not None:
            self.link.close()
            self.link = None

    def open(self):
        with self.faults():
            self.link = psycopg.connect(self.to, autocommit=True, application_name="bmp-mirror", connect_timeout=10)
            self.link.add_notice_handler(lambda _: None)
            for line in bmpsql.schema():
                self.link.execute(line)
            with self.transaction():
                for table, part in ((bmpsql.ROUTE, self.route), (bmpsql.PEER, self.peer), (bmpsql.ROUTER, self.router)):
                    self.link.execute(f"CREATE TABLE IF NOT EXISTS {part} PARTITION OF {table} FOR VALUES IN ('{self.station}')")
                self.link.execute(f'CREATE UNIQUE INDEX IF NOT EXISTS "{bmpsql.ROUTE}:{self.station}:row" ON {self.route} ({ROW_INDEX})')
            self.link.execute(f"CREATE TEMP TABLE coming (LIKE {bmpsql.ROUTE}) ON COMMIT DELETE ROWS")
            self.link.execute("CREATE TEMP TABLE going (router bigint, peer text, view text, prefix cidr, path_id bigint) ON COMMIT DELETE ROWS")
        self.told = {}

    @contextlib.contextmanager
    def faults(self):
        """Faults of the database."""
        try:
            yield
        except psycopg.Error as fault:
            raise Away(str(fault).splitlines()[0] if str(fault) else repr(fault)) from fault

    @contextlib.contextmanager
    def transaction(self):
        """A transaction that waits for others who write this station."""
        with self.link.transaction():
            self.link.execute(bmpsql.STATION_LOCK.format(station=self.station))
            yield

    def have(self):
        with self.faults():
            rows = self.link.execute("SELECT router, run, step, revision, rows FROM bmp_mirror WHERE station = %s", (self.station,)).fetchall()
            found = {row[0]: Mark(row[1], int(row[2]), int(row[3]), row[4]) for row in rows}
            # Rows that no mark speaks of are a snapshot's.
            for router, in self.link.execute(f"SELECT DISTINCT router FROM {self.route}").fetchall():
                found.setdefault(router, None)
        return found

    # Rows on their way.

    def copy(self, cursor, table, names, lines):
        """Copies rows, each a line in the text form of COPY, into a table of this connection; how many."""
        count, size, piece = 0, 0, []
        with cursor.copy(f"COPY {table} ({', '.join(names)}) FROM STDIN") as copy:
            for line in lines:
                count += 1
                size += len(line) + 1
                piece.append(line)
                if size > PIECE:
                    copy.write("".join(f"{one}\n" for one in piece))
                    size, piece = 0, []
            copy.write("".join(f"{one}\n" for one in piece))
        return count

    def line(self, router, revision, peer, place, attributes):
        view, prefix, identifier = split_words(place)
        return (f"{self.station}\t{revision}\t{router}\t{peer}\t{view}\t{prefix}\t{identifier or bmpsql.cell(None)}\t"
                f"{bmpsql.attribute_cells(attributes)}")

    def put_coming(self, cursor):
        """What is coming takes its place where it differs: how many rows that were, and how many of these are new."""
        sets = ", ".join(f"{name} = excluded.{name}" for name in ["revision", *VALUES])
        ours, theirs = (", ".join(f"{of}.{name}" for name in VALUES) for of in ("t", "excluded"))
        names = ", ".join(ROUTE_NAMES)
        cursor.execute(f"WITH put AS (INSERT INTO {self.route} AS t ({names}) SELECT {names} FROM coming "
                       f"ON CONFLICT ({ROW_INDEX}) DO UPDATE SET {sets} WHERE ({ours}) IS DISTINCT FROM ({theirs}) "
                       "RETURNING (xmax = 0) AS is_new) SELECT count(*), count(*) FILTER (WHERE is_new) FROM put")
        return cursor.fetchone()

    def take_cleared(self, cursor, router, peers=None):
        """The rows of a lane, or of these peers, go but for those that are coming."""
        which, values = ("", ()) if peers is None else (" AND t.peer = ANY(%s)", (list(peers),))
        cursor.execute(f"DELETE FROM {self.route} t WHERE t.router = {router}{which} AND NOT EXISTS (SELECT FROM coming n WHERE {SAME_ROW})",
                       values or None)
        return cursor.rowcount

    def write_mark(self, cursor, router, mark, held):
        """The mark takes the place of the one that is known; where there is another, another wrote."""
        values = (mark.run, mark.step, mark.revision, mark.rows, now(), self.station, router)
        if held is None:
            cursor.execute("INSERT INTO bmp_mirror (run, step, revision, rows, at, station, router) VALUES (%s, %s, %s, %s, %s, %s, %s) "
                           "ON CONFLICT DO NOTHING", values)
        else:
            cursor.execute("UPDATE bmp_mirror SET run = %s, step = %s, revision = %s, rows = %s, at = %s WHERE station = %s AND router = %s "
                           "AND run = %s AND step = %s", (*values, held.run, held.step))
        if cursor.rowcount != 1:
            raise Taken(f"another bmp-mirror writes lane {router} of {self.station}")

    # The interface.

    def table(self, router, rows, mark_of, held):
        # The revision is known with the mark alone, which tells its number of rows last.
        revision = mark_of(0).revision
        with self.faults(), self.link.transaction(), self.link.cursor() as cursor:
            count = self.copy(cursor, "coming", ROUTE_NAMES, (self.line(router, revision, *row) for row in rows))
            cursor.execute("ANALYZE coming")
            cursor.execute(bmpsql.STATION_LOCK.format(station=self.station))
            mark = mark_of(count)
            self.write_mark(cursor, router, mark, held)
            gone = self.take_cleared(cursor, router)
            put, _ = self.put_coming(cursor)
        return mark, gone + put

    def changes(self, router, fold, mark_of, held):
        revision = mark_of(0).revision
        with self.faults(), self.transaction(), self.link.cursor() as cursor:
            come = [self.line(router, revision, peer, place, attributes)
                    for peer, rows in fold.peers.items() for place, attributes in rows.items() if attributes is not None]
            gone = new = put = 0
            if come:
                self.copy(cursor, "coming", ROUTE_NAMES, come)
            if fold.is_all or fold.cleared:
                gone += self.take_cleared(cursor, router, None if fold.is_all else fold.cleared)
            going = [f"{router}\t{peer}\t{view}\t{prefix}\t{identifier or bmpsql.cell(None)}" for peer, rows in fold.peers.items()
                     if not fold.has_cleared(peer) for place, attributes in rows.items() if attributes is None
                     for view, prefix, identifier in (split_words(place),)]
            if going:
                self.copy(cursor, "going", KEYS, going)
                cursor.execute(f"DELETE FROM {self.route} t USING going n WHERE {SAME_ROW}")
                gone += cursor.rowcount
            if come:
                put, new = self.put_coming(cursor)
            mark = mark_of(held.rows - gone + new)
            self.write_mark(cursor, router, mark, held)
        return mark, gone + put

    def facts(self, facts):
        """The rows of routers and peers, where any differs from what was written last."""
        routers, peers, marks = facts
        complete = complete_of(marks[1])
        found = {
            self.router: (bmpsql.ROUTER, routers[0], [bmpsql.joined(bmpsql.router_cells(row)) for row in routers[1]]),
            self.peer: (bmpsql.PEER, peers[0], [bmpsql.joined(bmpsql.peer_cells(row, complete)) for row in peers[1]]),
        }
        with self.faults(), self.transaction(), self.link.cursor() as cursor:
            for part, (table, revision, lines) in found.items():
                if self.told.get(part) != lines:
                    cursor.execute(f"DELETE FROM {part}")
                    self.copy(cursor, part, bmpsql.names_of(table), (f"{self.station}\t{revision}\t{line}" for line in lines))
            for line in bmpsql.tell(self.station, now(), peers[0]):
                cursor.execute(line)
        self.told = {part: lines for part, (_, _, lines) in found.items()}
