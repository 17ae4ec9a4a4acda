"""A few connections to a station, shared by all who ask at once. It is no part of what is proved."""
import asyncio
import contextlib
import datetime

from bmplines import MOST_REPLY_LINE, StationError, UnknownLine, Unreachable, parse

# Of one reply's lines. What is longer is cut there.
MOST_BYTES = 8 << 20
# How long a connection stays open that nobody uses: it holds a client's place at the station.
LINK_SECONDS = 2
PIECE = 1 << 16


class Broken(Exception):
    """The connection to the station is gone."""


class Reply:
    """A reply of the station: its revision, the moment, its lines, and whether it was cut."""

    def __init__(self, at):
        self.revision = at
        self.time = datetime.datetime.now(datetime.timezone.utc).isoformat(timespec="milliseconds").replace("+00:00", "Z")
        self.lines = []
        self.is_cut = False


class Link:
    """One connection to the station."""

    def __init__(self, reader, writer):
        self.reader, self.writer = reader, writer
        self.lines, self.rest = [], b""
        self.timer = None

    def rest_a_while(self):
        self.timer = asyncio.get_running_loop().call_later(LINK_SECONDS, self.close)

    def wake(self):
        self.timer.cancel()
        return not self.writer.is_closing()

    async def read(self):
        """Some more whole lines, last first."""
        while not self.lines:
            try:
                data = await self.reader.read(PIECE)
            except OSError as fault:
                raise Broken(fault) from fault
            if not data:
                raise Broken("the station closed it")
            *self.lines, self.rest = (self.rest + data).split(b"\n")
            if len(self.rest) > MOST_REPLY_LINE:
                raise UnknownLine(f"a line of more than {MOST_REPLY_LINE} bytes")
            self.lines.reverse()

    async def ask(self, query, most):
        if self.lines or self.rest:
            raise Broken("the station said more than it was asked")
        try:
            self.writer.write(query.encode("ascii") + b"\n")
            await self.writer.drain()
            await self.read()
        except OSError as fault:
            raise Broken(fault) from fault
        first = self.lines.pop()
        if first in (b"error query", b"error line"):
            raise StationError(f"{first.decode()} to {query}")
        at = parse(first)
        if at["line"] != "at":
            raise UnknownLine(first.decode("ascii", "backslashreplace"))
        return await self.rows(Reply(at["revision"]), most)

    async def rows(self, reply, most):
        """The lines of a reply up to its end, or as many as an answer may have; whoever asks others isn't held up."""
        size = 0
        while True:
            if not self.lines:
                await asyncio.sleep(0)
                await self.read()
            line = self.lines.pop()
            if line.startswith(b"end "):
                if parse(line)["lines"] != len(reply.lines):
                    raise UnknownLine("a reply whose `end` has another number than its lines")
                return reply
            size += len(line)
            if len(reply.lines) == most or size > MOST_BYTES:
                reply.is_cut = True
                return reply
            reply.lines.append(line)

    def close(self):
        self.writer.transport.abort()


class SharedStation:
    """A few connections to a station, shared by all who ask, each opened where it is wanted and kept for a while."""

    def __init__(self, host, port, connections, seconds):
        self.host, self.port, self.seconds = host, port, seconds
        self.links = asyncio.LifoQueue()
        for _ in range(connections):
            self.links.put_nowait(None)

    async def open(self):
        try:
            return Link(*await asyncio.open_connection(self.host, self.port, limit=PIECE))
        except OSError as fault:
            raise Unreachable(f"the station can't be reached ({fault.strerror or fault})") from fault

    async def ask(self, *queries):
        """The replies to these queries, each with how many lines are read of it, all on one connection but for what comes
        after a reply that was cut. A query is a text, or what gives it by the replies so far. Where a connection that was
        kept turns out to be lost, the station is asked again, once."""
        try:
            return await asyncio.wait_for(self.ask_one(queries), self.seconds)
        except asyncio.TimeoutError:
            raise Unreachable(f"the station gave no whole answer in {self.seconds:g} seconds") from None

    async def ask_one(self, queries):
        kept = await self.links.get()
        link = None
        try:
            if kept is not None and kept.wake():
                with contextlib.suppress(Broken):
                    replies, link = await self.replies(kept, queries)
                    return replies
            try:
                replies, link = await self.replies(await self.open(), queries)
                return replies
            except Broken as fault:
                raise Unreachable(f"the connection to the station was lost ({fault})") from fault
        finally:
            if link is not None:
                link.rest_a_while()
            self.links.put_nowait(link)

    async def replies(self, link, queries):
        """The replies, and the connection where it can be asked again."""
        replies = []
        try:
            for query, most in queries:
                if link is None:
                    link = await self.open()
                replies.append(await link.ask(query(replies) if callable(query) else query, most))
                if replies[-1].is_cut:
                    # Nothing more is read of it: so the station's place is free again.
                    link.close()
                    link = None
            kept, link = link, None
            return replies, kept
        finally:
            if link is not None:
                link.close()
