"""What is asked: a station, or a recorded stream by the program's `replay`. It is no part of what is proved."""
import re
import subprocess

from bmplines import Station, StationError, Unreachable, as_full, check_reply, parse

SECONDS = 5  # for what the program says of a line


def complaint(program, query):
    """What the program says of a line that is no query: which word isn't understood, and what may stand there. Nothing where
    there is no such program here, or where it would answer the line, as one that is newer than the station may."""
    words = [program, "--check-options", "replay", *query.split(" ")]
    try:
        said = subprocess.run(words, stdin=subprocess.DEVNULL, capture_output=True, timeout=SECONDS)
    except (OSError, subprocess.SubprocessError):
        return ""
    found = re.search(rb"^bmpstation: (.+)$", said.stderr, re.M)
    return f": {found[1].decode(errors='replace')}" if said.returncode == 2 and found else ""


class Live:
    """Asks a station, over a new connection after a reply that wasn't read to its end."""

    def __init__(self, given):
        self.given = given
        self.station = None

    def __enter__(self):
        return self

    def __exit__(self, *_):
        self.close()

    def close(self):
        if self.station is not None:
            self.station.close()
            self.station = None

    def open(self):
        if self.station is None:
            self.station = Station(self.given.host, self.given.port, self.given.timeout, self.given.retry)

    def ask(self, query):
        self.open()
        try:
            yield from self.station.ask(query)
        except StationError as fault:
            raise StationError(f"{fault}{complaint(self.given.program, query)}") from None


class Recorded:
    """Asks a recorded stream by the program's `replay`."""

    def __init__(self, given):
        self.given = given

    def __enter__(self):
        return self

    def __exit__(self, *_):
        self.close()

    def close(self):
        """Each query is a run of its own, so nothing stays open."""

    def ask(self, query):
        given = self.given
        words = [given.program, "replay", *(["--lenient"] if given.lenient else []), query]
        try:
            with open(given.file, "rb") as stream, subprocess.Popen(words, stdin=stream, stdout=subprocess.PIPE) as child:
                first = child.stdout.readline()
                if first.startswith(b"at "):
                    yield first.rstrip(b"\n")
                    for line in child.stdout:
                        yield line.rstrip(b"\n")
        except OSError as fault:
            raise Unreachable(fault) from fault
        if child.returncode == 2:
            raise StationError("error query")
        if child.returncode not in (0, 1, 3):
            raise Unreachable(f"{given.program} ended with status {child.returncode}")


def source_of(given):
    return Recorded(given) if given.file else Live(given)


def ask_whole(source, query):
    """The reply to the query for whole lines, or to the query itself where the station knows no such lines."""
    try:
        lines = source.ask(as_full(query))
        first = next(lines)
    except StationError:
        lines = source.ask(query)
        first = next(lines)
    yield first
    yield from lines


def rows_of(source, query):
    """The revision of a reply, and its lines between `at` and `end`, by their fields."""
    at, *rows, end = [row for row in map(parse, source.ask(query)) if row["line"] != "stop"]
    check_reply(at, len(rows), end)
    return at["revision"], rows
