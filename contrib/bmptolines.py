"""The output `lines` of bmp-mirror: JSON lines on standard output. It is no part of what is proved."""
import sys

from bmpmirror import Done, Keyed, as_json, now

# So much is kept before it is written.
PIECE = 1 << 16


class Lines(Keyed):
    """A line for each row that differs, and for each mark. Nobody can say what was read of former lines, so a first line says that all
    that holds is told anew."""

    def __init__(self, station, say, given):
        super().__init__(station, say)
        self.kept, self.size = [], 0
        self.line(station, as_json({"kind": "begin", "station": station, "time": now()}))

    def line(self, key, value):
        text = f'{{"key":"{key}","value":{"null" if value is None else value}}}\n'
        self.kept.append(text)
        self.size += len(text)
        if self.size > PIECE:
            self.flush()

    def put(self, router, key, value):
        self.line(key, value)

    def put_mark(self, router, mark, held):
        self.line(self.texts.key(router), self.texts.mark(router, mark))
        self.flush()

    def flush(self):
        try:
            sys.stdout.write("".join(self.kept))
            sys.stdout.flush()
        except OSError as fault:
            raise Done(f"nobody reads the lines: {fault.strerror}") from fault
        self.kept, self.size = [], 0
