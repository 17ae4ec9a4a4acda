#!/usr/bin/env python3
"""Something that answers what bmp-mirror asks, with one lane that makes so many steps a second, which are known beforehand.

    quick_station.py ROWS

It says its port on its standard output. A query `rate N` sets how many steps a second there are from now on; their number at first is
that of the rows, which are there.
"""
import collections
import contextlib
import socket
import sys
import threading
import time

KEPT = 1024
PEER = "0-0000000000000000-192.0.2.1"


def step_of(number, rows):
    """The place that a step speaks of, and the attributes that it has from then on, or None where it is withdrawn."""
    place = number * 7919 % rows if number > rows else number - 1
    if number > rows and number % 5 == 0:
        return place, None
    return place, (f"next=192.0.2.1 origin=igp path=64500_{number % 97} med={number % 11} pref=- atomic=no agg=- comm=- other=- flags=- large=- ext=- "
                   "otc=- aigp=- originator=- clusters=- raw=-")


def prefix_of(place):
    return f"10.{place >> 8}.{place & 255}.0/24" if place < 65536 else f"11.{place - 65536 >> 8}.{place & 255}.0/24"


def table_after(steps, rows, table=None, begun=1):
    """The rows after so many steps: of each place its attributes. Step 0 is the opening."""
    table = {} if table is None else table
    for number in range(begun, steps):
        place, text = step_of(number, rows)
        if text is None:
            table.pop(place, None)
        else:
            table[place] = text
    return table


class Quick:
    def __init__(self, rows):
        self.rows = rows
        self.lock = threading.Lock()
        self.table, self.kept = {}, collections.deque(maxlen=KEPT)
        self.total = self.base = 0
        self.rate, self.since = 0, time.monotonic()
        self.make(rows + 1)

    def make(self, total):
        while self.total < total:
            number = self.total
            if number == 0:
                line = "opened seen=- told=-"
            else:
                place, text = step_of(number, self.rows)
                if text is None:
                    self.table.pop(place, None)
                    line = f"withdraw {PEER} adj-in-pre {prefix_of(place)} seen=- told=-"
                else:
                    self.table[place] = text
                    line = f"announce {PEER} adj-in-pre {prefix_of(place)} {text.replace(' flags=', ' seen=- told=- flags=')}"
            self.kept.append(f"change 0 {number} {line}")
            self.total += 1

    def answer(self, query):
        words, rows = query.split(" "), ()
        with self.lock:
            if self.rate:
                self.make(self.base + int((time.monotonic() - self.since) * self.rate))
            if words[0] == "rate":
                self.rate, self.since, self.base = int(words[1]), time.monotonic(), self.total
                lines = []
            elif words[:2] == ["full", "changes"]:
                since = int(words[3])
                oldest = self.total - len(self.kept)
                lines = [f"steps 0 {self.total}"] + [f"missed {oldest - since}"] * (since < oldest)
                lines += [self.kept[number - oldest] for number in range(max(since, oldest), self.total)]
            elif words[:2] == ["steps", "full"]:
                lines, rows = [f"steps 0 {self.total}"], list(self.table.items())
            elif query == "cut":
                lines = [f"lane 0 {self.total}"]
            else:
                lines = []
            total = self.total
        # Who asks for changes doesn't wait for a table.
        lines += [f"route 0 {PEER} adj-in-pre {prefix_of(place)} {text}" for place, text in rows]
        return "".join(line + "\n" for line in (f"at {total}", *lines, f"end {len(lines)}")).encode()


def talk(quick, link):
    with contextlib.suppress(OSError), link, link.makefile("rb") as lines:
        for line in lines:
            link.sendall(quick.answer(line.decode().rstrip("\n")))


def main():
    quick = Quick(int(sys.argv[1]))
    listener = socket.create_server(("127.0.0.1", 0))
    print(listener.getsockname()[1], flush=True)
    while True:
        link, _ = listener.accept()
        link.setsockopt(socket.IPPROTO_TCP, socket.TCP_NODELAY, 1)
        threading.Thread(target=talk, args=(quick, link), daemon=True).start()


if __name__ == "__main__":
    main()
