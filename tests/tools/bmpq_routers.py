"""Tests of whom bmpq asks: routers by their names, and a station that can't be reached yet, or is lost."""
import socket
import subprocess
import time

from harness import CONTRIB, SECONDS, Stub, bmpq, closed_port, reply, run, same, test

LIVE = b"router %d live peers=0 messages=1 bytes=1 orphans=0 unread=0 mirrored=0 passed=0 name=%s descr="
KEY = "0-0000000000000000-192.0.2.1"
PREFIX = "10.0.0.0/8"


def routers(*names):
    """The reply to `routers`: a lane for each name, and one that is idle."""
    return reply(*(LIVE % row for row in enumerate(names)), b"router %d idle" % len(names))


def failed(stub, *words):
    done = run([CONTRIB / "bmpq", "--port", stub.port, *words])
    return done.returncode, done.stderr.decode().strip()


@test
def routers_by_their_names():
    names = (b"r1", b"twice", b"", b"a%20b%C3%A9", b"twice", b"router", b"12")
    queries = []

    def say(query):
        queries.append(query)
        return routers(*names) if query == "routers" else reply(b"mark 0 %s loc 4 complete" % KEY.encode()) if query.startswith("marks") else reply()

    with Stub(say) as stub:
        for words, wanted in ((("table", "router", "r1", "view", "loc"), ["table router 0 view loc"]), (("table router r1",), ["table router 0"]),
                              (("peers", "router", "a b\u00e9"), ["peers router 3"]), (("peers", "router", "a%20b%C3%A9"), ["peers router 3"]),
                              (("count router a%20b%C3%A9 family 4",), ["count router 3 family 4"]), (("count", "router", "router"), ["count router 5"]),
                              (("changes", "a b\u00e9", "0", PREFIX), [f"changes 3 0 {PREFIX}"]), (("changes r1 0 " + PREFIX,), [f"changes 0 0 {PREFIX}"]),
                              (("changes", "r1", "0"), ["changes 0 0"]), (("steps", "table", "router", "r1"), ["steps table router 0"]),
                              (("--longer-than", "8", "table", "router", "r1"), ["table router 0"]),
                              (("--community", "64500:1", "table", "router", "r1"), ["table router 0 community 64500:1"]),
                              (("table", "router", "r1", "other", "35"), ["table router 0 other 35"]),
                              (("--wait-complete", "table", "router", "r1"), ["marks router 0", "table router 0"]),
                              (("--wait-complete", "steps", "table", "router", "r1"), ["marks router 0", "steps table router 0"]),
                              (("--policy", KEY, "router", "r1"), [f"marks router 0 peer {KEY}", f"full table router 0 peer {KEY}", f"marks router 0 peer {KEY}"]),
                              (("--sql", "--station", "s", "table", "router", "r1"), ["routers", "peers", "marks", "full table router 0"]),
                              (("full", "table", "router", "r1"), ["full table router 0"]), (("full changes r1 0",), ["full changes 0 0"]),
                              (("steps full table router r1",), ["steps full table router 0"]),
                              (("--wait-complete", "steps", "full", "table", "router", "r1"), ["marks router 0", "steps full table router 0"])):
            queries.clear()
            connections = stub.connections
            bmpq("--port", stub.port, *words)
            # Afterwards the station is asked whether the router has its lane still.
            same(queries, ["routers", *wanted, "routers"], words)
            same(stub.connections, connections + 1, f"{words}: connections")
        for words in (("count", "router", "12"), ("routers",), ("count router 3",), ("changes", "1", "0", PREFIX)):
            queries.clear()
            bmpq("--port", stub.port, *words)
            same(queries, [" ".join(words)], "a number is a lane")
        for name, wanted in (("twice", "2 connected routers have the name twice: they are at lanes 1 and 4"), ("R1", "no connected router has the name R1"),
                             ("01x", "no connected router has the name 01x"), ("b\u00e9", "no connected router has the name b%C3%A9")):
            for words in (("count", "router", name), ("changes", name, "0", PREFIX), ("--follow", name, PREFIX), ("--follow", name), ("--policy", KEY, "router", name),
                          ("--sql", "--station", "s", "table", "router", name)):
                same(failed(stub, *words), (1, f"bmpq: {wanted}"), words)
        done = run([CONTRIB / "bmpq", "--port", stub.port, "routers"])
        same((done.stdout, done.stderr), (routers(*names), b"bmpq: lanes 1 and 4 have the name twice\n"), "two of a name")
    # A router that has another lane once the reply came, or none.
    for after, why in (((b"other", b"r1"), "router r1 has another lane than 0 by now: ask again"), ((b"other",), "no connected router has the name r1")):
        turns = []

        def say(query):
            if query != "routers":
                return reply()
            turns.append(query)
            return routers(*((b"r1", b"other") if len(turns) == 1 else after))

        for words in (("table", "router", "r1"), ("--longer-than", "8", "table", "router", "r1"), ("--policy", KEY, "router", "r1")):
            turns.clear()
            with Stub(say) as stub:
                same(failed(stub, *words), (1, f"bmpq: {why}"), words)


@test
def a_router_that_has_gone():
    """Where no connected router has a name, it is said how the last ones ended that had it, if the station tells."""
    counts = b"peers=1 messages=3 bytes=270 orphans=0 unread=0 mirrored=0 passed=0 name=%s descr="
    unread = b"tlvs=0 stats=0 malformed=0 others=- more=0"
    lines = [b"router 0 closed broken 270 body from=192.0.2.1:50852 since=1764571484 until=1764571500 %s %s" % (counts % b"r%201", unread),
             b"router 1 closed ended from=- since=- until=- %s %s" % (counts % b"r2", unread),
             b"router 2 live %s from=[2001:db8::1]:5 since=7 until=- %s" % (counts % b"r3", unread), b"router 3 idle from=- since=- until=-",
             b"router 4 closed readfault 20 from=[2001:db8::1]:9 since=5 until=18446744073709551615 %s %s" % (counts % b"r2", unread)]
    none = "bmpq: no connected router has the name "
    ended = "; its connection from 192.0.2.1:50852 in lane 0 closed at 2025-12-01T06:45:00Z: broken 270 body"
    far = "; its connection from [2001:db8::1]:9 in lane 4 closed at 18446744073709551615 seconds after 1970: readfault 20"
    for knows in True, False:
        answers = {"routers": reply(b"router 0 closed broken 270 body", b"router 1 closed ended", LIVE % (2, b"r3"), b"router 3 idle", b"router 4 closed readfault 20"),
                   "full routers": reply(*lines) if knows else b"error query\n"}
        with Stub(lambda query: answers.get(query, reply())) as stub:
            for name, told in (("r 1", ended), ("r%201", ended), ("r2", "; its connection in lane 1 closed: ended" + far), ("r4", "")):
                for words in (("count", "router", name), ("--follow", name, PREFIX)):
                    same(failed(stub, *words), (1, none + name.replace(" ", "%20") + told * knows), words)
            same(failed(stub, "count", "router", "r3"), (0, ""), "one that is connected")
            if knows:
                done = run([CONTRIB / "bmpq", "--port", stub.port, "full", "routers"])
                same((done.stdout, done.stderr), (reply(*lines), b""), "names of connections that are closed")


@test
def a_station_that_comes_later():
    with closed_port() as port:
        begun = time.monotonic()
        same(run([CONTRIB / "bmpq", "--port", port, "--retry", 1.5, "cut"]).returncode, 3, "a station that doesn't come")
        same(1.4 < time.monotonic() - begun < 30, True, "how long it tried")
        same(run([CONTRIB / "bmpq", "--port", port, "cut"]).returncode, 3, "without --retry")
        child = subprocess.Popen([CONTRIB / "bmpq", "--port", str(port), "--retry", str(SECONDS), "cut"], stdout=subprocess.PIPE)
    time.sleep(1)
    with socket.create_server(("127.0.0.1", port)) as listener:
        link, _ = listener.accept()
        with link, link.makefile("rb") as lines:
            same(lines.readline(), b"cut\n", "the query")
            link.sendall(reply(b"lane 0 0"))
            same((child.communicate(timeout=SECONDS)[0], child.returncode), (reply(b"lane 0 0"), 0), "its reply")
    same(run([CONTRIB / "bmpq", "--retry", 1, "--file", "x", "cut"]).returncode, 2, "with --file")


def change(lane, step, what):
    return b"change %d %d %s" % (lane, step, what)


def withdraw(lane, step):
    return change(lane, step, b"withdraw %s loc %s" % (KEY.encode(), PREFIX.encode()))


def followed(turns, *words, polls):
    """What bmpq prints of a station that says this, turn after turn, to `changes`, and what it was asked for. A turn of bytes in a
    list ends the connection."""
    asked = []

    def say(query):
        asked.append(query)
        return turns.pop(0)

    with Stub(say) as stub:
        done = run([CONTRIB / "bmpq", "--port", stub.port, "--interval", 0.01, "--polls", polls, *words])
    return done.returncode, done.stdout.splitlines(), asked, done.stderr.decode()


@test
def a_lane_is_followed():
    """Without a prefix each change is printed, and how many are lost."""
    lines = [withdraw(3, 10), b"missed 70", change(3, 81, b"down %s" % KEY.encode()), change(3, 82, b"opened")]
    turns = [reply(b"steps 3 10"), reply(b"steps 3 11", *lines[:1]), reply(b"steps 3 11"), reply(b"steps 3 83", *lines[1:])]
    status, printed, asked, said = followed(turns, "--follow", 3, polls=4)
    same((status, printed), (0, lines), said)
    same(asked, [f"changes 3 {step}" for step in (2**64 - 1, 10, 11, 11)], "queries")


@test
def a_prefix_is_followed_over_a_lost_connection():
    """With --retry it is asked for again from where it was, and nothing is printed twice."""
    turns = [reply(b"steps 3 10"), reply(b"steps 3 12", withdraw(3, 10)), [b"at 7\nsteps 3 14\n" + withdraw(3, 12) + b"\n"],
             reply(b"steps 3 14", withdraw(3, 12)), [b""], reply(b"steps 3 15", withdraw(3, 14))]
    status, lines, asked, said = followed(list(turns), "--retry", SECONDS, "--follow", 3, PREFIX, polls=4)
    same((status, lines), (0, [withdraw(3, 10), withdraw(3, 12), withdraw(3, 14)]), said)
    same([query.split(" ")[2] for query in asked], [str(2**64 - 1), "10", "12", "12", "14", "14"], "steps")
    # Without it the fault is one.
    status, lines, asked, said = followed(list(turns), "--follow", 3, PREFIX, polls=4)
    same((status, lines, said.count("Traceback")), (3, [withdraw(3, 10)], 0), "without --retry")
    # A station that began anew: all that its lane has is new.
    turns = [reply(b"steps 3 10"), [b""], reply(b"steps 3 2"), reply(b"steps 3 2", withdraw(3, 1)), reply(b"steps 3 3", withdraw(3, 2))]
    status, lines, asked, said = followed(turns, "--retry", SECONDS, "--follow", 3, PREFIX, polls=3)
    same((status, lines, "the station began anew" in said), (0, [withdraw(3, 1), withdraw(3, 2)], True), said)
    same([query.split(" ")[2] for query in asked], [str(2**64 - 1), "10", "10", "0", "2"], "steps")


@test
def a_router_is_followed_to_another_lane():
    """A name is followed where its router goes: on the new lane from the opening of its connection on."""
    at = {"names": (b"r1", b"other")}
    turns = [reply(b"steps 0 10"), reply(b"steps 0 12", withdraw(0, 10), change(0, 11, b"closed ended")),
             reply(b"steps 2 9", b"missed 1", change(2, 3, b"opened"), withdraw(2, 4), change(2, 5, b"closed ended"), change(2, 6, b"opened"),
                   withdraw(2, 8)),
             reply(b"steps 2 10", withdraw(2, 9))]
    asked, printed = [], [withdraw(0, 10), change(0, 11, b"closed ended"), change(2, 6, b"opened"), withdraw(2, 8), withdraw(2, 9)]

    def say(query):
        if query == "routers":
            # Gone for a moment, and then on another lane.
            at["asked"] = at.get("asked", 0) + 1
            return routers(*((b"r1", b"other") if at["asked"] == 1 else (b"x", b"other") if at["asked"] == 2 else (b"x", b"other", b"r1")))
        if query == "full routers":
            return b"error query\n"
        asked.append(query)
        return turns.pop(0)

    with Stub(say) as stub:
        done = run([CONTRIB / "bmpq", "--port", stub.port, "--interval", 0.01, "--polls", 4, "--retry", SECONDS, "--follow", "r1", PREFIX])
        same((done.returncode, done.stdout.splitlines()), (0, printed), done.stderr)
        same([query.split(" ")[1:3] for query in asked], [["0", str(2**64 - 1)], ["0", "10"], ["2", "0"], ["2", "9"]], "lanes and steps")
        same(stub.connections, 1, "connections")
        same(b"no connected router has the name r1; trying again" in done.stderr, True, done.stderr)
