"""Tests of what bmpq does with whole lines: their fields, filters, changes that are followed, what a policy does."""
import json

import harness
from harness import SECONDS, Serving, Stub, bmpq, reply, run, same, test
from bmp import Peer, attribute, initiation, monitoring, nlri, peer_up, usual_attributes
from bmpq_routers import followed, routers, withdraw
from bmpq_routes import ROUTE, file_of, recorded

PEER = Peer(0, 0, "192.0.2.1")
KEY = "0-0000000000000000-192.0.2.1"

# Path attributes, each by hand after its RFC: ORIGINATOR_ID and CLUSTER_LIST (RFC 4456), extended communities (RFC 4360; RFC 5668
# for the second), one of type 25 (RFC 5701), which nobody reads, AIGP (RFC 7311), large communities (RFC 8092) with the Partial
# bit, Only to Customer (RFC 9234).
ORIGINATOR = attribute(0x80, 9, bytes([192, 0, 2, 9]))
CLUSTERS = attribute(0x80, 10, bytes([192, 0, 2, 10, 192, 0, 2, 11]))
EXTENDED = attribute(0xC0, 16, bytes.fromhex("0002fbf400000064" "02020000fbf40064" "0103c00002070005"))
IPV6 = attribute(0xC0, 25, bytes.fromhex("000220010db80000000000000000000001000064"))
AIGP = attribute(0x80, 26, bytes.fromhex("01000b0000000100000000"))
LARGE = attribute(0xE0, 32, bytes.fromhex("0000fbf40000000100000002" "0000fbf40000000300000004"))
CUSTOMER = attribute(0xC0, 35, (64501).to_bytes(4, "big"))
ALL = ORIGINATOR + CLUSTERS + EXTENDED + IPV6 + AIGP + LARGE + CUSTOMER

# The fields of 10.0.0.0/8, which has all of these, and of 10.1.0.0/16, which has none.
WHOLE = {"flags": {"9": "80", "10": "80", "16": "c0", "25": "c0", "26": "80", "32": "e0", "35": "c0"},
         "large_communities": ["64500:1:2", "64500:3:4"], "ext_communities": ["rt:64500:100", "02020000fbf40064", "ro:192.0.2.7:5"],
         "otc": 64501, "aigp": 4294967296, "originator": "192.0.2.9", "clusters": ["192.0.2.10", "192.0.2.11"],
         "raw": {"25": "000220010db80000000000000000000001000064"}}
NOTHING = {"flags": {}, "large_communities": [], "ext_communities": [], "otc": None, "aigp": None, "originator": None, "clusters": [], "raw": {}}


def announced(prefix, attributes=b"", view="adj-in-pre", path=(64500,), med=None, peer=PEER, identifier=None):
    return monitoring(peer, view, attributes=usual_attributes(path, med) + attributes, routes=nlri(prefix, identifier))


STREAM = initiation(b"r1") + peer_up(PEER) + announced("10.0.0.0/8", ALL) + announced("10.1.0.0/16")


def objects(text):
    return [json.loads(line) for line in text.splitlines()]


@test
def whole_lines_as_json():
    with file_of(STREAM) as stream:
        first, second, stop = objects(bmpq("--json", *recorded(stream), "full", "table"))
        same((first["other"], second["other"], first["id"]), ([9, 10, 16, 25, 26, 32, 35], [], None), "today's fields")
        same(([row["prefix"] for row in (first, second)], stop["line"]), (["10.0.0.0/8", "10.1.0.0/16"], "stop"), "rows")
        for row, wanted in (first, WHOLE), (second, NOTHING):
            same({name: row.get(name) for name in wanted}, wanted, row["prefix"])
        # A change has the same behind the times, of which a recorded stream tells none.
        found = objects(bmpq("--json", *recorded(stream), "full", "changes", "0", "0"))
        same([row.get("change") for row in found], [None, "opened", "up", "announce", "announce", None], "changes")
        same([(row["seen"], row["told"]) for row in found[1:-1]], [(None, None)] * 4, "the times")
        for row, wanted in (found[3], WHOLE), (found[4], NOTHING):
            same({name: row.get(name) for name in wanted}, wanted, f"announce {row['prefix']}")
        same([name for row in found for name in WHOLE if row.get("change") != "announce" and name in row], [], "fields of other changes")
        # Without the word no row has them.
        same([name for row in objects(bmpq("--json", *recorded(stream), "table")) for name in WHOLE if name in row], [], "table")
        # An attribute of type 32 with 11 octets is malformed; an identifier stands before what a whole line has.
        peer = Peer(0, 0, "192.0.2.2", True)
        other = peer_up(peer) + announced("10.2.0.0/16", attribute(0xC0, 32, bytes(11)), peer=peer, identifier=7)
    with file_of(initiation(b"r1") + other) as stream:
        row, _ = objects(bmpq("--json", *recorded(stream), "full table"))
        same({name: row[name] for name in ("id", *WHOLE)}, NOTHING | {"id": 7, "flags": {"32": "c0"}, "raw": {"32": "00" * 11}}, "a malformed attribute")


@test
def whole_lines_are_filtered():
    """A whole line tells large and extended communities, so each that is given is looked for, however it is written."""
    with file_of(STREAM) as stream:
        def prefixes(*words):
            return [line.split(" ")[4] for line in bmpq(*recorded(stream), *words).decode().splitlines() if line.startswith("route ")]

        for communities, wanted in ((("64500:1:2", "64500:3:4"), True), (("64500:1:2", "64500:3:5"), False), (("64500:1:2", "rt:64500:100"), True),
                                    (("rt:64500:100", "0103c00002070005", "ro:192.0.2.7:5"), True), (("0002fbf400000064", "02020000fbf40064"), True),
                                    (("rt:64500:100", "rt:64500:101"), False), (("rt:64500:100", "ro:64500:100"), False), (("64500:1:2", "64500:1"), False)):
            words = [word for community in communities for word in ("--community", community)]
            same(prefixes(*words, "full", "table"), ["10.0.0.0/8"] * wanted, communities)
            same(prefixes(*words, "full", "table", "community", "64500:3:4"), ["10.0.0.0/8"] * wanted, communities)
        same(prefixes("--community", "64500:1:2", "table"), ["10.0.0.0/8"], "of a line that doesn't tell it, by the station")
        same(prefixes("--longer-than", 8, "full", "within", "0.0.0.0/0"), ["10.1.0.0/16"], "another filter")
        lines = bmpq(*recorded(stream), "--community", "64500:1:2", "full table").decode().splitlines()
        same(lines[1].endswith(" raw=25:000220010db80000000000000000000001000064"), True, "the line as it came")
    bmpq("--community", "1:2:3", "--community", "1:2:4", "steps", "full", "table", status=2)


def policy_of(before, after):
    """What bmpq says of a route with these attributes before and after policy: the kind, the fields that differ, and its line."""
    stream = initiation(b"r1") + peer_up(PEER)
    for view, attributes in ("adj-in-pre", before), ("adj-in-post", after):
        stream += announced("10.0.0.0/8", attributes, view) + monitoring(PEER, view)
    with file_of(stream) as file:
        words = ("--policy", KEY, *recorded(file))
        line, counts, changes, _ = objects(bmpq("--json", *words))[:3] + [None]
        same([name for name, n in changes.items() if n == 1], line["changes"], "policy-changes")
        same((counts[line["what"]], line["uncompared"]), (1, []), "policy-counts")
        return line["what"], line["changes"], bmpq(*words).decode().splitlines()[1]


@test
def a_policy_is_compared_by_whole_lines():
    """Each attribute by itself, changed, added or taken: what is seen of it by hand."""
    other_large = attribute(0xE0, 32, bytes.fromhex("0000fbf40000000100000002" "0000fbf40000000300000005"))
    wide = bytes([0xF0, 32, 0, 24]) + LARGE[3:]
    for before, after, what, changes in (
            (ALL, ALL, "kept", []), (b"", b"", "kept", []),
            (b"", LARGE, "changed", ["other", "large_communities"]), (LARGE, b"", "changed", ["other", "large_communities"]),
            (LARGE, other_large, "changed", ["large_communities"]), (CUSTOMER, CUSTOMER[:-1] + b"\x00", "changed", ["otc"]),
            (ORIGINATOR, ORIGINATOR[:-1] + b"\x08", "changed", ["originator"]), (CLUSTERS, attribute(0x80, 10, CLUSTERS[3:7]), "changed", ["clusters"]),
            (AIGP, AIGP[:-1] + b"\x01", "changed", ["aigp"]), (IPV6, IPV6[:-1] + b"\x65", "changed", ["raw"]),
            (EXTENDED, attribute(0xC0, 16, EXTENDED[3:19]), "changed", ["ext_communities"]),
            # The Partial bit alone; and what says only that the length has two octets.
            (LARGE, b"\xc0" + LARGE[1:], "changed", ["flags"]), (LARGE, wide, "kept", [])):
        found = policy_of(before, after)
        same(found[:2], (what, changes), (before, after))
    line = policy_of(LARGE, other_large + CUSTOMER)[2]
    same(line, f"policy 0 {KEY} 10.0.0.0/8 changed next=192.0.2.1 origin=igp path=64500 med=- pref=- atomic=no agg=- comm=- other=32>32,35 "
         "flags=e0>e0,c0 large=64500:1:2,64500:3:4>64500:1:2,64500:3:5 ext=- otc=->64501 aigp=- originator=- clusters=- raw=-", "a line")


def printed(station, *words, polls):
    done = run([harness.CONTRIB / "bmpq", "--port", station.ask_port, "--interval", 0.01, "--polls", polls, *words])
    same((done.returncode, done.stderr), (0, b""), words)
    return done.stdout.decode().splitlines()


@test
def whole_lines_are_followed():
    """First the rows, and then what changes: as the queries tell them."""
    route = "next=192.0.2.1 origin=igp path=64500 med=- pref=- atomic=no agg=- comm=-"
    nothing = "flags=- large=- ext=- otc=- aigp=- originator=- clusters=- raw=-"
    with Serving(1, 2) as station:
        link = station.feed(0, initiation(b"r1") + peer_up(PEER) + announced("10.1.0.0/16") + announced("10.0.0.0/8", CUSTOMER))
        station.wait(0, 4)
        row = f"10.0.0.0/8 {route} other=35", "flags=c0 large=- ext=- otc=64501 aigp=- originator=- clusters=- raw=-"
        rows = [f"route 0 {KEY} adj-in-pre {row[0]} {row[1]}", f"route 0 {KEY} adj-in-pre 10.1.0.0/16 {route} other=- {nothing}"]
        for router in "0", "r1":
            same(printed(station, "--full", "--rows", "--follow", router, polls=2), ["steps 0 4", *rows, "end 3"], router)
            same(printed(station, "--full", "--rows", "--follow", router, "10.0.0.0/8", polls=1), ["steps 0 4", rows[0], "end 2"], "of a prefix")
            same(printed(station, "--rows", "--follow", router, "10.0.0.0/8", polls=1), ["steps 0 4", f"route 0 {KEY} adj-in-pre {row[0]}", "end 2"], "today's")
        changes = [f"change 0 2 announce {KEY} adj-in-pre 10.1.0.0/16 {route} other=- seen=- told=- {nothing}",
                   f"change 0 3 announce {KEY} adj-in-pre {row[0]} seen=- told=- {row[1]}"]
        same(printed(station, "--full", "--from", 2, "--follow", 0, polls=1), changes, "changes alone")
        same(printed(station, "--full", "--from", 0, "--follow", "r1", "10.0.0.0/8", polls=1),
             ["change 0 0 opened seen=- told=-", f"change 0 1 up {KEY} seen=- told=-", changes[1]], "of a prefix")
        told = objects(bmpq("--json", "--port", station.ask_port, "--polls", 1, "--full", "--rows", "--follow", "r1"))
        same([(line["line"], line["revision"]) for line in told], [("steps", 5), ("route", 5), ("route", 5), ("end", 5)], "JSON")
        link.close()
    for words in (("--full", "table"), ("--rows", "table"), ("--rows", "--from", 3, "--follow", "r1")):
        bmpq(*words, status=2)


@test
def rows_are_told_anew():
    """Where changes are lost, where a reply of rows breaks off, and where the station began anew; a name's, where it has another lane."""
    row = ROUTE.replace(b"route 0", b"route 3") % (KEY.encode(), b"10.0.0.0/8", b"64500")
    other = row.replace(b"path=64500", b"path=64501")
    turns = [reply(b"steps 3 10", row), reply(b"steps 3 2000", b"missed 966", withdraw(3, 976)), [b"at 7\nsteps 3 2000\n" + row + b"\n"],
             reply(b"steps 3 2000", row), reply(b"steps 3 2001", withdraw(3, 2000)), [b""], reply(b"steps 3 5"), reply(b"steps 3 5", other),
             reply(b"steps 3 5")]
    status, lines, asked, said = followed(turns, "--retry", SECONDS, "--rows", "--follow", 3, polls=6)
    table, changes = "steps table router 3", "changes 3 "
    same(asked, [table, changes + "10", table, table, changes + "2000", changes + "2001", changes + "2001", table, changes + "5"], "queries")
    same((status, lines), (0, [b"steps 3 10", row, b"end 2", b"missed 966", b"steps 3 2000", row, b"steps 3 2000", row, b"end 2", withdraw(3, 2000),
                               b"steps 3 5", other, b"end 2"]), said)
    same("the station began anew" in said, True, said)
    # The router goes, and is on another lane a moment later.
    names = [(b"r1", b"other"), (b"r1", b"other"), (b"x", b"other"), (b"x", b"other", b"r1"), (b"x", b"other", b"r1")]
    turns = {"steps full prefix 10.0.0.0/8 router 0": reply(b"steps 0 10"), "steps full prefix 10.0.0.0/8 router 2": reply(b"steps 2 7"),
             "full changes 0 10 10.0.0.0/8": reply(b"steps 0 11", b"change 0 10 closed ended seen=- told=-"),
             "full changes 2 7 10.0.0.0/8": reply(b"steps 2 7")}
    asked = []

    def say(query):
        if query == "full routers":
            return b"error query\n"
        asked.append(query)
        return routers(*names.pop(0)) if query == "routers" else turns[query]

    with Stub(say) as stub:
        done = run([harness.CONTRIB / "bmpq", "--port", stub.port, "--interval", 0.01, "--polls", 4, "--retry", SECONDS, "--full", "--rows",
                    "--follow", "r1", "10.0.0.0/8"])
        same((done.returncode, done.stdout.splitlines()),
             (0, [b"steps 0 10", b"end 1", b"change 0 10 closed ended seen=- told=-", b"steps 2 7", b"end 1"]), done.stderr)
        same([query for query in asked if query != "routers"], list(turns)[:1] + list(turns)[2:3] + list(turns)[1:2] + list(turns)[3:], "queries")
    # No such lane, and one of a reply that isn't whole.
    for turn, wanted in (reply(), "the station has no lane 3"), (b"at 7\nsteps 3 1\nend 2\n", "another number than its lines"):
        status, lines, asked, said = followed([turn], "--rows", "--follow", 3, polls=1)
        same((status, wanted in said), (1, True), said)
