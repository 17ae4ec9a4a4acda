"""Tests of what bmpq does with routes: filters, origin validation, what a policy does, the stream for psql."""
import contextlib
import ipaddress
import json
import pathlib
import re
import tempfile

import harness
from harness import CONTRIB, EXAMPLES, HOSTILE, Serving, Stub, bmpq, loc_rib_up, replay, reply, run, same, test
from bmp import initiation
import bmprov

KEY = "0-0000000000000000-10.0.0.11"
ROUTE = b"route 0 %s adj-in-pre %s next=192.0.2.1 origin=igp path=%s med=- pref=- atomic=no agg=- comm=- other=-"


def recorded(stream):
    return ("--file", stream, "--program", harness.PROGRAM)


def table_of(stream, *options, query="table"):
    """The words of each route of a stream: key, view, prefix, and the attributes by name; read here by other means."""
    for line in replay(stream, query, *options).decode().splitlines():
        if line.startswith("route "):
            _, _, key, view, prefix, *words = line.split(" ")
            yield line, key, view, prefix, dict(word.split("=", 1) for word in words)


def streams():
    return sorted(EXAMPLES.glob("*.bmp"))


@contextlib.contextmanager
def file_of(text):
    with tempfile.TemporaryDirectory() as folder:
        path = pathlib.Path(folder, "vrps.csv")
        path.write_bytes(text if isinstance(text, bytes) else text.encode())
        yield path


# Filters.


@test
def routes_are_filtered():
    def numbers(path):
        return re.findall(r"\d+", path)

    cases = [(("--community", "65011:1"), lambda p, a: "65011:1" in a["comm"].split(",")),
             (("--community", "65011:1", "--community", "65001:999"), lambda p, a: {"65011:1", "65001:999"} <= set(a["comm"].split(","))),
             (("--as-in-path", "64501"), lambda p, a: "64501" in numbers(a["path"])),
             (("--as-in-path", "200"), lambda p, a: "200" in numbers(a["path"])),
             (("--next-hop", "2001:DB8:0::11"), lambda p, a: "2001:db8::11" in a["next"].split(",")),
             (("--longer-than", "24"), lambda p, a: int(p.split("/")[1]) > 24),
             (("--longer-than", "20", "--as-in-path", "65011", "--next-hop", "10.0.0.11"),
              lambda p, a: int(p.split("/")[1]) > 20 and "65011" in numbers(a["path"]) and a["next"] == "10.0.0.11")]
    for name in ("bird3-termination", "frr10-sessions-come-and-go", "frr8-two-views"):
        stream = EXAMPLES / f"{name}.bmp"
        rows = list(table_of(stream))
        for options, holds in cases:
            wanted = [line for line, _, _, prefix, attributes in rows if holds(prefix, attributes)]
            first, *lines, end, stop = bmpq(*recorded(stream), *options, "table").decode().splitlines()
            same((lines, end), (wanted, f"end {len(wanted)}"), f"{stream.name}: {options}")
            same((first, stop), tuple(replay(stream, "table").decode().splitlines()[place] for place in (0, -1)), stream.name)
        found = bmpq("--json", *recorded(stream), *options, "table").splitlines()
        same(len(found), len(wanted) + 1, f"{stream.name}: {options} --json")
    for words in (("--community", "1:65536", "table"), ("--community", "x", "table"), ("--next-hop", "nowhere", "table"),
                  ("--longer-than", "-1", "table"), ("--as-in-path", "AS1", "table"), ("--longer-than", "8", "peers"),
                  ("--only", "invalid", "table"), ("--own-as", "1", "table"), ("--longer-than", "8", "--follow", "0", "10.0.0.0/8"),
                  ("--policy", KEY, "view loc"), ("--policy", KEY, "--longer-than", "8"), ("--policy", KEY, "--vrps", "x"),
                  ("--assume-complete", "table"), ("--sql",), ("--station", "a"), ("--sql", "--station", "a'b"),
                  ("--community", "1:2:3:4", "table"), ("--community", "4294967296:0:0", "table"), ("--community", "rt:65536:65536", "table"),
                  ("--community", "rt:1.2.3.4:65536", "table"), ("--community", "rt:1.2.3:1", "table"), ("--community", "so:1:1", "table"),
                  ("--community", "rt:1", "table"), ("--community", "0002FBF400000064", "table"), ("--community", "0:0:", "table"),
                  ("--community", "1:2:3", "--community", "rt:1:2", "table"), ("--community", "1:2:3", "table", "community", "1:2"),
                  ("--community", "1:2", "count"), ("--community", "1:2", "steps", "table"),
                  ("--sql", "--station", "a", "peers"), ("--sql", "--station", "a", "--json"), ("--sql", "--station", "x" * 33)):
        bmpq(*words, status=2)


@test
def the_station_filters():
    """What a query has words for is asked, and of the routes that come those are kept that have the rest."""
    other = ROUTE.replace(b"comm=-", b"comm=64500:1,64500:2") % (KEY.encode(), b"10.1.0.0/16", b"64500_{3356,174}")
    rows = [ROUTE % (KEY.encode(), b"10.0.0.0/8", b"64500"), other]
    queries = []

    def say(query):
        queries.append(query)
        return reply(b"mark 0 %s loc 4 complete" % KEY.encode()) if query.startswith("marks") else reply(*(rows if query[:5] in ("table", "match") else []))

    one, two = ("--community", "64500:1"), ("--community", "64500:2")
    with Stub(say) as stub:
        for words, wanted, kept in (
                ((*one, "table"), ["table community 64500:1"], [other]),
                ((*two, *one, "table"), ["table community 64500:1"], [other]),
                (("--as-in-path", 3356, "table", "router", "0", "view", "loc"), ["table router 0 view loc through 3356"], [other]),
                (("--as-in-path", 3356, "--as-in-path", 64500, *one, "table"), ["table through 3356 community 64500:1"], [other]),
                (("--as-in-path", 3356, "--as-in-path", 64501, "table"), ["table through 3356"], []),
                (("--as-in-path", 4294967296, "table"), ["table"], []),
                (("--as-in-path", 4294967296, "--as-in-path", 3356, "table"), ["table through 3356"], []),
                ((*one, "--community", "64500:1:2", "match", "10.1.0.1"), ["match 10.1.0.1 community 64500:1:2"], [other]),
                (("--community", "64500:1:2", "table"), ["table community 64500:1:2"], rows),
                (("--community", "rt:64500:100", "table"), ["table community rt:64500:100"], rows),
                (("--community", "ro:192.0.2.7:65535", "table"), ["table community ro:192.0.2.7:65535"], rows),
                (("--community", "rt:65536:65535", "table"), ["table community rt:65536:65535"], rows),
                (("--community", "0002fbf400000064", "table"), ["table community 0002fbf400000064"], rows),
                ((*one, "table", "community", "64500:2"), ["table community 64500:2"], [other]),
                (("--as-in-path", 174, "table", "community", "64500:2", "other", "35"), ["table through 174 community 64500:2 other 35"], [other]),
                ((*one, "table through 174 other 35"), ["table through 174 community 64500:1 other 35"], [other]),
                ((*one, "match", "10.1.0.1", "view", "loc"), ["match 10.1.0.1 view loc community 64500:1"], [other]),
                (("--longer-than", 8, "table"), ["table"], [other]),
                (("--wait-complete", *one, "table", "family", "4"), ["marks family 4", "table family 4 community 64500:1"], [other]),
                (("--wait-complete", "table", "family", "4", "through", "1,2", "other", "35"), ["marks family 4", "table family 4 through 1,2 other 35"], rows)):
            queries.clear()
            found = bmpq("--port", stub.port, *words).splitlines()
            same(queries, wanted, words)
            same(found, [b"at 7", *kept, b"end %d" % len(kept)], words)
        queries.clear()
        bmpq("--port", stub.port, "--sql", "--station", "s", *one)
        same(queries[-1], "full table community 64500:1", "--sql")


# Origin validation.

HEAD = "ASN,IP Prefix,Max Length,Trust Anchor\n"


def verdict(prefix, origin, payloads):
    """RFC 6811, section 2, as it says it: over all payloads."""
    network = ipaddress.ip_network(prefix)
    covering = [(asn, longest) for asn, held, longest in payloads if held.version == network.version and network.subnet_of(held)]
    if any(asn == origin and asn != 0 and network.prefixlen <= longest for asn, longest in covering):
        return "valid"
    return "invalid" if covering else "not-found"


def origin_of(path, own):
    """RFC 6811, section 2: the rightmost AS of a last AS_SEQUENCE, the speaker's own AS of an empty path, else none."""
    if path in ("empty", "-"):
        return own
    last = path.split("_")[-1]
    return int(last) if last.isdigit() else own if last[0] in "([" else None


def payloads_of(stream):
    """Payloads that are in part those of a stream's routes, in part near them."""
    found = []
    for place, (_, _, _, prefix, attributes) in enumerate(table_of(stream)):
        network, origin = ipaddress.ip_network(prefix), origin_of(attributes["path"], 65001) or 0
        width = network.max_prefixlen
        kinds = [(origin, network, network.prefixlen), (origin + 1, network, width), (0, network, width),
                 (origin, network.supernet(min(3, network.prefixlen)), network.prefixlen - min(1, network.prefixlen)),
                 (origin, network.supernet(min(5, network.prefixlen)), width)]
        found += [kinds[place % 5]] if place % 7 and network.prefixlen > 8 else []
    return found


@test
def origins_are_validated():
    seen = set()
    for stream in streams():
        payloads = payloads_of(stream)
        text = HEAD + "".join(f"AS{asn},{network},{longest},x\n" for asn, network, longest in payloads)
        with file_of(text) as path:
            words = ("--vrps", path, "--own-as", 65001, *recorded(stream))
            wanted = [f"{line} rov={verdict(prefix, origin_of(attributes['path'], 65001), payloads)}"
                      for line, _, _, prefix, attributes in table_of(stream)]
            lines = bmpq(*words, "table").decode().splitlines()
            same(lines[1:-2], wanted, stream.name)
            seen |= {line.split("rov=")[1] for line in wanted}
            for only in ("invalid", "valid,not-found"):
                found = bmpq(*words, "--only", only, "table").decode().splitlines()[1:-2]
                same(found, [line for line in wanted if line.split("rov=")[1] in only.split(",")], f"{stream.name}: {only}")
            found = [json.loads(line).get("rov") for line in bmpq("--json", *words, "table").splitlines()]
            same(found[:-1], [line.split("rov=")[1] for line in wanted], f"{stream.name}: JSON")
    same(seen, {"valid", "invalid", "not-found"}, "verdicts")


# A Peer Up of AS 64500 at 192.0.2.1, and a Route Monitoring message of it that announces 10.0.0.0/8 and 10.1.0.0/16.
PEER = "00" * 22 + "c0000201 0000fbf4 c0000201 00000000 00000000"
OPENS = "".join("ff" * 16 + "002b 01 04" + asn + "00b4" + identifier + "0e 020c 010400010001 41040000" + asn for asn, identifier in
                (("fbf0", "c00002fe"), ("fbf4", "c0000201")))
TWO_ROUTES = bytes.fromhex("03 0000009a 03" + PEER + "00" * 12 + "c00002fe 00b3 c350" + OPENS + "03 00000060 00" + PEER + "ff" * 16 +
                           "0030 02 0000 0014 40010100 40020602010000fbf4 400304c0000201 080a 100a01")


@test
def origins_of_worked_rows():
    for text, verdicts in ((HEAD + "AS64500,10.0.0.0/8,8\nAS0,10.1.0.0/16,16\n", ["valid", "invalid"]),
                           (HEAD, ["not-found", "not-found"]), ("", ["not-found", "not-found"]),
                           (HEAD + "AS64500,10.0.0.0/8,15\n", ["valid", "invalid"]), (HEAD + "AS64500,10.0.0.0/8,16\n", ["valid", "valid"]),
                           (HEAD + "AS64501,10.0.0.0/7,24\nAS64500,10.1.0.0/16,16\n", ["invalid", "valid"]),
                           (HEAD + "AS64500,10.1.0.0/16,16\n", ["not-found", "valid"])):
        with file_of(text) as path, file_of(TWO_ROUTES) as stream:
            lines = bmpq("--vrps", path, *recorded(stream), "within 0.0.0.0/0").decode().splitlines()
            found = [(line.split(" ")[4], line.rpartition("rov=")[2]) for line in lines[1:-2]]
            same(found, list(zip(("10.0.0.0/8", "10.1.0.0/16"), verdicts)), repr(text))


def own_as(stream, key):
    """The speaker's AS by the OPEN that it sent: FRR 10 has AS 0 in that of its Loc-RIB."""
    return 0 if stream.name.startswith("frr10") and key.startswith("3-") else 65001


@test
def origins_by_the_program():
    seen = set()
    for stream in streams():
        payloads = payloads_of(stream)
        text = HEAD + "".join(f"AS{asn},{network},{longest},x\n" for asn, network, longest in payloads)
        for options in [], ["--lenient"]:
            wanted = {4: [], 6: []}
            for _, key, view, prefix, attributes in table_of(stream, *options):
                origin = origin_of(attributes["path"], own_as(stream, key))
                words = [key, view, prefix, "none" if origin is None else origin, verdict(prefix, origin, payloads)]
                words += [f"id={attributes['id']}"] if "id" in attributes else []
                wanted[ipaddress.ip_network(prefix).version].append("rov 0 " + " ".join(map(str, words)))
                seen.add(words[4])
            with file_of(text) as path:
                for version, everything in (4, "0.0.0.0/0"), (6, "::/0"):
                    done = run([harness.PROGRAM, "rov", *options, path, everything], stdin=open(stream, "rb"))
                    first, *lines, end, stop = done.stdout.decode().splitlines()
                    what = f"{stream.name}: {options} {everything}"
                    same((lines, end), (wanted[version], f"end {len(wanted[version])}"), what)
                    same((first, stop), tuple(replay(stream, "table", *options).decode().splitlines()[place] for place in (0, -1)), what)
    same(seen, {"valid", "invalid", "not-found"}, "verdicts")


@test
def origins_of_routers_of_which_nothing_tells():
    up = b"peer %d %s up asn=%d id=192.0.2.254 local=0.0.0.0 ports=0,0 filtered=no table=-"
    said = {"peers": reply(up % (0, b"3-0000000000000000-0.0.0.0", 64496)),
            "table": reply(*(ROUTE.replace(b"route 0", b"route %d" % router) % (b"0-0000000000000000-192.0.2.1", prefix, path)
                             for router in (0, 1) for prefix, path in ((b"10.0.0.0/8", b"empty"), (b"10.1.0.0/16", b"64500_(64510)"),
                                                                       (b"10.2.0.0/16", b"64496_{64496}"), (b"11.0.0.0/8", b"empty"))))}
    with Stub(said.get) as stub, file_of(HEAD + "AS64496,10.0.0.0/8,24,x\n") as path:
        words = ("--port", stub.port, "--vrps", path)
        found = [line.split("rov=")[1] for line in bmpq(*words, "table").decode().splitlines()[1:-1]]
        same(found, ["valid", "valid", "invalid", "not-found", "unknown", "unknown", "invalid", "not-found"], "the router's own AS")
        found = [line.split("rov=")[1] for line in bmpq(*words, "--own-as", "64497", "table").decode().splitlines()[1:-1]]
        same(found[4:], ["invalid", "invalid", "invalid", "not-found"], "--own-as")


@test
def files_of_payloads():
    """Files as routinator, rpki-client and others write them, and junk: the payloads, or the record that is bad."""
    good = {HEAD: 0, "": 0, "\r\n\r\n": 0, HEAD + "AS64500,10.0.0.0/8,8,x\n": 1, HEAD + "64500,10.0.0.0/8,8": 1,
            HEAD.replace("\n", "\r\n") + "AS64500,10.0.0.0/8,8,x\r\nAS1,2001:DB8::/32,48,x\r\n": 2, HEAD + "AS64500,10.0.0.0/8,\n": 1,
            "\ufeff" + HEAD + "AS64500,10.0.0.0/8,8\n": 1, '"ASN","IP Prefix","Max"\n"64500","10.0.0.0/8","8"\n': 1,
            HEAD + '\n\n"AS64500",10.0.0.0/8,8,"a, ""b""\nc"\r\rAS1,11.0.0.0/8,8\n': 2, HEAD + "AS0,0.0.0.0/0,32\nAS4294967295,::/0,128,x,y,z\n": 2,
            HEAD + "AS1,10.1.2.3/8,8\n": 1, HEAD + 'AS1,10.0.0.0/8,8,"open\nAS1,junk\n': 1}
    bad = {HEAD + "AS64500,10.0.0.0/8,7\n": 1, HEAD + "AS1,10.0.0.0/8,8\nas1,10.0.0.0/8,8\n": 2, HEAD + "AS1,10.0.0.0/8\n": 1, HEAD + " \n": 1,
           HEAD + "# a comment\n": 1, HEAD + "AS01,10.0.0.0/8,8\n": 1, HEAD + "AS4294967296,10.0.0.0/8,8\n": 1, HEAD + "AS1,10.0.0.0/33,33\n": 1,
           HEAD + "AS1,10.0.0.0/8,33\n": 1, HEAD + "AS1,2001:db8::/32,129\n": 1, HEAD + "AS1, 10.0.0.0/8,8\n": 1, HEAD + "AS1,10.0.0/8,8\n": 1,
           HEAD + "AS1,::ffff:1.2.3.4/128,128\n": 1, HEAD + "\n\nAS1,10.0.0.0/8,8\r\rAS1,x/8,8\n": 2, HEAD + "AS-1,10.0.0.0/8,8\n": 1,
           "URI,ASN,IP Prefix,Max\nrsync://x,AS1,10.0.0.0/8,8\n": 1, HEAD + '"AS1"1,10.0.0.0/8,8\nAS1,10.0.0.0/8,+8\n': 2,
           HEAD + "AS1,10.0.0.0/08,8\n": 1, HEAD + "AS\u0661,10.0.0.0/8,8\n": 1}
    for text, count in good.items():
        same(bmprov.Payloads(text.encode()).count, count, repr(text))
    for text, line in bad.items():
        try:
            found = bmprov.Payloads(text.encode()).count
        except bmprov.BadFile as fault:
            found = str(fault)
        same(found, f"badfile {line}", repr(text))
    # JSON in one line would be the headings, and every route not-found.
    for text in ('{"roas": [{"asn": "AS1", "prefix": "10.0.0.0/8", "maxLength": 8}]}', '{"roas": [\n{}]}\n', '\ufeff {"roas": []}\n', "\n[1]", "[]"):
        try:
            found = bmprov.Payloads(text.encode()).count
        except bmprov.BadFile as fault:
            found = str(fault)
        same(found, "badfile 0: this is JSON, and payloads are read as CSV", text)
    with Stub(lambda query: reply()) as stub:
        for text, wanted in ((HEAD + "AS1,10.0.0.0/8,8\n", (0, b"at 7\nend 0\n", b"")),
                             (HEAD + "AS1,10.0.0.0/8,7\n", (1, b"", b"bmpq: badfile 1\n")),
                             ('{"roas": []}', (1, b"", b"bmpq: badfile 0: this is JSON, and payloads are read as CSV\n")),
                             (b"\n" * ((1 << 26) + 1), (1, b"", b"bmpq: longfile\n"))):
            with file_of(text) as path:
                done = run([CONTRIB / "bmpq", "--port", stub.port, "--vrps", path, "table"])
                same((done.returncode, done.stdout, done.stderr), wanted, repr(text[:80]))
        with file_of(bytes(range(256)) * 4000) as path:
            bmpq("--port", stub.port, "--vrps", path, "table", status=1)
        bmpq("--port", stub.port, "--vrps", "no/such/file", "table", status=1)


# What a policy does.


def compared(stream, key):
    """What became of each route of a peer, by other means, where both tables are complete. The flags of these streams are alike."""
    sides = {"adj-in-pre": {}, "adj-in-post": {}}
    for _, found, view, prefix, attributes in table_of(stream, query="full table"):
        if found == key and view in sides:
            sides[view][prefix, attributes.pop("id", None)] = attributes
    before, after = sides.values()
    wanted = {}
    for place in before.keys() | after.keys():
        if place in before and place in after:
            wanted[place] = "kept" if before[place] == after[place] else "changed"
        else:
            wanted[place] = "dropped" if place in before else "added"
    return wanted


@test
def what_a_policy_does():
    seen = set()
    for stream in streams():
        if "identifiers" in stream.name:
            continue
        marks = replay(stream, "marks").decode()
        for key in sorted(set(re.findall(r"^mark 0 (0-\S+) ", marks, re.M))):
            if any(f"mark 0 {key} {view} {family} waiting" in marks for view in ("adj-in-pre", "adj-in-post") for family in (4, 6)):
                continue
            lines = bmpq("--policy", key, *recorded(stream)).decode().splitlines()
            found = {(line.split(" ")[3], None): line.split(" ")[4] for line in lines if line.startswith("policy ")}
            wanted = compared(stream, key)
            same(found, wanted, f"{stream.name}: {key}")
            counts = dict(word.split("=") for word in next(line for line in lines if line.startswith("policy-counts ")).split(" ")[1:])
            same(counts, {kind: str(list(wanted.values()).count(kind)) for kind in counts}, f"{stream.name}: {key}")
            same(lines[-1], f"end {len(wanted) + 2}", key)
            seen |= set(wanted.values())
    same(seen >= {"kept", "changed", "dropped"}, True, f"what was seen: {seen}")
    stream = EXAMPLES / "frr10-sessions-come-and-go.bmp"
    lines = bmpq("--policy", KEY, "--only", "changed", *recorded(stream), "router 0", "family 4").decode().splitlines()
    same(lines[1], f"policy 0 {KEY} 198.51.100.0/24 changed next=10.0.0.11 origin=igp path=65001_65011_64500_64501 med=50>77 pref=- "
         "atomic=no agg=- comm=65011:1,65011:2,65535:65281>65001:999,65011:1,65011:2,65535:65281 other=32 "
         "flags=c0 large=65011:1:2,65011:4294967295:7 ext=- otc=- aigp=- originator=- clusters=- raw=-", "beside each other")
    same(lines[-2], "policy-changes next=0 origin=0 path=1 med=1 pref=0 atomic=0 agg=0 comm=1 other=0 flags=0 large=0 ext=0 otc=0 aigp=0 "
         "originator=0 clusters=0 raw=0", "attributes")
    [first, *_] = [json.loads(line) for line in bmpq("--json", "--policy", KEY, "--only", "changed", *recorded(stream)).splitlines()]
    same((first["prefix"], first["changes"], first["before"]["med"], first["after"]["med"], first["revision"]),
         ("198.51.100.0/24", ["med", "comm"], 50, 77, 565), "JSON")
    # GoBGP's stream with path identifiers has no End-of-RIB: nothing is known to be dropped.
    lines = bmpq("--lenient", "--policy", KEY, *recorded(EXAMPLES / "gobgp3-path-identifiers.bmp")).decode()
    same("dropped=0" in lines and " dropped " not in lines, True, lines)
    # Taken as complete, the routes of the peer whose policy refuses two are what they are by the tables alone.
    stream, key = EXAMPLES / "frr10-sessions-come-and-go.bmp", "0-0000000000000000-2001:db8::14"
    for options, wanted in (((), "unknown"), (("--assume-complete",), "dropped")):
        lines = bmpq("--policy", key, *options, *recorded(stream)).decode().splitlines()
        found = {line.split(" ")[3]: line.split(" ")[4] for line in lines if line.startswith("policy ")}
        both = {prefix: what for (prefix, _), what in compared(stream, key).items()}
        same(found, {prefix: wanted if what in ("dropped", "added") else what for prefix, what in both.items()}, f"{key} {options}")


@test
def a_policy_of_paths_with_identifiers():
    up = b"mark 0 k adj-in-pre 4 complete", b"mark 0 k adj-in-post 4 complete"
    key = b"0-0000000000000000-192.0.2.1"
    row = ROUTE % (key, b"10.0.0.0/8", b"64500")
    other = row.replace(b"path=64500", b"path=64501")
    after = row.replace(b"adj-in-pre", b"adj-in-post")
    for marks, rows, wanted in ((up, (row + b" id=7", other + b" id=9", after + b" id=9"), ["7 dropped", "9 changed"]),
                                (up, (row + b" id=7", other + b" id=9", after), ["7 kept", "9 dropped"]),
                                (up[:1], (row + b" id=7", other + b" id=9", after), ["7 kept", "9 unknown"]),
                                (up, (after,), ["- added"]), (up[1:], (after,), ["- unknown"]), ((), (row, after), ["- kept"]), (up, (), [])):
        said = {"marks": reply(*(mark.replace(b" k ", b" " + key + b" ") for mark in marks)), "full": reply(*rows)}
        with Stub(lambda query: said[query.split(" ")[0]]) as stub:
            lines = [json.loads(line) for line in bmpq("--json", "--port", stub.port, "--policy", key.decode()).splitlines()]
            found = sorted(f"{'-' if line['id'] is None else line['id']} {line['what']}" for line in lines if line["line"] == "policy")
            same(found, wanted, f"{marks} {rows}")


@test
def what_a_policy_does_by_a_station_without_whole_lines():
    """Of attributes in `other=` it tells the codes alone: nothing is said of their values but that they aren't compared."""
    marks = reply(*(b"mark 0 0-0000000000000000-192.0.2.1 %s 4 complete" % view for view in (b"adj-in-pre", b"adj-in-post")))
    key = b"0-0000000000000000-192.0.2.1"
    row = ROUTE % (key, b"10.0.0.0/8", b"64500")
    for before, after, med, what, changes, codes in (
            (b"-", b"-", b"-", "kept", [], []), (b"32", b"32", b"-", "uncompared", [], [32]), (b"16,32", b"16,32", b"-", "uncompared", [], [16, 32]),
            (b"-", b"32", b"-", "changed", ["other"], []), (b"16", b"16,32", b"-", "changed", ["other"], [16]),
            (b"32", b"-", b"-", "changed", ["other"], []), (b"32", b"32", b"5", "changed", ["med"], [32]), (b"-", b"-", b"5", "changed", ["med"], [])):
        first, second = (row.replace(b"other=-", b"other=" + other) for other in (before, after))
        second = second.replace(b"adj-in-pre", b"adj-in-post").replace(b"med=-", b"med=" + med)
        said = {"marks": marks, "full": b"error query\n", "table": reply(first, second)}
        with Stub(lambda query: said[query.split(" ")[0]]) as stub:
            words = ("--port", stub.port, "--policy", key.decode())
            [line, counts, told] = [json.loads(line) for line in bmpq("--json", *words).splitlines()]
            same((line["what"], line["changes"], line["uncompared"]), (what, changes, codes), f"{before} {after} {med}")
            same({kind: counts[kind] for kind in counts if counts[kind] == 1}, {what: 1}, "counts")
            same([name for name in told if told[name] == 1], changes, "changes")
            same(list(told)[2:], ["next", "origin", "path", "med", "pref", "atomic", "agg", "comm", "other"], "fields that were compared")
            same(bmpq(*words, "--only", what).splitlines()[1].split(b" ")[4], what.encode(), "text")
            same(len(bmpq(*words, "--only", "dropped").splitlines()), 4, "others")


# A line that is no query.


@test
def bmpq_of_no_query():
    """The program says which word isn't understood, where there is one that knows the line for none."""
    with Stub(lambda query: b"error query\n") as stub:
        for words, program, wanted in (
                ("steps count", harness.PROGRAM, "error query: count: not understood after `steps` (see bmpstation-query(7))"),
                ("table view nowhere", harness.PROGRAM, "error query: view nowhere: not understood after `table` (see bmpstation-query(7))"),
                ("steps count", "no/such/program", "error query"),
                ("table", harness.PROGRAM, "error query")):
            done = run([CONTRIB / "bmpq", "--port", stub.port, "--timeout", 5, "--program", program, words])
            same((done.returncode, done.stderr.decode()), (1, f"bmpq: {wanted}\n"), words)


# Faults of the station.


@test
def bmpq_of_a_station_that_fails():
    key = b"0-0000000000000000-192.0.2.1"
    row = ROUTE % (key, b"10.0.0.0/8", b"64500")
    faults = {"half a line": ([b"at 7\nroute 0 " + key + b" adj-in-pre 10."], 3), "no end": ([b"at 7\n" + row + b"\n"], 3),
              "an unknown line": (reply(b"route 0 gone"), 1), "error": (b"error query\n", 1),
              "another count": (b"at 7\n" + row + b"\nend 3\n", 1), "no prefix": (reply(row.replace(b"10.0.0.0/8", b"10.0.0/8")), 1),
              "prefixes out of order": (reply(row, row.replace(b"10.0.0.0/8", b"9.0.0.0/8")), None),
              "an endless line": (b"at 7\n" + b"x" * (2 << 20), 1), "nothing": ([b""], 3), "control": (reply(row.replace(b"comm=-", b"comm=\t")), 1)}
    said = b""
    with Stub(lambda query: said if "table" in query else reply()) as stub, file_of(HEAD + "AS1,10.0.0.0/8,8\n") as path:
        for name, (said, status) in faults.items():
            for words in (("--longer-than", 3, "table"), ("--vrps", path, "table"), ("--policy", key.decode()), ("--sql", "--station", "a")):
                done = run([CONTRIB / "bmpq", "--port", stub.port, "--timeout", 5, *words])
                wanted = status if status is not None else 1 if words[0] == "--policy" else 0
                same((done.returncode, b"Traceback" in done.stderr), (wanted, False), f"{name}: {words}: {done.stderr[-300:]}")
                if words[0] == "--sql" and wanted:
                    # Nothing is committed: psql meets an error before it.
                    text = done.stdout.decode()
                    schemas = text.count("CREATE TABLE IF NOT EXISTS bmp_router")
                    same(("RAISE EXCEPTION 'bmpq: " in text, text.count("COMMIT;")), (True, schemas), name)


# The stream for psql. tests/sql gives it to a server.


@test
def a_stream_for_psql():
    stream = EXAMPLES / "frr10-sessions-come-and-go.bmp"
    text = bmpq("--sql", "--station", "fra1", *recorded(stream)).decode()
    copied = re.search(r'^COPY "bmp_route:fra1:new" \((.*?)\) FROM stdin;\n(.*?)^\\\.$', text, re.M | re.S)
    names = copied[1].split(", ")
    rows = [dict(zip(names, line.split("\t"))) for line in copied[2].splitlines()]
    wanted = list(table_of(stream, query="full table"))
    same(len(rows), len(wanted), "rows")
    for row, (_, key, view, prefix, attributes) in zip(rows, wanted):
        numbers = "{" + ",".join(re.findall(r"\d+", attributes["path"])) + "}"
        same((row["station"], row["revision"], row["peer"], row["view"], row["prefix"], row["path_text"], row["path"]),
             ("fra1", "565", key, view, prefix, attributes["path"], numbers), prefix)
        same((row["communities"], row["med"].replace("\\N", "-")), ("{" + attributes["comm"].strip("-") + "}", attributes["med"]), prefix)
        same((row["large_communities"], row["ext_communities"], row["raw"]),
             tuple("{" + attributes[name].strip("-") + "}" for name in ("large", "ext", "raw")), prefix)
    with Serving(1, 2) as station:
        link = station.feed(0, initiation(HOSTILE + b"'; DROP TABLE bmp_route; --\\.\n\\.\n", HOSTILE) + loc_rib_up(HOSTILE))
        station.wait(0, 2)
        text = bmpq("--sql", "--station", "fra1", "--port", station.ask_port).decode()
        copied = re.search(r'^COPY "bmp_router:fra1:new" \((.*?)\) FROM stdin;\n(.*?)^\\\.$', text, re.M | re.S)
        [line] = copied[2].split("\n")[:-1]
        name = dict(zip(copied[1].split(", "), line.split("\t")))["name"]
        visible = (HOSTILE + b"'; DROP TABLE bmp_route; --\\.\n\\.\n").decode("utf-8", "backslashreplace").replace("\0", "\\x00")
        same(re.sub(r"\\(.)", lambda m: {"n": "\n", "r": "\r", "t": "\t"}.get(m[1], m[1]), name), visible, "a hostile name")
        link.close()
