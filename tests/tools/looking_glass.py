"""Tests of bmp-lookingglass: its JSON, what it refuses, a station that fails, many visitors, the page in a browser."""
import http.client
import json
import pathlib
import re
import shutil
import socket
import sys
import tempfile
import threading
import time
import urllib.parse

import harness
from harness import (CONTRIB, EXAMPLES, SECONDS, TOP, LookingGlass, Serving, Shared, Stub, closed_port, loc_rib_up,
                     replay, reply, run, same, test)
from bmp import initiation
from texts import text_of

STREAM = EXAMPLES / "frr10-sessions-come-and-go.bmp"
ROW = b"route 0 0-0000000000000000-192.0.2.1 adj-in-pre %s next=192.0.2.1 origin=igp path=64500 med=- pref=- atomic=no agg=- comm=- other=-"


def asked(glass, target, status=200):
    found, headers, body = glass.get(target)
    same((found, headers["Content-Type"]), (status, "application/json"), f"{target[:100]}: {body[:200]}")
    return json.loads(body)


def lines_of(query, stream=STREAM):
    return replay(stream, query).decode().splitlines()[1:-2]


@test
def a_looking_glass_answers_what_the_station_does():
    key = "0-0000000000000000-10.0.0.11"
    questions = [("routes?prefix=203.0.113.0/24", "full prefix 203.0.113.0/24"), ("routes?address=198.51.100.7", "full match 198.51.100.7"),
                 ("routes?within=2001:DB8::/32&view=loc", "full within 2001:db8::/32 view loc"), ("routes?origin=64501", "full origin 64501"),
                 (f"routes?origin=64501&router=0&peer={key}&view=adj-in-pre&family=4",
                  f"full origin 64501 router 0 peer {key} view adj-in-pre family 4"),
                 ("routes?prefix=192.0.2.77/32", "full prefix 192.0.2.77/32"), ("routes?origin=64501&router=5", "full origin 64501 router 5"),
                 ("routes?through=65011,64500", "full table through 65011,64500"), ("routes?other=32&view=loc", "full table view loc other 32"),
                 ("routes?community=65011:1:2&router=0", "full table router 0 community 65011:1:2"),
                 ("routes?within=192.0.0.0/8&community=rt:65011:5&through=65011&other=16",
                  "full within 192.0.0.0/8 family 4 through 65011 community rt:65011:5 other 16"),
                 ("peers", "peers"), (f"peers?router=0&peer={key}", f"peers router 0 peer {key}"),
                 ("marks?view=loc", "full marks view loc" if lines_of("full marks") else "marks view loc")]
    with Serving(1, 2) as station, LookingGlass(station.ask_port, "--connections", 1) as glass:
        same([row["state"] for row in asked(glass, "/api/routers")["rows"]], ["idle"], "before any router")
        link = station.feed(0, STREAM.read_bytes())
        harness.wait_for(lambda: asked(glass, "/api/routers")["rows"][0].get("messages") == 564, "the stream")
        for target, query in questions:
            answer = asked(glass, f"/api/{target}")
            same([text_of(row) for row in answer["rows"]], lines_of(query), target)
            same((answer["revision"], answer["truncated"]), (565, False), target)
        [router] = asked(glass, "/api/routers")["rows"]
        [line] = lines_of("full routers")
        came = f"from=127.0.0.1:{link.getsockname()[1]} since={router['since']} until=-"
        same(text_of(router), line.replace("from=- since=- until=-", came), "the router")
        same(0 <= time.time() - router["since"] < 2 * SECONDS, True, f"since when: {router['since']}")
        same(asked(glass, "/api/count?view=adj-in-post")["count"], 30, "count")
        rows = asked(glass, "/api/routes?community=65011:1:2")["rows"]
        same((len(rows) > 0, {tuple(row["large_communities"]) for row in rows}), (True, {("65011:1:2", "65011:4294967295:7")}), "large communities")
        same(asked(glass, "/api/count?community=65011:1:2")["count"], len(rows), "count with a community")
        answer = asked(glass, "/api/changes?router=0&from=168&prefix=203.0.113.0/24")
        wanted = lines_of("full changes 0 168 203.0.113.0/24")
        same([f"steps 0 {answer['steps']}"] + [text_of(row) for row in answer["rows"]], wanted, "changes")
        same(asked(glass, "/api/changes?router=0&from=258&prefix=203.0.113.0/24")["rows"], [], "no change since")
        told = asked(glass, "/api/routes?prefix=203.0.113.0/24")
        states = {text_of({"line": "mark"} | table) for table in told["tables"]}
        marks = lines_of("marks family 4")
        same(states, {mark for mark in marks if mark.split(" ")[2] in {row["peer"] for row in told["rows"]} or " loc " in mark}, "completeness")
        same(told["counts"], {state: sum(mark.endswith(state) for mark in marks) for state in ("complete", "waiting")}, "counts")
        link.close()


@test
def a_router_by_its_name():
    """A name stands for the one router that has it, and is sought on the connection that is asked; two of a name are told apart."""
    names = [b"r1", b"twice", b"", b"a%20b%C3%A9", b"twice", b"12"]
    routers = [b"router %d live peers=0 messages=1 bytes=1 orphans=0 unread=0 mirrored=0 passed=0 name=%s descr=" % row for row in enumerate(names)]
    queries = []

    def say(query):
        queries.append(query)
        return reply(*routers, b"router 6 idle") if query == "routers" else reply(b"count 3") if query.startswith("count") else \
            reply(b"steps 3 7") if query.startswith("full changes") else reply()

    with Stub(say) as stub, LookingGlass(stub.port, "--connections", 1) as glass:
        for name, lane in (("r1", 0), ("a b\u00e9", 3), ("a%20b%C3%A9", 3)):
            for target, wanted in (("routes?prefix=10.0.0.0/8&view=loc", [f"marks router {lane} view loc family 4",
                                    f"full prefix 10.0.0.0/8 router {lane} view loc family 4", f"marks router {lane} view loc family 4"]),
                                   ("count?family=6", [f"count router {lane} family 6"]), ("peers", [f"peers router {lane}"]),
                                   ("marks", [f"full marks router {lane}"]), ("changes?prefix=10.0.0.0/8&from=5", [f"full changes {lane} 5 10.0.0.0/8"])):
                queries.clear()
                sign = "&" if "?" in target else "?"
                asked(glass, f"/api/{target}{sign}{urllib.parse.urlencode({'router': name})}")
                same(queries, ["routers", *wanted], target)
        same(stub.connections, 1, "connections")
        for name, words in (("twice", ("lanes 1 and 4", "2 connected routers")), ("R1", ("no connected router",)), ("b", ("no connected router",))):
            queries.clear()
            told = asked(glass, f"/api/count?router={name}", 400)["error"]
            same(([word for word in words if word not in told], queries), ([], ["routers"] + ["full routers"] * (name != "twice")), told)
        queries.clear()
        asked(glass, "/api/count?router=12")
        same(queries, ["count router 12"], "digits are a number")
        asked(glass, "/api/count?router=", 400)


@test
def a_looking_glass_refuses_with_a_reason():
    long = "1" * 100_000
    with Stub(lambda query: reply()) as stub, LookingGlass(stub.port) as glass:
        for target in ("routes", "routes?", "routes?prefix", "routes?prefix=", "routes?prefix=10.0.0.0", "routes?prefix=10.0.0.0/33",
                       "routes?prefix=010.0.0.0/8", "routes?prefix=10.0.0.0/8&within=10.0.0.0/8", "routes?prefix=10.0.0.0/8&prefix=10.0.0.0/8",
                       "routes?prefix=10.0.0.0/8%0Aquit", "routes?prefix=10.0.0.0/8+router+0", "routes?address=1.2.3",
                       "routes?address=fe80::1%25eth0", "routes?address=::ffff:1.2.3.4", "routes?origin=-1", "routes?origin=4294967296",
                       "routes?origin=AS1", "routes?origin=%EF%BC%91",
                       "routes?prefix=10.0.0.0/8&view=LOC", "routes?prefix=10.0.0.0/8&family=6", "routes?prefix=10.0.0.0/8&peer=x",
                       "routes?prefix=10.0.0.0/8&router=01", "routes?%ff=1", "routes?color=red", "routers?router=0", "peers?view=loc",
                       "changes?router=0", "changes?prefix=10.0.0.0/8", "changes?router=0&prefix=10.0.0.0/8&from=18446744073709551616",
                       "routes?view=loc", "routes?through=", "routes?through=1,2,3,4,5", "routes?through=AS1", "routes?through=1,4294967296",
                       "routes?community=1", "routes?community=1:65536", "routes?community=rt:1", "routes?community=no-export", "routes?other=256",
                       "routes?other=-1", "routes?prefix=10.0.0.0/8&community=1:2&community=1:2", "peers?community=1:2", "marks?through=1",
                       "count?from=1", "routes?prefix=" + long[:9000], "routes?" + "&".join(f"a{n}=1" for n in range(99))):
            answer = asked(glass, f"/api/{target}", 400)
            same((list(answer), answer["error"] != ""), (["error"], True), target[:80])
        same(stub.connections, 0, "questions of the station")
        for target in (f"/api/routes?prefix={long}", f"/{long}", f"/api/routes?{'a=1&' * 25_000}"):
            same(glass.get(target)[0], 414, "100 kB")
        for target in ("/nowhere", "/api/", "/api/routers/", "/../bmpq", "/page.html", "/%2e%2e/bmpq", "//"):
            same(glass.get(target)[0], 404, target)
        same([glass.get("/", method)[0] for method in ("POST", "PUT", "DELETE", "OPTIONS")], [405] * 4, "methods")
        for said in (b"\r\n\r\n", b"GET\r\n\r\n", b"GET / HTTP/2.0\r\n\r\n", b"GET http://x/ HTTP/1.1\r\n\r\n",
                     b"\x16\x03\x01\r\n\r\n", b"GET /\xff HTTP/1.1\r\n\r\n",
                     b"GET / HTTP/1.1\r\nContent-Length: 5\r\n\r\nhello", b"GET / HTTP/1.1\r\nTransfer-Encoding: chunked\r\n\r\n"):
            with socket.create_connection(("127.0.0.1", glass.port), timeout=SECONDS) as link:
                link.sendall(said)
                got = link.makefile("rb").read()
                same(got.split(b"\r\n")[0], b"HTTP/1.1 400 Bad Request", str(said))
        same(asked(glass, "/api/routers")["rows"], [], "afterwards")


@test
def a_looking_glass_is_read_only_and_says_so():
    with Stub(lambda query: reply()) as stub, LookingGlass(stub.port) as glass:
        scripts = [f"/{path.name}" for path in sorted((CONTRIB / "lookingglass").glob("*.js"))]
        for target in ("/", "/routers", "/live", "/page.css", "/icon.svg", *scripts, "/api/routers", "/nowhere"):
            status, headers, body = glass.get(target)
            same(headers["X-Content-Type-Options"], "nosniff", target)
            same("default-src 'none'" in headers["Content-Security-Policy"] and "unsafe" not in headers["Content-Security-Policy"], True, target)
            same([headers[name] for name in ("Set-Cookie", "Access-Control-Allow-Origin", "Server")], [None] * 3, target)
            same(int(headers["Content-Length"]), len(body), target)
            found, again, nothing = glass.get(target, "HEAD")
            same((found, again["Content-Length"], nothing), (status, headers["Content-Length"], b""), f"HEAD {target}")
        page = b"".join(glass.get(target)[2] for target in ("/", "/page.css", *scripts))
        unwanted = (rb"https?://[^'\"\s]*", rb"//[a-z0-9.-]+\.[a-z]+/", rb"innerHTML|outerHTML|insertAdjacentHTML|document\.write",
                    rb"eval\(|@import|\bon[a-z]+=|style=")
        same([re.findall(what, page) for what in unwanted], [[]] * 4, "what comes from outside, or is read as markup")


@test
def a_station_that_fails_is_no_answer():
    half = [b"at 7\nroute 0 0-0000000000000000-192.0.2.1 adj-in-pre 10."]
    faults = {"half a line": (half, 503), "nothing": ([b""], 503), "no end": ([b"at 7\n"], 503),
              "an unknown line": (reply(b"route 0 gone"), 502), "another line": (reply(b"<script>alert(1)</script>"), 502),
              "another count": (b"at 7\nend 3\n", 502), "no at": (b"hello\n", 502), "error": (b"error query\n", 502),
              "bytes": (b"\x00\xff\xfe\n" * 9, 502), "an endless line": (b"at 7\n" + b"x" * (3 << 20), 502), "silence": (b"", 503)}
    said = b""
    # The tables are told; what fails is the reply to the question.
    with Stub(lambda query: reply() if query.startswith("marks") else said) as stub, LookingGlass(stub.port, "--timeout", 0.5) as glass:
        for name, (said, status) in faults.items():
            answer = asked(glass, "/api/routes?prefix=10.0.0.0/8", status)
            same((list(answer), "\n" in answer["error"]), (["error"], False), name)
            same(asked(glass, "/api/count", status)["error"] != "", True, name)
    with closed_port() as port, LookingGlass(port) as glass:
        asked(glass, "/api/routes?prefix=10.0.0.0/8", 503)
        same(glass.get("/")[0], 200, "the page without a station")


@test
def a_station_without_whole_lines():
    """It is asked for the lines that it has; a router that isn't there is no such fault."""
    queries = []

    def say(query):
        queries.append(query)
        return b"error query\n" if query.startswith("full ") else reply(b"steps 0 7") if query.startswith("changes") else \
            reply(ROW % b"10.0.0.0/8") if query.startswith("prefix") else reply()

    with Stub(say) as stub, LookingGlass(stub.port, "--connections", 1) as glass:
        for target, query in (("routes?prefix=10.0.0.0/8", "prefix 10.0.0.0/8 family 4"), ("changes?router=0&prefix=10.0.0.0/8&from=5", "changes 0 5 10.0.0.0/8"),
                              ("routers", "routers")):
            queries.clear()
            answer = asked(glass, f"/api/{target}")
            same([one for one in queries if not one.startswith("marks")], ["full " + query, query], target)
        queries.clear()
        asked(glass, "/api/routes?prefix=10.0.0.0/8&router=nobody", 400)
        same(queries, ["routers", "full routers"], "no router of this name")
        [row] = asked(glass, "/api/routes?prefix=10.0.0.0/8")["rows"]
        same("raw" in row, False, "a row")


# Lines of `full routers`: one that sends what no table has, two of a name of which one is gone, and a healthy one whose statistics
# nobody knows.
COUNTS = b"peers=1 messages=3 bytes=270 orphans=0 unread=%d mirrored=0 passed=0 name=%s descr="
ROUTERS = (b"router 0 live " + COUNTS % (219, b"r1") + b" from=192.0.2.1:50852 since=1764571484 until=- tlvs=1 stats=2 malformed=3"
           b" others=1/128:204,16388/99:6 more=3",
           b"router 1 closed broken 270 body from=[2001:db8::1]:5 since=1764571484 until=1764571500 " + COUNTS % (9, b"r2")
           + b" tlvs=0 stats=9 malformed=0 others=- more=0",
           b"router 2 idle from=- since=- until=-",
           b"router 3 live " + COUNTS % (9, b"r3") + b" from=- since=- until=- tlvs=0 stats=9 malformed=0 others=- more=0",
           b"router 4 closed ended from=192.0.2.1:50800 since=1764571000 until=1764571400 " + COUNTS % (0, b"r1")
           + b" tlvs=0 stats=0 malformed=0 others=- more=0")


@test
def routers_of_whole_lines():
    """Who a router is, since when it is there or gone, and why, stands in the answer as the station tells it."""
    with Stub(lambda query: reply(*ROUTERS) if query == "full routers" else reply()) as stub, LookingGlass(stub.port) as glass:
        rows = asked(glass, "/api/routers")["rows"]
        same([text_of(row) for row in rows], [line.decode() for line in ROUTERS], "lines")
        same([(row["from"], row["since"], row["until"]) for row in rows[:3]],
             [("192.0.2.1:50852", 1764571484, None), ("[2001:db8::1]:5", 1764571484, 1764571500), (None, None, None)], "who and when")
        same(rows[0]["others"], {"1/128": 204, "16388/99": 6}, "families")
        same([row["name"] for row in rows if row["state"] == "closed"], ["r2", "r1"], "names of those that are gone")
        told = asked(glass, "/api/count?router=r2", 400)["error"]
        same(told, "no connected router has the name r2; its connection from [2001:db8::1]:5 in lane 1 closed at 2025-12-01T06:45:00Z: broken 270 body", "why")


@test
def a_connection_that_was_lost_is_opened_anew():
    with Stub(lambda query: [reply(b"count 3")]) as stub, LookingGlass(stub.port, "--connections", 1) as glass:
        same([asked(glass, "/api/count")["count"] for _ in range(4)], [3] * 4, "each on a connection that the station then closed")
        same(stub.connections, 4, "connections")


@test
def long_answers_are_cut_and_the_place_is_given_back():
    stream = run([sys.executable, TOP / "bench" / "table", 12_000]).stdout
    with Shared(1, 1) as station:
        _, link = station.send(stream)
        with LookingGlass(station.ask_port, "--connections", 2) as glass:
            answer = asked(glass, "/api/routes?within=0.0.0.0/0")
            same((len(answer["rows"]), answer["truncated"]), (10_000, True), "rows")
            # The station's one place for a client is free soon.
            harness.bmpq("--port", station.ask_port, "--timeout", "10", "cut")
            answer = asked(glass, "/api/routes?within=0.0.0.0/0&family=4&view=loc")
            same((answer["rows"], answer["truncated"]), ([], False), "rows of another view")
        link.close()
    long = ROW.replace(b"comm=-", b"comm=" + b",".join([b"65535:65535"] * 16_000)) % b"10.0.0.0/8"
    with Stub(lambda query: reply() if query.startswith("marks") else reply(*[long] * 200)) as stub, LookingGlass(stub.port) as glass:
        answer = asked(glass, "/api/routes?prefix=10.0.0.0/8")
        same((0 < len(answer["rows"]) < 60, answer["truncated"]), (True, True), "long rows")


@test
def slow_visitors_hold_up_nobody():
    with Stub(lambda query: reply()) as stub, LookingGlass(stub.port, "--visitors", 40) as glass:
        slow = [socket.create_connection(("127.0.0.1", glass.port), timeout=SECONDS) for _ in range(38)]
        for link in slow:
            link.sendall(b"GET /api/routers HTTP/1.1\r\nX: ")
        begun = time.monotonic()
        same(asked(glass, "/api/routers")["rows"], [], "beside 38 slow visitors")
        same(time.monotonic() - begun < 2, True, "its time")
        last = [socket.create_connection(("127.0.0.1", glass.port), timeout=SECONDS) for _ in range(2)]
        harness.wait_for(lambda: glass.get("/")[0] == 503, "one visitor too many")
        for link in slow + last:
            link.close()
        harness.wait_for(lambda: glass.get("/")[0] == 200, "a visitor afterwards")


@test
def fifty_visitors_at_once():
    stream = run([sys.executable, TOP / "bench" / "table", 20_000]).stdout
    faults, times = [], []
    with Shared(2, 3) as station, LookingGlass(station.ask_port) as glass:
        lane, first = station.send(STREAM.read_bytes())

        def visit(number):
            link = http.client.HTTPConnection("127.0.0.1", glass.port, timeout=SECONDS)
            for _ in range(8):
                begun = time.monotonic()
                link.request("GET", "/api/routes?" + urllib.parse.urlencode({"prefix": "203.0.113.0/24", "router": lane}))
                answer = link.getresponse()
                rows = json.loads(answer.read()).get("rows")
                times.append(time.monotonic() - begun)
                if answer.status != 200 or not rows:
                    faults.append((number, answer.status))
            link.close()

        threads = [threading.Thread(target=visit, args=(number,)) for number in range(50)]
        for thread in threads:
            thread.start()
        second = station.feed(0, stream)
        for thread in threads:
            thread.join()
        same((faults, len(times)), ([], 400), "answers")
        for link in (first, second):
            link.close()


# The page.

# What whole lines have from `other=` on: nothing; a large community with the Partial bit; seven attributes.
NOTHING = b" other=- flags=- large=- ext=- otc=- aigp=- originator=- clusters=- raw=-"
LARGE = b" other=32 flags=e0 large=64500:1:2 ext=- otc=- aigp=- originator=- clusters=- raw=-"
SEVEN = (b" other=9,10,16,25,26,32,35 flags=80,80,c0,c0,80,c0,c0 large=64500:1:2 ext=rt:64500:100 otc=64501 aigp=4294967296 originator=192.0.2.9"
         b" clusters=192.0.2.10,192.0.2.11 raw=25:000220010db8")


def word_of(query):
    """The first word of a query, whether it is for whole lines or not."""
    return query.removeprefix("full ").split(" ")[0]


CHROMIUM = shutil.which("chromium")


def shown(url, *options):
    """What a browser makes of a page."""
    with tempfile.TemporaryDirectory() as folder:
        done = run([CHROMIUM, "--headless=new", "--no-sandbox", "--disable-gpu", f"--user-data-dir={folder}",
                    "--virtual-time-budget=5000", *options, url])
        same(done.returncode, 0, done.stderr[-500:])
        return done.stdout.decode("utf-8")


def dom(glass, target):
    text = shown(f"http://127.0.0.1:{glass.port}{target}", "--dump-dom")
    return re.sub(r"<[^>]*>", "\n", text[text.index("<main"):]), text


@test
def the_page_in_a_browser():
    if CHROMIUM is None:
        print("the_page_in_a_browser: passed over, since chromium isn't installed")
        return
    hostile = b"<script>document.title='taken'</script><img src=x onerror=\"document.title='taken'\">\"'&amp;"
    with Shared(2, 4) as station, LookingGlass(station.ask_port) as glass:
        lane, first = station.send(STREAM.read_bytes())
        other, second = station.send(initiation(hostile, hostile * 2) + loc_rib_up(hostile))
        for target in ("/routers", f"/live?router={other}&prefix=10.0.0.0/8"):
            text, whole = dom(glass, target)
            same(("taken" in re.search(r"<title>(.*?)</title>", whole)[1], whole.count("<script"), "<img" in whole), (False, 1, False), target)
            same("&lt;script&gt;document.title='taken'&lt;/script&gt;&lt;img src=x" in text, True, f"the name at {target}")
            words = ("FRRouting 10.3", "reason 4: remote silent", "before policy IPv4 complete", "Unread parts", "282")
            same([word for word in words if word not in text], [] if target == "/routers" else list(words), target)
        for target, words in (
                ("/?q=198.51.100.7", ("As of revision", "AS65011", "64500", "changed by policy", "table complete", "65001:999", "77", "Loc-RIB")),
                ("/?q=203.0.113.0/24", ("{", "200", "}", "More specifics")),
                ("/?q=AS64501", ("Routes that AS64501 originates", "198.51.100.0/24", "Routes through it")),
                ("/?q=65011:1:2", ("Routes with the community 65011:1:2", "198.51.100.0/24", "65011:4294967295:7")),
                ("/?q=AS65011+as64501", ("Routes through AS65011 AS64501", "198.51.100.0/24")),
                ("/?q=AS64501&with=through", ("Routes through AS64501", "198.51.100.0/24")),
                ("/?q=&other=16&through=&community=", ("Routes, with an attribute of type 16", "192.0.2.1/32", "rt:65011:5")),
                ("/?q=198.51.100.0/24&community=65011:1&through=65011+64500",
                 ("Routes of 198.51.100.0/24, through AS65011 AS64500, with the community 65011:1", "As of revision", "table complete")),
                ("/?q=192.0.2.77/32", ("No table has such a route so far", "wait for their End-of-RIB")),
                (f"/live?router={lane}&prefix=203.0.113.0/24&past=1", ("announced", "peer down", "Loc-RIB"))):
            text, _ = dom(glass, target)
            same([word for word in words if word not in text], [], f"{target}: {text}")
        with tempfile.TemporaryDirectory() as folder:
            picture = pathlib.Path(folder, "page.png")
            shown(f"http://127.0.0.1:{glass.port}/?q=198.51.100.7", "--window-size=360,800", "--hide-scrollbars", f"--screenshot={picture}")
            same(picture.read_bytes()[:4], b"\x89PNG", "a picture")
        for link in (first, second):
            link.close()
    # A route that is before policy alone was dropped, where the whole of the prefix was asked for and both tables are complete.
    key = b"0-0000000000000000-192.0.2.1"
    said = {"routers": reply(b"router 0 idle"), "peers": reply(), "prefix": reply(ROW % b"10.0.0.0/8"), "origin": reply(ROW % b"10.0.0.0/8")}
    tables = {True: [b"complete", b"complete"], False: [b"complete", b"waiting"]}
    for target, are_complete, wanted in (("/?q=10.0.0.0/8", True, "dropped by policy"), ("/?q=10.0.0.0/8", False, "not known"),
                                         ("/?q=AS64500", True, "not in this answer"), ("/?q=10.0.0.0/8&view=adj-in-pre", True, "not in this answer")):
        said["marks"] = reply(*(b"mark 0 %s %s 4 %s" % (key, view, state) for view, state in zip((b"adj-in-pre", b"adj-in-post"), tables[are_complete])))
        with Stub(lambda query: said[word_of(query)]) as stub, LookingGlass(stub.port) as glass:
            text, _ = dom(glass, target)
            same((wanted in text, "dropped by policy" in text), (True, wanted == "dropped by policy"), f"{target}: {text}")
    # Of a station that has no whole lines attributes of which the code alone is known aren't compared, and the page says so; an IPv4
    # address in a next hop is shown as one.
    before = ROW.replace(b"next=192.0.2.1", b"next=::ffff:c000:201,fe80::1") % b"2001:db8::/32"
    said["marks"] = reply(*(b"mark 0 %s %s 6 complete" % (key, view) for view in (b"adj-in-pre", b"adj-in-post")))
    for one, other, med, wanted, unwanted in (
            (b"-", b"-", b"-", ("as before policy",), ("not compared", "in what is read", "changed by")),
            (b"16,32", b"16,32", b"-", ("no change in what is read", "other attributes 16, 32: not compared"), ("as before policy", "changed by")),
            (b"32", b"32", b"5", ("changed by policy", "other attributes 32: not compared"), ("as before policy", "in what is read")),
            (b"-", b"32", b"-", ("changed by policy",), ("not compared", "as before policy"))):
        first, second = (before.replace(b"other=-", b"other=" + codes) for codes in (one, other))
        second = second.replace(b"adj-in-pre", b"adj-in-post").replace(b"med=-", b"med=" + med)
        said["prefix"] = reply(first, second)
        with Stub(lambda query: b"error query\n" if query.startswith("full ") else said[word_of(query)]) as stub, LookingGlass(stub.port) as glass:
            text, _ = dom(glass, "/?q=2001:db8::/32")
            same(([word for word in (*wanted, "::ffff:192.0.2.1, fe80::1") if word not in text], [word for word in unwanted if word in text]),
                 ([], []), f"{one} {other}: {text}")
    # Whole lines are compared attribute by attribute, and what a policy changed is marked.
    for one, other, wanted, unwanted in (
            (NOTHING, NOTHING, ("as before policy",), ("not compared", "changed by", "partial")),
            (LARGE, LARGE, ("as before policy", "64500:1:2", "partial"), ("changed by",)),
            (NOTHING, LARGE, ("changed by policy", "64500:1:2"), ("as before policy", "without")),
            (LARGE, LARGE.replace(b"64500:1:2", b"64500:1:3"), ("changed by policy", "without", "64500:1:3"), ("as before policy",)),
            (LARGE, LARGE.replace(b"flags=e0", b"flags=f0"), ("as before policy",), ("changed by",)),
            (LARGE, LARGE.replace(b"flags=e0", b"flags=c0"), ("changed by policy", "flags of large communities", "c0 (before e0)"), ("as before policy",)),
            (SEVEN, SEVEN.replace(b"otc=64501", b"otc=64502"),
             ("changed by policy", "AS64502", "192.0.2.9", "192.0.2.10, 192.0.2.11", "4294967296", "rt:64500:100", "IPv6 extended communities"), ("as before",)),
            (SEVEN.replace(b"4294967296", b"18446744073709551615"), SEVEN.replace(b"4294967296", b"18446744073709551614"),
             ("changed by policy", "18446744073709551615", "18446744073709551614"), ("as before",)),
            (SEVEN, NOTHING, ("changed by policy", "only to customer", "none", "not so", "without"), ("as before",))):
        first, second = before.replace(b" other=-", one), before.replace(b" other=-", other).replace(b"adj-in-pre", b"adj-in-post")
        said["prefix"] = reply(first, second)
        with Stub(lambda query: said[word_of(query)]) as stub, LookingGlass(stub.port) as glass:
            text, _ = dom(glass, "/?q=2001:db8::/32")
            same(([word for word in wanted if word not in text], [word for word in unwanted if word in text]), ([], []), f"{one} {other}: {text}")
    # Two connections of a name are told apart, and it is said; a name that one has leads to it.
    said["count"] = reply(b"count 0")
    live = b"router %d live peers=0 messages=1 bytes=1 orphans=0 unread=0 mirrored=0 passed=0 name=%s descr="
    said["routers"] = reply(live % (0, b"twice"), live % (1, b"once"), live % (2, b"twice"))
    note = "Routers 0 and 2 have the name twice"
    with Stub(lambda query: said[word_of(query)] if "changes" not in query else reply(b"steps 1 0")) as stub, \
            LookingGlass(stub.port) as glass:
        for target, wanted, unwanted in (("/routers", (note, "twice (router 0)", "twice (router 2)", "once"), ("once (router",)),
                                         ("/routers?router=once", ("once",), (note, "(router 0)")),
                                         ("/routers?router=nobody", ("The station has no such router",), (note,)),
                                         ("/?q=2001:db8::/32", (note, "twice (router 0)"), ()), ("/?q=twice", (note, "twice (router 2)"), ("once",)),
                                         ("/live?router=twice&prefix=10.0.0.0/8", (note, "Several routers have this name"), ("No change yet",)),
                                         ("/live?router=nobody&prefix=10.0.0.0/8", ("No connected router has this name",), ("No change yet",)),
                                         ("/live?router=once&prefix=10.0.0.0/8", ("No change yet",), ("have this name",))):
            text, _ = dom(glass, target)
            text = text[text.index('Answer">'):] if 'Answer">' in text else text
            same(([word for word in wanted if word not in text], [word for word in unwanted if word in text]), ([], []), f"{target}: {text}")
    # A router whose routes are in no table isn't like a healthy one that sends statistics nobody knows; who has gone keeps its name.
    lost, lacks = "No table has this router\u2019s routes of VPN-IPv4 (AFI 1, SAFI 128); AFI 16388, SAFI 99; further families.", "No table ha"
    said["routers"], said["count"] = reply(*ROUTERS), reply(b"count 0")
    with Stub(lambda query: said[word_of(query)]) as stub, LookingGlass(stub.port) as glass:
        for target, wanted, unwanted in (
                ("/routers?router=0", ("192.0.2.1 port 50852", "since 2025-12-01 06:44:44 UTC (", "219", "2 unknown statistics", "204 attributes of VPN-IPv4", lost,
                                       "3 messages with a malformed attribute withdrew the routes in them."), ("Gone since",)),
                ("/routers?router=r2", ("2001:db8::1 port 5", "Gone since", "2025-12-01 06:45:00 UTC (", "broken body", "9 unknown statistics"), (lacks, "Routes")),
                ("/routers?router=r3", ("Unread parts", "9 unknown statistics"), (lacks, "From", "Connected")),
                ("/routers?router=r1", ("r1 (router 0)", "r1 (router 4)", "Gone since"), ("have the name",)),
                ("/", ("r1 (router 0)", "2025-12-01 06:44:44 UTC (", "never connected"), ()),
                ("/live?router=r2&prefix=10.0.0.0/8", ("No connected router has this name",), ("No change yet",))):
            text, _ = dom(glass, target)
            text = text[text.index('Answer">'):] if 'Answer">' in text else text
            same(([word for word in wanted if word not in text], [word for word in unwanted if word in text]), ([], []), f"{target}: {text}")
    said["routers"] = reply(b"router 0 idle")
    # What was missed, a station that began anew, one that goes away: each is said, and the next question goes on from there.
    asked_from = []

    def say(query):
        if query.endswith("routers"):
            return reply(b"router 0 idle")
        if not query.startswith("full changes"):
            return reply()
        asked_from.append(query.split(" ")[3])
        turns = [reply(b"steps 0 100"), reply(b"steps 0 2000", b"missed 876"), reply(b"steps 0 50"), [b""]]
        return turns[min(len(asked_from), len(turns)) - 1]

    with Stub(say) as stub, LookingGlass(stub.port) as glass:
        text, _ = dom(glass, "/live?router=0&prefix=10.0.0.0/8")
        words = ("876 steps of this router meanwhile are kept no more", "The station began anew", "nothing is known", "Asking again from step 50.")
        same([word for word in words if word not in text], [], f"a live page: {text}")
        same(asked_from[:4], [str(2**64 - 1), "100", "2000", "50"], "steps")
    with closed_port() as port, LookingGlass(port) as glass:
        for target in ("/?q=198.51.100.7", "/routers"):
            text, _ = dom(glass, target)
            found = ("nothing is known" in text, "No table has" in text, "No change yet" in text)
            same(found, (True, False, False), f"no station at {target}: {text}")
