#!/usr/bin/env python3
"""run.py PROGRAM [NAME]: tries clients on the program `bench_server` under each profile, and compares what they meet with what is known.

A cell is what the client met: the statuses that it was answered, or `hangs` after eight seconds, or `fails` with its exit status.
Where it ends by `on N`, they went over N connections. What is known is a pattern, since a race decides some cells. `run.py` ends
by 1 where a cell doesn't fit it. A client that isn't installed is left out. With NAME only those are tried in whose name it stands,
and what goes over the wire is printed.

`bench_server` reads no body. A program that does would wait for the rest of the stream under the lenient and the strict profile
where a client offers an upgrade, as Java's and `curl --http2 -d` do. A body of 100,000 bytes is one of which so much is left
unread that the standard profile closes the connection.
"""
import os
import re
import sys

from clients import ab, browsed, counted, curl, go, page, program, python, raw, session, wrk
from proxies import proxy
from trying import Tap, installed, serve, stop

PROFILES = ("lenient", "strict", "standard")
COUNTED = "%{http_code} on %{num_connects},"

# What is met under each profile: by one request, and by five of which the fourth is large.
ANSWERED = ("200",) * 3
FOURTH_LARGE = ("200( 200){4} on 1",) * 2 + ("200( 200){4} on 2",)
# By eight of Java's client that offer HTTP/2. Where the connection ends without a word, one that is sent just then fails.
OFFERED = ("200( 200){7} on 8|fails 1 on [1-8]",) * 2 + ("200( 200){7} on 1",)


def behind(fault):
    """What is met behind a proxy that answers the cookie by this fault where the server ends the connection at it."""
    return ("200( 200){4} %d" % fault,) * 2 + ("200( 200){5}",)


# A client, what has to be installed for it, how it is run, and what it meets under each profile.
CLIENTS = [
    ("curl", "curl", curl("URL"), ANSWERED),
    ("curl, twice on a connection", "curl", curl("URL", "-o", os.devnull, "URL"), ("200 200",) * 3),
    ("curl --head", "curl", curl("-I", "URL"), ANSWERED),
    ("curl -d", "curl", curl("-d", "hello", "URL"), ANSWERED),
    ("curl -d with a 100", "curl", curl("-d", "x" * 2000, "-H", "Expect: 100-continue", "URL"), ANSWERED),
    ("curl, chunked", "curl", curl("-d", "hello", "-H", "Transfer-Encoding: chunked", "URL"), ANSWERED),
    ("curl -T, a million bytes, twice", "curl",
     curl("-H", "Expect:", "-T", "FILE", "URL", "-o", os.devnull, "-T", "FILE", "URL", mark=COUNTED),
     ("200 on 1, 200 on 0",) * 2 + ("200 on 1, 200 on 1",)),
    ("curl -T with a 100, a million bytes, twice", "curl",
     curl("-H", "Expect: 100-continue", "-T", "FILE", "URL", "-o", os.devnull, "-T", "FILE", "URL", mark=COUNTED),
     ("hangs", "hangs", "200 on 1, 200 on 1")),
    ("curl --http1.0", "curl", curl("--http1.0", "URL"), ANSWERED),
    ("curl --http2", "curl", curl("--http2", "URL"), ANSWERED),
    ("curl --http2 -d", "curl", curl("--http2", "-d", "hello", "URL"), ANSWERED),
    ("curl, a header in UTF-8", "curl", curl("-H", "Cookie: a=\u00e9", "URL"), ("fails 52", "fails 52", "200")),
    ("ab", "ab", ab("-n", "20"), ("20 served",) * 3),
    ("ab -k", "ab", ab("-n", "20", "-k"), ("hangs", "hangs", "20 served")),
    ("wrk", "wrk", wrk, ("served",) * 3),
    ("Java's client, a POST", "java", program("java", "Post.java", "URL", "5"), ANSWERED),
    ("Java's client, a POST of 100,000 bytes", "java", program("java", "Post.java", "URL", "LARGE"), ANSWERED),
    ("Java's client, eight, HTTP/2 offered", "java", counted(program("java", "Several.java", "URL", "HTTP_2", "1")), OFFERED),
    ("Java's client, eight, HTTP/1.1", "java", counted(program("java", "Several.java", "URL", "HTTP_1_1", "1")),
     ("200( 200){7} on 1",) * 3),
    ("Java's client, four at once, HTTP/2 offered", "java", program("java", "Several.java", "URL", "HTTP_2", "4"),
     ("200( 200){7}|fails 1",) * 2 + ("200( 200){7}",)),
    ("Python's client", "python3", python, ("200 200 200 200 200",) * 3),
    ("Python's requests, a session", "import requests", counted(session), FOURTH_LARGE),
    ("Node's client, kept alive", "node", program("node", "agent.js", "URL", "LARGE"), FOURTH_LARGE),
    ("Go's client", "go", go, FOURTH_LARGE),
    ("Chromium, a page", "chromium", browsed, ("shown",) * 3),
    ("Chromium, a page with 20 images and a form", "chromium", page, ("21 of 200, ends",) * 3),
    ("an upgrade and a request behind it", "python3",
     raw(b"GET / HTTP/1.1\r\nHost: h\r\nConnection: upgrade\r\nUpgrade: h2c\r\n\r\nGET / HTTP/1.1\r\nHost: h\r\n\r\n"),
     ("200 closed", "200 closed", "200 200 open")),
    ("two lengths", "python3", raw(b"POST / HTTP/1.1\r\nHost: h\r\nContent-Length: 5\r\nContent-Length: 6\r\n\r\nhello"),
     ("200 open", "400 closed", "400 closed")),
    ("a 100 that isn't sent, and a request behind the body", "python3",
     raw(b"POST / HTTP/1.1\r\nHost: h\r\nExpect: 100-continue\r\nContent-Length: 5\r\n\r\nhelloGET / HTTP/1.1\r\nHost: h\r\n\r\n"),
     ("200 200 open", "200 200 open", "200 closed")),
    ("behind nginx", "nginx", proxy("nginx"), behind(502)),
    ("behind nginx, kept", "nginx", proxy("nginx, kept"), behind(502)),
    ("behind haproxy", "haproxy", proxy("haproxy"), behind(502)),
    ("behind Apache's mod_proxy_http", "apache2", proxy("apache2"), behind(502)),
    ("behind lighttpd's mod_proxy", "lighttpd", proxy("lighttpd"), behind(500)),
    ("behind Varnish", "varnishd", proxy("varnish"), behind(503)),
]


def tried(program, profile, run, tapped):
    """The cell of a try under a profile. Where it is tapped, what went over the wire is printed."""
    server, port = serve(program, profile)
    try:
        if not tapped:
            return run(port)
        with Tap(port) as tap:
            cell = run(tap.port)
        print("== %s\n%s" % (profile, tap.text()))
        return cell
    finally:
        stop(server)


def main():
    if len(sys.argv) not in (2, 3):
        sys.exit("usage: run.py PROGRAM [NAME]")
    wanted = sys.argv[2:]
    differing = 0
    for name, needs, run, known in CLIENTS:
        if any(w not in name for w in wanted):
            continue
        if not installed(needs):
            print("%-52s left out: %s isn't installed" % (name, needs.replace("import ", "Python's ")))
            continue
        cells = []
        for profile, want in zip(PROFILES, known):
            cell = tried(sys.argv[1], profile, run, wanted)
            if not re.fullmatch(want, cell):
                differing += 1
                cell += " (known: %s)" % want
            cells.append("%s: %s" % (profile, cell))
        print("%-52s %s" % (name, "; ".join(cells)), flush=True)
    print("%d cells differ" % differing)
    sys.exit(1 if differing else 0)


main()
