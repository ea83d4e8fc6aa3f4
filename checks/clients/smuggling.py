#!/usr/bin/env python3
"""smuggling.py PROGRAM CASES..: sends the heads on which servers differ through proxies to the program `bench_server`, under the strict and the
standard profile, and looks whether proxy and server agree where each request ends.

CASES are files such as `crates/test_cases/data/smuggling_standard.cases`, of whose cases the client's bytes are sent. Each proxy puts a mark of its own
into each head that it passes on, so a request that it takes for a part of a body has none. The server answers each head
that it finds, and the first that it refuses is its last. So on a connection between the two there may be no more answers than marks; and
where there are fewer, the server has to end the connection. `smuggling.py` ends by 1 where that isn't so.

Then two servers stand behind nginx, and many heads have a byte above 127: neither server may be taken for dead.
"""
import os
import re
import socket
import subprocess
import sys
import tempfile
import time

from proxies import PROXIES, free_port, is_up
from trying import Tap, installed, serve, start, stop

MARK = b"x-mark: 1"
# What has a proxy put the mark into each head that it passes on: words of its configuration, and what stands in their place.
MARKING = {
    "nginx": ("proxy_pass http://behind;", "proxy_pass http://behind; proxy_set_header X-Mark 1;"),
    "nginx, kept": ("proxy_pass http://behind;", "proxy_pass http://behind; proxy_set_header X-Mark 1;"),
    "haproxy": ("    server behind", "    http-request set-header X-Mark 1\n    server behind"),
    "apache2": ("ProxyPass /", "LoadModule headers_module MODULES/mod_headers.so\nRequestHeader set X-Mark 1\nProxyPass /"
                .replace("MODULES", "/usr/lib/apache2/modules")),
    "lighttpd": ('("mod_proxy")', '("mod_setenv", "mod_proxy")\nsetenv.set-request-header = ("X-Mark" => "1")'),
    "varnish": ("return (pass); }", "set req.http.X-Mark = \"1\"; return (pass); }"),
}
COMMANDS = {"nginx": "nginx", "nginx, kept": "nginx", "haproxy": "haproxy", "apache2": "apache2", "lighttpd": "lighttpd",
            "varnish": "varnishd"}
ESCAPES = {"r": b"\r", "n": b"\n", "t": b"\t", "\\": b"\\", "s": b" "}
SECONDS = 0.6
# What a tap keeps of the server's end.
ENDED = ("< ", b"(end)")


def unescaped(text):
    """The bytes that a line of a case stands for."""
    def byte(found):
        word = found.group(1)
        return chr(int(word[1:], 16)) if word[0] == "x" else ESCAPES[word].decode("latin1")
    return re.sub(r"\\(x[0-9a-fA-F]{2}|[rnts\\])", byte, text).encode("latin1")


def cases(name):
    """Of each case of a file: its name, and what its client sends."""
    found = []
    for line in open(name, encoding="latin1").read().split("\n"):
        if line.startswith("case "):
            found.append((line[5:], b""))
        elif line.startswith("client "):
            found[-1] = (found[-1][0], found[-1][1] + unescaped(line[7:]))
    return found


def sent(port, data):
    """What comes back for these bytes, until the end or until nothing comes for a while."""
    with socket.create_connection(("127.0.0.1", port), timeout=SECONDS) as client:
        got = b""
        try:
            client.sendall(data)
            while True:
                more = client.recv(65536)
                if not more:
                    return got
                got += more
        except OSError:
            return got


def differs(wire):
    """What is wrong with what went over a connection between proxy and server, if something is."""
    passed = b"".join(data for way, data in wire if way == "> ")
    answered = b"".join(data for way, data in wire if way == "< ")
    marks = passed.lower().count(MARK)
    heads = re.findall(rb"HTTP/1\.[01] (?!100)\d{3}.*?\r\n\r\n", answered, re.S)
    if len(heads) > marks:
        return "%d requests, and %d answers" % (marks, len(heads))
    if len(heads) < marks and not (ENDED in wire or heads and b"\r\nconnection: close\r\n" in heads[-1].lower()):
        return "%d requests, and %d answers that don't end the connection" % (marks, len(heads))
    return None


def configured(text, folder, own, server):
    return text.replace("DIR", folder).replace("PORT", str(own)).replace("SERVER", str(server))


def behind(name, server, run, more=("", "")):
    """What a run is given with the port of a proxy in front of a server's port; none where the proxy doesn't start."""
    configuration, command = PROXIES[name]
    configuration = configuration.replace(*MARKING[name]).replace(*more)
    with tempfile.TemporaryDirectory(prefix="proxy-") as folder:
        own = free_port()
        with open(os.path.join(folder, "conf"), "w") as out:
            out.write(configured(configuration, folder, own, server))
        process = start([configured(word, folder, own, server) for word in command], stdin=subprocess.DEVNULL,
                        stdout=subprocess.DEVNULL, stderr=subprocess.DEVNULL)
        try:
            return run(own) if is_up(own, process) else None
        finally:
            stop(process)


def compared(name, port, files):
    """How many cases went through a proxy to a server, how many requests it passed on, and what is wrong."""
    with Tap(port) as tap:
        first = []

        def run(own):
            number = 0
            for file in files:
                for case, data in cases(file):
                    sent(own, data)
                    first.extend([case] * (len(tap.wire) - len(first)))
                    number += 1
            time.sleep(SECONDS)
            return number
        count = behind(name, tap.port, run)
        wrong = ["%s: %s" % (case, fault) for case, fault in zip(first, map(differs, tap.wire)) if fault]
        passed = sum(b"".join(data for way, data in wire if way == "> ").lower().count(MARK) for wire in tap.wire)
    return count, passed, wrong


def two_servers(program):
    """The statuses that clients get of two servers behind nginx, where each second head has a byte above 127."""
    first, second = serve(program, "standard"), serve(program, "standard")
    more = ("server 127.0.0.1:SERVER;", "server 127.0.0.1:%d; server 127.0.0.1:%d;" % (first[1], second[1]))

    def run(own):
        met = []
        for number in range(40):
            cookie = b"Cookie: a=\xc3\xa9\r\n" if number % 2 == 0 else b""
            got = sent(own, b"GET / HTTP/1.1\r\nHost: h\r\n" + cookie + b"Connection: close\r\n\r\n")
            met.append(got[9:12].decode("latin1"))
        return met
    try:
        return behind("nginx", first[1], run, more)
    finally:
        stop(first[0])
        stop(second[0])


def main():
    if len(sys.argv) < 3:
        sys.exit("usage: smuggling.py PROGRAM CASES..")
    program, files = sys.argv[1], sys.argv[2:]
    faults = 0
    for name in PROXIES:
        if not installed(COMMANDS[name]):
            print("%-12s left out: %s isn't installed" % (name, COMMANDS[name]))
            continue
        for profile in ("strict", "standard"):
            server, port = serve(program, profile)
            try:
                count, passed, wrong = compared(name, port, files)
            finally:
                stop(server)
            if count is None:
                wrong = ["it doesn't start"]
            elif passed == 0:
                wrong = ["nothing was passed on"]
            print("%-12s %-8s %s cases, %d requests passed on, %d differ" % (name, profile, count, passed, len(wrong)), flush=True)
            for fault in wrong:
                print("    " + fault)
            faults += len(wrong)
    if installed("nginx"):
        met = two_servers(program) or ["it doesn't start"]
        print("two servers behind nginx: " + ", ".join("%d times %s" % (met.count(s), s) for s in sorted(set(met))))
        faults += len([status for status in met if status != "200"])
    sys.exit(1 if faults else 0)


main()
