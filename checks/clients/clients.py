"""clients.py: the clients. Each function gives a try: it takes a port, and gives the cell of what was met there."""
import functools
import os
import re
import socket
import tempfile

from trying import SECONDS, Tap, asked, kept, met

HERE = os.path.dirname(os.path.abspath(__file__))
LARGE = 100000


def url(port):
    return "http://127.0.0.1:%d/a" % port


@functools.lru_cache
def folder():
    """A folder of this run, which ends with it."""
    return tempfile.TemporaryDirectory(prefix="clients-")


def inside(name):
    return os.path.join(folder().name, name)


@functools.lru_cache
def large_file():
    """A file of a million bytes."""
    with open(inside("large"), "wb") as out:
        out.write(b"x" * 1000000)
    return inside("large")


def curl(*words, mark="%{http_code},"):
    """A cell has the status of each answer; with another mark, what it has curl say of each."""
    def run(port):
        given = {"URL": url(port), "FILE": large_file()}
        command = ["curl", "-s", "-o", os.devnull, "-w", mark] + [given.get(w, w) for w in words]
        return met(command, lambda out: out.rstrip(",").replace(",", ", " if " " in out else " "))
    return run


def ab(*words):
    def run(port):
        def served(out):
            found = re.search(r"Complete requests:\s+(\d+)", out)
            return "%s served" % found.group(1) if found else "no figure"
        return met(["ab", "-q", *words, "http://127.0.0.1:%d/" % port], served)
    return run


def wrk(port):
    """A second of four connections: `served` where there were answers, and none was bad."""
    def served(out):
        bad = re.findall(r"(?:Socket errors|Non-2xx).*", out)
        found = re.search(r"(\d+) requests in", out)
        return ", ".join(bad) if bad else "served" if found and int(found.group(1)) > 0 else "no answer"
    return met(["wrk", "-t", "1", "-c", "4", "-d", "1s", url(port)], served)


def counted(run):
    """The same client by way of a tap, which counts its connections."""
    def counting(port):
        with Tap(port) as tap:
            return "%s on %s" % (run(tap.port), len(tap.wire))
    return counting


def program(*words):
    """A program of this folder, by the command that runs it. It prints its cell."""
    def run(port):
        given = {"URL": url(port), "LARGE": str(LARGE)}
        return met([os.path.join(HERE, w) if "." in w else given.get(w, w) for w in words], str.strip)
    return run


@functools.lru_cache
def built_go():
    """The program of Go's client, compiled once. It takes longer where Go keeps no compiled library yet."""
    result = inside("several")
    return result if met(["go", "build", "-o", result, os.path.join(HERE, "several.go")], str, 90) == "" else None


def go(port):
    return met([built_go(), url(port), str(LARGE)], str.strip) if built_go() else "isn't built"


def python(port):
    """Requests of Python's client on one connection, of each method."""
    bodies = {"GET": None, "HEAD": None, "POST": b"hello", "PUT": b"x" * 2000, "DELETE": None}
    with kept(port, SECONDS) as client:
        return " ".join(asked(client, method, body) for method, body in bodies.items())


def session(port):
    """Requests of a session of Python's `requests`."""
    import requests
    cells = []
    with requests.Session() as pooled:
        for method, body in (("GET", None), ("GET", None), ("POST", b"hello"), ("POST", b"x" * LARGE), ("GET", None)):
            try:
                cells.append(str(pooled.request(method, url(port), data=body, timeout=5).status_code))
            except requests.Timeout:
                return " ".join(cells + ["hangs"])
            except requests.RequestException as error:
                return " ".join(cells + ["fails " + type(error).__name__])
    return " ".join(cells)


def chromium(address, good):
    """Headless Chromium loads a page, and prints it once all that it asks for has come."""
    words = ["chromium", "--headless", "--no-sandbox", "--disable-gpu", "--user-data-dir=" + inside("chromium"), "--dump-dom"]
    return met(words + [address], good)


def browsed(port):
    """The server's answer as a page."""
    return chromium(url(port), lambda out: "shown" if "hello world" in out else "not shown")


def page(port):
    """A page that has twenty images from the server, and sends a form whose answer it shows in a frame. A tap has the statuses."""
    with Tap(port) as tap:
        base = "http://127.0.0.1:%d/" % tap.port
        with open(inside("page.html"), "w") as out:
            out.write('<form method="post" action="%sform" target="frame"><input name="a" value="hello"></form>' % base)
            out.write('<iframe name="frame"></iframe><script>document.forms[0].submit()</script>')
            out.writelines('<img src="%s%d">' % (base, number) for number in range(20))
        cell = chromium("file://" + inside("page.html"), lambda out: "ends")
        sent = b"".join(data for wire in tap.wire for direction, data in wire if direction == "< ").decode("latin1")
    statuses = re.findall(r"HTTP/1\.\d (\d{3})", sent)
    return ", ".join(["%d of %s" % (statuses.count(s), s) for s in sorted(set(statuses))] + [cell])


def raw(text):
    """The status lines of the answers to these bytes, until the server is quiet for half a second or closes."""
    def run(port):
        with socket.create_connection(("127.0.0.1", port), timeout=0.5) as client:
            client.sendall(text)
            answers, ended = b"", "open"
            try:
                while True:
                    more = client.recv(65536)
                    if not more:
                        ended = "closed"
                        break
                    answers += more
            except socket.timeout:
                pass
            except ConnectionResetError:
                ended = "reset"
        return " ".join([s.decode() for s in re.findall(rb"HTTP/1\.\d (\d{3})", answers)] + [ended])
    return run
