"""trying.py: what a try of a client needs. It runs a command within a time, starts a server, and taps what goes over the wire."""
import http.client
import os
import shutil
import signal
import socket
import subprocess
import tempfile
import threading
from contextlib import closing
from importlib.util import find_spec

SECONDS = 8
ANSWER = b"hello world"


def installed(name):
    """Whether a command is there, or a module of this Python where the name is `import` and the module's."""
    if name.startswith("import "):
        return find_spec(name.split()[1]) is not None
    return shutil.which(name, path=os.environ["PATH"] + ":/usr/sbin") is not None


def start(words, **more):
    """Starts a command as the head of a process group of its own."""
    path = os.environ["PATH"] + ":/usr/sbin"
    return subprocess.Popen(words, start_new_session=True, env={**os.environ, "PATH": path}, **more)


def stop(process):
    """Ends what `start` began, with all that it began: by a signal to end, and after two seconds by one that kills."""
    for how in (signal.SIGTERM, signal.SIGKILL):
        try:
            os.killpg(process.pid, how)
        except ProcessLookupError:
            pass
        try:
            process.wait(timeout=2)
        except subprocess.TimeoutExpired:
            pass


def met(words, good, seconds=SECONDS):
    """What a command met: `good` makes a cell of its output where it ended by 0."""
    with tempfile.TemporaryFile() as out:
        process = start(words, stdin=subprocess.DEVNULL, stdout=out, stderr=subprocess.DEVNULL)
        try:
            status = process.wait(timeout=seconds)
        except subprocess.TimeoutExpired:
            return "hangs"
        finally:
            stop(process)
        if status != 0:
            return "fails %d" % status
        out.seek(0)
        return good(out.read().decode("latin1"))


def kept(port, seconds):
    """A connection of Python's client, to be closed, which waits no longer than this for a read."""
    return closing(http.client.HTTPConnection("127.0.0.1", port, timeout=seconds))


def asked(client, method, body=None, headers={}):
    """What one request of Python's client is answered: its status, or that it hangs or fails. No later one may connect anew."""
    try:
        client.request(method, "/a", body, headers)
        client.auto_open = 0
        answer = client.getresponse()
        data = answer.read()
    except socket.timeout:
        return "hangs"
    except (http.client.HTTPException, OSError) as error:
        return "fails " + type(error).__name__
    if answer.status == 200 and method != "HEAD" and data != ANSWER:
        return "200 with another body"
    return str(answer.status)


def serve(program, profile):
    """Starts the server, and gives it with its port."""
    server = start([program, "--" + profile, "127.0.0.1:0"], stdout=subprocess.PIPE, text=True)
    return server, int(server.stdout.readline().rsplit(":", 1)[1])


class Tap:
    """Passes connections on to a port, and keeps what went over each: pairs of a direction and bytes, in their order.

    An end is passed on as an end, and a fault of either side ends both.
    """

    def __init__(self, port):
        self.to = port
        self.wire = []
        self.listener = socket.create_server(("127.0.0.1", 0), backlog=64)
        self.port = self.listener.getsockname()[1]
        threading.Thread(target=self.accept, daemon=True).start()

    def __enter__(self):
        return self

    def __exit__(self, *_):
        self.listener.close()

    def accept(self):
        while True:
            try:
                client, _ = self.listener.accept()
            except OSError:
                return
            wire = []
            self.wire.append(wire)
            try:
                server = socket.create_connection(("127.0.0.1", self.to))
            except OSError:
                client.close()
                continue
            for words in ((client, server, "> ", wire), (server, client, "< ", wire)):
                threading.Thread(target=pump, args=words, daemon=True).start()

    def text(self):
        """What went over the wire: a line is a direction and a line of the bytes, and of a longer one its front."""
        lines = []
        for number, wire in enumerate(self.wire):
            lines.append("-- connection %d" % number)
            for direction, data in wire:
                for part in data.split(b"\r\n"):
                    more = " ... of %d bytes" % len(part) if len(part) > 120 else ""
                    lines.append(direction + repr(part[:120])[2:-1] + more)
        return "\n".join(lines)


def pump(source, target, direction, wire):
    """Passes on what comes from one side, and keeps it on the wire."""
    try:
        while True:
            data = source.recv(65536)
            wire.append((direction, data or b"(end)"))
            if not data:
                target.shutdown(socket.SHUT_WR)
                return
            target.sendall(data)
    except OSError as error:
        wire.append((direction, ("(%s)" % error).encode()))
        for side in (source, target):
            try:
                side.shutdown(socket.SHUT_RDWR)
            except OSError:
                pass
