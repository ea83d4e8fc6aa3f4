#!/usr/bin/env python3
"""Holds thousands of connections that wait, and says whether a good client is answered beside them.

    checks/limits/waiting.py crates/bench_server/out/bench_server [SLOW IDLE CLOSING]

It starts `bench_server --bodies serve`, which has no limits. By default 5,000 clients send a head byte by byte, 5,000 send nothing, and
1,000 get a 400 and don't close their connection. While they wait the server may have at most 16 threads and 24 KiB a connection, and
while they send a good client has to be answered within 100 ms each time. In the end all slow and idle clients are answered. It takes
a minute, and ends with status 1 where something is wrong."""
import os, resource, socket, subprocess, sys, tempfile, threading, time

PORT = 18082
HEAD = b"GET / HTTP/1.1\r\nHost: localhost\r\n\r\n"
wrong = []


def report(what, holds, seen=""):
    print(f"{'ok' if holds else 'WRONG'}: {what}: {seen}", flush=True)
    if not holds:
        wrong.append(what)


def connect(number):
    """A connection from one of many addresses, so that no port runs out."""
    while True:
        try:
            return socket.create_connection(("127.0.0.1", PORT), 20, (f"127.0.1.{number % 200 + 1}", 0))
        except ConnectionRefusedError:
            time.sleep(0.1)


def answer(sock):
    """The first line of the next answer."""
    got = b""
    while b"\r\n\r\n" not in got:
        piece = sock.recv(4096)
        if not piece:
            break
        got += piece
    return got.split(b"\r\n")[0]


def status(pid, field):
    with open(f"/proc/{pid}/status", encoding="ascii") as file:
        return next(int(line.split()[1]) for line in file if line.startswith(field + ":"))


class Good(threading.Thread):
    """A client that makes a new connection and a request every 20 ms, and keeps the longest time."""

    def __init__(self):
        super().__init__(daemon=True)
        self.longest, self.count, self.goes_on, self.bad = 0.0, 0, True, 0

    def run(self):
        while self.goes_on:
            begun = time.monotonic()
            with connect(0) as sock:
                sock.sendall(HEAD)
                if not answer(sock).startswith(b"HTTP/1.1 200"):
                    self.bad += 1
            self.longest = max(self.longest, time.monotonic() - begun)
            self.count += 1
            time.sleep(0.02)


def main():
    program = sys.argv[1]
    slow_count, idle_count, closing_count = map(int, sys.argv[2:5] or (5000, 5000, 1000))
    most = resource.getrlimit(resource.RLIMIT_NOFILE)[1]
    resource.setrlimit(resource.RLIMIT_NOFILE, (most, most))
    with tempfile.NamedTemporaryFile() as file:
        server = subprocess.Popen([program, "--bodies", "serve", f"127.0.0.1:{PORT}", file.name], stdout=subprocess.DEVNULL)
        try:
            connect(0).close()
            before = status(server.pid, "VmRSS")
            idle = [connect(number) for number in range(idle_count)]
            slow = [connect(number) for number in range(slow_count)]
            for sock in slow:
                sock.sendall(HEAD[:1])
            time.sleep(3)
            threads, memory = status(server.pid, "Threads"), status(server.pid, "VmRSS") - before
            report("few threads while all wait", threads <= 16, threads)
            memory /= idle_count + slow_count
            report("KiB a connection", memory <= 24, f"{memory:.1f}")
            good = Good()
            good.start()
            closing = []
            for number in range(closing_count):
                sock = connect(number)
                sock.sendall(b"bad\r\n\r\n")
                closing.append(sock)
            for at in range(1, len(HEAD) - 1):
                for sock in slow:
                    sock.sendall(HEAD[at : at + 1])
            good.goes_on = False
            good.join()
            report("a good client is answered", good.bad == 0, f"{good.count} times")
            report("within 100 ms", good.longest < 0.1, f"{good.longest * 1000:.1f} ms at most")
            refused = sum(answer(sock).startswith(b"HTTP/1.1 400") for sock in closing)
            report("those that are closed got their 400", refused == closing_count, refused)
            for sock in slow:
                sock.sendall(HEAD[-1:])
            for sock in idle:
                sock.sendall(HEAD)
            served = sum(answer(sock).startswith(b"HTTP/1.1 200") for sock in slow + idle)
            report("slow and idle clients are answered", served == slow_count + idle_count, served)
        finally:
            server.kill()
    return 1 if wrong else 0


if __name__ == "__main__":
    sys.exit(main())
