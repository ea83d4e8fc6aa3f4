#!/usr/bin/env python3
"""Clients that hurt a server, all at once: together.py PROGRAM [SECONDS]

PROGRAM is called as in `run.py`. For so many seconds, 600 without a number, each kind of client does what it does again and again, from a
loopback address of its own, since each address may have a quarter of the places. Meanwhile a client that behaves asks for one
answer after another, and looks at each byte of it. Then all go, and the server's memory and descriptors are those of the beginning.
It ends by status 1 where an answer was wrong or late, or something is kept."""
import os, random, re, resource, socket, struct, sys, threading, time
from run import HEAD, Server

ANSWER = re.compile(rb'HTTP/1\.1 200 OK\r\nServer: tiny-http \(Rust\)\r\nDate: [^\r\n]{29}\r\n'
                    rb'Content-Type: text/plain; charset=UTF-8\r\nContent-Length: 11\r\n\r\nhello world')
# Within so many seconds a client that behaves has its answer, and so much memory more, in MB, the server has at most.
LATE, MOST = 1.0, 64


class Client:
    """A kind of client, from an address of its own, until its time is over."""

    def __init__(self, number, server, ends):
        self.source, self.server, self.ends, self.turns = f'127.0.1.{number}', server, ends, 0

    def goes_on(self):
        return time.time() < self.ends

    def connect(self, timeout=5):
        return socket.create_connection(('127.0.0.1', self.server.port), timeout, (self.source, 0))

    def run(self):
        while self.goes_on():
            try:
                self.act()
            except OSError:
                time.sleep(0.05)
            self.turns += 1


def reset(client):
    client.setsockopt(socket.SOL_SOCKET, socket.SO_LINGER, struct.pack('ii', 1, 0))
    client.close()


class Holding(Client):
    """Sends 20,000 requests, reads nothing, and stays for a while."""

    def act(self):
        with self.connect() as client:
            try:
                for _ in range(200):
                    client.sendall(HEAD * 100)
            except OSError:
                pass
            time.sleep(min(20, max(0, self.ends - time.time())))


class Flooding(Client):
    """Sends requests without end, reads nothing, and goes by a reset."""

    def act(self):
        client = self.connect()
        try:
            for _ in range(10_000):
                client.sendall(HEAD * 100)
        except OSError:
            pass
        reset(client)


class Idling(Client):
    """Takes 300 places, of which it gets 250, and sends nothing."""

    def act(self):
        clients = []
        try:
            for _ in range(300):
                clients.append(self.connect())
            time.sleep(min(30, max(0, self.ends - time.time())))
        finally:
            for client in clients:
                client.close()


class LongHead(Client):
    """Sends a head without end."""

    def act(self):
        with self.connect() as client:
            client.sendall(b'GET / HTTP/1.1\r\nHost: h\r\n')
            for number in range(100_000):
                client.sendall(b'X-%d: %s\r\n' % (number, b'a' * 80))


class Slow(Client):
    """Has fifty connections, on each of which a byte comes each second: of a head, of a body, or of the answers that it reads."""

    def act(self):
        clients = [self.connect() for _ in range(50)]
        begins = [b'GET / HTTP/1.1\r\nHost: h\r\nX: ', b'POST / HTTP/1.1\r\nHost: h\r\nContent-Length: 900\r\n\r\n', HEAD * 2000]
        for number, client in enumerate(clients):
            client.sendall(begins[number % 3])
        until = min(time.time() + 45, self.ends)
        while time.time() < until:
            for number, client in enumerate(clients):
                try:
                    if number % 3 < 2:
                        client.sendall(b'y')
                    else:
                        client.recv(1)
                except OSError:
                    pass
            time.sleep(1)
        for client in clients:
            client.close()


class Breaking(Client):
    """Breaks off in each place, by an end or by a reset, and sends what is no request."""

    def act(self):
        pieces = [b'', b'G', b'\r\n\r\n', HEAD * random.randrange(1, 30) + b'GET / HT', os.urandom(200),
                  b'POST / HTTP/1.1\r\nHost: h\r\nContent-Length: 5000\r\n\r\nabc',
                  b'POST / HTTP/1.1\r\nHost: h\r\nTransfer-Encoding: chunked\r\n\r\nzz\r\n',
                  b'POST / HTTP/1.1\r\nHost: h\r\nExpect: 100-continue\r\nContent-Length: 5\r\n\r\n']
        client = self.connect()
        client.sendall(random.choice(pieces))
        if random.random() < 0.5:
            client.settimeout(0.2)
            try:
                client.recv(random.choice([1, 100, 5000]))
            except OSError:
                pass
        if random.random() < 0.5:
            reset(client)
        else:
            client.close()
        time.sleep(0.002)


class Behaving(Client):
    """Asks on a connection that it keeps for ten requests, and looks at each byte of the answers."""
    answers = wrong = 0
    slowest = 0.0

    def act(self):
        client = self.connect()
        for _ in range(10):
            begun, data = time.time(), b''
            client.sendall(HEAD)
            while not data.endswith(b'hello world'):
                piece = client.recv(65536)
                if not piece:
                    break
                data += piece
            self.answers += 1
            self.wrong += not ANSWER.fullmatch(data)
            self.slowest = max(self.slowest, time.time() - begun)
            time.sleep(0.02)
        client.close()


def main():
    program, seconds = sys.argv[1], float(sys.argv[2]) if len(sys.argv) > 2 else 600
    resource.setrlimit(resource.RLIMIT_NOFILE, (4096, resource.getrlimit(resource.RLIMIT_NOFILE)[1]))
    server = Server(program)
    server.answers_within(5)
    time.sleep(1)
    descriptors, memory, most = server.descriptors(), server.memory(), 0.0
    ends = time.time() + seconds
    kinds = [Behaving, Holding, Flooding, Flooding, Idling, LongHead, Slow, Breaking, Breaking]
    clients = [kind(number, server, ends) for number, kind in enumerate(kinds, 1)]
    threads = [threading.Thread(target=client.run) for client in clients]
    for thread in threads:
        thread.start()
    while time.time() < ends and server.process.poll() is None:
        most = max(most, server.memory())
        time.sleep(0.5)
    for thread in threads:
        thread.join()
    until = time.time() + 90
    while server.descriptors() > descriptors and time.time() < until:
        time.sleep(1)
    # A worker above four ends after five seconds.
    time.sleep(6)
    behaving, now, held = clients[0], server.descriptors(), server.memory()
    ok = (behaving.answers > 0 and behaving.wrong == 0 and behaving.slowest < LATE and most < memory + MOST
          and now <= descriptors and server.process.poll() is None)
    print(', '.join(f'{type(client).__name__} {client.turns}' for client in clients))
    print(f'{behaving.answers} answers, {behaving.wrong} wrong, the slowest after {behaving.slowest * 1000:.0f} ms; '
          f'memory {memory:.1f} MB at first, {most:.1f} at most, {held:.1f} at the end; {now} descriptors of {descriptors}')
    print(server.stop().strip().splitlines()[-1])
    sys.exit(0 if ok else 1)


if __name__ == '__main__':
    main()
