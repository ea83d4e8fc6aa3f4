#!/usr/bin/env python3
"""Clients that hurt a server, tried on a program that serves under limits: run.py PROGRAM [NAME..]

PROGRAM is called as PROGRAM [--lenient] [--connections N] ADDRESS, with 1,024 descriptors, and is told to stop by a line `stop` on its standard input: the program
`bench_server`. Each trial prints one line. The default limits are taken for granted, so that all trials together take two and a half
minutes. With names it makes those trials alone."""
import os, re, resource, socket, subprocess, sys, threading, time

HEAD = b'GET / HTTP/1.1\r\nHost: h\r\n\r\n'
failed = []


class Server:
    """The program, at a port of its own."""

    def __init__(self, program, descriptors=1024, words=()):
        limit = lambda: resource.setrlimit(resource.RLIMIT_NOFILE, (descriptors, descriptors))
        pipe = subprocess.PIPE
        self.process = subprocess.Popen([program, *words, '127.0.0.1:0'], stdin=pipe, stdout=pipe, preexec_fn=limit)
        self.port = int(re.search(rb':(\d+)', self.process.stdout.readline()).group(1))

    def connect(self, timeout=10):
        return socket.create_connection(('127.0.0.1', self.port), timeout=timeout)

    def memory(self):
        """What it holds, in MB."""
        with open(f'/proc/{self.process.pid}/status') as status:
            return int(re.search(r'VmRSS:\s+(\d+)', status.read()).group(1)) / 1024

    def descriptors(self):
        return len(os.listdir(f'/proc/{self.process.pid}/fd'))

    def answers_within(self, seconds):
        """Whether another client gets its answer within the time, and that time in ms."""
        begun = time.time()
        try:
            client = self.connect(seconds)
            client.sendall(HEAD)
            ok = client.recv(15) == b'HTTP/1.1 200 OK'
            client.close()
        except OSError:
            ok = False
        return ok and time.time() - begun < seconds, int((time.time() - begun) * 1000)

    def stop(self):
        """Stops it, and gives what it printed."""
        self.process.stdin.write(b'stop\n')
        self.process.stdin.flush()
        out, _ = self.process.communicate(timeout=30)
        return out.decode()


def report(name, ok, seen):
    print(('ok    ' if ok else 'FAILED'), name + ':', seen, flush=True)
    if not ok:
        failed.append(name)


def read_all(client):
    """What comes up to the end, and how that came."""
    data = b''
    try:
        while True:
            piece = client.recv(65536)
            if not piece:
                return data, 'end'
            data += piece
    except OSError as fault:
        return data, type(fault).__name__


def flood(client, count):
    """Sends so many requests, for 5 s at most, and reads nothing."""
    client.settimeout(5)
    try:
        for _ in range(count // 100):
            client.sendall(HEAD * 100)
    except OSError:
        pass


def hold(server):
    client = server.connect()
    flood(client, 20_000)
    others = [server.answers_within(0.1) for _ in range(50)]
    worst = max(ms for _, ms in others)
    report('hold', all(ok for ok, _ in others), f'50 other clients, the slowest after {worst} ms')
    client.close()


def much(server):
    before = server.memory()
    clients = [server.connect() for _ in range(8)]
    threads = [threading.Thread(target=flood, args=(client, 1_000_000)) for client in clients]
    for thread in threads:
        thread.start()
    for thread in threads:
        thread.join()
    grown = server.memory() - before
    report('much', grown < 32 and server.answers_within(0.1)[0], f'8 clients, {grown:.1f} MB more')
    for client in clients:
        client.close()


def idle(server):
    resource.setrlimit(resource.RLIMIT_NOFILE, (4096, resource.getrlimit(resource.RLIMIT_NOFILE)[1]))
    clients = [server.connect() for _ in range(1_020)]
    time.sleep(1)
    open_ones = []
    for client in clients:
        client.setblocking(False)
        try:
            client.recv(1)
        except BlockingIOError:
            open_ones.append(client)
        except OSError:
            pass
    serves = 0
    for client in open_ones[:3]:
        client.settimeout(5)
        client.sendall(HEAD)
        serves += client.recv(15) == b'HTTP/1.1 200 OK'
    open_ones[-1].close()
    time.sleep(1)
    newcomer, _ = server.answers_within(5)
    seen = f'{len(open_ones)} of 1,020 are kept, and served; a newcomer once one closed: {newcomer}'
    report('idle', len(open_ones) == 250 and serves == 3 and newcomer, seen)
    for client in clients:
        client.close()


def few_descriptors(program):
    """A server that has fewer descriptors than it may have clients: accepting fails, and goes on once some have gone."""
    server = Server(program, 64)
    clients = [server.connect() for _ in range(100)]
    time.sleep(2)
    for client in clients[:80]:
        client.close()
    newcomer, ms = server.answers_within(5)
    for client in clients:
        client.close()
    faults = int(re.search(r'accept faults (\d+)', server.stop()).group(1))
    seen = f'{faults} faults of accepting; a newcomer once some have gone: {newcomer}, after {ms} ms'
    report('few descriptors', newcomer and faults > 0, seen)


def allowed_too_many(program):
    """A server that is allowed more connections than the process may have descriptors says so at its start."""
    limit = lambda: resource.setrlimit(resource.RLIMIT_NOFILE, (1024, 1024))
    words = ['--lenient', '--connections', '5000']
    command = [program, *words, '127.0.0.1:0']
    ran = subprocess.run(command, capture_output=True, stdin=subprocess.DEVNULL, timeout=20, preexec_fn=limit, text=True)
    ok = ran.returncode == 1 and '5000 connections' in ran.stderr and 'only 1024' in ran.stderr and 'ulimit -n' in ran.stderr
    server = Server(program, 8192, words)
    answers, _ = server.answers_within(5)
    server.stop()
    report('allowed too many', ok and answers, f'{ran.stderr.strip()}; with 8,192 it answers: {answers}')


def long_head(server):
    before = server.memory()
    client = server.connect()
    try:
        client.sendall(b'GET / HTTP/1.1\r\n')
        for number in range(200_000):
            client.sendall(b'X-%d: %s\r\n' % (number, b'a' * 80))
    except OSError:
        pass
    data, _ = read_all(client)
    grown = server.memory() - before
    ok = data.startswith(b'HTTP/1.1 431') and grown < 8
    report('long head', ok, f'{data[:35]}, {grown:.1f} MB more')


def ends_after(server, name, begin, trickle, wanted, least, most):
    """A client sends this, and then a byte each second: what it gets, and when it sees the end."""
    client = server.connect(120)
    client.sendall(begin)
    begun = time.time()

    def send():
        try:
            for _ in range(120):
                time.sleep(1)
                client.sendall(trickle)
        except OSError:
            pass

    threading.Thread(target=send, daemon=True).start()
    data, end = read_all(client)
    seconds = time.time() - begun
    ok = data[:len(wanted)] == wanted and (wanted or not data) and least <= seconds <= most
    report(name, ok, f'{data[:28]}, {end} after {seconds:.0f} s')


def slow_answer(server):
    """A client that asks for more than the sockets take, and reads a byte each second."""
    client = socket.socket()
    client.setsockopt(socket.SOL_SOCKET, socket.SO_RCVBUF, 4096)
    client.connect(('127.0.0.1', server.port))
    begun = time.time()

    def send():
        try:
            while True:
                client.sendall(HEAD * 100)
        except OSError:
            pass

    threading.Thread(target=send, daemon=True).start()
    client.settimeout(5)
    seconds = None
    while time.time() - begun < 150:
        try:
            if not client.recv(1):
                break
        except OSError:
            break
        if not is_open(client):
            seconds = time.time() - begun
            break
        time.sleep(1)
    seconds = seconds or time.time() - begun
    report('slow answer', 55 <= seconds <= 125, f'closed after {seconds:.0f} s')
    client.close()


def is_open(client):
    """Whether the system holds the connection for open: TCP_INFO's first byte is 1 then."""
    return client.getsockopt(socket.IPPROTO_TCP, socket.TCP_INFO, 8)[0] == 1


def slow(server):
    post = b'POST / HTTP/1.1\r\nHost: h\r\nContent-Length: 900\r\n\r\n'
    trials = [
        ('silent client', b'', b'', b'', 58, 64),
        ('slow head', b'GET / HTTP/1.1\r\nHost: h\r\nX: ', b'x', b'HTTP/1.1 408', 28, 34),
        ('slow short body', post, b'x', b'HTTP/1.1 408', 28, 34),
    ]
    threads = [threading.Thread(target=ends_after, args=(server, *trial)) for trial in trials]
    threads.append(threading.Thread(target=slow_answer, args=(server,)))
    for thread in threads:
        thread.start()
    for thread in threads:
        thread.join()


def main():
    program, names = sys.argv[1], sys.argv[2:]
    server = Server(program)
    descriptors, memory = server.descriptors(), server.memory()
    trials = [hold, much, idle, long_head, slow]
    for trial in trials:
        if not names or trial.__name__ in names:
            trial(server)
    if not names or 'few_descriptors' in names:
        few_descriptors(program)
    if not names or 'allowed_too_many' in names:
        allowed_too_many(program)
    time.sleep(12)
    now, held = server.descriptors(), server.memory()
    report('afterwards', now <= descriptors and held < memory + 32, f'{now} descriptors of {descriptors}, {held:.1f} MB of {memory:.1f}')
    client = server.connect()
    client.sendall(HEAD)
    client.recv(1000)
    begun = time.time()
    out = server.stop()
    seconds = time.time() - begun
    ok = read_all(client)[1] == 'end' and server.process.returncode == 0 and seconds < 5
    report('stop', ok, f'status {server.process.returncode} after {seconds:.1f} s; {out.strip()}')
    sys.exit(1 if failed else 0)


if __name__ == '__main__':
    main()
