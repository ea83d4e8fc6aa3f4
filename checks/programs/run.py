#!/usr/bin/env python3
"""The programs of the repository, tried from outside over loopback: run.py NAME=PROGRAM [NAME=PROGRAM..]

NAME is one of the crates example_router, _files, _events, _gateway, _test_server and _websocket_echo, and PROGRAM is the built program. It is called with an address, and with a
folder or another server's address where it needs one. Each trial prints one line; all together take a few seconds. `checks/tests` makes the
same trials of the programs before they are proved."""
import base64, hashlib, http.client, importlib.util, os, random, re, signal, socket, subprocess, sys, tempfile, threading, time, urllib.parse


def beside(name):
    """A module of this folder, whoever loads this one."""
    spec = importlib.util.spec_from_file_location(name, os.path.join(os.path.dirname(os.path.realpath(__file__)), name + '.py'))
    module = importlib.util.module_from_spec(spec)
    spec.loader.exec_module(module)
    return module


FILES, EVENTS = beside('files'), beside('events')


class Trials:
    """What was seen of a program, trial by trial."""

    def __init__(self):
        self.seen = []

    def same(self, name, came, wanted):
        self.seen.append((name, came == wanted, came if came == wanted else f'{came!r}, and not {wanted!r}'))


class Answer:
    def __init__(self, status, headers, body):
        self.status, self.headers, self.body = status, headers, body


def ask(port, target, method='GET', headers=(), body=b'', version='1.1', chunked=False):
    """The answer to a request on a connection of its own. It is whole: one that is cut is a fault."""
    lines = [f'{method} {target} HTTP/{version}', *(['Host: localhost'] * (not any(it.startswith('Host:') for it in headers))), *headers]
    if chunked:
        lines.append('Transfer-Encoding: chunked')
        body = b''.join(b'%x\r\n%s\r\n' % (len(it), it) for it in (body[at:at + 5000] for at in range(0, len(body), 5000))) + b'0\r\n\r\n'
    elif body:
        lines.append(f'Content-Length: {len(body)}')
    if not any(it.startswith('Connection:') for it in lines):
        lines.append('Connection: close')
    with socket.create_connection(('127.0.0.1', port), timeout=10) as client:
        try:
            client.sendall('\r\n'.join([*lines, '', '']).encode('latin-1') + body)
        except OSError:
            pass  # a body that is refused isn't taken
        answer = http.client.HTTPResponse(client, method=method)
        answer.begin()
        return Answer(answer.status, answer.headers, answer.read())


def raw(port, request):
    """All bytes that come after these, up to the end."""
    with socket.create_connection(('127.0.0.1', port), timeout=10) as client:
        client.sendall(request)
        return client.makefile('rb').read()


# Requests for notes, one after another, each with the status and the body of its answer.
NOTES = [
    ('GET', '/notes', '', 200, '[]'),
    ('POST', '/notes?x', '{"text": "one"}', 201, '{"id":1,"text":"one"}'),
    ('GET', '/notes/1', '', 200, '{"id":1,"text":"one"}'),
    ('HEAD', '/notes/1', '', 200, ''),
    ('GET', '/events', '', 200, 'data: {"id":1,"text":"one"}\n\n'),
    ('GET', '/notes?x=1', '', 200, '[{"id":1,"text":"one"}]'),
    ('POST', '/notes', '[', 400, '{"error":"not JSON"}'),
    ('POST', '/notes', '{}', 400, '{"error":"no text"}'),
    ('PUT', '/notes', '', 405, '{"error":"method not allowed"}'),
    ('DELETE', '/notes/1', '', 200, '{"id":1,"text":"one"}'),
    ('DELETE', '/notes/1', '', 404, '{"error":"no such note"}'),
    ('GET', '/notes/x', '', 400, '{"error":"not a number"}'),
    ('GET', '/nothing', '', 404, '{"error":"no such path"}'),
]


def try_router(port, trials):
    for method, target, body, status, wanted in NOTES:
        answer = ask(port, target, method, body=body.encode())
        trials.same(f'{method} {target}', (answer.status, answer.body.decode()), (status, wanted))
    answer = ask(port, '/notes', 'POST', body=b'{"text": "two"}', chunked=True)
    trials.same('a note in chunks is added', (answer.status, answer.body), (201, b'{"id":2,"text":"two"}'))
    answer = ask(port, '/notes', 'POST', headers=['Connection: keep-alive', 'Content-Length: 65537'])
    trials.same('a long body is refused before it comes', (answer.status, answer.headers['Connection']), (413, 'close'))
    answer = ask(port, '/events')
    seen = (answer.headers['Content-Type'], answer.headers['Transfer-Encoding'], answer.body)
    trials.same('notes are events', seen, ('text/event-stream', 'chunked', b'data: {"id":2,"text":"two"}\n\n'))
    answer = ask(port, '/events', version='1.0')
    seen = (answer.status, answer.headers['Transfer-Encoding'], answer.body)
    trials.same('and to version 1.0', seen, (200, None, b'data: {"id":2,"text":"two"}\n\n'))


def make_folder(folder):
    os.makedirs(folder + '/a.b')
    os.makedirs(folder + '/list')
    os.makedirs(folder + '/.well-known')
    for name, text in [('a.txt', 'hello'), ('a.png', ''), ('a.HTML', ''), ('png', ''), ('big.bin', 'x' * 100_000), ('a.b/index.html', '<p>hi'),
                       ('list/b <c>&".txt', 'b'), ('.env', 'hidden'), ('list/.env', 'hidden'), ('.well-known/a.txt', 'known')]:
        with open(f'{folder}/{name}', 'w') as file:
            file.write(text)
    os.symlink('/etc/passwd', folder + '/out')
    os.symlink('png', folder + '/link.html')
    FILES.make_files(folder)


def try_files(port, trials):
    answer = ask(port, '/a.txt')
    trials.same('a file is sent', (answer.status, answer.body), (200, b'hello'))
    for name, wanted in [('/a.txt', 'text/plain; charset=utf-8'), ('/a.b/index.html', 'text/html; charset=utf-8'), ('/a.png', 'image/png'),
                         ('/a.HTML', 'application/octet-stream'), ('/png', 'application/octet-stream')]:
        trials.same('a file has a type', (name, ask(port, name).headers['Content-Type']), (name, wanted))
    date = answer.headers['Last-Modified']
    answer = ask(port, '/a.txt', headers=[f'If-Modified-Since: {date}'])
    trials.same('but not again', (answer.status, answer.body, answer.headers['Content-Length']), (304, b'', None))
    answer = ask(port, '/a.txt', headers=['If-Modified-Since: Thu, 01 Jan 1970 00:00:00 GMT'])
    trials.same('unless it is newer', (answer.status, answer.body), (200, b'hello'))
    answer = ask(port, '/big.bin')
    trials.same('a long file has its length', (len(answer.body), answer.headers['Content-Length']), (100_000, '100000'))
    answer = ask(port, '/big.bin', 'HEAD')
    trials.same('its head, too', (answer.body, answer.headers['Content-Length']), (b'', '100000'))
    answer = ask(port, '/a.b')
    trials.same('a folder has a slash', (answer.status, answer.headers['Location']), (301, './a.b/'))
    answer = ask(port, '/a.b/')
    trials.same('a folder has an index', (answer.status, answer.body), (200, b'<p>hi'))
    answer = ask(port, '/list/')
    line = b'<li><a href="./b%20%3Cc%3E%26%22%2Etxt">b &lt;c>&amp;".txt</a>'
    trials.same('or is a list of links', answer.body, b'<!doctype html>\n<ul>\n' + line + b'\n</ul>\n')
    link = (re.search(rb'href="([^"]*)"', answer.body) or [b'', b'/nothing'])[1].decode()
    answer = ask(port, urllib.parse.urljoin('/list/', link))
    trials.same('each of a file', (answer.status, answer.body), (200, b'b'))
    for path in ['/../served/a.txt', '/%2e%2e/served/a.txt', '/list/..%2fa.txt', '/list/../a.txt', '/out', '/a.txt/', '/%00', '/%ff', '/nothing']:
        trials.same('nothing leads out', (path, ask(port, path).status), (path, 404))
    for path, wanted in [('/.env', 404), ('/list/.env', 404), ('/%2eenv', 404), ('/.well-known/a.txt', 200), ('/list?a=1', 301)]:
        trials.same('what is hidden, and what is not', (path, ask(port, path).status), (path, wanted))
    trials.same('the type is that of the name', ask(port, '/link.html').headers['Content-Type'], 'text/html; charset=utf-8')
    answer = ask(port, '/a.txt', 'DELETE')
    trials.same('a method is refused', (answer.status, answer.headers['Allow']), (405, 'GET, HEAD'))
    FILES.compare(port, free_port(), trials.same)


# What the server behind the gateway answers by target: headers and body, and then it closes the connection. Behind it what the gateway answers:
# the body, or none where the backend's answer says more than one thing of its end, or what isn't understood (RFC 9112, section 6.3).
FRAMED = {
    '/end': ('', 'hello', 'hello'),
    '/length': ('Content-Length: 5\r\n', 'hello', 'hello'),
    '/twice': ('Content-Length: 5\r\nContent-Length: 5\r\n', 'hello', 'hello'),
    '/both': ('Content-Length: 9\r\nTransfer-Encoding: Chunked\r\n', '3\r\nabc\r\n2\r\nde\r\n0\r\n\r\n', 'abcde'),
    '/gzip': ('Transfer-Encoding: gzip, chunked\r\n', '0\r\n\r\n', None),
    '/codings': ('Transfer-Encoding: chunked\r\nTransfer-Encoding: gzip\r\n', '0\r\n\r\n', None),
    '/lengths': ('Content-Length: 5\r\nContent-Length: 6\r\n', 'hello', None),
    '/list': ('Content-Length: 5, 5\r\n', 'hello', None),
    '/plus': ('Content-Length: +5\r\n', 'hello', None),
    '/empty': ('Content-Length: \r\n', 'hello', None),
}


class Backend:
    """The server behind the gateway. It keeps the bytes of the last request, and answers a `POST` by its body."""

    def __init__(self):
        self.listener, self.got = socket.create_server(('127.0.0.1', 0)), b''
        self.port = self.listener.getsockname()[1]
        threading.Thread(target=self.serve, daemon=True).start()

    def serve(self):
        while True:
            try:
                client, _ = self.listener.accept()
            except OSError:
                return
            with client, client.makefile('rb') as stream:
                client.settimeout(10)
                try:
                    self.answer(client, stream)
                except (OSError, ValueError):
                    pass  # the client shows it

    def answer(self, client, stream):
        head, body, length = b'', b'', 0
        while not head.endswith(b'\r\n\r\n'):
            line = stream.readline()
            if not line:
                return
            head += line
        if found := re.search(rb'(?im)^Content-Length: (\d+)', head):
            body = stream.read(int(found[1]))
        elif b'Transfer-Encoding: chunked' in head:
            while (length := int(stream.readline(), 16)) > 0:
                body += stream.read(length)
                stream.readline()
            stream.readline()
        self.got, target = head + body, head.split()[1].decode()
        headers, text, _ = FRAMED.get(target, (f'Content-Length: {len(body)}\r\n', body.decode(), None))
        client.sendall(f'HTTP/1.1 201 Created\r\nConnection: close\r\nKeep-Alive: 5\r\nA: b\r\n{headers}\r\n{text}'.encode())


backend = None


def backend_address(_folder):
    global backend
    backend = Backend()
    return [f'127.0.0.1:{backend.port}']


# What a client sends, and the head that the backend is sent: with the host of the target, without the headers of one connection and those
# that are named so, or nearly so.
SENT = ['Host: other', 'Connection: keep-alive, X-Hop, Host', 'Content_Length: 5', 'X-Forwarded-For: 192.0.2.1', 'X-Hop: 1', 'X-End: 2',
        'TE: trailers']

HANDED_ON = (b'POST /a?b HTTP/1.1\r\nX-End: 2\r\nHost: host\r\nX-Forwarded-For: 192.0.2.1, 127.0.0.1\r\n'
             b'Via: 1.1 tiny-http-gateway\r\nContent-Length: 2\r\nConnection: close\r\n\r\nhi')


def framing(answer):
    """The headers that say where the body of an answer ends."""
    return [f'{name}: {value}' for name in ('Content-Length', 'Transfer-Encoding') for value in answer.headers.get_all(name, [])]


def try_gateway(port, trials):
    answer = ask(port, 'http://host/a?b', 'POST', headers=SENT, body=b'hi')
    trials.same('a request is handed on', backend.got, HANDED_ON)
    seen = (answer.status, answer.body, answer.headers.get_all('A'), answer.headers['Keep-Alive'], framing(answer))
    trials.same('and its answer', seen, (201, b'hi', ['b'], None, ['Content-Length: 2']))
    for target, (headers, _, wanted) in FRAMED.items():
        answer = ask(port, target)
        seen = (answer.status, answer.body.decode() if answer.status == 201 else None)
        trials.same(f'a body ends in one way: {headers.strip() or "the end"}', seen, (201 if wanted else 502, wanted))
        trials.same('and says so once', len(framing(answer)), 1)
    answer = ask(port, '/length', 'HEAD')
    trials.same('a head, too', (answer.status, answer.body, answer.headers['Content-Length']), (201, b'', '5'))
    body = b'x' * 70_000
    answer = ask(port, '/', 'POST', body=body)
    trials.same('a long body is handed on', (answer.status, len(answer.body)), (201, len(body)))
    answer = ask(port, '/', 'POST', body=body, chunked=True)
    trials.same('one in chunks', (answer.status, len(answer.body)), (201, len(body)))
    answer = ask(port, '/end', version='1.0')
    trials.same('an answer to version 1.0', (answer.status, framing(answer), answer.body), (201, [], b'hello'))
    trials.same('no tunnel', ask(port, 'host:1', 'CONNECT').status, 501)
    backend.listener.shutdown(socket.SHUT_RDWR)
    backend.listener.close()
    trials.same('no backend', ask(port, '/').status, 502)


def record(folder):
    os.makedirs(folder)
    for name, request, response in [
            ('1', 'GET /a HTTP/1.1\r\nHost: x\r\n\r\n', 'HTTP/1.1 200 OK\r\nContent-Length: 3\r\n\r\none'),
            ('2', 'GET /a HTTP/1.1\r\nHost: x\r\n\r\n', 'HTTP/1.1 200 OK\r\n\r\nup to the end'),
            ('3', 'POST /b HTTP/1.1\r\nHost: x\r\nContent-Length: 2\r\n\r\nhi', 'HTTP/1.1 200 OK\r\nContent-Length: 9\r\n\r\ncut')]:
        for kind, text in [('request', request), ('response', response)]:
            with open(f'{folder}/{name}.{kind}', 'w', newline='') as file:
                file.write(text)


def try_testserver(port, trials):
    trials.same('all are unused', ask(port, '/unused').body, b'1\n2\n3\n')
    for wanted in [b'HTTP/1.1 200 OK\r\nContent-Length: 3\r\n\r\none', b'HTTP/1.1 200 OK\r\n\r\nup to the end']:
        trials.same('an answer is given as it is', raw(port, b'GET /a HTTP/1.1\r\nHost: x\r\nConnection: close\r\n\r\n'), wanted)
    trials.same('each once', ask(port, '/a').status, 501)
    trials.same('not to another body', ask(port, '/b', 'POST', body=b'ho').status, 501)
    trials.same('its name is left', ask(port, '/unused').body, b'3\n')
    seen = raw(port, b'POST /b HTTP/1.1\r\nHost: x\r\nContent-Length: 2\r\n\r\nhi')
    trials.same('one that is cut', seen, b'HTTP/1.1 200 OK\r\nContent-Length: 9\r\n\r\ncut')
    answer = ask(port, '/unused')
    trials.same('none is unused', (answer.status, answer.body), (200, b''))


# A handshake and its answer (RFC 6455, section 1.2).
HANDSHAKE = ['Host: server.example.com', 'Upgrade: websocket', 'Connection: Upgrade', 'Sec-WebSocket-Key: dGhlIHNhbXBsZSBub25jZQ==',
             'Sec-WebSocket-Version: 13']
ACCEPT = b'\r\nSec-WebSocket-Accept: s3pPLMBiTxaQ9kYGzzhZRbK+xOo=\r\n'
# A client's masked `Hello`, and the server's own (section 5.7).
HELLO, ECHOED = bytes.fromhex('818537fa213d7f9f4d5158'), bytes.fromhex('810548656c6c6f')
# A masked Close, and the server's; a masked frame with a reserved bit, and the Close that says so (sections 5.2 and 7.4.1).
CLOSE, CLOSED = bytes.fromhex('888037fa213d'), bytes.fromhex('8800')
RESERVED, REFUSED = bytes.fromhex('c1810000000061'), bytes.fromhex('880203ea')


def frame(opcode, data):
    """A masked frame of a client (RFC 6455, section 5.2)."""
    mask = os.urandom(4)
    size = bytes([0x80 | len(data)]) if len(data) < 126 else b'\xfe' + len(data).to_bytes(2, 'big')
    return bytes([0x80 | opcode]) + size + mask + bytes(b ^ mask[i % 4] for i, b in enumerate(data))


def read_frame(stream):
    head = stream.read(2)
    size = head[1] if head[1] < 126 else int.from_bytes(stream.read(2), 'big')
    return head[0] & 15, stream.read(size)


def upgraded(port, headers):
    """A connection after this handshake, its stream, and the head of the answer."""
    client = socket.create_connection(('127.0.0.1', port), timeout=10)
    client.sendall('\r\n'.join(['GET / HTTP/1.1', *headers, '', '']).encode())
    stream, head = client.makefile('rb'), b''
    while not head.endswith(b'\r\n\r\n'):
        line = stream.readline()
        if not line:
            break
        head += line
    return client, stream, head


def try_websocket_echo(port, trials):
    for sent, wanted in [(HELLO + CLOSE, ECHOED + CLOSED), (RESERVED, REFUSED)]:
        client, stream, head = upgraded(port, HANDSHAKE)
        trials.same('it is upgraded', (head[:13], head.count(ACCEPT)), (b'HTTP/1.1 101 ', 1))
        client.sendall(sent)
        trials.same('frames come, and then the end', stream.read().hex(), wanted.hex())
        client.close()
    for left_out in range(1, 6):
        headers = [it for at, it in enumerate(HANDSHAKE) if at != left_out] + [HANDSHAKE[3]] * (left_out == 5)
        answer = ask(port, '/', headers=headers)
        trials.same('each header is needed, and one key', (left_out, answer.status), (left_out, 426))
    answer = ask(port, '/')
    seen = (answer.status, answer.headers['Upgrade'], answer.headers['Sec-WebSocket-Version'])
    trials.same('a plain request is refused', seen, (426, 'websocket', '13'))
    key = base64.b64encode(os.urandom(16)).decode()
    client, stream, head = upgraded(port, [it if it != HANDSHAKE[3] else f'Sec-WebSocket-Key: {key}' for it in HANDSHAKE])
    accept = base64.b64encode(hashlib.sha1((key + '258EAFA5-E914-47DA-95CA-C5AB0DC85B11').encode()).digest())
    trials.same('another key', accept in head, True)
    for text in [b'hello', b'', b'x' * 1000]:
        client.sendall(frame(1, text))
        trials.same('a message comes back', read_frame(stream), (1, text))
    client.sendall(frame(9, b'p'))
    trials.same('a ping is answered', read_frame(stream), (10, b'p'))
    client.sendall(frame(8, b'\x03\xe8'))
    trials.same('a close is answered', read_frame(stream), (8, b'\x03\xe8'))
    trials.same('and the end comes', stream.read(), b'')


def filled(fill):
    """What a program is called with that serves a folder."""
    def words(folder):
        fill(folder)
        return [folder]
    return words


def none(_folder):
    return []


TRIALS = {
    'example_router': (none, try_router),
    'example_files': (filled(make_folder), try_files),
    'example_events': (none, lambda port, trials: EVENTS.try_events(port, trials, ask)),
    'example_gateway': (backend_address, try_gateway),
    'example_test_server': (filled(record), try_testserver),
    'example_websocket_echo': (none, try_websocket_echo),
}


def free_port():
    """A port that nobody has, below those that the system gives out by itself (Linux, unless told otherwise)."""
    for port in random.sample(range(20_000, 30_000), 100):
        with socket.socket() as probe:
            try:
                probe.bind(('127.0.0.1', port))
                return port
            except OSError:
                pass
    raise OSError('no port is free')


def wait_for(port, process, seconds):
    """Waits until the program listens."""
    for _ in range(seconds * 10):
        if process.poll() is not None:
            raise OSError(f'the program ended with status {process.returncode}')
        try:
            socket.create_connection(('127.0.0.1', port), timeout=10).close()
            return
        except OSError:
            time.sleep(0.1)
    raise OSError(f'nobody listens after {seconds} seconds')


def kill(pid):
    """Kills a process and those that it began."""
    try:
        with open(f'/proc/{pid}/task/{pid}/children', encoding='ascii') as file:
            children = file.read().split()
        os.kill(pid, signal.SIGKILL)
    except OSError:
        return
    for child in children:
        kill(int(child))


def end(process):
    """Ends a program. `rt try` clears up where it is asked to end."""
    process.terminate()
    try:
        process.wait(timeout=20)
    except subprocess.TimeoutExpired:
        kill(process.pid)
        process.wait()


def try_program(name, call, cwd=None, begun=lambda process: None, seconds=10):
    """Calls a program, which listens within so many seconds, and tries it: each trial with its name, whether it went well, and what was seen."""
    words, trial = TRIALS[name]
    trials = Trials()
    with tempfile.TemporaryDirectory() as folder, open(folder + '/said', 'w+', errors='replace') as said:
        port, quiet = free_port(), subprocess.DEVNULL
        process = subprocess.Popen([*call, f'127.0.0.1:{port}', *words(folder + '/served')], cwd=cwd, stdin=quiet, stdout=quiet, stderr=said)
        try:
            begun(process)
            wait_for(port, process, seconds)
            trial(port, trials)
        except (OSError, AttributeError, IndexError, ValueError, http.client.HTTPException) as fault:
            said.seek(0)
            trials.same(name, f'{fault!r} {said.read()[-2000:]}', 'no fault')
        finally:
            end(process)
    return trials.seen


def main():
    failed = 0
    for word in sys.argv[1:]:
        name, _, program = word.partition('=')
        for what, ok, seen in try_program(name, [program]):
            print(('ok    ' if ok else 'FAILED'), f'{name}: {what}:', seen, flush=True)
            failed += not ok
    sys.exit(1 if failed or len(sys.argv) < 2 else 0)


if __name__ == '__main__':
    main()
