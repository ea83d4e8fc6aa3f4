#!/usr/bin/env python3
"""Requests for files: what example_files answers is compared with what nginx answers over the same folder.

Each row is (what, method, target, header lines, wanted). `wanted` is None where the answer has to be nginx's; where nginx departs from
RFC 9110, or serves more paths, it is the answer that is right, and `what` says why. NGINX has what nginx 1.22.1 gave, for machines without it;
`files.py` prints that table anew. `checks/programs/run.py` calls `compare`."""
import email.utils, hashlib, http.client, os, re, shutil, socket, subprocess, sys, tempfile, time, urllib.parse

PROGRAM = shutil.which('nginx') or '/usr/sbin/nginx'
SECOND = 1_700_000_000  # when all files were modified
DATE, EARLIER, LATER = (email.utils.formatdate(SECOND + it, usegmt=True) for it in (0, -1, 1))
TAG, BIG = f'"{SECOND:x}-5"', f'"{SECOND:x}-186a0"'
TYPES = {'html htm': 'text/html; charset=utf-8', 'txt md': 'text/plain; charset=utf-8', 'png': 'image/png', 'pdf': 'application/pdf'}
FILES = {
    'a.txt': b'hello', 'empty.txt': b'', 'page.html': b'<p>page', 'a.png': b'\x89PNG', 'none': b'?', 'with space.txt': b'space',
    'big.bin': b''.join(b'%9d\n' % it for it in range(10_000)), 'site/index.html': b'<p>hi', 'site/sub/b.txt': b'b', 'plain/b.txt': b'b',
}


def several(count):
    """A Range with so many ranges of one byte."""
    return 'Range: bytes=' + ','.join(f'{2 * it}-{2 * it}' for it in range(count))


def part(status, body, place, content_type='text/plain; charset=utf-8', tag=TAG):
    """The answer with a part of a.txt, or with all of it."""
    head = {'Content-Length': str(len(body)), 'Content-Type': content_type, 'ETag': tag, 'Last-Modified': DATE}
    head |= {'Content-Range': place} if place else {'Accept-Ranges': 'bytes'}
    return status, head, body


def status(code, **headers):
    return code, headers, None


WHOLE = part(200, b'hello', None)
CURRENT = (304, {'ETag': TAG, 'Last-Modified': DATE}, b'')

ROWS = [
    ('a file', 'GET', '/a.txt', [], None),
    ('its head', 'HEAD', '/a.txt', [], None),
    ('a long file', 'GET', '/big.bin', [], None),
    ('its head', 'HEAD', '/big.bin', [], None),
    ('an empty file', 'GET', '/empty.txt', [], None),
    ('HTML', 'GET', '/page.html', [], None),
    ('an image', 'GET', '/a.png', [], None),
    ('a name without an extension', 'GET', '/none', [], None),
    ('a name with an escaped space', 'GET', '/with%20space.txt', [], None),
    ('an escaped letter', 'GET', '/%61.txt', [], None),
    ('two slashes', 'GET', '//a.txt', [], None),
    ('a query', 'GET', '/a.txt?x=1', [], None),
    ('a folder with an index', 'GET', '/site/', [], None),
    ('its head', 'HEAD', '/site/', [], None),
    ('a folder without a slash', 'GET', '/site', [], None),
    ('a folder without a slash, with a query', 'GET', '/site?a=b', [], None),
    ('a folder in a folder', 'GET', '/site/sub', [], None),
    ('a file with a slash', 'GET', '/a.txt/', [], None),
    ('no such file', 'GET', '/nothing', [], None),
    ('its head', 'HEAD', '/nothing', [], None),
    ('a control character', 'GET', '/a%01.txt', [], None),
    ('a method', 'DELETE', '/a.txt', [], None),
    ('another', 'PUT', '/a.txt', ['Content-Length: 0'], None),
    ('POST', 'POST', '/a.txt', ['Content-Length: 0'], None),
    ('If-Modified-Since, the same date', 'GET', '/a.txt', [f'If-Modified-Since: {DATE}'], None),
    ('its head', 'HEAD', '/a.txt', [f'If-Modified-Since: {DATE}'], None),
    ('If-Modified-Since, earlier', 'GET', '/a.txt', [f'If-Modified-Since: {EARLIER}'], None),
    ('If-Modified-Since, later', 'GET', '/a.txt', [f'If-Modified-Since: {LATER}'], None),
    ('If-Modified-Since, no date', 'GET', '/a.txt', ['If-Modified-Since: yesterday'], None),
    ('If-Modified-Since, a folder', 'GET', '/site/', [f'If-Modified-Since: {DATE}'], None),
    ('If-None-Match, the tag', 'GET', '/a.txt', [f'If-None-Match: {TAG}'], None),
    ('its head', 'HEAD', '/a.txt', [f'If-None-Match: {TAG}'], None),
    ('If-None-Match, the tag as a weak one', 'GET', '/a.txt', [f'If-None-Match: W/{TAG}'], None),
    ('If-None-Match, another', 'GET', '/a.txt', ['If-None-Match: "x"'], None),
    ('If-None-Match, a list', 'GET', '/a.txt', [f'If-None-Match: "x", W/"y" ,{TAG}'], None),
    ('If-None-Match, a list without it', 'GET', '/a.txt', ['If-None-Match: "x", "y"'], None),
    ('If-None-Match, any', 'GET', '/a.txt', ['If-None-Match: *'], None),
    ('If-None-Match, without quotes', 'GET', '/a.txt', [f'If-None-Match: {TAG[1:-1]}'], None),
    ('If-None-Match, another, and the same date', 'GET', '/a.txt', ['If-None-Match: "x"', f'If-Modified-Since: {DATE}'], None),
    ('If-None-Match, the tag, and an earlier date, which is ignored (13.1.3)', 'GET', '/a.txt',
     [f'If-None-Match: {TAG}', f'If-Modified-Since: {EARLIER}'], CURRENT),
    ('If-Match, the tag', 'GET', '/a.txt', [f'If-Match: {TAG}'], None),
    ('If-Match, another', 'GET', '/a.txt', ['If-Match: "x"'], None),
    ('its head', 'HEAD', '/a.txt', ['If-Match: "x"'], None),
    ('If-Match, a list', 'GET', '/a.txt', [f'If-Match: "x", {TAG}'], None),
    ('If-Match, any', 'GET', '/a.txt', ['If-Match: *'], None),
    ('If-Match, the tag as a weak one', 'GET', '/a.txt', [f'If-Match: W/{TAG}'], None),
    ('If-Unmodified-Since, the same date', 'GET', '/a.txt', [f'If-Unmodified-Since: {DATE}'], None),
    ('If-Unmodified-Since, earlier', 'GET', '/a.txt', [f'If-Unmodified-Since: {EARLIER}'], None),
    ('If-Unmodified-Since, later', 'GET', '/a.txt', [f'If-Unmodified-Since: {LATER}'], None),
    ('If-Unmodified-Since, no date, which is ignored (13.1.4)', 'GET', '/a.txt', ['If-Unmodified-Since: yesterday'], WHOLE),
    ('If-Match, the tag, and If-Unmodified-Since, which is ignored (13.1.4)', 'GET', '/a.txt',
     [f'If-Match: {TAG}', f'If-Unmodified-Since: {EARLIER}'], WHOLE),
    ('If-Match before If-None-Match', 'GET', '/a.txt', ['If-Match: "x"', f'If-None-Match: {TAG}'], None),
    ('Range, first and last', 'GET', '/a.txt', ['Range: bytes=1-3'], None),
    ('Range, one byte', 'GET', '/a.txt', ['Range: bytes=0-0'], None),
    ('Range, from', 'GET', '/a.txt', ['Range: bytes=2-'], None),
    ('Range, a suffix', 'GET', '/a.txt', ['Range: bytes=-2'], None),
    ('Range, a long suffix', 'GET', '/a.txt', ['Range: bytes=-100'], None),
    ('Range, past the end', 'GET', '/a.txt', ['Range: bytes=3-100'], None),
    ('Range, after the end', 'GET', '/a.txt', ['Range: bytes=5-'], None),
    ('Range, an empty suffix', 'GET', '/a.txt', ['Range: bytes=-0'], None),
    ('Range, a first byte of 20 digits', 'GET', '/a.txt', ['Range: bytes=99999999999999999999-'], None),
    ('Range, a last byte of 20 digits, which is valid (14.1.1)', 'GET', '/a.txt', ['Range: bytes=3-99999999999999999999'],
     part(206, b'lo', 'bytes 3-4/5')),
    ('Range, in capitals', 'GET', '/a.txt', ['Range: BYTES=0-1'], None),
    ('Range, another unit', 'GET', '/a.txt', ['Range: items=0-1'], None),
    ('Range, the last before the first, which is invalid and ignored (14.1.1, 14.2)', 'GET', '/a.txt', ['Range: bytes=4-2'], WHOLE),
    ('Range, no range, which is ignored (14.2)', 'GET', '/a.txt', ['Range: bytes=abc'], WHOLE),
    ('Range, spaces in a range, which is invalid and ignored (14.1.1, 14.2)', 'GET', '/a.txt', ['Range: bytes=0 - 1'], WHOLE),
    ('Range, a long file', 'GET', '/big.bin', ['Range: bytes=49990-60009'], None),
    ('Range, the end of a long file', 'GET', '/big.bin', ['Range: bytes=-70000'], None),
    ('Range, an index', 'GET', '/site/', ['Range: bytes=0-2'], None),
    ('Range, an empty file', 'GET', '/empty.txt', ['Range: bytes=0-'], None),
    ('Range, HEAD, for which it isn\'t defined (14.2)', 'HEAD', '/a.txt', ['Range: bytes=1-3'], (200, WHOLE[1], b'')),
    ('Range, POST', 'POST', '/a.txt', ['Range: bytes=1-3', 'Content-Length: 0'], None),
    ('two ranges', 'GET', '/a.txt', ['Range: bytes=0-0,2-3'], None),
    ('two ranges, with a space', 'GET', '/a.txt', ['Range: bytes=0-0, -1'], None),
    ('two ranges, in another order', 'GET', '/big.bin', ['Range: bytes=99990-,0-9'], None),
    ('long ranges', 'GET', '/big.bin', ['Range: bytes=0-20000,30000-59999,90000-'], None),
    ('two ranges, one after the end', 'GET', '/a.txt', ['Range: bytes=0-0,9-'], None),
    ('two ranges, both after the end', 'GET', '/a.txt', ['Range: bytes=9-,10-12'], None),
    ('two ranges that overlap', 'GET', '/a.txt', ['Range: bytes=0-4,0-4'], None),
    ('two ranges, together as long as the file', 'GET', '/a.txt', ['Range: bytes=0-1,2-4'], None),
    ('an empty element, which is ignored (5.6.1)', 'GET', '/a.txt', ['Range: bytes=0-1,,3-3'],
     (206, {'ETag': TAG, 'Last-Modified': DATE},
      [('text/plain; charset=utf-8', 'bytes 0-1/5', b'he'), ('text/plain; charset=utf-8', 'bytes 3-3/5', b'l')])),
    ('16 ranges', 'GET', '/big.bin', [several(16)], None),
    ('17 ranges', 'GET', '/big.bin', [several(17)], None),
    ('If-Range, the tag', 'GET', '/a.txt', ['Range: bytes=1-3', f'If-Range: {TAG}'], None),
    ('If-Range, another', 'GET', '/a.txt', ['Range: bytes=1-3', 'If-Range: "x"'], None),
    ('If-Range, the tag as a weak one', 'GET', '/a.txt', ['Range: bytes=1-3', f'If-Range: W/{TAG}'], None),
    ('If-Range, the same date', 'GET', '/a.txt', ['Range: bytes=1-3', f'If-Range: {DATE}'], None),
    ('If-Range, a later date', 'GET', '/a.txt', ['Range: bytes=1-3', f'If-Range: {LATER}'], None),
    ('If-Range, no date', 'GET', '/a.txt', ['Range: bytes=1-3', 'If-Range: yesterday'], None),
    ('If-Range, another, and a range after the end', 'GET', '/a.txt', ['Range: bytes=9-', 'If-Range: "x"'], None),
    ('If-Range, two ranges', 'GET', '/big.bin', ['Range: bytes=0-1,5-6', f'If-Range: {BIG}'], None),
    ('If-None-Match before Range', 'GET', '/a.txt', [f'If-None-Match: {TAG}', 'Range: bytes=1-3'], None),
    ('If-Match before Range', 'GET', '/a.txt', ['If-Match: "x"', 'Range: bytes=9-'], None),
    ('dot segments, which clients remove, are refused', 'GET', '/site/../a.txt', [], status(404)),
    ('a NUL is a name that no file has', 'GET', '/a%00', [], status(404)),
]

NGINX = [
    WHOLE,
    (200, {'ETag': TAG, 'Last-Modified': DATE, 'Accept-Ranges': 'bytes', 'Content-Length': '5', 'Content-Type': 'text/plain; charset=utf-8'}, b''),
    (200, {'ETag': BIG, 'Last-Modified': DATE, 'Accept-Ranges': 'bytes', 'Content-Length': '100000', 'Content-Type': 'application/octet-stream'}, 'b8f1e8eade3ef7d2'),
    (200, {'ETag': BIG, 'Last-Modified': DATE, 'Accept-Ranges': 'bytes', 'Content-Length': '100000', 'Content-Type': 'application/octet-stream'}, b''),
    (200, {'ETag': '"6553f100-0"', 'Last-Modified': DATE, 'Accept-Ranges': 'bytes', 'Content-Length': '0', 'Content-Type': 'text/plain; charset=utf-8'}, b''),
    (200, {'ETag': '"6553f100-7"', 'Last-Modified': DATE, 'Accept-Ranges': 'bytes', 'Content-Length': '7', 'Content-Type': 'text/html; charset=utf-8'}, b'<p>page'),
    (200, {'ETag': '"6553f100-4"', 'Last-Modified': DATE, 'Accept-Ranges': 'bytes', 'Content-Length': '4', 'Content-Type': 'image/png'}, b'\x89PNG'),
    (200, {'ETag': '"6553f100-1"', 'Last-Modified': DATE, 'Accept-Ranges': 'bytes', 'Content-Length': '1', 'Content-Type': 'application/octet-stream'}, b'?'),
    part(200, b'space', None),
    WHOLE,
    WHOLE,
    WHOLE,
    (200, {'ETag': TAG, 'Last-Modified': DATE, 'Accept-Ranges': 'bytes', 'Content-Length': '5', 'Content-Type': 'text/html; charset=utf-8'}, b'<p>hi'),
    (200, {'ETag': TAG, 'Last-Modified': DATE, 'Accept-Ranges': 'bytes', 'Content-Length': '5', 'Content-Type': 'text/html; charset=utf-8'}, b''),
    (301, {'Location': '/site/'}, None),
    (301, {'Location': '/site/?a=b'}, None),
    (301, {'Location': '/site/sub/'}, None),
    status(404),
    status(404),
    status(404),
    status(404),
    status(405),
    status(405),
    status(405),
    CURRENT,
    CURRENT,
    WHOLE,
    CURRENT,
    WHOLE,
    CURRENT,
    CURRENT,
    CURRENT,
    CURRENT,
    WHOLE,
    CURRENT,
    WHOLE,
    CURRENT,
    WHOLE,
    WHOLE,
    WHOLE,
    WHOLE,
    status(412),
    status(412),
    WHOLE,
    WHOLE,
    status(412),
    WHOLE,
    status(412),
    WHOLE,
    status(412),
    status(412),
    status(412),
    part(206, b'ell', 'bytes 1-3/5'),
    part(206, b'h', 'bytes 0-0/5'),
    part(206, b'llo', 'bytes 2-4/5'),
    part(206, b'lo', 'bytes 3-4/5'),
    part(206, b'hello', 'bytes 0-4/5'),
    part(206, b'lo', 'bytes 3-4/5'),
    (416, {'Content-Range': 'bytes */5'}, None),
    (416, {'Content-Range': 'bytes */5'}, None),
    (416, {'Content-Range': 'bytes */5'}, None),
    (416, {'Content-Range': 'bytes */5'}, None),
    part(206, b'he', 'bytes 0-1/5'),
    WHOLE,
    (416, {'Content-Range': 'bytes */5'}, None),
    (416, {'Content-Range': 'bytes */5'}, None),
    part(206, b'he', 'bytes 0-1/5'),
    (206, {'Content-Range': 'bytes 49990-60009/100000', 'ETag': BIG, 'Last-Modified': DATE, 'Content-Length': '10020', 'Content-Type': 'application/octet-stream'}, '8c38472395aa7838'),
    (206, {'Content-Range': 'bytes 30000-99999/100000', 'ETag': BIG, 'Last-Modified': DATE, 'Content-Length': '70000', 'Content-Type': 'application/octet-stream'}, '7292a26b116cbb94'),
    (206, {'Content-Range': 'bytes 0-2/5', 'ETag': TAG, 'Last-Modified': DATE, 'Content-Length': '3', 'Content-Type': 'text/html; charset=utf-8'}, b'<p>'),
    (200, {'ETag': '"6553f100-0"', 'Last-Modified': DATE, 'Accept-Ranges': 'bytes', 'Content-Length': '0', 'Content-Type': 'text/plain; charset=utf-8'}, b''),
    (206, {'Content-Range': 'bytes 1-3/5', 'ETag': TAG, 'Last-Modified': DATE, 'Content-Length': '3', 'Content-Type': 'text/plain; charset=utf-8'}, b''),
    status(405),
    (206, {'ETag': TAG, 'Last-Modified': DATE}, [('text/plain; charset=utf-8', 'bytes 0-0/5', b'h'), ('text/plain; charset=utf-8', 'bytes 2-3/5', b'll')]),
    (206, {'ETag': TAG, 'Last-Modified': DATE}, [('text/plain; charset=utf-8', 'bytes 0-0/5', b'h'), ('text/plain; charset=utf-8', 'bytes 4-4/5', b'o')]),
    (206, {'ETag': BIG, 'Last-Modified': DATE}, [('application/octet-stream', 'bytes 99990-99999/100000', b'     9999\n'), ('application/octet-stream', 'bytes 0-9/100000', b'        0\n')]),
    (206, {'ETag': BIG, 'Last-Modified': DATE}, [('application/octet-stream', 'bytes 0-20000/100000', 'ec1f92dc98bea234'), ('application/octet-stream', 'bytes 30000-59999/100000', '7589c92f0afca75c'), ('application/octet-stream', 'bytes 90000-99999/100000', '8a51fb3dadf36ad5')]),
    part(206, b'h', 'bytes 0-0/5'),
    (416, {'Content-Range': 'bytes */5'}, None),
    WHOLE,
    (206, {'ETag': TAG, 'Last-Modified': DATE}, [('text/plain; charset=utf-8', 'bytes 0-1/5', b'he'), ('text/plain; charset=utf-8', 'bytes 2-4/5', b'llo')]),
    (416, {'Content-Range': 'bytes */5'}, None),
    (206, {'ETag': BIG, 'Last-Modified': DATE}, [('application/octet-stream', 'bytes 0-0/100000', b' '), ('application/octet-stream', 'bytes 2-2/100000', b' '), ('application/octet-stream', 'bytes 4-4/100000', b' '), ('application/octet-stream', 'bytes 6-6/100000', b' '), ('application/octet-stream', 'bytes 8-8/100000', b'0'), ('application/octet-stream', 'bytes 10-10/100000', b' '), ('application/octet-stream', 'bytes 12-12/100000', b' '), ('application/octet-stream', 'bytes 14-14/100000', b' '), ('application/octet-stream', 'bytes 16-16/100000', b' '), ('application/octet-stream', 'bytes 18-18/100000', b'1'), ('application/octet-stream', 'bytes 20-20/100000', b' '), ('application/octet-stream', 'bytes 22-22/100000', b' '), ('application/octet-stream', 'bytes 24-24/100000', b' '), ('application/octet-stream', 'bytes 26-26/100000', b' '), ('application/octet-stream', 'bytes 28-28/100000', b'2'), ('application/octet-stream', 'bytes 30-30/100000', b' ')]),
    (200, {'ETag': BIG, 'Last-Modified': DATE, 'Accept-Ranges': 'bytes', 'Content-Length': '100000', 'Content-Type': 'application/octet-stream'}, 'b8f1e8eade3ef7d2'),
    part(206, b'ell', 'bytes 1-3/5'),
    WHOLE,
    WHOLE,
    part(206, b'ell', 'bytes 1-3/5'),
    WHOLE,
    WHOLE,
    WHOLE,
    (206, {'ETag': BIG, 'Last-Modified': DATE}, [('application/octet-stream', 'bytes 0-1/100000', b'  '), ('application/octet-stream', 'bytes 5-6/100000', b'  ')]),
    CURRENT,
    status(412),
    WHOLE,
    status(400),
]


def make_files(folder):
    for name, text in FILES.items():
        path = f'{folder}/{name}'
        os.makedirs(os.path.dirname(path), exist_ok=True)
        with open(path, 'wb') as file:
            file.write(text)
        os.utime(path, (SECOND, SECOND))


def short(body):
    """The bytes, or where they are many, their checksum."""
    return body if len(body) < 100 else hashlib.sha256(body).hexdigest()[:16]


def parts_of(content_type, body):
    """The parts of a multipart/byteranges, each with its type, range and bytes."""
    boundary = re.fullmatch(r'multipart/byteranges; boundary="?([^"]+)"?', content_type)[1].encode()
    pieces = (b'\r\n' + body).split(b'\r\n--' + boundary)
    if pieces[-1] != b'--\r\n':
        raise ValueError(f'no end of a multipart: {pieces[-1]!r}')
    found = []
    for piece in pieces[1:-1]:
        head, _, text = piece.partition(b'\r\n\r\n')
        lines = dict(it.split(': ', 1) for it in head.decode().split('\r\n') if it)
        found.append((lines['Content-Type'], lines['Content-Range'], short(text)))
    return found


def ask(port, method, target, headers):
    """The status, the headers that count and the body. Of an error, the body and what it says of that don't count."""
    lines = [f'{method} {target} HTTP/1.1', f'Host: 127.0.0.1:{port}', 'Connection: close', *headers, '', '']
    with socket.create_connection(('127.0.0.1', port), timeout=10) as client:
        client.sendall('\r\n'.join(lines).encode('latin-1'))
        answer = http.client.HTTPResponse(client, method=method)
        answer.begin()
        body = answer.read()
    names = ['Content-Range', 'ETag', 'Last-Modified', 'Accept-Ranges', 'Content-Length', 'Content-Type', 'Location']
    head = {it: answer.headers[it] for it in names if answer.headers[it] is not None}
    if 'Location' in head:
        place = urllib.parse.urlsplit(urllib.parse.urljoin(f'http://127.0.0.1:{port}{target}', head['Location']))
        head['Location'] = urllib.parse.urlunsplit(('', '', *place[2:]))
    if answer.status not in (200, 206, 304):
        return answer.status, {it: head[it] for it in head if it in ('Content-Range', 'Location')}, None
    if head.get('Content-Type', '').startswith('multipart/') and method == 'GET':
        if int(head.pop('Content-Length')) != len(body):
            raise ValueError('another length of a multipart')
        return answer.status, head, parts_of(head.pop('Content-Type'), body)
    return answer.status, head, short(body)


class Nginx:
    """nginx over a folder, on a port."""

    def __init__(self, folder, port):
        self.place, self.port = tempfile.TemporaryDirectory(), port
        types = ''.join(f'"{kind}" {names};' for names, kind in TYPES.items())
        paths = ''.join(f'{it}_temp_path {self.place.name}/{it};' for it in ('client_body', 'proxy', 'fastcgi', 'uwsgi', 'scgi'))
        with open(self.place.name + '/conf', 'w', encoding='ascii') as file:
            file.write(f'daemon off; master_process off; pid {self.place.name}/pid; error_log {self.place.name}/log; events {{}} '
                       f'http {{ access_log off; {paths} types {{ {types} }} default_type application/octet-stream; server {{ '
                       f'listen 127.0.0.1:{port}; root {folder}; index index.html; autoindex on; if_modified_since before; '
                       'max_ranges 16; } }\n')
        self.process = subprocess.Popen([PROGRAM, '-p', self.place.name, '-e', self.place.name + '/log', '-c', self.place.name + '/conf'])
        for _ in range(100):
            try:
                socket.create_connection(('127.0.0.1', port), timeout=10).close()
                return
            except OSError:
                time.sleep(0.05)
        raise OSError('nginx does not listen')

    def end(self):
        self.process.terminate()
        self.process.wait()
        self.place.cleanup()


def of_nginx(port):
    """What nginx answers to each row on this port, or None if it isn't installed."""
    if not os.path.exists(PROGRAM):
        return None
    with tempfile.TemporaryDirectory() as folder:
        make_files(folder)
        nginx = Nginx(folder, port)
        try:
            return [ask(port, *row[1:4]) for row in ROWS]
        finally:
            nginx.end()


def compare(port, other_port, same):
    """Compares the server on the port, over the files of `make_files`, with nginx on the other: `same(what, came, wanted)` for each row."""
    wanted = of_nginx(other_port)
    if wanted is None:
        print('nginx is not installed: its answers are those of the table in checks/programs/files.py', flush=True)
        wanted = NGINX
    else:
        same('the table has what nginx answers', NGINX == wanted, True)
    for row, theirs in zip(ROWS, wanted, strict=True):
        what, method, target, headers, ours = row
        name = f'{method} {target} {"; ".join(headers)[:60]}: {what}'
        if ours is not None:
            same(name + ', unlike nginx', theirs == ours, False)
        same(name, ask(port, method, target, headers), theirs if ours is None else ours)


def spelled(answer):
    """An answer as the table has it."""
    code, head, body = answer
    if answer == WHOLE:
        return 'WHOLE'
    if answer == CURRENT:
        return 'CURRENT'
    if body is None:
        return f'status({code})' if not head else f'({code}, {head!r}, None)'
    if isinstance(body, bytes) and answer == part(code, body, head.get('Content-Range')):
        return f'part({code}, {body!r}, {head.get("Content-Range")!r})'
    return repr(answer).replace(repr(DATE), 'DATE').replace(repr(TAG), 'TAG').replace(repr(BIG), 'BIG')


def main():
    print('NGINX = [')
    for answer in of_nginx(28_080):
        print(f'    {spelled(answer)},')
    print(']')


if __name__ == '__main__':
    main()
