"""The trials of `example_events`: streams of events over loopback, read as the standard says a browser reads them."""
import socket, time


def events_of(text):
    """The id and the data of each event in a stream that has ended or was cut (HTML standard, section 9.2.6)."""
    found, data, last = [], [], ''
    for line in text.replace('\r\n', '\n').replace('\r', '\n').split('\n')[:-1]:
        field, _, value = line.partition(':')
        value = value.removeprefix(' ')
        if not line:
            if data:
                found.append((last, '\n'.join(data)))
            data = []
        elif field == 'data':
            data.append(value)
        elif field == 'id':
            last = value
    return found


class Stream:
    """A client that reads events."""

    def __init__(self, port, *headers):
        self.client = socket.create_connection(('127.0.0.1', port), timeout=10)
        self.client.sendall('\r\n'.join(['GET /events HTTP/1.1', 'Host: localhost', *headers, '', '']).encode())
        self.got = b''
        self.read_until(lambda: b'\r\n\r\n' in self.got)
        self.head = self.got.partition(b'\r\n\r\n')[0].decode()

    def read_until(self, holds):
        while not holds():
            piece = self.client.recv(4096)
            if not piece:
                raise ValueError(f'the stream ended after {self.got!r}')
            self.got += piece

    def text(self):
        """What came of the body, without its chunks' lines."""
        body, text = self.got.partition(b'\r\n\r\n')[2], b''
        while b'\r\n' in body:
            size, _, rest = body.partition(b'\r\n')
            if len(rest) < int(size, 16) + 2:
                break
            text, body = text + rest[:int(size, 16)], rest[int(size, 16) + 2:]
        return text.decode()

    def events(self, count):
        self.read_until(lambda: len(events_of(self.text())) >= count)
        return events_of(self.text())


def try_events(port, trials, ask):
    first, others = Stream(port), [Stream(port) for _ in range(20)]
    trials.same('a stream has its type', [it for it in first.head.split('\r\n') if it.startswith(('Content-Type', 'Cache-Control'))],
                ['Content-Type: text/event-stream', 'Cache-Control: no-store'])
    trials.same('all streams are open', ask(port, '/streams').body, b'21')
    trials.same('a message is taken', ask(port, '/say', 'POST', body=b'one').status, 202)
    trials.same('also one of lines', ask(port, '/say', 'POST', body=b'two\r\nlines\nand\ran end').status, 202)
    wanted = [('1', 'one'), ('2', 'two\nlines\nand\nan end')]
    for stream in [first, *others]:
        trials.same('each client gets both', stream.events(2), wanted)
    trials.same('one that comes later, too', Stream(port).events(2), wanted)
    trials.same('one that comes again gets what it has not', Stream(port, 'Last-Event-ID: 1').events(1), wanted[1:])
    trials.same('a head has no stream', (ask(port, '/events', 'HEAD').status, ask(port, '/events', 'HEAD').body), (200, b''))
    trials.same('a long message is refused', ask(port, '/say', 'POST', body=b'a' * 5000).status, 413)
    trials.same('and bytes that are no text', ask(port, '/say', 'POST', body=b'\xff').status, 400)
    for stream in others:
        stream.client.close()
    begun = time.monotonic()
    while ask(port, '/streams').body != b'1' and time.monotonic() < begun + 20:
        time.sleep(0.1)
    trials.same('clients that have gone are noticed', ask(port, '/streams').body, b'1')
    first.read_until(lambda: b'\r\n:' in first.got.partition(b'and')[2] or b'\n:' in first.got.partition(b'an end')[2])
    trials.same('who stays gets heartbeats, and no event', first.events(2), wanted)
