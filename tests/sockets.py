#!/usr/bin/env python3
"""Tests of `relay serve` over real sockets: tests/sockets.py RELAY [TEST..]

Prints a line for each failure, and ends with status 1 if there was one. What is late is counted, and counts against the relay only where the
machine itself was on time, five times over: on a machine that is too busy to say, it says nothing.
"""
import os
import resource
import select
import selectors
import signal
import socket
import struct
import subprocess
import sys
import tempfile
import time

AUDIO, VIDEO = 8, 9
CONFIGURATION = bytes.fromhex("1700000000014d400dffe10019674d400deca0a0cfcf80880000030008000003019078a14cb001000468efbc80")
failures = 0


def fail(text):
    global failures
    failures += 1
    print(f"{sys.argv[0]}: {text}")


def expect(holds, text):
    if not holds:
        fail(text)


# ------------------------------------------------------------------------------------------------ a client

def text(value):
    return b"\x02" + struct.pack(">H", len(value.encode())) + value.encode()


def number(value):
    return b"\x00" + struct.pack(">d", value)


def table(**members):
    rows = b"".join(struct.pack(">H", len(key)) + key.encode() + text(value) for key, value in members.items())
    return b"\x03" + rows + b"\x00\x00\x09"


def message(kind, time_ms, stream, body):
    """A message in one chunk, where the chunk size is 65,536."""
    lane = {AUDIO: 4, VIDEO: 6}.get(kind, 3)
    head = time_ms.to_bytes(3, "big") + len(body).to_bytes(3, "big") + bytes([kind]) + stream.to_bytes(4, "little")
    return bytes([lane]) + head + body


def picture(marker, length=2000):
    """A keyframe of one NAL unit, which holds the marker."""
    nal = b"\x65" + marker.ljust(length, b"\xa5")
    return b"\x17\x01\x00\x00\x00" + struct.pack(">I", len(nal)) + nal


class Reader:
    """Messages of a stream of chunks."""

    def __init__(self):
        self.bytes = bytearray()
        self.size = 128
        self.lanes = {}

    def one(self):
        """The kind and the body of the next message that is whole. None where more bytes are wanted."""
        while True:
            if len(self.bytes) < 1:
                return None
            form, lane = self.bytes[0] >> 6, self.bytes[0] & 63
            at = 1
            long = (11, 7, 3, 0)[form]
            if len(self.bytes) < at + long:
                return None
            old = self.lanes.get(lane, (0, 0, b"", 0))
            length, kind, part, stamp = old
            if form < 3:
                stamp = int.from_bytes(self.bytes[at:at + 3], "big")
            if form < 2:
                length = int.from_bytes(self.bytes[at + 3:at + 6], "big")
                kind = self.bytes[at + 6]
            at += long
            if stamp == 0xFFFFFF:
                at += 4
            count = min(self.size, length - len(part))
            if len(self.bytes) < at + count:
                return None
            part = part + bytes(self.bytes[at:at + count])
            del self.bytes[:at + count]
            if len(part) < length:
                self.lanes[lane] = (length, kind, part, stamp)
                continue
            self.lanes[lane] = (length, kind, b"", stamp)
            if kind == 1:
                self.size = struct.unpack(">I", part)[0]
            return kind, part


class Client:
    """A connection with its handshake made. `room` is how much the system keeps of what comes."""

    def __init__(self, port, room=None):
        self.socket = socket.socket()
        self.socket.settimeout(20)
        if room:
            self.socket.setsockopt(socket.SOL_SOCKET, socket.SO_RCVBUF, room)
        self.socket.connect(("127.0.0.1", port))
        self.socket.setsockopt(socket.IPPROTO_TCP, socket.TCP_NODELAY, 1)
        self.reader = Reader()
        self.socket.sendall(b"\x03" + bytes(1536))
        answer = b""
        while len(answer) < 3073:
            answer += self.receive(3073 - len(answer))
        self.socket.sendall(answer[1:1537])
        self.socket.sendall(message(1, 0, 0, struct.pack(">I", 65536)))

    def receive(self, most=65536):
        piece = self.socket.recv(most)
        if not piece:
            raise EOFError("the server has closed")
        return piece

    def call(self, stream, name, *values):
        self.socket.sendall(message(20, 0, stream, text(name) + b"".join(values)))

    def command(self):
        """The name of the next command, and its body."""
        while True:
            found = self.reader.one()
            while found is None:
                self.reader.bytes += self.receive()
                found = self.reader.one()
            kind, body = found
            if kind == 20:
                return body[3:3 + struct.unpack(">H", body[1:3])[0]].decode(), body

    def until(self, word):
        """Goes on to the command whose body has the word."""
        while True:
            _, body = self.command()
            if word in body:
                return

    def open(self, role, name):
        self.call(0, "connect", number(1), table(app="live", tcUrl="rtmp://127.0.0.1/live"))
        self.until(b"NetConnection.Connect.Success")
        self.call(0, "createStream", number(2), b"\x05")
        self.until(b"_result")
        if role == "publish":
            self.call(1, "publish", number(3), b"\x05", text(name), text("live"))
            self.until(b"NetStream.Publish.Start")
        else:
            self.call(1, "play", number(3), b"\x05", text(name))
            self.until(b"NetStream.Play.Start")
        return self

    def push(self, kind, time_ms, body):
        self.socket.sendall(message(kind, time_ms, 1, body))

    def leave(self):
        """Ends its role, and reads on until the server closes, so that nothing is lost by a reset."""
        self.call(0, "deleteStream", number(0), b"\x05", number(1))
        self.socket.shutdown(socket.SHUT_WR)
        while self.socket.recv(65536):
            pass
        self.socket.close()

    def close(self):
        self.socket.close()


# ------------------------------------------------------------------------------------------------ a server

class Server:
    """A server of streams by these names, the lines of its configuration, and the variables of its environment. A connection may be
    silent for ever, where these don't say otherwise. With the words of an origin (its address, an app and a name) it is an edge."""

    def __init__(self, relay, folder, names, lines="", limit=None, origin=None, host="127.0.0.1", **variables):
        self.folder = folder
        config = os.path.join(folder, "relay.toml")
        with open(config, "w") as out:
            out.write(f'[relay]\nlisten = "{host}:0"\n{lines}\n')
            for name, more in names.items():
                out.write(f'[[stream]]\napp = "live"\nname = "{name}"\n{more}\n')
        before = (lambda: resource.setrlimit(resource.RLIMIT_FSIZE, (limit, limit))) if limit else None
        variables = {**os.environ, "RELAY_LOG": "error", "RELAY_SILENCE": "0", **variables}
        words = ["edge", config, *origin] if origin else ["serve", config]
        self.process = subprocess.Popen(
            [relay, *words], cwd=folder, env=variables, stdout=subprocess.PIPE, stderr=subprocess.PIPE, preexec_fn=before
        )
        self.said = []
        while True:
            line = self.process.stderr.readline().decode()
            self.said.append(line)
            if "relay: listens on " in line:
                self.port = int(line.rsplit(":", 1)[1])
                return
            if not line:
                raise RuntimeError(f"a server doesn't start: {self.said}")

    def end(self):
        """Waits until it has ended by itself. Its status, its report and what it said after it listened."""
        out, err = self.process.communicate(timeout=60)
        return self.process.returncode, out.decode(), err.decode()

    def kill(self):
        self.process.kill()
        return self.process.communicate()


# ------------------------------------------------------------------------------------------------ time

class Witness:
    """A process that sleeps beside a trial, again and again, and tells by how much it was woken too late at most."""

    def __enter__(self):
        self.ours, theirs = socket.socketpair()
        self.process = os.fork()
        if self.process == 0:
            self.ours.close()
            self.watch(theirs)
            os._exit(0)
        theirs.close()
        return self

    @staticmethod
    def watch(end):
        worst, before = 0.0, time.monotonic()
        while not select.select([end], [], [], 0.01)[0]:
            now = time.monotonic()
            worst, before = max(worst, now - before), now
        if end.recv(1):
            end.sendall(struct.pack(">d", worst))

    def __exit__(self, *_):
        self.ours.sendall(b"-")
        self.worst, = struct.unpack(">d", self.ours.recv(8))
        self.ours.close()
        os.waitpid(self.process, 0)


def on_time(relay, folder, trial):
    """Fails with what the trial says is late, if it says so five times while the machine was on time, and never finds that nothing is."""
    said = []
    for place in range(6):
        home = os.path.join(folder, str(place))
        os.mkdir(home)
        with Witness() as witness:
            late = trial(relay, home)
        if late is None:
            return
        if witness.worst < 0.05:
            said.append(late)
        if len(said) == 5:
            fail(late)
            return


# ------------------------------------------------------------------------------------------------ the tests

def sockets(server):
    """How many sockets it has."""
    folder = f"/proc/{server.process.pid}/fd"
    return sum(os.readlink(os.path.join(folder, name)).startswith("socket:") for name in os.listdir(folder))


def silent(relay, folder):
    """40 clients that say nothing are all accepted, though nothing else happens."""
    server = Server(relay, folder, {"cam": ""})
    time.sleep(0.3)
    own = sockets(server)
    clients = [socket.create_connection(("127.0.0.1", server.port), timeout=20) for _ in range(40)]
    begun = time.monotonic()
    while (count := sockets(server) - own) < 40 and time.monotonic() - begun < 1:
        time.sleep(0.01)
    for client in clients:
        client.close()
    server.kill()
    return None if count >= 40 else f"silent: of 40 connections {count} are accepted within a second"


def sparse(relay, folder):
    """Sparse streams with 8 players each over two workers: hardly a unit is late, since each wakes who waits for it."""
    every, units, servers = 0.15, 70, []
    for place in range(6):
        home = os.path.join(folder, str(place))
        os.mkdir(home)
        servers.append(Server(relay, home, {"cam": ""}, "workers = 2"))
    watch = selectors.DefaultSelector()
    publishers = []
    for server in servers:
        publisher = Client(server.port).open("publish", "cam")
        publisher.push(VIDEO, 0, CONFIGURATION)
        publisher.push(VIDEO, 0, picture(b"first"))
        publishers.append(publisher)
        for _ in range(8):
            player = Client(server.port).open("play", "cam")
            player.socket.setblocking(False)
            watch.register(player.socket, selectors.EVENT_READ, player)
    seen, late, worst = 0, 0, 0.0
    begun = time.monotonic() + 0.3
    for unit in range(units * len(servers)):
        due = begun + unit * every / len(servers)
        while (left := due - time.monotonic()) > 0:
            seen, late, worst = hear(watch, left, seen, late, worst)
        body = picture(b"at" + struct.pack(">d", time.monotonic()))
        publishers[unit % len(servers)].push(VIDEO, unit, body)
    sent = 8 * units * len(servers)
    until = time.monotonic() + 20
    while time.monotonic() < until and seen < sent:
        seen, late, worst = hear(watch, 0.1, seen, late, worst)
    expect(seen == sent, f"sparse: of {sent} units {seen} came")
    for server in servers:
        server.kill()
    return None if late <= sent // 100 else f"sparse: of {sent} units {late} came more than 0.1 s late, the latest after {worst:.3f} s"


def hear(watch, wait, seen, late, worst):
    """What players were sent by now: how many units, how many of them late, and the greatest delay."""
    for key, _ in watch.select(wait):
        player = key.data
        player.reader.bytes += player.receive()
        now = time.monotonic()
        while (found := player.reader.one()) is not None:
            kind, body = found
            at = body.find(b"at", 9, 16)
            if kind == VIDEO and at > 0:
                delay = now - struct.unpack(">d", body[at + 2:at + 10])[0]
                seen, late, worst = seen + 1, late + (delay > 0.1), max(worst, delay)
    return seen, late, worst


def switches(server):
    """How often each thread of it has ceased to run so far."""
    folder, found = f"/proc/{server.process.pid}/task", {}
    for thread in os.listdir(folder):
        with open(os.path.join(folder, thread, "status")) as lines:
            found[thread] = sum(int(line.split()[1]) for line in lines if "ctxt_switches" in line)
    return found


def undisturbed(relay, folder):
    """What is pushed to a stream wakes no worker that plays nothing of it, of listed streams and of open ones."""
    lines = 'workers = 6\n[[open]]\napp = "live"\nnames = 8'
    server = Server(relay, folder, {"cam": ""}, lines)
    for name in ("cam", "guest"):
        # A connection to each worker, of which two have something to do.
        others = [Client(server.port).open("play", place) for place in ("one", "two", "three", "four")]
        publisher = Client(server.port).open("publish", name)
        player = Client(server.port).open("play", name)
        publisher.push(VIDEO, 0, CONFIGURATION)
        time.sleep(1.5)
        before, units = switches(server), 100
        for unit in range(units):
            publisher.push(VIDEO, unit, picture(b"%d;" % unit))
            time.sleep(0.03)
        after = switches(server)
        for client in others + [player]:
            client.close()
        publisher.leave()
        waited = sorted(after[thread] - before.get(thread, 0) for thread in after)
        few = [count for count in waited if count < units // 2]
        expect(len(few) >= 4, f"undisturbed: of 6 workers {len(few)} aren't woken by {units} pushes to live/{name}: {waited}")
        expect(waited[-1] > units // 2, f"undisturbed: no worker hears of the pushes: {waited}")
        time.sleep(1.5)
    server.kill()


def vanished(relay, folder):
    """A publisher that vanishes: its players hear of it at once, on the other worker too."""
    server = Server(relay, folder, {"cam": ""}, "workers = 2")
    publisher = Client(server.port).open("publish", "cam")
    publisher.push(VIDEO, 0, CONFIGURATION)
    publisher.push(VIDEO, 0, picture(b"first"))
    players = [Client(server.port).open("play", "cam") for _ in range(6)]
    time.sleep(1.5)
    begun = time.monotonic()
    publisher.socket.setsockopt(socket.SOL_SOCKET, socket.SO_LINGER, struct.pack("ii", 1, 0))
    publisher.close()
    for player in players:
        player.until(b"NetStream.Play.UnpublishNotify")
    took = time.monotonic() - begun
    server.kill()
    return None if took < 0.25 else f"vanished: the players hear of the publisher's end after {took:.3f} s"


def counted(relay, folder):
    """A server of two links over two workers ends by itself when both are gone."""
    server = Server(relay, folder, {"cam": ""}, "workers = 2\naccept = 2")
    publisher = Client(server.port).open("publish", "cam")
    player = Client(server.port).open("play", "cam")
    publisher.push(VIDEO, 0, CONFIGURATION)
    publisher.push(VIDEO, 0, picture(b"first"))
    while True:
        found = player.reader.one()
        if found is None:
            player.reader.bytes += player.receive()
        elif b"first" in found[1]:
            break
    publisher.close()
    player.until(b"NetStream.Play.UnpublishNotify")
    player.close()
    expect(server.end() == (0, "stream 0 began 1 pushed 2 ended 1 joined 1 skips 0\n", ""), "counted: the server of two links ends otherwise")


def gathered(relay, folder):
    """What a player is sent in a burst comes whole, in order and once; what an ended session was sent comes before its link is closed."""
    server = Server(relay, folder, {"cam": ""}, "workers = 2\naccept = 3")
    player = Client(server.port).open("play", "cam")
    publisher = Client(server.port).open("publish", "cam")
    lengths = [1 + 7919 * place % 20000 for place in range(150)]
    bodies = [CONFIGURATION] + [picture(b"%d;" % place, length) for place, length in enumerate(lengths)]
    publisher.socket.sendall(b"".join(message(VIDEO, place, 1, body) for place, body in enumerate(bodies)))
    came = []
    while len(came) < len(bodies):
        while (found := player.reader.one()) is None:
            player.reader.bytes += player.receive()
        if found[0] == VIDEO:
            came.append(found[1])
    expect(came == bodies, "gathered: what a player is sent isn't what was published")
    for client in (publisher, player):
        client.close()
    hasty = socket.create_connection(("127.0.0.1", server.port), timeout=20)
    hasty.sendall(b"\x03" + bytes(1536) + bytes(1536) + message(1, 0, 0, struct.pack(">I", 65536))
                  + message(20, 0, 0, text("connect") + number(1) + table(app="live"))
                  + message(20, 0, 0, text("createStream") + number(2) + b"\x05"))
    hasty.shutdown(socket.SHUT_WR)
    answer = b""
    while piece := hasty.recv(65536):
        answer += piece
    expect(b"NetConnection.Connect.Success" in answer, "gathered: a client that closes early isn't told that it is connected")
    expect(answer.endswith(text("_result") + number(2) + b"\x05" + number(1)), "gathered: a client that closes early misses the last answer")
    expect(server.end()[0] == 0, "gathered: the server ends otherwise")


def tags(data):
    """The tags of an FLV file: kind, time and body."""
    at, found = 13, []
    while at + 11 <= len(data):
        length = int.from_bytes(data[at + 1:at + 4], "big")
        stamp = int.from_bytes(data[at + 4:at + 7], "big")
        found.append((data[at], stamp, data[at + 11:at + 11 + length]))
        at += 15 + length
    return found


def recording(relay, folder):
    """What is published is recorded, tag for tag; a file that was there is kept aside."""
    path = os.path.join(folder, "cam.flv")
    with open(path, "wb") as out:
        out.write(b"of yesterday")
    server = Server(relay, folder, {"cam": 'flv = "cam.flv"\nts = "cam.ts"'}, "accept = 1")
    publisher = Client(server.port).open("publish", "cam")
    units = [(VIDEO, 0, CONFIGURATION)] + [(VIDEO, 40 * n, picture(b"%d" % n, 100 + 997 * (n % 60))) for n in range(1, 120)]
    for unit in units:
        publisher.push(*unit)
    publisher.leave()
    expect(server.end()[0] == 0, "recording: the server ends otherwise")
    found = tags(open(path, "rb").read())
    expect(found == units, f"recording: of {len(units)} units, {len(found)} tags are in the file, or others")
    expect(open(os.path.join(folder, "cam.1.flv"), "rb").read() == b"of yesterday", "recording: the file that was there isn't kept aside")
    made = subprocess.run([relay, "remux"], stdin=open(path, "rb"), stdout=subprocess.PIPE).stdout
    expect(made == open(os.path.join(folder, "cam.ts"), "rb").read(), "recording: the transport stream isn't what `remux` makes of the FLV file")


def limited(relay, folder):
    """A recording that comes to the system's limit of a file: it is said at once, and the server goes on."""
    path = os.path.join(folder, "cam\x07\x85.flv")
    server = Server(relay, folder, {"cam": 'flv = "cam\\u0007\\u0085.flv"'}, "accept = 2", limit=20000)
    publisher = Client(server.port).open("publish", "cam")
    publisher.push(VIDEO, 0, CONFIGURATION)
    for n in range(30):
        publisher.push(VIDEO, 40 * n, picture(b"%d" % n))
    line = server.process.stderr.readline().decode()
    expect(line == "relay: cam??.flv: File too large (os error 27)\n", f"limited: it says {line!r}")
    player = Client(server.port).open("play", "cam")
    player.close()
    publisher.close()
    status, report, said = server.end()
    expect((status, said) == (0, "") and " joined 2 " in report, f"limited: the server ends with {status}, {report!r}, {said!r}")
    size = os.path.getsize(path)
    expect(size == 20000, f"limited: the file has {size} bytes")


def film(units):
    """A file of FLV with these tags."""
    tag = lambda kind, stamp, body: bytes([kind]) + len(body).to_bytes(3, "big") + (stamp & 0xFFFFFF).to_bytes(3, "big") + bytes([stamp >> 24, 0, 0, 0]) + body
    return b"FLV\x01\x05\0\0\0\x09\0\0\0\0" + b"".join(tag(*unit) + (len(unit[2]) + 11).to_bytes(4, "big") for unit in units)


class Command:
    """The program as a client of a server on this machine."""

    def __init__(self, relay, word, port, name):
        self.process = subprocess.Popen(
            [relay, word, f"127.0.0.1:{port}", "live", name], stdin=subprocess.PIPE, stdout=subprocess.PIPE, stderr=subprocess.PIPE
        )

    def end(self, more=b""):
        """Hands it the last of its input. Its status, what it wrote since, and what it said."""
        out, err = self.process.communicate(more, timeout=60)
        return self.process.returncode, out, err.decode()


def pushed(relay, folder):
    """What is pushed to a server is pulled from it, tag for tag, and each end is told."""
    # Less than a server acknowledges: else an answer could reset a connection that the push has waited for and left.
    units = [(VIDEO, 0, CONFIGURATION)] + [(VIDEO, 40 * n, picture(b"%d" % n, 100 + 797 * (n % 40))) for n in range(1, 120)]
    units += [(VIDEO, 0xFFFFFF, picture(b"late")), (AUDIO, 0x1000000, b"\xaf\x01" + bytes(300))]
    whole, first = film(units), film(units[:2])
    server = Server(relay, folder, {"cam": 'publish = ["secret"]\nflv = "cam.flv"'}, "accept = 4")
    push = Command(relay, "push", server.port, "cam?secret")
    push.process.stdin.write(first)
    push.process.stdin.flush()
    pull = Command(relay, "pull", server.port, "cam")
    # The first tags come once the push has begun, however late the pull joins.
    came = pull.process.stdout.read(len(first))
    other = Command(relay, "push", server.port, "cam?secret").end(whole)
    denied = lambda why: (13, b"", f"relay: the server refused: NetStream.Publish.BadName: {why}\nrelay: status 13 at 0\n")
    expect(other == denied("In use."), f"pushed: a second push ends with {other}")
    wrong = Command(relay, "push", server.port, "cam?public").end(whole)
    expect(wrong == denied("Refused."), f"pushed: a push with a wrong key ends with {wrong}")
    ends = push.end(whole[len(first):])
    expect(ends == (0, b"", ""), f"pushed: the push ends with {ends}")
    status, out, said = pull.end()
    expect((status, said) == (0, ""), f"pushed: the pull ends with {status}, {said!r}")
    expect(came + out == whole, f"pushed: of {len(units)} tags, {len(tags(came + out))} are pulled, or others")
    expect(server.end()[0] == 0, "pushed: the server ends otherwise")
    expect(open(os.path.join(folder, "cam.flv"), "rb").read() == whole, "pushed: the recording is another")


def broken(relay, folder):
    """A film that is refused is sent up to there; a server that goes away, and one that is none, are told."""
    units = [(VIDEO, 0, CONFIGURATION), (VIDEO, 0, picture(b"first")), (VIDEO, 40, picture(b"second"))]
    whole = film(units)
    server = Server(relay, folder, {"cam": 'flv = "cam.flv"'}, "accept = 1")
    ends = Command(relay, "push", server.port, "cam").end(whole + b"\x07")
    said = f"relay: standard input is not FLV from byte {len(whole)} on\nrelay: status 4 at {len(whole)}\n"
    expect(ends == (4, b"", said), f"broken: a push of a broken film ends with {ends}")
    expect(server.end()[0] == 0, "broken: the server ends otherwise")
    expect(tags(open(os.path.join(folder, "cam.flv"), "rb").read()) == units, "broken: the tags before the refusal aren't all recorded")
    with socket.create_server(("127.0.0.1", 0)) as listener:
        port = listener.getsockname()[1]
        pull = Command(relay, "pull", port, "cam")
        peer, _ = listener.accept()
        peer.recv(1537, socket.MSG_WAITALL)
        peer.sendall(b"HTTP/1.1 400 Bad Request\r\n\r\n")
        ends = pull.end()
        peer.close()
        said = f"relay: 127.0.0.1:{port}: the server sent invalid RTMP at byte 0\nrelay: status 12 at 0\n"
        expect(ends == (12, b"", said), f"broken: a pull from a web server ends with {ends}")
        pull = Command(relay, "pull", port, "cam")
        peer, _ = listener.accept()
        peer.recv(1537, socket.MSG_WAITALL)
        peer.close()
        ends = pull.end()
        said = f"relay: 127.0.0.1:{port}: the server closed the connection\nrelay: status 10 at 0\n"
        expect(ends == (10, b"", said), f"broken: a pull from a server that goes ends with {ends}")


TRIALS = [silent, sparse, vanished]
TESTS = [undisturbed, counted, gathered, recording, limited, pushed, broken]


def main():
    signal.signal(signal.SIGPIPE, signal.SIG_IGN)
    # What hangs ends all.
    signal.alarm(600)
    relay, wanted = os.path.abspath(sys.argv[1]), sys.argv[2:]
    for test in TRIALS + TESTS:
        if wanted and test.__name__ not in wanted:
            continue
        with tempfile.TemporaryDirectory() as folder:
            try:
                on_time(relay, folder, test) if test in TRIALS else test(relay, folder)
            except (OSError, EOFError, RuntimeError, subprocess.TimeoutExpired) as error:
                fail(f"{test.__name__}: {error!r}")
    sys.exit(failures > 0)


if __name__ == "__main__":
    main()
