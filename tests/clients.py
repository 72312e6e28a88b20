#!/usr/bin/env python3
"""Tests of `relay push` and `relay pull` over real sockets: tests/clients.py RELAY [TEST..]

The server is the relay, or one of this file that misbehaves. Prints a line for each failure, and ends with status 1 if there was one. Times are
bounded from above by much more than they take.
"""
import os
import select
import signal
import socket
import struct
import subprocess
import sys
import tempfile
import time

import sockets
from sockets import AUDIO, CONFIGURATION, VIDEO, Client, Reader, Server, expect, fail, film, message, number, picture, table, tags, text

HOST = "127.0.0.1"


def status(level, code, **more):
    """The body of a status."""
    return text("onStatus") + number(0) + b"\x05" + table(level=level, code=code, **more)


class Origin:
    """A server that answers a client as far as the test says."""

    def __init__(self):
        self.listener = socket.create_server((HOST, 0))
        self.listener.settimeout(20)
        self.port = self.listener.getsockname()[1]
        self.reader = Reader()
        self.socket = None

    def accept(self):
        self.socket, _ = self.listener.accept()
        self.socket.settimeout(20)

    def greet(self):
        """Accepts a connection, and answers its handshake."""
        self.accept()
        self.take(1537)
        self.socket.sendall(b"\x03" + bytes(1536) + bytes(1536))
        self.take(1536)
        self.say(1, 0, struct.pack(">I", 65536))

    def take(self, count):
        got = b""
        while len(got) < count:
            piece = self.socket.recv(count - len(got))
            if not piece:
                raise EOFError("the client has closed")
            got += piece

    def say(self, kind, stream, body, time_ms=0):
        self.socket.sendall(message(kind, time_ms, stream, body))

    def hear(self):
        """The kind and the body of the next message."""
        found = self.reader.one()
        while found is None:
            piece = self.socket.recv(65536)
            if not piece:
                raise EOFError("the client has closed")
            self.reader.bytes += piece
            found = self.reader.one()
        return found

    def until(self, word):
        """Goes on to the command of that name, and returns its body."""
        while True:
            kind, body = self.hear()
            if kind == 20 and body.startswith(text(word)):
                return body

    def begin(self, command, code, **more):
        """Answers a client up to its `publish` or `play`, and returns its `connect`."""
        self.greet()
        asked = self.until("connect")
        self.say(20, 0, text("_result") + number(1) + table() + table(code="NetConnection.Connect.Success"))
        self.until("createStream")
        self.say(20, 0, text("_result") + number(2) + b"\x05" + number(1))
        self.until(command)
        self.say(20, 1, status("error" if code.endswith("BadName") else "status", code, **more))
        return asked

    def close(self, reset=False):
        if reset:
            self.socket.setsockopt(socket.SOL_SOCKET, socket.SO_LINGER, struct.pack("ii", 1, 0))
        self.socket.close()
        self.listener.close()


class Run:
    """The program, as a client."""

    def __init__(self, relay, *words, **variables):
        self.begun = time.monotonic()
        variables = {**os.environ, "RELAY_LOG": "warn", "RELAY_SILENCE": "20", **variables}
        self.process = subprocess.Popen([relay, *words], env=variables, stdin=subprocess.PIPE, stdout=subprocess.PIPE, stderr=subprocess.PIPE)

    def give(self, piece):
        self.process.stdin.write(piece)
        self.process.stdin.flush()

    def end(self, more=b""):
        """Hands it the last of its input. Its status, what it wrote, what it said, and how long it ran."""
        out, err = self.process.communicate(more, timeout=60)
        return self.process.returncode, out, err.decode(), time.monotonic() - self.begun

    def used(self):
        """The processor time that it has taken, in seconds."""
        with open(f"/proc/{self.process.pid}/stat") as f:
            fields = f.read().rsplit(")", 1)[1].split()
        return (int(fields[11]) + int(fields[12])) / os.sysconf("SC_CLK_TCK")

    def runs(self, seconds):
        """Whether it still runs then."""
        try:
            self.process.wait(seconds)
            return False
        except subprocess.TimeoutExpired:
            return True


def push(relay, port, *options, **variables):
    return Run(relay, "push", *options, f"{HOST}:{port}", "live", "cam", **variables)


def pull(relay, port, *options, **variables):
    return Run(relay, "pull", *options, f"{HOST}:{port}", "live", "cam", **variables)


def clip(times, length=2000):
    return [(VIDEO, 0, CONFIGURATION)] + [(VIDEO, at, picture(b"%d;" % at, length)) for at in times]


SMALL = film(clip(range(0, 200, 40)))


def paced(relay, folder):
    """A paced film takes as long as it plays, jumps apart, and is recorded whole; another says that it was fast."""
    units = clip(list(range(0, 2000, 40)) + list(range(60000, 61000, 40)) + list(range(0, 500, 40)), 40000)
    for options, least, most in ((["--pace"], 3.2, 20), ([], 0, 20)):
        server = Server(relay, folder, {"cam": 'flv = "cam.flv"'}, "accept = 1")
        code, _, said, took = push(relay, server.port, *options).end(film(units))
        expect((code, said) == (0, ""), f"paced: {options} ends with {code}, {said!r}")
        expect(least <= took <= most, f"paced: {options} takes {took:.1f} s")
        server.end()
        if options:
            found = len(tags(open(os.path.join(folder, "cam.flv"), "rb").read()))
            expect(found == len(units), f"paced: of {len(units)} tags {found} are recorded")
    server = Server(relay, folder, {"cam": ""}, "accept = 1")
    code, _, said, _ = push(relay, server.port).end(film(clip(range(0, 400_000, 400))))
    expect(code == 0 and said.startswith("relay: 399 s of film were sent in "), f"paced: a fast push ends with {code}, {said!r}")
    server.end()


def shared(relay, folder):
    """A paced film is whole in a recording and at two clients that pull it."""
    units = clip(range(0, 3000, 20), 20000)
    server = Server(relay, folder, {"cam": 'flv = "cam.flv"'}, "accept = 3")
    pulls = [pull(relay, server.port) for _ in range(2)]
    time.sleep(1)
    code, _, said, _ = push(relay, server.port, "--pace").end(film(units))
    expect((code, said) == (0, ""), f"shared: the push ends with {code}, {said!r}")
    for one in pulls:
        code, out, said, _ = one.end()
        expect((code, said) == (0, ""), f"shared: a pull ends with {code}, {said!r}")
        expect(tags(out) == units, f"shared: of {len(units)} tags {len(tags(out))} are pulled, or others")
    server.end()
    expect(tags(open(os.path.join(folder, "cam.flv"), "rb").read()) == units, "shared: the recording is another")


def closed(relay, folder):
    """Nothing of the film goes over the connection where a standard stream is closed."""
    server = Server(relay, folder, {"cam": ""})
    publisher = Client(server.port).open("publish", "cam")
    publisher.push(VIDEO, 0, CONFIGURATION)
    publisher.push(VIDEO, 0, picture(b"first"))
    done = subprocess.run(["bash", "-c", f"{relay} pull {HOST}:{server.port} live cam >&-"], stdin=subprocess.DEVNULL, stderr=subprocess.PIPE, timeout=30)
    said = "relay: standard output: Bad file descriptor (os error 9)\nrelay: status 5 at 0\n"
    expect((done.returncode, done.stderr.decode()) == (5, said), f"closed: a pull ends with {done.returncode}, {done.stderr}")
    publisher.close()
    server.kill()


def late(relay, folder):
    """A push connects at its first byte."""
    origin = Origin()
    client = push(relay, origin.port)
    expect(not select.select([origin.listener], [], [], 1)[0], "late: it connects before its first byte")
    client.give(SMALL[:1])
    expect(select.select([origin.listener], [], [], 20)[0], "late: it doesn't connect at its first byte")
    client.process.kill()
    client.end()
    origin.accept()
    origin.close()


def parting(relay, folder):
    """What a server does behind the end of a push counts, and nothing holds it for more than 8 seconds."""

    def ends(name, last_deed, wanted, words, least, most):
        origin = Origin()
        client = push(relay, origin.port)
        client.process.stdin.write(SMALL)
        client.process.stdin.close()
        client.process.stdin = None
        origin.begin("publish", "NetStream.Publish.Start")
        origin.until("deleteStream")
        since = time.monotonic()
        last_deed(origin)
        code, _, said, _ = client.end()
        took = time.monotonic() - since
        expect(code == wanted and words in said, f"parting: with {name} it ends with {code}, {said!r}")
        expect(least <= took <= most, f"parting: with {name} it ends after {took:.1f} s")
        origin.close()

    def ping(origin):
        try:
            for _ in range(200):
                origin.say(4, 0, b"\x00\x06" + bytes(4))
                time.sleep(0.1)
        except OSError:
            pass

    def reset(origin):
        time.sleep(1)
        origin.close(reset=True)

    def error(origin):
        origin.say(20, 1, status("error", "NetStream.Record.Failed", description="The disk\nis full."))
        time.sleep(0.2)
        origin.socket.close()

    ends("a close", lambda origin: origin.socket.close(), 0, "", 0, 6)
    ends("a server that leaves it open", lambda origin: None, 0, "", 6, 20)
    ends("pings", ping, 0, "", 6, 20)
    ends("a reset", reset, 11, "Connection reset by peer", 0, 6)
    ends("an error", error, 13, "relay: the server refused: NetStream.Record.Failed: The disk?is full.\n", 0, 6)


def refused(relay, folder):
    """A push that is refused says why, and ends at once though the server leaves the connection open."""
    origin = Origin()
    client = push(relay, origin.port)
    client.give(SMALL)
    asked = origin.begin("publish", "NetStream.Publish.BadName", description="Somebody publishes live/cam.")
    expect(text(f"rtmp://{HOST}:{origin.port}/live") in asked, f"refused: it connects with {asked}")
    since = time.monotonic()
    code, _, said, _ = client.end()
    took = time.monotonic() - since
    expect(code == 13 and "NetStream.Publish.BadName: Somebody publishes live/cam.\n" in said and took < 6, f"refused: it ends with {code}, {said!r} after {took:.1f} s")
    origin.close()


def silence(relay, folder):
    """A server that doesn't answer, or stops in the middle of a broadcast, is given up; one without a broadcast isn't."""
    words = "the server was silent for 2 s\nrelay: status 11 at 0\n"
    for name, client in (("push", push), ("pull", pull)):
        origin = Origin()
        one = client(relay, origin.port, RELAY_SILENCE="2")
        if name == "push":
            one.give(SMALL)
        origin.accept()
        code, _, said, took = one.end()
        expect(code == 11 and said.endswith(words) and took < 15, f"silence: a {name} ends with {code}, {said!r} after {took:.1f} s")
        origin.close()
    origin = Origin()
    one = pull(relay, origin.port, RELAY_SILENCE="2")
    origin.begin("play", "NetStream.Play.Start")
    expect(one.runs(6), "silence: a pull doesn't wait for a broadcast")
    origin.say(20, 1, status("status", "NetStream.Play.PublishNotify"))
    origin.say(VIDEO, 1, CONFIGURATION)
    since = time.monotonic()
    code, out, said, _ = one.end()
    took = time.monotonic() - since
    expect(code == 11 and said.endswith(words) and took < 15, f"silence: a broadcast that stops ends with {code}, {said!r} after {took:.1f} s")
    expect(len(tags(out)) == 1, f"silence: it writes {len(tags(out))} tags")
    origin.close()
    # A server that takes nothing of a film that is larger than all buffers.
    origin = Origin()
    big = os.path.join(folder, "big.flv")
    with open(big, "wb") as out:
        out.write(film(clip(range(0, 16000, 40), 100_000)))
    variables = {**os.environ, "RELAY_SILENCE": "2"}
    with open(big, "rb") as given:
        process = subprocess.Popen([relay, "push", f"{HOST}:{origin.port}", "live", "cam"], env=variables, stdin=given, stderr=subprocess.PIPE)
    origin.begin("publish", "NetStream.Publish.Start")
    _, said = process.communicate(timeout=60)
    expect(process.returncode == 11 and said.decode().endswith(words), f"silence: a server that takes nothing ends it with {process.returncode}, {said}")
    origin.close()


def stalled(relay, folder):
    """While its input gives nothing, a push answers pings, and hears that the server closes."""
    origin = Origin()
    client = push(relay, origin.port, RELAY_SILENCE="2")
    client.give(SMALL)
    origin.begin("publish", "NetStream.Publish.Start")
    while origin.hear()[0] != VIDEO:
        pass
    time.sleep(3)
    origin.say(4, 0, b"\x00\x06" + b"ping")
    answered = False
    for _ in range(100):
        kind, body = origin.hear()
        if kind == 4 and body == b"\x00\x07ping":
            answered = True
            break
    expect(answered, "stalled: a ping isn't answered")
    origin.socket.close()
    expect(not client.runs(10), "stalled: it doesn't hear that the server closes")
    code, _, said, _ = client.end()
    expect(code in (10, 11), f"stalled: it ends with {code}, {said!r}")
    origin.close()


def rests(relay, folder):
    """A client with nothing to do takes no processor: a pull before the broadcast, and a push whose input gives nothing."""
    server, origin = Server(relay, folder, {"cam": ""}), Origin()
    waits, stalls = pull(relay, server.port), push(relay, origin.port)
    stalls.give(SMALL)
    origin.begin("publish", "NetStream.Publish.Start")
    while origin.hear()[0] != VIDEO:
        pass
    time.sleep(2)
    before = [one.used() for one in (waits, stalls)]
    time.sleep(4)
    for name, one, used in (("a pull", waits, before[0]), ("a push", stalls, before[1])):
        expect(one.used() - used < 0.4, f"rests: {name} takes {one.used() - used:.2f} s of a processor in 4 s")
        one.process.kill()
        one.end()
    origin.close()
    server.kill()


def bounded(relay, folder):
    """`--for` ends a pull with whole tags; `--from-zero` counts its times from the first frame; an empty one says so."""
    server = Server(relay, folder, {"cam": ""})
    code, out, said, took = pull(relay, server.port, "--for", "2").end()
    expect((code, out, said) == (0, b"", "relay: nothing of the stream came\n"), f"bounded: an empty pull ends with {code}, {out!r}, {said!r}")
    expect(1.5 <= took <= 15, f"bounded: it takes {took:.1f} s")
    publisher = Client(server.port).open("publish", "cam")
    publisher.push(VIDEO, 3_600_000, CONFIGURATION)
    publisher.push(VIDEO, 3_600_000, picture(b"first"))
    publisher.push(AUDIO, 3_600_020, b"\xaf\x01" + bytes(300))
    publisher.push(VIDEO, 3_600_040, picture(b"second"))
    time.sleep(0.5)
    code, out, said, _ = pull(relay, server.port, "--from-zero", "--for", "3").end()
    expect((code, said) == (0, ""), f"bounded: a pull ends with {code}, {said!r}")
    found = [(kind, at) for kind, at, _ in tags(out)]
    expect(len(found) > 1 and found[0] == (VIDEO, 0) and found[1] == (VIDEO, 0) and found[-1][1] <= 40, f"bounded: the times are {found}")
    publisher.close()
    server.kill()


def named(relay, folder):
    """One word names a stream; its key is in a variable or a file; the host may be a name."""
    server = Server(relay, folder, {"cam": 'publish = ["secret"]'})
    path = os.path.join(folder, "key")
    with open(path, "w") as out:
        out.write("secret\n")
    word = f"rtmp://{HOST}:{server.port}/live/cam"
    for name, wanted, variables in (
        (word, 0, {"RELAY_KEY": "secret"}),
        (word, 0, {"RELAY_KEY_FILE": path}),
        (word + "?secret", 0, {"RELAY_KEY": "public"}),
        (word, 13, {"RELAY_KEY": "public"}),
        (word, 13, {}),
        (word.replace(HOST, "localhost"), 0, {"RELAY_KEY": "secret"}),
    ):
        code, _, said, _ = Run(relay, "push", name, **variables).end(SMALL)
        expect(code == wanted, f"named: {name} with {variables} ends with {code}, {said!r}")
    server.kill()


def told(relay, folder):
    """With RELAY_LOG=info, what happens is said; a film that breaks off and a tag that is too long are told apart."""
    server = Server(relay, folder, {"cam": ""})
    code, _, said, _ = push(relay, server.port, RELAY_LOG="info").end(SMALL)
    wanted = f"relay: {HOST}:{server.port}: connected\nrelay: the server takes the stream\n"
    expect((code, said) == (0, wanted), f"told: a push ends with {code}, {said!r}")
    at = len(SMALL)
    code, _, said, _ = push(relay, server.port).end(SMALL + b"\x09\0\0\x09\0\0")
    wanted = f"relay: standard input breaks off in the tag at byte {at}\nrelay: status 4 at {at}\n"
    expect((code, said) == (4, wanted), f"told: a film that breaks off ends with {code}, {said!r}")
    code, _, said, _ = push(relay, server.port).end(SMALL + b"\x09\x40\0\x01" + bytes(7))
    wanted = f"relay: standard input has a tag of more than 4194304 bytes at byte {at}\nrelay: status 4 at {at}\n"
    expect((code, said) == (4, wanted), f"told: a tag that is too long ends with {code}, {said!r}")
    code, _, said, _ = push(relay, server.port).end(SMALL + b"\x07")
    wanted = f"relay: standard input is not FLV from byte {at} on\nrelay: status 4 at {at}\n"
    expect((code, said) == (4, wanted), f"told: what is no tag ends with {code}, {said!r}")
    server.kill()


TESTS = [paced, shared, closed, late, parting, refused, silence, stalled, rests, bounded, named, told]


def main():
    signal.signal(signal.SIGPIPE, signal.SIG_IGN)
    # What hangs ends all.
    signal.alarm(900)
    relay, wanted = os.path.abspath(sys.argv[1]), sys.argv[2:]
    for test in TESTS:
        if wanted and test.__name__ not in wanted:
            continue
        with tempfile.TemporaryDirectory() as folder:
            try:
                test(relay, folder)
            except (OSError, EOFError, RuntimeError, subprocess.TimeoutExpired) as error:
                fail(f"{test.__name__}: {error!r}")
    sys.exit(sockets.failures > 0)


if __name__ == "__main__":
    main()
