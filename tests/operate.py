#!/usr/bin/env python3
"""Tests of how `relay serve` is run and watched, over real sockets: tests/operate.py RELAY [TEST..]

Its log, silent connections, `relay stats` and `relay stop`. Prints a line for each failure, and ends with status 1 if there was one.
Times are bounded from below, and from above by much more than they take.
"""
import fcntl
import json
import os
import re
import signal
import socket
import stat
import struct
import subprocess
import sys
import tempfile
import threading
import time

import sockets
from sockets import CONFIGURATION, VIDEO, Client, Server, expect, fail, message, picture, tags

KEY = "hunter2"
# The counts of a stream whose players have missed nothing.
NOTHING = {"jumps": 0, "skipped": 0, "left_out": 0}


def lines_of(server):
    """The lines that the server says, as they come."""
    found = []

    def read():
        for line in server.process.stderr:
            found.append(line.decode())

    server.reading = threading.Thread(target=read, daemon=True)
    server.reading.start()
    return found


def wait_for(holds, seconds=20):
    """Whether it holds within so many seconds."""
    until = time.monotonic() + seconds
    while time.monotonic() < until:
        if holds():
            return True
        time.sleep(0.02)
    return holds()


def has(lines, beginning):
    return any(line.startswith(beginning) for line in lines)


def address(client):
    here = client.socket.getsockname() if isinstance(client, Client) else client.getsockname()
    return f"{here[0]}:{here[1]}"


def closes(plain, seconds=20):
    """After how many seconds the server closes the connection. None where it doesn't."""
    begun = time.monotonic()
    plain.settimeout(seconds)
    try:
        while plain.recv(65536):
            pass
    except TimeoutError:
        return None
    except OSError:
        pass
    return time.monotonic() - begun


def ask(relay, *words):
    return subprocess.run([relay, *words], stdout=subprocess.PIPE, stderr=subprocess.PIPE, text=True, timeout=60)


def connect(port, app="live"):
    client = Client(port)
    client.call(0, "connect", sockets.number(1), sockets.table(app=app, tcUrl="rtmp://127.0.0.1/live"))
    client.until(b"NetConnection.Connect.Success")
    return client


def refused(port, role, name):
    """A client whose publish or play is refused."""
    client = connect(port)
    client.call(0, "createStream", sockets.number(2), b"\x05")
    client.until(b"_result")
    client.call(1, role, sockets.number(3), b"\x05", sockets.text(name), sockets.text("live"))
    return client


def logged(relay, folder):
    """Each thing that a peer does is a line, and a key is in none."""
    streams = {"cam": f'publish = ["{KEY}"]', "open": ""}
    server = Server(relay, folder, streams, RELAY_LOG="debug")
    lines = lines_of(server)
    wants = []
    publisher = Client(server.port).open("publish", f"cam?{KEY}")
    wants += [f'{address(publisher)} connected to "live"\n', f'{address(publisher)} publishes "live/cam"\n']
    player = Client(server.port).open("play", f"cam?{KEY}")
    wants.append(f'{address(player)} plays "live/cam"\n')
    second = refused(server.port, "publish", f"cam?{KEY}")
    wants.append(f'{address(second)} refused: somebody publishes "live/cam"\n')
    wrong = refused(server.port, "publish", "cam?guess")
    wants.append(f'{address(wrong)} refused: wrong key for "live/cam"\n')
    # Nothing that a peer wrote stands outside of the quotation marks, or turns round what comes behind it.
    none = refused(server.port, "play", "a\x07\x1bb\u202e\u2028\u2066\"" + "x" * 100)
    wants.append(f'{address(none)} refused: no such stream, "live/a??b????{"x" * 50}"\n')
    publisher.socket.sendall(message(VIDEO, 0, 1, CONFIGURATION))
    publisher.call(0, "deleteStream", sockets.number(0), b"\x05", sockets.number(1))
    wants.append(f'{address(publisher)} left "live/cam"\n')
    expect(wait_for(lambda: wants[-1] in lines), "logged: a publisher that leaves isn't told")
    version = socket.create_connection(("127.0.0.1", server.port), timeout=20)
    version.sendall(b"\x06" + bytes(1536))
    wants.append(f"{address(version)} ended: asked for another version of RTMP, at byte 0; ")
    chunk = connect(server.port)
    chunk.socket.sendall(b"\xc0" + bytes(64))
    closes(chunk.socket)
    wants.append(f"{address(player)} ended: the peer closed the link; ")
    player.socket.shutdown(socket.SHUT_WR)
    closes(player.socket)
    reset = connect(server.port)
    wants.append(f"{address(reset)} ended: the link failed: Connection reset by peer (os error 104); ")
    reset.socket.setsockopt(socket.SOL_SOCKET, socket.SO_LINGER, struct.pack("ii", 1, 0))
    reset.close()
    for want in wants:
        expect(wait_for(lambda: has(lines, want)), f"logged: the log lacks {want!r}")
    for line in lines:
        if " ended: " in line:
            tally = re.search(r"; (\d+)\.\d s, (\d+) bytes in, (\d+) bytes out\n$", line)
            expect(tally, f"logged: {line!r} has no time and bytes")
            if tally and line.startswith(address(player)):
                expect(int(tally[2]) > 3073 and int(tally[3]) > 3073, f"logged: a player's bytes are {line!r}")
    at_chunk = [line for line in lines if line.startswith(address(chunk) + " ended: sent a chunk that is no chunk, at byte ")]
    expect(len(at_chunk) == 1, "logged: a broken chunk isn't told with its byte")
    expect(not [line for line in lines if KEY in line or "guess" in line], "logged: a key is in the log")
    server.kill()


def no_room(relay, folder):
    """In an open application without room for one more name, the log gives that as the reason for refusing a publish of another name."""
    server = Server(relay, folder, {}, '[[open]]\napp = "live"\nnames = 1', RELAY_LOG="info")
    lines = lines_of(server)
    publisher = Client(server.port).open("publish", "one")
    again, other = refused(server.port, "publish", "one"), refused(server.port, "publish", "two")
    wants = [
        f'{address(again)} refused: somebody publishes "live/one"\n',
        f'{address(other)} refused: no place is left at "live/two"\n',
    ]
    for want in wants:
        expect(wait_for(lambda: want in lines), f"no_room: the log lacks {want!r}")
    publisher.close()
    server.kill()


def quiet(relay, folder):
    """A level leaves out what is below it, and a value that is none is refused."""
    server = Server(relay, folder, {"cam": f'publish = ["{KEY}"]'}, "accept = 2", RELAY_LOG="warn")
    publisher = Client(server.port).open("publish", f"cam?{KEY}")
    wrong = refused(server.port, "publish", "cam?guess")
    wrong.until(b"NetStream.Publish.BadName")
    said = f'{address(wrong)} refused: wrong key for "live/cam"\n'
    wrong.leave()
    publisher.leave()
    ends = server.end()
    expect((ends[0], ends[2]) == (0, said), f"quiet: at warn it says {ends[2]!r}")
    config = os.path.join(folder, "relay.toml")
    for variable, value, wanted in (
        ("RELAY_LOG", "loud", "off, error, warn, info or debug"),
        ("RELAY_SILENCE", "-1", "a number of seconds"),
        ("RELAY_LOG_TIME", "yes", "0 or 1"),
        ("RELAY_GATHER", "501", "a number of milliseconds, 0 to 500"),
        ("RELAY_PROXIES", "10.0.0.1, ::1 10.0.0.0/8", "10.0.0.0/8: an IP address"),
    ):
        ran = subprocess.run([relay, "serve", config], env={**os.environ, variable: value}, capture_output=True, text=True, timeout=60)
        said = f"relay: {variable}: {wanted} is wanted\n"
        expect(ran.returncode == 2 and ran.stderr.startswith(said), f"quiet: {variable}={value} gives {ran.returncode}, {ran.stderr!r}")


def gathered(relay, folder):
    """Bytes for a player wait for more and then come, even if none follow."""
    server = Server(relay, folder, {"cam": ""}, "accept = 2", RELAY_GATHER="400")
    player = Client(server.port).open("play", "cam")
    publisher = Client(server.port).open("publish", "cam")
    publisher.push(VIDEO, 0, CONFIGURATION)
    seen = b""
    for number, body in enumerate((picture(b"one;"), picture(b"two;"))):
        sent = time.monotonic()
        publisher.push(VIDEO, 40 * number, body)
        while body[5:] not in seen:
            seen += player.receive()
        took = time.monotonic() - sent
        # The first frame follows bytes that wait already.
        expect(number == 0 or took > 0.2, f"gathered: a frame came after {took:.3f} s")
    publisher.leave()
    player.leave()
    expect(server.end()[0] == 0, "gathered: the server failed")


def patiently(begin):
    """What it begins, tried again where the server found it silent before it had come to its end."""
    for _ in range(20):
        try:
            return begin()
        except (OSError, EOFError):
            pass
    raise RuntimeError("it is closed again and again")


def lasting(begin):
    """The last of some that it begins, one where the machine is on time, and after how many seconds the server closes it; None where it
    doesn't. A worker's clock may be late on a busy machine, and then it closes too early."""
    for _ in range(5):
        begun = time.monotonic()
        client = patiently(begin)
        if closes(getattr(client, "socket", client), 60) is None:
            return client, None
        took = time.monotonic() - begun
        if took > 0.9:
            break
    return client, took


def silent(relay, folder):
    """Who is silent for a second goes, and who waits for a publisher stays."""
    server = Server(relay, folder, {"cam": "", "other": ""}, "workers = 2", RELAY_SILENCE="1", RELAY_LOG="warn")
    lines = lines_of(server)
    waiting = patiently(lambda: Client(server.port).open("play", "other"))

    def half():
        plain = socket.create_connection(("127.0.0.1", server.port), timeout=20)
        plain.sendall(b"\x03" + bytes(700))
        return plain

    def publisher():
        client = Client(server.port).open("publish", "cam")
        client.push(VIDEO, 0, CONFIGURATION)
        return client

    silences = {
        "one that says nothing": lambda: socket.create_connection(("127.0.0.1", server.port), timeout=20),
        "a half-open handshake": half,
        "one that neither publishes nor plays": lambda: connect(server.port),
        "a publisher that stops": publisher,
    }
    for name, begin in silences.items():
        client, took = lasting(begin)
        expect(took is not None and took > 0.9, f"silent: {name} is gone after {took} s")
        want = f"{address(client)} ended: silent for 1 s; "
        expect(wait_for(lambda: has(lines, want)), f"silent: {name} isn't told, the log has {lines}")
    # The name is free again.
    patiently(publisher)
    expect(not [line for line in lines if line.startswith(address(waiting) + " ")], "silent: a player that waits is gone")
    server.kill()


def stuck(relay, folder):
    """A player that takes nothing for three times as long goes, and another has all. Where the machine is so slow that others go too, or
    it goes too early, it is tried again."""
    for place in range(20):
        home = os.path.join(folder, str(place))
        os.mkdir(home)
        if is_stuck(relay, home):
            return
    fail("stuck: others go too, or it goes too early, again and again")


def is_stuck(relay, folder):
    """Whether the machine was on time."""
    server = Server(relay, folder, {"cam": ""}, "workers = 2", RELAY_SILENCE="1", RELAY_LOG="warn")
    lines = lines_of(server)
    try:
        publisher = Client(server.port).open("publish", "cam")
        publisher.push(VIDEO, 0, CONFIGURATION)
        stuck = Client(server.port, 4096).open("play", "cam")
        reader = Client(server.port).open("play", "cam")
    except (OSError, EOFError):
        server.kill()
        return False
    seen = []

    def read():
        try:
            while True:
                found = reader.reader.one()
                while found is None:
                    reader.reader.bytes += reader.receive()
                    found = reader.reader.one()
                if found[0] == VIDEO:
                    seen.append(found[1])
        except (OSError, EOFError):
            pass

    threading.Thread(target=read, daemon=True).start()
    said = f"{address(stuck)} ended: silent for 3 s; "
    sent, begun = [CONFIGURATION], time.monotonic()
    # The system keeps some megabytes for it. All together is less than the stream's window.
    try:
        while not has(lines, said) and time.monotonic() - begun < 60:
            sent.append(picture(b"%d;" % len(sent), 60000 if len(sent) < 80 else 20000))
            publisher.push(VIDEO, 10 * len(sent), sent[-1])
            if len(sent) >= 80:
                time.sleep(0.05)
    except OSError:
        pass
    on_time = time.monotonic() - begun > 2.9 and not [line for line in lines if not line.startswith(said)]
    if on_time:
        expect(has(lines, said), "stuck: a player that takes nothing stays")
        expect(wait_for(lambda: len(seen) == len(sent)) and seen == sent, f"stuck: of {len(sent)} units the other player has {len(seen)}, or others")
    server.kill()
    return on_time


def stats(relay, folder):
    """What is told of a server, in a table and in JSON, is what is done."""
    path = os.path.join(folder, "control")
    server = Server(relay, folder, {"cam": "", "other": ""}, "workers = 2", RELAY_CONTROL=path)
    expect(stat.S_IMODE(os.stat(path).st_mode) == 0o600, "stats: others may use the socket")
    for _ in range(2):
        publisher = Client(server.port).open("publish", "cam")
        publisher.push(VIDEO, 0, CONFIGURATION)
        if _ == 0:
            publisher.leave()
    players = [Client(server.port).open("play", "cam") for _ in range(5)]
    waiting = Client(server.port).open("play", 'other')
    publisher.push(VIDEO, 40, picture(b"one", 5000))
    told = {}

    def is_told():
        nonlocal told
        told = json.loads(ask(relay, "stats", path, "--json").stdout)
        return len(told["links"]) == 7 and all(link["sent"] > 8000 for link in told["links"] if link["name"] == "cam" and link["does"] == "plays")

    expect(wait_for(is_told), f"stats: it tells {told}")
    links = {link["address"]: link for link in told["links"]}
    mine = links.get(address(publisher), {})
    expect((mine.get("does"), mine.get("app"), mine.get("name")) == ("publishes", "live", "cam"), f"stats: the publisher is {mine}")
    expect(mine.get("received", 0) > 8000 and mine.get("behind", 1) is None, f"stats: the publisher is {mine}")
    does = sorted(link["does"] for link in told["links"])
    expect(does == ["plays"] * 6 + ["publishes"], f"stats: the links do {does}")
    streams = {stream["name"]: stream for stream in told["streams"]}
    nothing = {"jumps": 0, "skipped": 0, "left_out": 0}
    want = {"app": "live", "name": "cam", "publisher": address(publisher), "players": 5, "broadcasts": 2, **nothing}
    expect(streams.get("cam") == want, f"stats: the stream is {streams.get('cam')}")
    want = {"app": "live", "name": "other", "publisher": None, "players": 1, "broadcasts": 0, **nothing}
    expect(streams.get("other") == want, f"stats: the other stream is {streams.get('other')}")
    expect({link["over"] for link in told["links"]} == {"rtmp"}, f"stats: the links are {told['links']}")
    table = ask(relay, "stats", path)
    expect(table.returncode == 0 and len(table.stdout.splitlines()) == 3 + 7 + 2 + 2, f"stats: the table is {table.stdout!r}")
    expect(all(address(client) in table.stdout for client in players + [waiting]), "stats: the table lacks a player")
    head = "PUBLISHER PLAYERS BROADCASTS JUMPS SKIPPED LEFT OUT STREAM".split()
    row = [address(publisher), "5", "2", "0", "0", "0", "live/cam"]
    rows = [line.split() for line in table.stdout.splitlines()]
    expect(head in rows and row in rows, f"stats: the table is {table.stdout!r}")
    # Nobody else may have the path, and what is no question is no answer.
    config = os.path.join(folder, "relay.toml")
    second = subprocess.run([relay, "serve", config], env={**os.environ, "RELAY_CONTROL": path}, capture_output=True, text=True, timeout=60)
    expect(second.returncode == 7 and "Address already in use" in second.stderr, f"stats: a second server says {second.stderr!r}")
    plain = socket.socket(socket.AF_UNIX)
    plain.connect(path)
    plain.sendall(b"x" * 1000)
    expect(closes(plain) is not None, "stats: who asks nonsense is kept")
    slow = socket.socket(socket.AF_UNIX)
    slow.connect(path)
    expect(ask(relay, "stats", path).returncode == 0, "stats: one who says nothing keeps others from asking")
    server.kill()
    gone = ask(relay, "stats", path)
    said = f"relay: {path}: Connection refused (os error 111)\nrelay: status 11 at 0\n"
    expect((gone.returncode, gone.stderr) == (11, said), f"stats: of a dead server {gone}")
    with tempfile.TemporaryDirectory() as other:
        again = Server(relay, other, {"cam": ""}, RELAY_CONTROL=path)
        expect(ask(relay, "stats", path).returncode == 0, "stats: a socket that was left isn't replaced")
        again.kill()
        os.remove(path)
        open(path, "w").write("mine")
        third = subprocess.run([relay, "serve", config], env={**os.environ, "RELAY_CONTROL": path}, capture_output=True, text=True, timeout=60)
        expect(third.returncode == 7 and open(path).read() == "mine", "stats: a file is taken for a socket")


def stopped(relay, folder):
    """A server that is told to stop: players are sent all that was published and its end, the recording has it, the report comes."""
    path = os.path.join(folder, "control")
    server = Server(relay, folder, {"cam": 'flv = "cam.flv"'}, "workers = 2", RELAY_CONTROL=path, RELAY_LOG="info")
    lines = lines_of(server)
    publisher = Client(server.port).open("publish", "cam")
    publisher.push(VIDEO, 0, CONFIGURATION)
    idle = connect(server.port)
    heard = {}

    def play(place):
        player = Client(server.port).open("play", "cam")
        heard[place] = ([], [])
        try:
            while True:
                found = player.reader.one()
                while found is None:
                    player.reader.bytes += player.receive()
                    found = player.reader.one()
                heard[place][0 if found[0] == VIDEO else 1].append(found[1])
        except EOFError:
            heard[place][1].append(b"closed")
            player.close()
        except OSError as error:
            heard[place][1].append(repr(error).encode())

    playing = [threading.Thread(target=play, args=(place,), daemon=True) for place in range(12)]
    for thread in playing:
        thread.start()
    expect(wait_for(lambda: len(heard) == 12 and all(video for video, _ in heard.values())), "stopped: not all play")
    going = True

    def publish():
        place = 0
        try:
            # Less than the stream's window, so that no player is passed.
            while going and place < 1000:
                publisher.push(VIDEO, 10 * place, picture(b"%d;" % place, 20000))
                place += 1
                time.sleep(0.002)
        except OSError:
            pass

    pushing = threading.Thread(target=publish, daemon=True)
    pushing.start()
    expect(wait_for(lambda: all(len(video) > 50 for video, _ in heard.values())), "stopped: not all are sent pictures")
    stop = ask(relay, "stop", path)
    expect((stop.returncode, stop.stdout, stop.stderr) == (0, "", ""), f"stopped: `stop` ends with {stop}")
    status = server.process.wait(60)
    report = server.process.stdout.read().decode()
    going = False
    expect(status == 0 and report.startswith("stream 0 began 1 pushed "), f"stopped: it ends with {status}, {report!r}")
    expect(not os.path.exists(path), "stopped: its socket is left")
    for thread in playing:
        thread.join(20)
    recorded = [body for _, _, body in tags(open(os.path.join(folder, "cam.flv"), "rb").read())]
    pushed = int(report.split()[5]) if report else -1
    expect(len(recorded) == pushed, f"stopped: of {pushed} units the recording has {len(recorded)}")
    for place, (video, others) in heard.items():
        expect(others[-1] == b"closed" and any(b"UnpublishNotify" in body for body in others), f"stopped: player {place} ends with {others[-2:]}")
        expect(video == recorded[-len(video):], f"stopped: player {place} lacks what was recorded")
    server.reading.join(20)
    ends = [line for line in lines if " ended: the relay stops; " in line]
    expect(len(ends) == 14, f"stopped: of 14 connections {len(ends)} are told to have ended so")
    closes(idle.socket)


class Acknowledging:
    """A player that takes all at once and acknowledges it as often as it is told to, in a thread of its own."""

    def __init__(self, port):
        self.player = Client(port).open("play", "cam")
        self.seen, self.ended, self.told, self.count = [], False, False, 0
        self.player.socket.settimeout(0.05)
        self.thread = threading.Thread(target=self.read, daemon=True)
        self.every = 0.01
        self.thread.start()

    def acknowledge(self):
        self.player.socket.sendall(message(3, 0, 0, struct.pack(">I", self.count)))

    def read(self):
        last = time.monotonic()
        try:
            self.acknowledge()
            while True:
                try:
                    piece = self.player.receive()
                    self.count += len(piece)
                    self.player.reader.bytes += piece
                except TimeoutError:
                    pass
                while (found := self.player.reader.one()) is not None:
                    self.told |= b"UnpublishNotify" in found[1]
                    if found[0] == VIDEO:
                        self.seen.append(found[1])
                if self.every and time.monotonic() - last >= self.every:
                    last = time.monotonic()
                    self.acknowledge()
        except (EOFError, OSError):
            self.ended = True


def held_back(relay, folder):
    """A player that is sent no more until it acknowledges: it is behind, and a stop waits for it as long as it acknowledges."""
    path = os.path.join(folder, "control")
    server = Server(relay, folder, {"cam": ""}, "workers = 2\nwindow = 65536", RELAY_CONTROL=path)
    publisher = Client(server.port).open("publish", "cam")
    publisher.push(VIDEO, 0, CONFIGURATION)
    slow, stopping, fast = players = [Acknowledging(server.port) for _ in range(3)]
    expect(wait_for(lambda: all(one.seen for one in players)), "held_back: not all play")
    time.sleep(0.2)
    slow.every = stopping.every = None
    sent = [CONFIGURATION] + [picture(b"%d;" % place, 20000) for place in range(40)]
    for place, body in enumerate(sent[1:]):
        publisher.push(VIDEO, place, body)
    expect(wait_for(lambda: len(fast.seen) == len(sent)), f"held_back: of {len(sent)} units one that acknowledges has {len(fast.seen)}")
    time.sleep(1.2)
    told = json.loads(ask(relay, "stats", path, "--json").stdout)
    behind = {link["address"]: link["behind"] for link in told["links"]}
    expect(len(slow.seen) < len(sent), "held_back: nothing is held back")
    expect(behind.get(address(slow.player), 0) > 0.5, f"held_back: a player that is held back is {behind} behind")
    expect(behind.get(address(fast.player), 1) == 0, f"held_back: a player that keeps up is {behind} behind")
    begun = time.monotonic()
    slow.every = 0.2
    threading.Thread(target=ask, args=(relay, "stop", path), daemon=True).start()
    expect(wait_for(lambda: slow.ended) and slow.seen == sent and slow.told, f"held_back: at a stop a player has {len(slow.seen)} of {len(sent)} units")
    server.process.wait(60)
    took = time.monotonic() - begun
    expect(len(stopping.seen) < len(sent) and 4.5 < took < 20, f"held_back: a player that stopped to acknowledge is let go after {took:.1f} s")
    server.kill()


def frame(marker, disposable, length):
    """An inter frame of one NAL unit, to which other frames refer if it isn't disposable."""
    nal = (b"\x01" if disposable else b"\x41") + marker.ljust(length, b"\xa5")
    return b"\x27\x01\x00\x00\x00" + struct.pack(">I", len(nal)) + nal


def frames_until(player, last):
    """The number of frames that a player is sent from now on up to the last one."""
    count = 0
    while True:
        found = player.reader.one()
        if found is None:
            player.reader.bytes += player.receive()
        elif found[0] == VIDEO and found[1][1] == 1:
            count += 1
            if found[1] == last:
                return count


def missed(relay, folder):
    """The messages that players miss are counted for each stream: those that a slow player jumps over, and disposable frames that a player
    that lags isn't sent. The counts stay when the players are gone. A player that keeps up misses nothing."""
    path = os.path.join(folder, "control")
    names, lines = ("cam", "lags", "jumps", "web"), 'workers = 2\nring_items = 128\nhttp = "127.0.0.2:0"'
    server = Server(relay, folder, {name: "" for name in names}, lines, RELAY_CONTROL=path, RELAY_SEND_BUFFER="16384", RELAY_LOG="info")
    said = lines_of(server)
    begins = "relay: listens on 127.0.0.2:"
    expect(wait_for(lambda: has(server.said + said, begins)), f"missed: the server says {server.said + said}")
    web_port = next(int(line[len(begins):]) for line in server.said + said if line.startswith(begins))
    fast = Acknowledging(server.port)
    lags, jumps = (Client(server.port, 16384).open("play", name) for name in ("lags", "jumps"))
    web = socket.socket()
    web.settimeout(20)
    web.setsockopt(socket.SOL_SOCKET, socket.SO_RCVBUF, 16384)
    web.connect(("127.0.0.2", web_port))
    web.sendall(b"GET /live/web.flv HTTP/1.0\r\n\r\n")
    expect(wait_for(lambda: has(said, f'{address(web)} plays "live/web"')), f"missed: the log has {said}")
    publishers = {name: Client(server.port).open("publish", name) for name in names}
    sent = {name: [] for name in names}

    def push(name, body):
        publishers[name].push(VIDEO, 40 * len(sent[name]), body)
        if body[1] == 1:
            sent[name].append(body)

    for name in names:
        push(name, CONFIGURATION)
    # The system and the server keep some 30 frames for a player that doesn't read. So that of "lags" is more than half of the window behind at
    # the end, and never out of it. The other two fall out of it.
    for place in range(180):
        for name in names:
            if name != "lags" or place < 120:
                marker, length = b"%d;" % place, 200 if name == "cam" else 4000
                key = place % 20 == 0 if name != "lags" else place == 0
                push(name, picture(marker, length) if key else frame(marker, name in ("cam", "lags") and place % 2 == 1, length))
        # The player that keeps up is never far behind.
        if not wait_for(lambda: len(fast.seen) > len(sent["cam"]) - 30):
            raise RuntimeError(f"a player that reads has {len(fast.seen)} of {len(sent['cam'])} frames")
    came = {"lags": frames_until(lags, sent["lags"][-1]), "jumps": frames_until(jumps, sent["jumps"][-1])}
    read, last = bytearray(), sent["web"][-1]
    while last not in read[-len(last) - 4:]:
        piece = web.recv(65536)
        if not piece:
            raise EOFError("the answer over HTTP ends")
        read += piece
    came["web"] = sum(kind == VIDEO and body[1] == 1 for kind, _, body in tags(bytes(read).split(b"\r\n\r\n", 1)[1]))
    expect(wait_for(lambda: len(fast.seen) == 181), f"missed: a player that reads has {len(fast.seen)} of 181 units")

    def told():
        return {stream["name"]: stream for stream in json.loads(ask(relay, "stats", path, "--json").stdout)["streams"]}

    def counts(name):
        return {key: streams[name][key] for key in NOTHING}

    streams = told()
    expect(counts("cam") == NOTHING, f"missed: a player that keeps up misses {counts('cam')}")
    expect(counts("lags")["jumps"] == counts("lags")["skipped"] == 0 < counts("lags")["left_out"], f"missed: a player that lags misses {counts('lags')}")
    for name in ("jumps", "web"):
        expect(counts(name)["jumps"] > 0 and counts(name)["skipped"] > 0, f"missed: a player that falls out of the window misses {counts(name)}")
    for name, count in came.items():
        whole = count + counts(name)["skipped"] + counts(name)["left_out"]
        expect(whole == len(sent[name]), f"missed: of {len(sent[name])} frames of {name} {count} came and {counts(name)} are told")
    row = [address(publishers["jumps"]), "1", "1", *(str(counts("jumps")[key]) for key in NOTHING), "live/jumps"]
    table = ask(relay, "stats", path).stdout
    expect(row in [line.split() for line in table.splitlines()], f"missed: the table is {table!r}")
    before = streams
    lags.close()
    jumps.close()
    web.close()
    gone = lambda: all((streams := told())[name]["players"] == 0 for name in came)
    expect(wait_for(gone), "missed: the players don't go")
    streams = told()
    expect(all(counts(name) == {key: before[name][key] for key in NOTHING} for name in names), f"missed: once players are gone {streams} are told")
    server.kill()


def full(relay, folder):
    """Nobody reads the log: connections are served all the same, and the lines that were lost are counted."""
    server = Server(relay, folder, {"cam": ""}, RELAY_LOG="debug")
    fcntl.fcntl(server.process.stderr.fileno(), 1031, 4096)
    for _ in range(2):
        for _ in range(20):
            Client(server.port).open("play", "cam").close()
            refused(server.port, "play", "x" * 64).close()
        # Of one kind 20 lines are logged in a second.
        time.sleep(1)
    publisher = Client(server.port).open("publish", "cam")
    publisher.push(VIDEO, 0, CONFIGURATION)
    player = Client(server.port).open("play", "cam")
    while True:
        found = player.reader.one()
        if found is None:
            player.reader.bytes += player.receive()
        elif found[0] == VIDEO:
            break
    lines = lines_of(server)

    def is_told():
        Client(server.port).open("play", "cam").close()
        return any(line.startswith("relay: lost ") and line.endswith(" lines of the log\n") for line in lines)

    expect(wait_for(is_told), "full: lost lines aren't counted")
    player.close()
    server.kill()
    # And one that is closed ends nothing.
    folder = os.path.join(folder, "closed")
    os.mkdir(folder)
    server = Server(relay, folder, {"cam": ""}, "accept = 2")
    server.process.stderr.close()
    Client(server.port).open("play", "cam").close()
    Client(server.port).open("play", "cam").close()
    expect(server.process.wait(20) == 0, "full: a server whose log nobody can read ends otherwise")


def crowded(relay, folder):
    """A connection that finds no place is told, and served once there is one."""
    server = Server(relay, folder, {"cam": ""}, "workers = 1\nlinks = 2", RELAY_LOG="warn")
    lines = lines_of(server)
    players = [Client(server.port).open("play", "cam") for _ in range(2)]
    third = socket.create_connection(("127.0.0.1", server.port), timeout=20)
    want = "relay: a connection waits, since all places for links are taken, 2 of them at this worker\n"
    expect(wait_for(lambda: want in lines), f"crowded: the log has {lines}")
    players[0].close()
    third.sendall(b"\x03" + bytes(1536))
    expect(len(third.recv(1)) == 1, "crowded: who waited isn't served")
    server.kill()


def recorded(relay, folder):
    """What is told of recordings: a pipe whose reader comes late, a file, and a device that takes nothing. Who plays over HTTP is told from others."""
    path, pipe = os.path.join(folder, "control"), os.path.join(folder, "pipe")
    os.mkfifo(pipe)
    streams = {"cam": f'flv = "{pipe}"\nts = "cam.ts"', "other": 'flv = "/dev/full"'}
    server = Server(relay, folder, streams, 'http = "127.0.0.2:0"', RELAY_CONTROL=path, RELAY_LOG="info", RELAY_LOG_TIME="1")
    lines = lines_of(server)
    wait_for(lambda: any("listens on 127.0.0.2:" in line for line in server.said + lines))
    web = next(line for line in server.said + lines if "listens on 127.0.0.2:" in line)
    publisher = Client(server.port).open("publish", "cam")
    player = socket.create_connection(("127.0.0.2", int(web.rsplit(":", 1)[1])), timeout=20)
    player.sendall(b"GET /live/cam.flv HTTP/1.0\r\n\r\n")
    bodies = [CONFIGURATION] + [picture(b"%d;" % n, 30000) for n in range(20)]
    for n, body in enumerate(bodies):
        publisher.push(VIDEO, 40 * n, body)
        if n == 0:
            # The pipe has room for some of it. Its reader comes while a worker waits for it, or before.
            came = bytearray()
            reading = threading.Thread(target=lambda: came.extend(open(pipe, "rb").read()), daemon=True)
            reading.start()
    told = {}

    def is_told():
        nonlocal told
        told = json.loads(ask(relay, "stats", path, "--json").stdout)
        files = {one["file"]: one for one in told["recordings"]}
        return files[pipe]["bytes"] > 600000 and files["cam.ts"]["bytes"] > 600000 and len(told["links"]) == 2

    expect(wait_for(is_told), f"recorded: it tells {told}")
    files = {one["file"]: one for one in told["recordings"]}
    expect(list(files) == [pipe, "cam.ts", "/dev/full"], f"recorded: the recordings are {list(files)}")
    expect(files[pipe]["fault"] is None and "No space left" in (files["/dev/full"]["fault"] or ""), f"recorded: the faults are {files}")
    expect(sorted(link["over"] for link in told["links"]) == ["http", "rtmp"], f"recorded: the links are {told['links']}")
    table = ask(relay, "stats", path).stdout
    expect("/dev/full  No space left on device" in table and " http " in table, f"recorded: the table is {table!r}")
    expect(ask(relay, "stop", path).returncode == 0, "recorded: it doesn't stop")
    server.process.wait(60)
    reading.join(20)
    expect([body for _, _, body in tags(bytes(came))] == bodies, f"recorded: the pipe's reader has {len(came)} bytes, or others")
    server.reading.join(20)
    lines = server.said + lines
    dated = [line for line in lines if re.match(r"20\d\d-\d\d-\d\dT\d\d:\d\d:\d\d\.\d{3}Z ", line)]
    expect(dated == lines and len(lines) > 4, f"recorded: lines without the time: {[line for line in lines if line not in dated]}")


TESTS = [recorded, logged, no_room, quiet, gathered, silent, stuck, stats, stopped, held_back, missed, full, crowded]


def main():
    signal.signal(signal.SIGPIPE, signal.SIG_IGN)
    # What hangs ends all.
    signal.alarm(600)
    relay, wanted = os.path.abspath(sys.argv[1]), sys.argv[2:]
    for test in TESTS:
        if wanted and test.__name__ not in wanted:
            continue
        with tempfile.TemporaryDirectory() as folder:
            try:
                test(relay, folder)
            except (OSError, EOFError, RuntimeError, ValueError, subprocess.TimeoutExpired) as error:
                fail(f"{test.__name__}: {error!r}")
    sys.exit(sockets.failures > 0)


if __name__ == "__main__":
    main()
