#!/usr/bin/env python3
"""Tests of `relay edge` over real sockets, with `relay serve` as the origin: tests/edge.py RELAY [TEST..]

Prints a line for each failure, and ends with status 1 if there was one. Times are bounded from above by much more than they take.
"""
import os
import signal
import socket
import subprocess
import sys
import tempfile
import time

import sockets
from operate import ask, lines_of, wait_for
from sockets import CONFIGURATION, VIDEO, Client, Server, expect, fail, picture

INTER = b"\x27\x01\x00\x00\x00" + (5).to_bytes(4, "big") + b"\x41"


def folders(folder, *names):
    for name in names:
        home = os.path.join(folder, name)
        os.mkdir(home)
        yield home


def edge(relay, folder, port, lines="", name="cam", names=None, **variables):
    """An edge of the stream of that name of the server at that port."""
    variables = {"RELAY_LOG": "info", **variables}
    return Server(relay, folder, {"cam": ""} if names is None else names, lines, origin=(f"127.0.0.1:{port}", "live", name), **variables)


def begin(port, name="cam"):
    publisher = Client(port).open("publish", name)
    publisher.push(VIDEO, 0, CONFIGURATION)
    return publisher


def inter(marker):
    return INTER + marker


def pictures(player, count):
    """The next so many pictures that a player is sent."""
    found = []
    while len(found) < count:
        message = player.reader.one()
        if message is None:
            player.reader.bytes += player.receive()
        elif message[0] == VIDEO and message[1][1] == 1:
            found.append(message[1])
    return found


def told(player, code):
    """Goes on until the player is told this."""
    player.until(b"NetStream.Play." + code)


def says(lines, text):
    return any(text in line for line in lines)


def close(server, *clients):
    for client in clients:
        client.close()
    server.kill()


def relayed(relay, folder):
    """What a player of the edge is sent is what is published at the origin: from the beginning, and from the newest keyframe on for one that
    comes later. A second broadcast follows."""
    home, other = folders(folder, "origin", "edge")
    origin = Server(relay, home, {"cam": ""})
    here = edge(relay, other, origin.port)
    lines = lines_of(here)
    expect(wait_for(lambda: says(lines, f'origin 127.0.0.1:{origin.port} plays "live/cam"')), f"relayed: the edge says {lines}")
    early = Client(here.port).open("play", "cam")
    for turn in range(2):
        sent = [picture(b"first"), inter(b"a"), inter(b"b"), picture(b"second"), inter(b"c")]
        publisher = begin(origin.port)
        for place, body in enumerate(sent):
            publisher.push(VIDEO, 40 * place, body)
        expect(pictures(early, 5) == sent, f"relayed: broadcast {turn} comes otherwise")
        late = Client(here.port).open("play", "cam")
        expect(pictures(late, 2) == sent[3:], f"relayed: a late player of broadcast {turn} begins elsewhere")
        publisher.leave()
        told(early, b"UnpublishNotify")
        told(late, b"UnpublishNotify")
        late.close()
    close(here, early)
    origin.kill()


def lost(relay, folder):
    """Where the origin is gone the players of the edge are told the end, the edge says why, and the server goes on."""
    home, other = folders(folder, "origin", "edge")
    origin = Server(relay, home, {"cam": ""})
    here = edge(relay, other, origin.port, "accept = 3")
    lines = lines_of(here)
    player = Client(here.port).open("play", "cam")
    publisher = begin(origin.port)
    publisher.push(VIDEO, 0, picture(b"last"))
    pictures(player, 1)
    origin.process.kill()
    told(player, b"UnpublishNotify")
    expect(wait_for(lambda: says(lines, f"origin 127.0.0.1:{origin.port} ended: ")), f"lost: the edge says {lines}")
    again = begin(here.port)
    again.push(VIDEO, 0, picture(b"own"))
    expect(pictures(player, 1) == [picture(b"own")], "lost: nobody else can publish then")
    again.leave()
    player.close()
    Client(here.port).close()
    here.reading.join(30)
    out = here.process.stdout.read().decode()
    expect(here.process.wait(30) == 0, f"lost: the edge ends with status {here.process.returncode}")
    words = ("edge peerclosed\n", "edge linkfault\n")
    expect(out.endswith(words) and out.startswith("stream 0 began 2 pushed 4 ended 2 joined 1 "), f"lost: the report is {out!r}")
    origin.process.communicate()
    publisher.close()


def nobody(relay, folder):
    """Nobody listens at the origin's address: the edge says so, and serves."""
    free = socket.socket()
    free.bind(("127.0.0.1", 0))
    port = free.getsockname()[1]
    here = edge(relay, folder, port, "accept = 1")
    lines = lines_of(here)
    want = f"origin 127.0.0.1:{port} ended: the link failed: Connection refused (os error 111)"
    expect(wait_for(lambda: says(here.said + lines, want)), f"nobody: the edge says {here.said}, {lines}")
    Client(here.port).open("play", "cam").close()
    out, status = here.process.stdout.read().decode(), here.process.wait(30)
    here.reading.join(30)
    expect((status, out) == (0, "stream 0 began 0 pushed 0 ended 0 joined 1 skips 0\nedge linkfault\n"), f"nobody: {status}, {out!r}")
    free.close()


def refused(relay, folder):
    """The origin has no such stream. A key is in no line."""
    home, other = folders(folder, "origin", "edge")
    origin = Server(relay, home, {"cam": ""})
    here = edge(relay, other, origin.port, "accept = 1", name="none?hunter2")
    lines = lines_of(here)
    want = f'origin 127.0.0.1:{origin.port} refused "live/none": it has no such stream, or wants another key'
    expect(wait_for(lambda: says(here.said + lines, want)), f"refused: the edge says {here.said}, {lines}")
    Client(here.port).open("play", "cam").close()
    out, status = here.process.stdout.read().decode(), here.process.wait(30)
    here.reading.join(30)
    expect(not says(here.said + lines, "hunter2"), "refused: the log has a key")
    expect(status == 0 and out.endswith("edge refused\n"), f"refused: {status}, {out!r}")
    origin.kill()


def in_use(relay, folder):
    """Somebody publishes at the edge's stream before the origin has anything."""
    home, other = folders(folder, "origin", "edge")
    origin = Server(relay, home, {"cam": ""})
    here = edge(relay, other, origin.port, "accept = 1")
    lines = lines_of(here)
    expect(wait_for(lambda: says(here.said + lines, 'plays "live/cam"')), "in use: the origin doesn't play")
    own = begin(here.port)
    publisher = begin(origin.port)
    want = f"origin 127.0.0.1:{origin.port} isn't pulled: somebody publishes here"
    expect(wait_for(lambda: says(lines, want)), f"in use: the edge says {lines}")
    own.leave()
    out, status = here.process.stdout.read().decode(), here.process.wait(30)
    expect(status == 0 and out.endswith("edge inuse\n"), f"in use: {status}, {out!r}")
    publisher.close()
    origin.kill()


def stopped(relay, folder):
    """A word to stop ends the pull: players are sent what there was, and told the end."""
    home, other = folders(folder, "origin", "edge")
    origin = Server(relay, home, {"cam": ""})
    path = os.path.join(other, "control")
    here = edge(relay, other, origin.port, RELAY_CONTROL=path)
    player = Client(here.port).open("play", "cam")
    publisher = begin(origin.port)
    publisher.push(VIDEO, 0, picture(b"last"))
    expect(pictures(player, 1) == [picture(b"last")], "stopped: the picture doesn't come")
    told_of = ask(relay, "stats", path, "--json")
    expect('"does": "is pulled", "app": "live", "name": "cam"' in told_of.stdout, f"stopped: its statistics are {told_of.stdout}")
    stop = subprocess.Popen([relay, "stop", path])
    told(player, b"UnpublishNotify")
    out, err = here.process.communicate(timeout=60)
    expect(here.process.returncode == 0 and out.endswith(b"edge peerclosed\n"), f"stopped: {here.process.returncode}, {out}")
    expect(b"ended: the relay stops" in err, f"stopped: the edge says {err}")
    expect(stop.wait(20) == 0, "stopped: the word isn't answered")
    close(origin, publisher, player)


def chained(relay, folder):
    """Two edges behind an edge."""
    home, *others = folders(folder, "origin", "first", "second", "third")
    origin = Server(relay, home, {"cam": ""})
    first = edge(relay, others[0], origin.port)
    ends = [edge(relay, other, first.port) for other in others[1:]]
    for server in (first, *ends):
        lines = lines_of(server)
        expect(wait_for(lambda: says(lines, 'plays "live/cam"')), f"chained: an edge says {lines}")
    players = [Client(server.port).open("play", "cam") for server in (origin, first, *ends)]
    publisher = begin(origin.port)
    sent = [picture(b"%d" % place) if place % 10 == 0 else inter(b"%d" % place) for place in range(100)]
    for place, body in enumerate(sent):
        publisher.push(VIDEO, 40 * place, body)
    for place, player in enumerate(players):
        expect(pictures(player, 100) == sent, f"chained: player {place} is sent something else")
    publisher.leave()
    for player in players:
        told(player, b"UnpublishNotify")
        player.close()
    for server in (*ends, first, origin):
        server.kill()


def silent(relay, folder):
    """An origin that accepts and says nothing is given up after a time."""
    mute = socket.create_server(("127.0.0.1", 0))
    here = edge(relay, folder, mute.getsockname()[1], RELAY_SILENCE="1")
    lines = lines_of(here)
    expect(wait_for(lambda: says(here.said + lines, "ended: silent for 1 s")), f"silent: the edge says {here.said}, {lines}")
    close(here)
    mute.close()


def vanishes(relay, folder):
    """An origin that freezes during a broadcast is given up after a time, and the edge's players are told the end. Before and between broadcasts
    it may be silent for longer."""
    home, other = folders(folder, "origin", "edge")
    origin = Server(relay, home, {"cam": ""})
    here = edge(relay, other, origin.port, RELAY_SILENCE="3")
    lines = lines_of(here)
    expect(wait_for(lambda: says(here.said + lines, 'plays "live/cam"')), f"vanishes: the edge says {here.said}, {lines}")
    player = Client(here.port).open("play", "cam")
    over = f"origin 127.0.0.1:{origin.port} ended: "
    for turn in range(2):
        # Longer than the origin may be silent during a broadcast.
        time.sleep(5)
        expect(not says(lines, over), f"vanishes: an origin that waits before broadcast {turn} is given up: {lines}")
        publisher = begin(origin.port)
        # A broadcast counts from a second after it began.
        for place in range(20):
            publisher.push(VIDEO, 100 * place, picture(b"%d;" % place))
            time.sleep(0.1)
        expect(len(pictures(player, 20)) == 20, f"vanishes: broadcast {turn} doesn't come")
        if turn == 0:
            publisher.leave()
            told(player, b"UnpublishNotify")
    begun = time.monotonic()
    origin.process.send_signal(signal.SIGSTOP)
    told(player, b"UnpublishNotify")
    took = time.monotonic() - begun
    expect(2.5 < took < 15, f"vanishes: the players are told the end after {took:.1f} s")
    expect(wait_for(lambda: says(lines, f"{over}silent for 3 s; ")), f"vanishes: the edge says {lines}")
    again = begin(here.port)
    again.push(VIDEO, 0, picture(b"own"))
    expect(pictures(player, 1) == [picture(b"own")], "vanishes: nobody else can publish then")
    origin.process.send_signal(signal.SIGCONT)
    close(here, again, player, publisher)
    origin.kill()


def alone(relay, folder):
    """An edge whose links are all gone ends, though its origin lives. Where its first place is an open table it says that nobody can ask for it."""
    home, other = folders(folder, "origin", "edge")
    origin = Server(relay, home, {"cam": ""})
    here = edge(relay, other, origin.port, 'accept = 1\n[[open]]\napp = "show"\nnames = 2', names={})
    want = "it lists no stream, so nobody can ask for what the origin sends"
    expect(says(here.said, want), f"alone: the edge says {here.said}")
    Client(here.port).close()
    out, err = here.process.communicate(timeout=60)
    expect(here.process.returncode == 0, f"alone: status {here.process.returncode}")
    expect(out.decode() == "open 0 began 0 pushed 0 ended 0 joined 0 skips 0\nedge peerclosed\n", f"alone: the report is {out}")
    origin.kill()


TESTS = [relayed, lost, nobody, refused, in_use, stopped, chained, silent, vanishes, alone]


def main():
    signal.signal(signal.SIGPIPE, signal.SIG_IGN)
    # What hangs ends all.
    signal.alarm(600)
    relay, wanted = os.path.abspath(sys.argv[1]), sys.argv[2:]
    for test in TESTS:
        if wanted and test.__name__ not in wanted:
            continue
        with tempfile.TemporaryDirectory() as folder:
            try:
                test(relay, folder)
            except (OSError, EOFError, RuntimeError, ValueError, subprocess.TimeoutExpired) as error:
                fail(f"{test.__name__}: {error!r}")
    sys.exit(sockets.failures > 0)


if __name__ == "__main__":
    main()
