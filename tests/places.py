#!/usr/bin/env python3
"""Tests of who has a place at `relay serve`, and for how long, over real sockets: tests/places.py RELAY [TEST..]

Publishers that give way, strangers that keep places, guessed keys, answers over HTTP that end, and what the system keeps for a slow viewer.
All run side by side. Prints a line for each failure, and ends with status 1 if there was one. Times are bounded from below, and from above
by much more than they take.
"""
import json
import os
import signal
import socket
import subprocess
import sys
import tempfile
import threading
import time

import sockets
from operate import address, ask, closes, connect, lines_of, refused, wait_for
from sockets import CONFIGURATION, VIDEO, Client, Server, expect, fail, message, number, picture, table, text

ANSWER = b"HTTP/1.1 200 OK\r\nContent-Type: video/x-flv\r\nConnection: close\r\n\r\n"
FULL = b"HTTP/1.1 503 Service Unavailable\r\nContent-Length: 0\r\nConnection: close\r\n\r\n"


def says(lines, want):
    """Whether a line begins so."""
    return any(line.startswith(want) for line in lines)


def over_http(relay, folder, lines, **variables):
    """A server of one stream that listens for HTTP players too, the lines that it says, and its port for them."""
    server = Server(relay, folder, {"cam": ""}, f'http = "127.0.0.2:0"\n{lines}', **variables)
    said = lines_of(server)
    begin = "relay: listens on 127.0.0.2:"
    wait_for(lambda: any(line.startswith(begin) for line in server.said + said))
    port = next(int(line[len(begin):]) for line in server.said + said if line.startswith(begin))
    return server, said, port


def get(port, path="/live/cam.flv"):
    client = socket.create_connection(("127.0.0.2", port), timeout=20)
    client.sendall(f"GET {path} HTTP/1.1\r\nHost: relay\r\n\r\n".encode())
    return client


def told_of(relay, path):
    return json.loads(ask(relay, "stats", path, "--json").stdout)


def publishes(port, name="cam"):
    """Whether one more client may publish."""
    client = refused(port, "publish", name)
    while True:
        _, body = client.command()
        if b"NetStream.Publish." in body:
            client.close()
            return b"NetStream.Publish.Start" in body


def gives_way(relay, folder):
    """Who gives nothing for two seconds loses its name to another that asks, and who gives something doesn't."""
    server = Server(relay, folder, {"cam": "", "other": ""}, "workers = 2", RELAY_SILENCE="60", RELAY_LOG="info")
    lines = lines_of(server)
    dead = Client(server.port).open("publish", "cam")
    begun = time.monotonic()
    dead.push(VIDEO, 0, CONFIGURATION)
    lively = Client(server.port).open("publish", "other")
    going = True

    def push():
        while going:
            lively.push(VIDEO, 0, CONFIGURATION)
            time.sleep(0.1)

    pushing = threading.Thread(target=push, daemon=True)
    pushing.start()
    expect(not publishes(server.port), "gives_way: two publish at a time")
    while not publishes(server.port) and time.monotonic() - begun < 20:
        expect(not publishes(server.port, "other"), "gives_way: who gives bytes loses its name")
        time.sleep(0.3)
    took = time.monotonic() - begun
    expect(1.5 < took < 10, f"gives_way: the name is free after {took:.1f} s")
    want = f"{address(dead)} ended: silent for 2 s; "
    expect(wait_for(lambda: says(lines, want)), f"gives_way: the log lacks {want!r}")
    expect(not [line for line in lines if line.startswith(f"{address(lively)} ended")], "gives_way: the other publisher is gone")
    going = False
    pushing.join()
    server.kill()


def without_limit(relay, folder):
    """Where a connection may be silent for ever, half a request has 5 seconds all the same, and who gives nothing for two gives way."""
    server, lines, port = over_http(relay, folder, "workers = 2", RELAY_SILENCE="0", RELAY_LOG="warn")
    half = socket.create_connection(("127.0.0.2", port), timeout=20)
    half.sendall(b"GET /live/cam")
    asked = time.monotonic()
    idle = connect(server.port)
    dead = Client(server.port).open("publish", "cam")
    begun = time.monotonic()
    dead.push(VIDEO, 0, CONFIGURATION)
    while not publishes(server.port) and time.monotonic() - begun < 20:
        time.sleep(0.3)
    took = time.monotonic() - begun
    expect(1.5 < took < 10, f"without_limit: the name is free after {took:.1f} s")
    want = f"{address(dead)} ended: silent for 2 s; "
    expect(wait_for(lambda: says(lines, want)), f"without_limit: the log lacks {want!r}")
    gone = closes(half) is not None
    took = time.monotonic() - asked
    expect(gone and 4 < took < 12, f"without_limit: half a request is there for {took:.1f} s")
    want = f"{address(half)} ended: silent for 5 s; "
    expect(wait_for(lambda: says(lines, want)), f"without_limit: the log lacks {want!r}")
    # Who neither publishes nor plays stays.
    expect(not [line for line in lines if line.startswith(address(idle))], f"without_limit: the log has {lines}")
    server.kill()


def eight_seconds(relay, folder):
    """Without a word a publisher may be silent for 8 seconds, and another for 20."""
    server = Server(relay, folder, {"cam": ""}, "workers = 1", RELAY_SILENCE="", RELAY_LOG="warn")
    lines = lines_of(server)
    idle = connect(server.port)
    publisher = Client(server.port).open("publish", "cam")
    took = closes(publisher.socket)
    expect(took is not None and 7 < took < 15, f"eight_seconds: a silent publisher is gone after {took} s")
    expect(wait_for(lambda: says(lines, f"{address(publisher)} ended: silent for 8 s; ")), f"eight_seconds: the log has {lines}")
    expect(not [line for line in lines if line.startswith(address(idle))], "eight_seconds: who doesn't publish is gone too")
    server.kill()


def slow(relay, folder):
    """A player that reads nothing is behind soon, since the system keeps little for it, and ends when it was said."""
    path = os.path.join(folder, "control")
    server = Server(relay, folder, {"cam": ""}, "workers = 1", RELAY_SILENCE="2", RELAY_CONTROL=path, RELAY_SEND_BUFFER="131072", RELAY_LOG="warn")
    lines = lines_of(server)
    publisher = Client(server.port).open("publish", "cam")
    publisher.push(VIDEO, 0, CONFIGURATION)
    player = Client(server.port, 4096).open("play", "cam")
    rose, sent, behind, begun, place = time.monotonic(), 0, 0.0, time.monotonic(), 0
    while time.monotonic() - begun < 40:
        # Some 4 Mbit/s.
        publisher.push(VIDEO, 40 * place, picture(b"%d;" % place, 20000))
        place += 1
        time.sleep(0.04)
        if place % 5:
            continue
        links = {link["address"]: link for link in told_of(relay, path)["links"]}
        mine = links.get(address(player))
        if mine is None:
            break
        if mine["sent"] > sent:
            rose, sent = time.monotonic(), mine["sent"]
        behind = max(behind, mine["behind"])
    took = time.monotonic() - rose
    expect(sent < 1_500_000, f"slow: the system keeps {sent} bytes for a player that reads nothing")
    expect(behind > 3, f"slow: it is at most {behind} s behind")
    want = f"{address(player)} ended: silent for 6 s; "
    expect(wait_for(lambda: says(lines, want)), f"slow: the log has {lines}")
    expect(4.5 < took < 9, f"slow: it ends {took:.1f} s after the system took something last")
    server.kill()


def timers(port):
    """Which timer the system runs for each connection that a server has at this port: 2 is that of keep-alive."""
    found = []
    for line in open("/proc/net/tcp").read().splitlines()[1:]:
        words = line.split()
        if int(words[1].split(":")[1], 16) == port and words[3] == "01":
            found.append(int(words[5].split(":")[0], 16))
    return found


def kept_alive(relay, folder):
    """The system asks a silent peer whether it is there: each that comes, an origin, and the server of `push` and `pull`."""
    server = Server(relay, folder, {"cam": ""})
    player = Client(server.port).open("play", "cam")
    expect(wait_for(lambda: timers(server.port) == [2]), f"kept_alive: the timers are {timers(server.port)}")
    player.close()
    server.kill()
    with socket.create_server(("127.0.0.1", 0)) as listener:
        port = listener.getsockname()[1]
        config = os.path.join(folder, "relay.toml")
        for words in (["edge", config, f"127.0.0.1:{port}", "live", "cam"], ["pull", f"127.0.0.1:{port}", "live", "cam"]):
            process = subprocess.Popen([relay, *words], stdin=subprocess.DEVNULL, stdout=subprocess.DEVNULL, stderr=subprocess.DEVNULL)
            peer, (_, other) = listener.accept()
            peer.recv(1537, socket.MSG_WAITALL)
            expect(wait_for(lambda: timers(other) == [2]), f"kept_alive: of {words[0]} the timers are {timers(other)}")
            process.kill()
            process.wait()
            peer.close()


def strangers(relay, folder):
    """Idle connections give their places up, the oldest first, where an encoder waits for one. Players that wait don't."""
    server = Server(relay, folder, {"cam": ""}, "workers = 2\nlinks = 2", RELAY_LOG="warn")
    lines = lines_of(server)
    player = Client(server.port).open("play", "cam")
    idle = [socket.create_connection(("127.0.0.1", server.port), timeout=20)]
    time.sleep(0.2)
    idle += [socket.create_connection(("127.0.0.1", server.port), timeout=20), connect(server.port)]
    begun = time.monotonic()
    publisher = Client(server.port).open("publish", "cam")
    took = time.monotonic() - begun
    expect(took < 10, f"strangers: an encoder waits for {took:.1f} s")
    publisher.push(VIDEO, 0, CONFIGURATION)
    want = f"{address(idle[0])} ended: its place was given to one that waited; "
    expect(wait_for(lambda: says(lines, want)), f"strangers: the log has {lines}")
    expect(closes(idle[0]) is not None, "strangers: the oldest is still there")
    others = (address(player), address(publisher), "relay: a connection waits")
    expect(not [line for line in lines if line.startswith(others)], f"strangers: the log has {lines}")
    while (found := player.reader.one()) is None or found[0] != VIDEO:
        player.reader.bytes += player.receive() if found is None else b""
    server.kill()


def one_address(relay, folder):
    """One address has at most so many connections."""
    server = Server(relay, folder, {"cam": ""}, "workers = 2", RELAY_ADDRESS_LINKS="2", RELAY_LOG="warn")
    lines = lines_of(server)
    first, second = (Client(server.port).open("play", "cam") for _ in range(2))
    third = socket.create_connection(("127.0.0.1", server.port), timeout=20)
    took = closes(third)
    expect(took is not None and took < 5, f"one_address: a third connection is there for {took} s")
    want = f"{address(third)} turned away: its address has as many links as it may\n"
    expect(wait_for(lambda: says(lines, want)), f"one_address: the log has {lines}")
    second.close()

    def is_served():
        try:
            Client(server.port).close()
            return True
        except (OSError, EOFError):
            return False

    expect(wait_for(is_served), "one_address: another isn't served when one is gone")
    other = socket.socket()
    other.bind(("127.0.0.3", 0))
    other.connect(("127.0.0.1", server.port))
    other.sendall(b"\x03" + bytes(1536))
    other.settimeout(20)
    expect(len(other.recv(1)) == 1, "one_address: another address isn't served")
    first.close()
    server.kill()


def waiting(relay, folder):
    """A player waits for a broadcast for so long, and one that has a broadcast stays."""
    server = Server(relay, folder, {"cam": "", "other": ""}, "workers = 2", RELAY_WAIT="2", RELAY_LOG="warn")
    lines = lines_of(server)
    publisher = Client(server.port).open("publish", "cam")
    player = Client(server.port).open("play", "cam")
    waits = Client(server.port).open("play", "other")
    took = closes(waits.socket)
    expect(took is not None and 1.5 < took < 10, f"waiting: who waits is gone after {took} s")
    want = f"{address(waits)} ended: nobody published for 2 s; "
    expect(wait_for(lambda: says(lines, want)), f"waiting: the log has {lines}")
    time.sleep(1.5)
    expect(not [line for line in lines if line.startswith(address(player))], "waiting: who has a broadcast is gone")
    publisher.close()
    took = closes(player.socket)
    expect(took is not None and 1.5 < took < 10, f"waiting: who had a broadcast is gone {took} s after it")
    server.kill()


def farewells(relay, folder):
    """Those who were answered and don't close keep no place, and half a request has 5 seconds."""
    server, _, port = over_http(relay, folder, "links = 64", RELAY_SILENCE="20")
    half = socket.create_connection(("127.0.0.2", port), timeout=20)
    half.sendall(b"GET /live/cam")
    begun = time.monotonic()
    gone, longest = [], 0.0
    for _ in range(80):
        since = time.monotonic()
        client = get(port, "/live/none.flv")
        expect(client.recv(12, socket.MSG_WAITALL) == b"HTTP/1.1 404", "farewells: a stranger is answered otherwise")
        gone.append(client)
        longest = max(longest, time.monotonic() - since)
    since = time.monotonic()
    viewer = get(port)
    expect(viewer.recv(15, socket.MSG_WAITALL) == ANSWER[:15], "farewells: a viewer is answered otherwise")
    longest = max(longest, time.monotonic() - since)
    expect(longest < 2.5, f"farewells: one waits for {longest:.1f} s behind those who were answered")
    half.settimeout(20)
    expect(half.recv(1) == b"", "farewells: half a request is answered")
    took = time.monotonic() - begun
    expect(4 < took < 12, f"farewells: half a request is there for {took:.1f} s")
    for client in gone + [viewer]:
        client.close()
    server.kill()


def guesses(relay, folder):
    """A link ends after its third refusal, and the log has 20 lines a second of those."""
    server = Server(relay, folder, {"cam": 'publish = ["secret"]'}, "workers = 2", RELAY_LOG="warn")
    lines, begun = lines_of(server), time.monotonic()
    for _ in range(30):
        client = connect(server.port)
        client.call(0, "createStream", number(2), b"\x05")
        client.until(b"_result")
        guess = lambda key: message(20, 0, 1, text("publish") + number(3) + b"\x05" + text(f"cam?{key}") + text("live"))
        client.socket.sendall(b"".join(guess(f"guess{place}") for place in range(200)))
        answers = 0
        try:
            while True:
                answers += b"NetStream.Publish.BadName" in client.command()[1]
        except EOFError:
            pass
        expect(3 <= answers < 200, f"guesses: {answers} of 200 guesses are answered")
        client.close()
    more = lambda: [line for line in lines if line.startswith("relay: and ") and line.endswith(" more: refused: wrong key\n")]
    shown = lambda: [line for line in lines if line.endswith(' refused: wrong key for "live/cam"\n')]
    left = lambda: sum(int(line.split()[2].replace(",", "")) for line in more())
    most = 20 * (int(time.monotonic() - begun) + 2)
    expect(wait_for(lambda: len(shown()) + left() >= 90), f"guesses: of 90 refusals {len(shown())} are shown and {left()} counted")
    expect(20 <= len(shown()) <= most, f"guesses: {len(shown())} refusals are shown, of {most} at most")
    expect([line for line in lines if " ended: refused too often; " in line], f"guesses: the log has {lines[-3:]}")
    server.kill()


def over(relay, folder):
    """An answer over HTTP ends when its broadcast has ended, and one that waits for its first doesn't."""
    server, lines, port = over_http(relay, folder, "workers = 1", RELAY_LOG="info")
    publisher = Client(server.port).open("publish", "cam")
    publisher.push(VIDEO, 0, CONFIGURATION)
    publisher.push(VIDEO, 0, picture(b"first"))
    viewer = get(port)
    came = b""
    while b"first" not in came:
        came += viewer.recv(65536)
    publisher.push(VIDEO, 40, picture(b"last"))
    # An encoder that stalls for longer ends nothing.
    time.sleep(3)
    publisher.leave()
    begun = time.monotonic()
    waits = get(port)
    while piece := viewer.recv(65536):
        came += piece
    took = time.monotonic() - begun
    expect(b"last" in came, "over: a viewer lacks the end")
    expect(took < 8, f"over: the answer ends after {took:.1f} s")
    want = f"{address(viewer)} ended: the broadcast is over; "
    viewer.close()
    expect(wait_for(lambda: says(lines, want)), f"over: the log has {lines[-4:]}")
    time.sleep(3)
    waits.settimeout(0.1)
    expect(waits.recv(65, socket.MSG_WAITALL) == ANSWER, "over: who waits is answered otherwise")
    try:
        while waits.recv(65536):
            pass
        fail("over: who waits for its first broadcast is gone")
    except TimeoutError:
        pass
    waits.close()
    server.kill()


def counted(relay, folder):
    """A link's last bytes, which are sent as it ends, are among those that the log tells."""
    server, lines, port = over_http(relay, folder, "workers = 1", RELAY_LOG="info")
    stranger = get(port, "/live/none.flv")
    answer = b""
    while piece := stranger.recv(65536):
        answer += piece
    want = f"{address(stranger)} ended: answered 404; "
    expect(wait_for(lambda: says(lines, want)), f"counted: the log lacks {want!r}, it has {lines}")
    expect(answer and lines[-1].endswith(f", {len(answer)} bytes out\n"), f"counted: {len(answer)} bytes are told as {lines[-1:]}")
    stranger.close()
    server.kill()


def no_place(relay, folder):
    """A viewer over HTTP that finds no place is answered at once."""
    server, lines, port = over_http(relay, folder, "links = 2", RELAY_LOG="warn")
    viewers = [get(port) for _ in range(2)]
    for viewer in viewers:
        expect(viewer.recv(65, socket.MSG_WAITALL) == ANSWER, "no_place: a viewer is answered otherwise")
    time.sleep(1.5)
    for _ in range(3):
        begun = time.monotonic()
        third = get(port)
        came = b""
        while piece := third.recv(65536):
            came += piece
        took = time.monotonic() - begun
        third.close()
        expect(came == FULL and took < 0.9, f"no_place: after {took:.2f} s the answer is {came}")
    want = " turned away: all places for players are taken\n"
    expect(wait_for(lambda: any(line.endswith(want) for line in lines)), f"no_place: the log has {lines}")
    viewers[0].close()
    expect(wait_for(lambda: get(port).recv(15, socket.MSG_WAITALL) == ANSWER[:15], 5), "no_place: a place that is free is given to nobody")
    server.kill()


# The fields of a request that comes by a proxy, and the address that is shown; None is that of the proxy's own end.
FORWARDED = [
    (["X-Forwarded-For: 203.0.113.1"], "203.0.113.1"),
    (["x-forwarded-for:198.51.100.1,\t203.0.113.2 , "], "203.0.113.2"),
    (["X-Forwarded-For: 198.51.100.1", "Accept: */*", "X-FORWARDED-FOR: 203.0.113.3"], "203.0.113.3"),
    (["X-Forwarded-For: 203.0.113.4, 10.0.0.1, 127.0.0.7"], "203.0.113.4"),
    (["X-Forwarded-For: 203.0.113.5", "X-Forwarded-For: 10.0.0.1"], "203.0.113.5"),
    (["X-Forwarded-For: 10.0.0.1, 127.0.0.7"], "10.0.0.1"),
    (["X-Forwarded-For: unknown, 203.0.113.6"], "203.0.113.6"),
    (["X-Forwarded-For: 2001:DB8:0::6, ::1"], "2001:db8::6"),
    (["X-Forwarded-For: 203.0.113.7, unknown"], None),
    (["X-Forwarded-For: 203.0.113.8, unknown, 10.0.0.1"], None),
    (["X-Forwarded-For: 203.0.113.9:80"], None),
    (["X-Forwarded-For: \"203.0.113.9\" \u2028"], None),
    (["X-Forwarded-For: "], None),
    (["X-Forwarded-Fox: 203.0.113.10", "X-Forwarded-For-: 203.0.113.11", "Forwarded: for=203.0.113.12"], None),
    (["Accept: */*", "", "X-Forwarded-For: 203.0.113.13"], None),
    ([], None),
]


def forwarded(relay, folder):
    """By a proxy in front the log and the statistics tell who asks, and by nobody else."""
    path = os.path.join(folder, "control")
    proxies = "127.0.0.7, 10.0.0.1 ::1"
    server, lines, port = over_http(relay, folder, "workers = 1", RELAY_LOG="info", RELAY_CONTROL=path, RELAY_PROXIES=proxies)

    def asks(source, fields, name="cam", piece=4096):
        client = socket.socket()
        client.settimeout(20)
        client.bind((source, 0))
        client.connect(("127.0.0.2", port))
        client.setsockopt(socket.IPPROTO_TCP, socket.TCP_NODELAY, 1)
        head = "".join(f"{line}\r\n" for line in ["", f"GET /live/{name}.flv HTTP/1.1", "Host: relay", *fields, ""]).encode()
        for place in range(0, len(head), piece):
            client.sendall(head[place:place + piece])
            time.sleep(0.01 if piece < len(head) else 0)
        return client

    def is_told(client, who):
        want = f'{who} plays "live/cam"\n'
        expect(wait_for(lambda: want in lines), f"forwarded: the log lacks {want!r}, it has {lines[-3:]}")
        links = lambda: [link["address"] for link in told_of(relay, path)["links"]]
        expect(wait_for(lambda: links() == [who]), f"forwarded: the links are {links()}, and not {who}")
        client.close()
        want = f"{who} ended: "
        expect(wait_for(lambda: says(lines, want)), f"forwarded: the log lacks {want!r}, it has {lines[-3:]}")
        lines.clear()

    for fields, who in FORWARDED:
        for piece in (4096, 7):
            client = asks("127.0.0.7", fields, piece=piece)
            expect(client.recv(65, socket.MSG_WAITALL) == ANSWER, f"forwarded: {fields} are answered otherwise")
            is_told(client, who or address(client))
    client = asks("127.0.0.8", FORWARDED[0][0])
    is_told(client, address(client))
    client = asks("127.0.0.7", FORWARDED[0][0], "none")
    expect(wait_for(lambda: says(lines, "203.0.113.1 ended: answered 404; ")), f"forwarded: a refusal is told as {lines}")
    client.close()
    # More than a request may have: the proxy's own address stays.
    client = asks("127.0.0.7", [FORWARDED[0][0][0], "X: " + "x" * 5000])
    expect(wait_for(lambda: says(lines, f"{address(client)} ended: answered 400; ")), f"forwarded: too long a head is told as {lines}")
    client.close()
    server.kill()


def names(relay, folder):
    """After 1,024 names of an open application another is told, in place of the oldest that nobody has."""
    path = os.path.join(folder, "control")
    server = Server(relay, folder, {}, 'workers = 1\n[[open]]\napp = "live"\nnames = 4', RELAY_CONTROL=path)
    first = Client(server.port).open("publish", "n0")
    client = connect(server.port)
    call = lambda stream, name, *values: message(20, 0, stream, text(name) + b"".join(values))
    for begin in range(1, 1030, 50):
        places = range(begin, min(begin + 50, 1030))
        client.socket.sendall(b"".join(
            call(0, "createStream", number(2), b"\x05") + call(1, "publish", number(3), b"\x05", text(f"n{place}"), text("live"))
            + call(0, "deleteStream", number(0), b"\x05", number(1)) for place in places))
        for _ in places:
            client.until(b"NetStream.Publish.Start")
    told = {stream["name"] for stream in told_of(relay, path)["streams"]}
    expect({"n0", "n1029"} <= told and len(told) == 1024 and "n1" not in told, f"names: of {len(told)} names: {sorted(told)[:4]}")
    first.close()
    server.kill()


TESTS = [gives_way, without_limit, eight_seconds, slow, kept_alive, strangers, one_address, waiting, farewells, guesses, over, counted, no_place, forwarded,
         names]


def run(test, relay):
    with tempfile.TemporaryDirectory() as folder:
        try:
            test(relay, folder)
        except (OSError, EOFError, RuntimeError, ValueError, KeyError, subprocess.TimeoutExpired) as error:
            fail(f"{test.__name__}: {error!r}")


def main():
    signal.signal(signal.SIGPIPE, signal.SIG_IGN)
    # What hangs ends all.
    signal.alarm(300)
    relay, wanted = os.path.abspath(sys.argv[1]), sys.argv[2:]
    tests = [threading.Thread(target=run, args=(test, relay)) for test in TESTS if not wanted or test.__name__ in wanted]
    for thread in tests:
        thread.start()
    for thread in tests:
        thread.join()
    sys.exit(sockets.failures > 0)


if __name__ == "__main__":
    main()
