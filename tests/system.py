#!/usr/bin/env python3
"""Tests of `relay serve` where the system gives it little: tests/system.py RELAY [TEST..]

Nobody reads its log, it stands still, there are no descriptors or threads for it, its start fails, it is ended by a signal. Prints a line for
each failure, and ends with status 1 if there was one. Times are bounded from above by much more than they take.
"""
import fcntl
import json
import os
import re
import resource
import select
import shutil
import signal
import socket
import subprocess
import sys
import tempfile
import threading
import time

import sockets
from operate import address, ask, closes, lines_of, wait_for
from sockets import CONFIGURATION, VIDEO, Client, Server, expect, fail, picture, tags

ROOT = os.path.dirname(os.path.dirname(os.path.abspath(__file__)))
ROOM = 4096


def free_port():
    with socket.create_server(("127.0.0.1", 0)) as listener:
        return listener.getsockname()[1]


def configure(folder, names, lines="", port=0):
    """The name of a configuration's file. `names` has more lines for each stream."""
    config = os.path.join(folder, "relay.toml")
    with open(config, "w") as out:
        out.write(f'[relay]\nlisten = "127.0.0.1:{port}"\n{lines}\n')
        for name, more in names.items():
            out.write(f'[[stream]]\napp = "live"\nname = "{name}"\n{more}\n')
    return config


def full_pipe():
    """A pipe that is full, and how many bytes it has."""
    reader, writer = os.pipe()
    fcntl.fcntl(writer, fcntl.F_SETPIPE_SZ, ROOM)
    os.set_blocking(writer, False)
    count = 0
    try:
        while True:
            count += os.write(writer, b"." * ROOM)
    except BlockingIOError:
        os.set_blocking(writer, True)
    return reader, writer, count


def next_picture(player):
    """The body of the next message with a picture."""
    while True:
        found = player.reader.one()
        if found is None:
            player.reader.bytes += player.receive()
        elif found[0] == VIDEO:
            return found[1]


def unread(relay, folder):
    """A server whose log is full from the beginning starts and serves, faults of recordings stop nobody, and what was lost is counted."""
    port, path, count = free_port(), os.path.join(folder, "control"), 8
    names = {f"cam{n}": f'flv = "cam{n}.flv"' for n in range(count)}
    config = configure(folder, names, "workers = 1", port)
    reader, writer, filled = full_pipe()
    limit = lambda: resource.setrlimit(resource.RLIMIT_FSIZE, (1000, 1000))
    variables = {**os.environ, "RELAY_LOG": "error", "RELAY_SILENCE": "0", "RELAY_CONTROL": path}
    server = subprocess.Popen([relay, "serve", config], cwd=folder, env=variables, stdout=subprocess.DEVNULL, stderr=writer, preexec_fn=limit)
    try:
        expect(wait_for(lambda: os.path.exists(path) and ask(relay, "stats", path).returncode == 0), "unread: a server with a full log doesn't start")
        publishers = [Client(port).open("publish", name) for name in names]
        player = Client(port).open("play", f"cam{count - 1}")
        for publisher in publishers:
            publisher.push(VIDEO, 0, CONFIGURATION)
        begun = time.monotonic()
        for publisher in publishers:
            publisher.push(VIDEO, 40, picture(b"one", 2000))
        while b"one" not in next_picture(player):
            pass
        took = time.monotonic() - begun
        expect(took < count / 2, f"unread: a picture comes {took:.1f} s late, since {count} recordings say why they end")
        # Where it listens, and one line for each recording.
        lost = json.loads(ask(relay, "stats", path, "--json").stdout)["lost_lines"]
        expect(lost == 1 + count, f"unread: {lost} lines are lost, and not {1 + count}")
        os.read(reader, filled)
        Client(port).close()
        expect(ask(relay, "stop", path).returncode == 0 and server.wait(20) == 0, "unread: it ends otherwise")
    finally:
        server.kill()
        os.close(reader)
        os.close(writer)


def stood(relay, folder):
    """A server that stood still for longer than its silence ends nobody who sent something meanwhile. Who asks it gives up after 10 seconds."""
    path = os.path.join(folder, "control")
    server = Server(relay, folder, {"cam": ""}, RELAY_SILENCE="8", RELAY_CONTROL=path, RELAY_LOG="warn")
    lines = lines_of(server)
    publisher = Client(server.port).open("publish", "cam")
    publisher.push(VIDEO, 0, CONFIGURATION)
    player = Client(server.port).open("play", "cam")
    expect(next_picture(player) == CONFIGURATION, "stood: another picture comes first")
    server.process.send_signal(signal.SIGSTOP)
    begun = time.monotonic()
    asking = [subprocess.Popen([relay, "stats", path], stdout=subprocess.PIPE, stderr=subprocess.PIPE, text=True) for _ in range(20)]
    publisher.push(VIDEO, 40, picture(b"meanwhile"))
    for one in asking:
        out, err = one.communicate(timeout=60)
        expect((one.returncode, out, err) == (11, "", f"relay: {path}: timed out\nrelay: status 11 at 0\n"), f"stood: `stats` ends with {one.returncode}, {err!r}")
    took = time.monotonic() - begun
    expect(9.5 < took < 30, f"stood: `stats` gives up after {took:.1f} s")
    server.process.send_signal(signal.SIGCONT)
    expect(b"meanwhile" in next_picture(player), "stood: what was sent meanwhile isn't played")
    publisher.push(VIDEO, 80, picture(b"after"))
    expect(b"after" in next_picture(player), "stood: the publisher is gone")
    expect(ask(relay, "stats", path).returncode == 0, "stood: it doesn't answer any more")
    expect(not lines, f"stood: the log has {lines}")
    server.kill()


def unanswered(relay, folder):
    """A stop that nobody answers is given up after 10 seconds, and one that is answered may take longer."""
    ends = {}

    def stop(name, answer):
        path = os.path.join(folder, name)
        with socket.socket(socket.AF_UNIX) as listener:
            listener.bind(path)
            listener.listen()
            begun = time.monotonic()
            asking = subprocess.Popen([relay, "stop", path], stdout=subprocess.PIPE, stderr=subprocess.PIPE, text=True)
            peer, _ = listener.accept()
            peer.recv(100)
            peer.sendall(answer)
            if answer:
                time.sleep(12)
                peer.close()
            out, err = asking.communicate(timeout=60)
            ends[name] = asking.returncode, out, time.monotonic() - begun

    both = [threading.Thread(target=stop, args=each) for each in (("silent", b""), ("slow", b"stops\n"))]
    for one in both:
        one.start()
    for one in both:
        one.join(60)
    status, out, took = ends["silent"]
    expect((status, out) == (11, "") and 9.5 < took < 30, f"unanswered: a stop without an answer ends with {status} after {took:.1f} s")
    status, out, took = ends["slow"]
    expect((status, out) == (0, "") and took > 11.5, f"unanswered: a stop that takes long ends with {status} after {took:.1f} s")


def without_descriptors(relay, folder):
    """Where there is no descriptor that is said once, and who waits is heard when there are some again."""
    path = os.path.join(folder, "control")
    server = Server(relay, folder, {"cam": ""}, "workers = 1\nlinks = 64", RELAY_CONTROL=path, RELAY_LOG="warn")
    lines = lines_of(server)
    Client(server.port).close()
    pid = server.process.pid
    limit = resource.prlimit(pid, resource.RLIMIT_NOFILE)
    used = lambda: max(map(int, os.listdir(f"/proc/{pid}/fd"))) + 1
    wait_for(lambda: json.loads(ask(relay, "stats", path, "--json").stdout)["links"] == [])
    time.sleep(0.2)
    resource.prlimit(pid, resource.RLIMIT_NOFILE, (used(), limit[1]))
    waiting = [socket.create_connection(("127.0.0.1", server.port), timeout=20) for _ in range(8)]
    said = "relay: a connection waits, since the system refuses it: Too many open files (os error 24)\n"
    expect(wait_for(lambda: said in lines), f"without_descriptors: the log has {lines}")
    asking = subprocess.Popen([relay, "stats", path], stdout=subprocess.PIPE, stderr=subprocess.PIPE)
    time.sleep(1.5)
    expect(lines.count(said) == 1, f"without_descriptors: it is said {lines.count(said)} times")
    expect(asking.poll() is None, "without_descriptors: there are descriptors")
    resource.prlimit(pid, resource.RLIMIT_NOFILE, limit)
    expect(asking.wait(20) == 0, f"without_descriptors: `stats` ends with {asking.returncode}")
    for one in waiting:
        one.sendall(b"\x03" + bytes(1536))
        expect(len(one.recv(1)) == 1, "without_descriptors: who waited isn't served")
    server.kill()
    # At the start it is said how many there are, and how many it needs. All links together have as many, and each is served.
    few = lambda: resource.setrlimit(resource.RLIMIT_NOFILE, (80, 80))
    config = configure(folder, {"cam": 'flv = "cam.flv"\nts = "cam.ts"'}, "workers = 1\nlinks = 64")
    process = subprocess.Popen([relay, "serve", config], cwd=folder, env={**os.environ, "RELAY_LOG": "warn"}, stderr=subprocess.PIPE, text=True, preexec_fn=few)
    line = process.stderr.readline()
    told = re.fullmatch(r"relay: all links together need (\d+) descriptors, and the system gives 80\n", line)
    expect(told is not None and 64 < int(told[1]) < 120, f"without_descriptors: at the start it says {line!r}")
    process.kill()
    process.communicate()


def enough(relay, folder):
    """With as many descriptors as it says that it needs, it has one for each link, each recording and who asks."""
    path, links = os.path.join(folder, "control"), 64
    lines = f'http = "127.0.0.2:0"\nworkers = 2\nlinks = {links}'
    config = configure(folder, {"cam": 'flv = "cam.flv"\nts = "cam.ts"'}, lines)
    few = lambda limit: lambda: resource.setrlimit(resource.RLIMIT_NOFILE, (limit, limit))
    variables = {**os.environ, "RELAY_LOG": "warn", "RELAY_CONTROL": path, "RELAY_SILENCE": "0"}
    begin = lambda limit: subprocess.Popen([relay, "serve", config], cwd=folder, env=variables, stderr=subprocess.PIPE, text=True, preexec_fn=few(limit))
    first = begin(100)
    need = int(re.search(r"need (\d+) ", first.stderr.readline())[1])
    first.kill()
    first.communicate()
    server = begin(need)
    line = server.stderr.readline()
    expect(line.startswith("relay: listens on 127.0.0.1:"), f"enough: with all that it needs it says {line!r}")
    port = int(line.rsplit(":", 1)[1])
    http = int(server.stderr.readline().rsplit(":", 1)[1])
    clients = [socket.create_connection(("127.0.0.1", port), timeout=20) for _ in range(2 * links)]
    viewers = [socket.create_connection(("127.0.0.2", http), timeout=20) for _ in range(links)]
    for viewer in viewers:
        viewer.sendall(b"GET /live/cam.flv HTTP/1.1\r\n\r\n")
    askers = []
    for _ in range(16):
        askers.append(socket.socket(socket.AF_UNIX))
        askers[-1].connect(path)
    count = lambda: len(os.listdir(f"/proc/{server.pid}/fd"))
    expect(wait_for(lambda: count() >= 3 * links + 16), f"enough: of {3 * links} connections and 16 who ask not all are taken")
    expect(not select.select([server.stderr], [], [], 0.5)[0], "enough: it lacks something")
    expect(need - 24 <= count() <= need, f"enough: it says that it needs {need} descriptors, and has {count()}")
    server.kill()
    server.communicate()


def failing(relay, folder):
    """A start that fails doesn't say that it listens."""
    config = configure(folder, {"cam": 'flv = "none/cam.flv"'})
    ran = subprocess.run([relay, "serve", config], cwd=folder, capture_output=True, text=True, timeout=60)
    said = "relay: none/cam.flv: No such file or directory (os error 2)\nrelay: status 7 at 0\n"
    expect((ran.returncode, ran.stderr) == (7, said), f"failing: it ends with {ran.returncode}, {ran.stderr!r}")
    # Nor does it wait for a reader to say why it fails.
    reader, writer, _ = full_pipe()
    begun = time.monotonic()
    status = subprocess.run([relay, "serve", config], cwd=folder, stderr=writer, timeout=60).returncode
    expect(status == 7 and time.monotonic() - begun < 15, f"failing: with a full log it ends with {status} after {time.monotonic() - begun:.1f} s")
    os.close(reader)
    os.close(writer)


def as_stranger(folder, most):
    """What a child does before it is a program: it is a user whom the system gives so many threads."""
    def change():
        if os.geteuid() == 0:
            os.setgid(61234)
            os.setuid(61234)
        resource.setrlimit(resource.RLIMIT_NPROC, (most, most))

    os.chmod(folder, 0o777)
    return change


def without_threads(relay, folder):
    """A start with fewer threads than workers is refused. Where that can't be known, who asks is answered by the first worker that runs."""
    own = os.path.join(folder, "relay")
    shutil.copy(relay, own)
    os.chmod(own, 0o755)
    path, config = os.path.join(folder, "control"), configure(folder, {"cam": ""}, "workers = 4")
    variables = {**os.environ, "RELAY_CONTROL": path, "RELAY_LOG": "warn"}
    ran = subprocess.run([own, "serve", config], cwd=folder, env=variables, capture_output=True, text=True, timeout=60, preexec_fn=as_stranger(folder, 1))
    said = "relay: the system gives threads to 1 of 4 workers, and each needs one\nrelay: status 7 at 0\n"
    expect((ran.returncode, ran.stderr) == (7, said), f"without_threads: a start ends with {ran.returncode}, {ran.stderr!r}")
    expect(not os.path.exists(path), "without_threads: a socket is left")
    # A configuration that is read from a pipe can't be looked at beforehand.
    pipe = os.path.join(folder, "pipe")
    os.mkfifo(pipe)
    os.chmod(pipe, 0o666)
    server = subprocess.Popen([own, "serve", pipe], cwd=folder, env=variables, stderr=subprocess.PIPE, text=True, preexec_fn=as_stranger(folder, 1))
    with open(pipe, "w") as out:
        out.write(open(config).read())
    line = server.stderr.readline()
    expect(line.startswith("relay: listens on "), f"without_threads: it says {line!r}")
    expect(ask(relay, "stats", path).returncode == 0, "without_threads: nobody answers")
    server.kill()
    server.wait()
    server.stderr.close()


def told_to_stop(relay, folder):
    """A server that stops listens no more: who waits is reset, and who comes is refused, while a player still takes what is left."""
    path = os.path.join(folder, "control")
    server = Server(relay, folder, {"cam": ""}, "workers = 1\nlinks = 2", RELAY_CONTROL=path, RELAY_LOG="warn")
    publisher = Client(server.port).open("publish", "cam")
    publisher.push(VIDEO, 0, CONFIGURATION)
    slow = Client(server.port, 4096).open("play", "cam")
    for n in range(1, 56):
        publisher.push(VIDEO, 10 * n, picture(b"%d;" % n, 60000))
    waiting = socket.create_connection(("127.0.0.1", server.port), timeout=20)
    time.sleep(0.5)
    stop = subprocess.Popen([relay, "stop", path], stdout=subprocess.PIPE, stderr=subprocess.PIPE)
    begun = time.monotonic()
    refused = False
    while not refused and time.monotonic() - begun < 20 and stop.poll() is None:
        try:
            socket.create_connection(("127.0.0.1", server.port), timeout=20).close()
            time.sleep(0.05)
        except ConnectionRefusedError:
            refused = True
    expect(refused and stop.poll() is None, "told_to_stop: who comes while it stops isn't refused")
    took = closes(waiting, 20)
    expect(took is not None and stop.poll() is None, f"told_to_stop: who waited is closed after {took} s")
    second = subprocess.Popen([relay, "stop", path], stdout=subprocess.PIPE, stderr=subprocess.PIPE)
    expect(stop.wait(60) == 0 and server.process.wait(20) == 0, "told_to_stop: it ends otherwise")
    expect(second.wait(20) == 0, "told_to_stop: a second stop ends otherwise")
    slow.close()
    server.kill()


class Run:
    """A server by contrib/relay-run, with a publisher, a player and a recording; in a namespace of processes of its own, where it is the first
    of them, if that is wanted."""

    def __init__(self, relay, folder, alone=False):
        config = configure(folder, {"cam": 'flv = "cam.flv"'})
        script = [os.path.join(ROOT, "contrib", "relay-run"), "serve", config]
        words = ["unshare", "-fp", "--kill-child", *script] if alone else script
        variables = {**os.environ, "RELAY": relay, "RELAY_LOG": "warn", "TMPDIR": folder}
        variables.pop("RELAY_CONTROL", None)
        self.process = subprocess.Popen(words, cwd=folder, env=variables, stdout=subprocess.PIPE, stderr=subprocess.PIPE, text=True)
        self.port = int(self.process.stderr.readline().rsplit(":", 1)[1])
        self.pid = self.process.pid
        if alone:
            self.pid = int(open(f"/proc/{self.pid}/task/{self.pid}/children").read().split()[0])
        self.publisher = Client(self.port).open("publish", "cam")
        self.publisher.push(VIDEO, 0, CONFIGURATION)
        self.player = Client(self.port).open("play", "cam")
        next_picture(self.player)

    def end(self, *signals):
        """Its status and its report, where it is sent these signals."""
        for number in signals:
            os.kill(self.pid, number)
            time.sleep(0.05)
        out, _ = self.process.communicate(timeout=60)
        return self.process.returncode, out


def signalled(relay, folder):
    """The first SIGTERM or SIGINT ends a server as `relay stop` does, also where it is the first process of a container; a second one at once."""
    report = "stream 0 began 1 pushed 1 ended 1 joined 2 skips 0\n"
    alone = subprocess.run(["unshare", "-fp", "--kill-child", "true"], capture_output=True).returncode == 0
    for place, (number, inside) in enumerate([(signal.SIGTERM, False), (signal.SIGINT, False)] + [(signal.SIGTERM, True)] * alone):
        home = os.path.join(folder, str(place))
        os.mkdir(home)
        run = Run(relay, home, inside)
        ends = run.end(number)
        expect(ends == (0, report), f"signalled: by {number.name}{' as process 1' * inside} it ends with {ends}")
        recorded = tags(open(os.path.join(home, "cam.flv"), "rb").read())
        expect([body for _, _, body in recorded] == [CONFIGURATION], "signalled: its recording is another")
        expect(sorted(os.listdir(home)) == ["cam.flv", "relay.toml"], f"signalled: it leaves {os.listdir(home)}")
    home = os.path.join(folder, "twice")
    os.mkdir(home)
    run = Run(relay, home)
    for n in range(1, 56):
        run.publisher.push(VIDEO, 10 * n, picture(b"%d;" % n, 60000))
    begun = time.monotonic()
    status, out = run.end(signal.SIGTERM, signal.SIGTERM)
    took = time.monotonic() - begun
    expect((status, out) == (137, "") and took < 4, f"signalled: a second signal ends it with {status} after {took:.1f} s")
    # Where there is no server to stop, what was started ends by the signal; and the words of the script itself.
    idle = subprocess.Popen([os.path.join(ROOT, "contrib", "relay-run"), "drill"], env={**os.environ, "RELAY": relay}, stdin=subprocess.PIPE)
    time.sleep(0.5)
    idle.send_signal(signal.SIGTERM)
    expect(idle.wait(20) == 143, f"signalled: a command that is no server ends with {idle.returncode}")
    usage = subprocess.run([os.path.join(ROOT, "contrib", "relay-run")], capture_output=True, text=True)
    expect(usage.returncode == 2 and usage.stderr.startswith("usage: relay-run "), f"signalled: without words it says {usage}")


TESTS = [unread, stood, unanswered, without_descriptors, enough, failing, without_threads, told_to_stop, signalled]


def main():
    signal.signal(signal.SIGPIPE, signal.SIG_IGN)
    # A shell can't trap a signal that is ignored when it starts, as SIGINT is in a shell's background.
    signal.signal(signal.SIGINT, signal.SIG_DFL)
    # What hangs ends all.
    signal.alarm(600)
    relay, wanted = os.path.abspath(sys.argv[1]), sys.argv[2:]
    for test in TESTS:
        if wanted and test.__name__ not in wanted:
            continue
        with tempfile.TemporaryDirectory() as folder:
            try:
                test(relay, folder)
            except (OSError, EOFError, RuntimeError, ValueError, subprocess.TimeoutExpired) as error:
                fail(f"{test.__name__}: {error!r}")
    sys.exit(sockets.failures > 0)


if __name__ == "__main__":
    main()
