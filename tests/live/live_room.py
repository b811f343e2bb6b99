"""What live runs are made of: the program in a folder of its own, and peers."""
import os
import shutil
import socket
import subprocess
import threading
import time

HOST = "127.0.0.1"
PATIENCE = 90
NOBODY = 65534


class Failed(Exception):
    """What came isn't what was to come."""


def holds(fact, told):
    if not fact:
        raise Failed(told)


def until(ready, told, patience=PATIENCE):
    """Waits until something is so, and gives it."""
    last = time.monotonic() + patience
    while time.monotonic() < last:
        found = ready()
        if found:
            return found
        time.sleep(0.02)
    raise Failed(f"{told}: not within {patience} seconds")


def free_port():
    with socket.socket() as probe:
        probe.bind((HOST, 0))
        return probe.getsockname()[1]


def content(path):
    try:
        with open(path, "rb") as file:
            return file.read()
    except OSError:
        return b""


class Program:
    """The program, run in a folder of its own with a configuration, as nobody where root runs this. A second run
    of the same name goes on in the folder of the first. `before` is a command of the shell, `blocks` names
    signals that the program blocks."""

    def __init__(self, room, name, configuration, words=(), files=None, before="", blocks=""):
        self.folder = os.path.join(room.path, name)
        os.makedirs(self.folder, exist_ok=True)
        for path, text in {"main.conf": configuration, **(files or {})}.items():
            with open(os.path.join(self.folder, path), "w") as file:
                file.write(text)
        room.give(self.folder)
        command = [room.program, "run", "-c", "main.conf", *words]
        if blocks:
            command = ["env", f"--block-signal={blocks}", *command]
        if before:
            command = ["sh", "-c", before + ' && exec "$0" "$@"', *command]
        who = {"user": NOBODY, "group": NOBODY, "extra_groups": []} if os.geteuid() == 0 else {}
        with open(self.path("stdout"), "wb") as out, open(self.path("stderr"), "wb") as complaints:
            self.process = subprocess.Popen(command, cwd=self.folder, stdin=subprocess.PIPE, stdout=out, stderr=complaints, **who)

    def __enter__(self):
        return self

    def __exit__(self, *_):
        if self.process.poll() is None:
            self.process.kill()
        self.process.wait()
        if not self.process.stdin.closed:
            self.process.stdin.close()

    def path(self, name):
        return os.path.join(self.folder, name)

    def stdout(self):
        return content(self.path("stdout"))

    def stderr(self):
        return content(self.path("stderr"))

    def lines(self, name):
        return content(self.path(name)).split(b"\n")[:-1]

    def connect(self, port):
        """A connection to the program, as soon as it listens."""

        def connected():
            holds(self.process.poll() is None, f"the program ended early: {self.stderr().decode(errors='replace').strip()}")
            try:
                return socket.create_connection((HOST, port), timeout=PATIENCE)
            except OSError:
                return None

        return until(connected, "the program listens", 10)

    def send(self, port, data):
        with self.connect(port) as peer:
            peer.sendall(data)

    def stop(self, rest=b""):
        """Ends standard input after some bytes, and returns the program's status."""
        try:
            self.process.stdin.write(rest)
            self.process.stdin.close()
        except OSError:
            pass
        return self.end()

    def end(self):
        try:
            return self.process.wait(PATIENCE)
        except subprocess.TimeoutExpired:
            raise Failed(f"the program hadn't ended after {PATIENCE} seconds") from None


class Room:
    """A folder for all runs, with a copy of the program that nobody may run."""

    def __init__(self, path, program):
        self.path = path
        os.chmod(path, 0o755)
        self.program = os.path.join(path, "fwd")
        shutil.copyfile(program, self.program)
        os.chmod(self.program, 0o755)

    def give(self, folder):
        if os.geteuid() == 0:
            for at, _, names in os.walk(folder):
                for it in (at, *(os.path.join(at, name) for name in names)):
                    os.chown(it, NOBODY, NOBODY)


class Collector:
    """A peer that takes lines over tcp. It may be slow, and it may be absent. What a socket has taken of the program it reads to the end."""

    def __init__(self, port):
        self.port = port
        self.streams = []
        self.pause = 0
        self.listens = False
        self.threads = []

    def open(self, pause=0):
        self.pause = pause
        listener = socket.create_server((HOST, self.port), backlog=16)
        listener.setblocking(False)
        self.listens = True
        self.begin(self.accept, listener)

    def begin(self, work, of):
        thread = threading.Thread(target=work, args=(of,), daemon=True)
        self.threads.append(thread)
        thread.start()

    def accept(self, listener):
        with listener:
            while True:
                listens = self.listens
                try:
                    peer, _ = listener.accept()
                except BlockingIOError:
                    if not listens:
                        return
                    time.sleep(0.005)
                    continue
                peer.settimeout(PATIENCE)
                self.begin(self.take, peer)

    def take(self, peer):
        stream = bytearray()
        self.streams.append(stream)
        with peer:
            while part := peer.recv(32_768):
                stream += part
                time.sleep(self.pause)

    def close(self):
        """Is absent from here on: nobody listens."""
        self.listens, self.pause = False, 0
        for thread in self.threads:
            thread.join(PATIENCE)
        self.threads = []

    def taken(self):
        return sum(len(stream) for stream in self.streams)
