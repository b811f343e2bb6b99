"""What hostile cases share: the resources that the program takes, a good peer beside the hostile ones, and counts."""
import itertools
import os
import re
import socket
import struct
import threading
import time

from live_room import HOST, Failed, free_port

MEGABYTE = 1_000_000

# A good line has to be in the output within this many seconds.
IN_TIME = 5

# How many seconds late lines are waited for.
LATE = 20

# The timeout of a call on a socket, in seconds.
PATIENCE = 60

# a number of a good line, in JSON and in MessagePack
NUMBER = re.compile(rb'g(?:":"|\xa7)([0-9]{7})')


def number_text(number):
    return b"%07d" % number


def good_line(number):
    return b'{"g":"%s"}\n' % number_text(number)


def encoded(text):
    """Returns a text of at most 31 bytes in MessagePack."""
    return bytes([0xA0 + len(text)]) + text


def good_message(numbers, chunk):
    """A forward message of numbered events that asks for an acknowledgement."""
    events = b"".join(b"\x92\x00\x81\xa1g" + encoded(number_text(number)) for number in numbers)
    return b"\x93" + encoded(b"good") + b"\xdc" + len(numbers).to_bytes(2, "big") + events + b"\x81\xa5chunk" + encoded(chunk)


def reset(link):
    """Closes a connection so that its peer sees it reset."""
    link.setsockopt(socket.SOL_SOCKET, socket.SO_LINGER, struct.pack("ii", 1, 0))
    link.close()


class Meter:
    """The resources that a process has taken."""

    def __init__(self, pid):
        self.folder = f"/proc/{pid}"

    def peak(self):
        """Returns the peak of resident memory so far, in bytes."""
        with open(f"{self.folder}/status") as status:
            found = re.search(r"VmHWM:\s+([0-9]+) kB", status.read())
        return int(found[1]) * 1_024 if found else 0

    def seconds(self):
        """Returns the processor seconds so far."""
        with open(f"{self.folder}/stat") as stat:
            fields = stat.read().rsplit(")", 1)[1].split()
        return (int(fields[11]) + int(fields[12])) / os.sysconf("SC_CLK_TCK")

    def descriptors(self):
        return len(os.listdir(f"{self.folder}/fd"))


class Arrivals:
    """Follows a file, and notes when each number arrived."""

    def __init__(self, path):
        self.path = path
        self.at = {}
        self.stopping = False
        threading.Thread(target=self.work, daemon=True).start()

    def work(self):
        rest, place = b"", 0
        while not self.stopping:
            try:
                with open(self.path, "rb") as file:
                    file.seek(place)
                    part = file.read(8 * MEGABYTE)
            except OSError:
                part = b""
            place += len(part)
            now = time.monotonic()
            for number in NUMBER.findall(rest + part):
                self.at.setdefault(int(number), now)
            rest = (rest + part)[-10:]
            if not part:
                time.sleep(0.02)


class GoodPeer:
    """A peer that sends ten numbered lines every tenth of a second over a connection that it keeps, and one every half second over a new one."""

    def __init__(self, port, arrivals):
        self.port = port
        self.arrivals = arrivals
        self.numbers = itertools.count()
        self.sent = {}
        self.trouble = []
        self.stopping = False
        works = (self.keeps, self.comes_anew)
        self.threads = [threading.Thread(target=self.guarded, args=(work,), daemon=True) for work in works]
        for thread in self.threads:
            thread.start()

    def guarded(self, work):
        try:
            work()
        except (OSError, Failed) as error:
            self.trouble.append(f"the good peer: {type(error).__name__}: {error}")

    def new_numbers(self, count):
        numbers = list(itertools.islice(self.numbers, count))
        now = time.monotonic()
        self.sent.update((number, now) for number in numbers)
        return numbers

    def connect(self):
        return socket.create_connection((HOST, self.port), timeout=PATIENCE)

    def keeps(self):
        with self.connect() as link:
            while not self.stopping:
                self.say(link, self.new_numbers(10))
                time.sleep(0.1)

    def comes_anew(self):
        while not self.stopping:
            numbers = self.new_numbers(1)
            with self.connect() as link:
                self.say(link, numbers)
            time.sleep(0.5)

    def say(self, link, numbers):
        link.sendall(b"".join(good_line(number) for number in numbers))

    def stop(self):
        self.stopping = True
        for thread in self.threads:
            thread.join(PATIENCE)

    def missing(self):
        return [number for number in list(self.sent) if number not in self.arrivals.at]

    def waited(self):
        """Returns how many seconds ago the oldest missing line was sent."""
        return time.monotonic() - min((self.sent[number] for number in self.missing()), default=time.monotonic())

    def slowest(self):
        """Returns the longest time that a line took to arrive, in seconds."""
        return max((self.arrivals.at[number] - at for number, at in self.sent.items() if number in self.arrivals.at), default=0)


class KeptPeer(GoodPeer):
    """The same, but only over the connection that it keeps."""

    def comes_anew(self):
        pass


class GoodSender(GoodPeer):
    """The same over the forward protocol: it waits for the acknowledgement of each message."""

    def say(self, link, numbers):
        chunk = b"good" + number_text(numbers[0])
        link.sendall(good_message(numbers, chunk))
        wanted, got = b"\x81" + encoded(b"ack") + encoded(chunk), b""
        while len(got) < len(wanted):
            part = link.recv(len(wanted) - len(got))
            if not part:
                raise OSError("the connection ended without an acknowledgement")
            got += part
        if got != wanted:
            raise Failed(f"another acknowledgement came: {got!r}")


class Trial:
    """A run of the program among hostile peers: its ports, its good peer, what is counted, and what was found wrong."""

    def __init__(self, options):
        self.options = options
        self.port = free_port()
        self.other = free_port()
        self.program = self.meter = self.good = self.arrivals = None
        self.idle = self.peak = self.busy = self.wall = 0
        self.peers = self.bytes = 0
        self.told = []
        self.wrong = []
        self.links = []
        self.collector = None
        self.lock = threading.Lock()
        self.last = 0

    def begin(self, program, good):
        """Waits until the program listens, and then lets only the good peer send for a second."""
        self.program, self.meter = program, Meter(program.process.pid)
        program.connect(self.port).close()
        self.arrivals = Arrivals(program.path("out"))
        self.good = good(self.port, self.arrivals)
        time.sleep(1.5)
        self.idle, self.busy, self.wall = self.meter.peak(), self.meter.seconds(), time.monotonic()
        self.last = self.wall + self.options.seconds

    def goes_on(self):
        return time.monotonic() < self.last and self.program.process.poll() is None

    def is_in_time(self):
        """Returns whether the attack ended at most `LATE` seconds ago."""
        return time.monotonic() < self.last + LATE

    def attacked(self):
        """Notes what the attack cost, after its end."""
        if self.alive():
            self.busy = self.meter.seconds() - self.busy
            self.wall = time.monotonic() - self.wall

    def end(self):
        """Stops the good peer, and waits for its lines."""
        self.good.stop()
        last = time.monotonic() + LATE
        while self.good.missing() and time.monotonic() < last and self.alive():
            time.sleep(0.05)

    def settle(self):
        """Notes the peak of memory, before the program ends."""
        if self.alive():
            self.peak = self.meter.peak()

    def leave(self):
        """Closes everything that is open."""
        if self.arrivals:
            self.arrivals.stopping = True
        if self.collector:
            self.collector.close()
        self.let_go()

    def let_go(self):
        """Closes the hostile connections that were kept."""
        for link in self.links:
            link.close()
        self.links = []

    def alive(self):
        return self.program.process.poll() is None

    def count(self, peers=0, sent=0):
        with self.lock:
            self.peers += peers
            self.bytes += sent

    def tell(self, text):
        self.told.append(text)

    def complain(self, text):
        self.wrong.append(text)

    def hopes(self, fact, text):
        if not fact:
            self.complain(text)

    def connect(self, port=None, small=False):
        """Opens a hostile connection, with a small receive buffer if `small`."""
        link = socket.socket()
        if small:
            link.setsockopt(socket.SOL_SOCKET, socket.SO_RCVBUF, 4_096)
        link.settimeout(PATIENCE)
        link.connect((HOST, port or self.port))
        self.count(peers=1)
        return link

    def keep(self, link):
        """Keeps a hostile connection open until `let_go`."""
        with self.lock:
            self.links.append(link)
        return link

    def rest(self):
        """Waits until the time of the case is over."""
        while self.goes_on():
            time.sleep(0.05)

    def send(self, link, data):
        link.sendall(data)
        self.count(sent=len(data))

    def together(self, work, count):
        """Runs `work` in this many threads, each with its number, and waits for all."""

        def guarded(number):
            try:
                work(number)
            except OSError as error:
                self.tell(f"a hostile peer ended early: {type(error).__name__}: {error}")

        threads = [threading.Thread(target=guarded, args=(number,), daemon=True) for number in range(count)]
        for thread in threads:
            thread.start()
        for thread in threads:
            thread.join()
