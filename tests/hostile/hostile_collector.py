"""A collector that treats the program's connections badly, until it is set to behave: then it takes what arrives and answers as it should."""
import re
import socket
import threading
import time

from hostile_room import NUMBER, reset
from live_room import HOST, PATIENCE

HEAD_END = b"\r\n\r\n"
CHUNK = re.compile(rb"\xa5chunk\xb8([A-Za-z0-9+/=]{24})")


class Gone(Exception):
    """The connection is over, or is to be."""


class HostileCollector:
    """Listens at a port. `treat` is how it treats a connection, given the collector, the connection and its number, from 0."""

    def __init__(self, port, kind, treat, narrow=False):
        self.kind = kind
        self.treat = treat
        self.good = self.closing = False
        self.links = []
        self.lasted = []
        self.numbers = set()
        self.sent = 0
        self.listener = socket.socket()
        self.listener.setsockopt(socket.SOL_SOCKET, socket.SO_REUSEADDR, 1)
        if narrow:  # the program's own buffer is then small too
            self.listener.setsockopt(socket.SOL_SOCKET, socket.SO_RCVBUF, 4_096)
            self.listener.setsockopt(socket.IPPROTO_TCP, socket.TCP_MAXSEG, 536)
        self.listener.bind((HOST, port))
        self.listener.listen(64)
        threading.Thread(target=self.accept, daemon=True).start()

    def accept(self):
        number = 0
        while not self.closing:
            try:
                link, _ = self.listener.accept()
            except OSError:
                return
            threading.Thread(target=self.work, args=(link, number), daemon=True).start()
            number += 1

    def work(self, link, number):
        link.settimeout(0.2)
        self.links.append(link)
        with link:
            try:
                if not self.good:
                    self.treat(self, link, number)
                    return
                self.take(link)
            except (OSError, Gone):
                pass

    def turn_good(self):
        """Whatever comes from here on is taken; connections that were treated badly end."""
        self.good = True
        for link in list(self.links):
            try:
                link.shutdown(socket.SHUT_RDWR)
            except OSError:  # it is over
                pass

    def close(self):
        self.closing = True
        try:
            self.listener.shutdown(socket.SHUT_RDWR)
        except OSError:
            pass
        self.listener.close()
        self.turn_good()

    # ---- how connections are treated

    def receive(self, link):
        """What comes next, or nothing where that takes a while."""
        try:
            part = link.recv(65_536)
        except TimeoutError:
            return b""
        if not part:
            raise Gone
        return part

    def read_until(self, link, is_whole):
        """Reads until all that came is whole, and gives it."""
        got, last = b"", time.monotonic() + PATIENCE
        while not is_whole(got):
            got += self.receive(link)
            if time.monotonic() > last:
                raise Gone
        return got

    def wait(self):
        """Does nothing, until it is to be good."""
        while not self.good:
            time.sleep(0.05)

    def send_on(self, link, block, most=None):
        """Sends the same again and again, until it is to be good or so much was sent."""
        link.settimeout(0.2)
        while not self.good and (most is None or self.sent < most):
            try:
                self.sent += link.send(block)
            except TimeoutError:
                pass

    def request(self, link):
        """A whole request or message."""
        return self.read_until(link, IS_WHOLE[self.kind])

    # ---- how they should be

    def take(self, link):
        """Takes what comes over a connection, notes the numbers of good lines in it, and answers."""
        link.setsockopt(socket.SOL_SOCKET, socket.SO_RCVBUF, 1_000_000)
        if self.kind == "tcp":
            self.take_lines(link)
            return
        got = self.request(link)
        link.sendall(ANSWERS[self.kind](got))
        self.numbers.update(map(int, NUMBER.findall(got)))
        self.read_until(link, lambda _: self.closing)

    def take_lines(self, link):
        got = b""
        while not self.closing:
            got += self.receive(link)
            self.numbers.update(map(int, NUMBER.findall(got)))
            got = got[-10:]


def is_whole_request(got):
    head, end, body = got.partition(HEAD_END)
    length = re.search(rb"Content-Length: ([0-9]+)", head)
    return bool(end and length) and len(body) >= int(length[1])


def acknowledgement(got):
    return b"\x81\xa3ack\xb8" + CHUNK.search(got)[1]


IS_WHOLE = {"http": is_whole_request, "forward": CHUNK.search, "tcp": lambda got: got.endswith(b"\n")}
ANSWERS = {"http": lambda _: b"HTTP/1.1 200 OK\r\nContent-Length: 0\r\n\r\n", "forward": acknowledgement}


# ---- ways to treat a connection


def closes(collector, link, number):
    """It is closed, or reset, as soon as it stands."""
    if number % 2:
        reset(link)


def reads_nothing(collector, link, number):
    collector.wait()


def reads_and_is_silent(collector, link, number):
    while not collector.good:
        collector.receive(link)


def first_four_are_silent(collector, link, number):
    """The first four connections stand and are silent for good; all others are treated as they should be."""
    if number < 4:
        collector.wait()
    else:
        collector.take(link)


def head_without_end(collector, link, number):
    collector.request(link)
    if number % 2:
        collector.send_on(link, b"HTTP/1.1 100 Continue\r\n\r\n" * 100)
    collector.send_on(link, b"HTTP/1.1 200 OK\r\n" + b"x-more: and more\r\n" * 100)


def body_without_end(collector, link, number):
    got = collector.request(link)
    link.sendall(b"HTTP/1.1 200 OK\r\nContent-Length: 99999999999\r\n\r\n")
    collector.numbers.update(map(int, NUMBER.findall(got)))
    collector.send_on(link, bytes(65_536))


def byte_at_a_time(collector, link, number):
    collector.request(link)
    for byte in b"HTTP/1.1 503 Service Unavailable\r\nContent-Length: 0\r\n\r\n" * 10:
        link.sendall(bytes([byte]))
        time.sleep(0.1)


def byte_a_while(collector, link, number):
    """An answer without an end, a byte every 40 seconds. It notes for how many seconds the program bears it."""
    collector.request(link)
    begun = last = time.monotonic()
    try:
        while not collector.good:
            if time.monotonic() > last + 40:
                last = time.monotonic()
                link.sendall(b"O")
            collector.receive(link)
    except (OSError, Gone):
        collector.lasted.append(time.monotonic() - begun)


def answers_before_it_reads(collector, link, number):
    """It reads nothing, and sends without an end, half a gigabyte over all connections."""
    collector.send_on(link, b"HTTP/1.1 200 OK\r\n" + bytes(65_536), 500_000_000)
    collector.wait()


def wrong_acknowledgement(collector, link, number):
    collector.request(link)
    link.sendall(b"\x81\xa3ack\xb8" + b"A" * 24)
    collector.wait()


def acknowledgement_without_end(collector, link, number):
    collector.request(link)
    collector.send_on(link, b"\x81\xa3ack\xdb\xff\xff\xff\xff" + b"A" * 65_536)
