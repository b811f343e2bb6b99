"""A client and a server of the Forward Protocol v1 that have a shared key. They are written from the protocol's text, with
`hashlib` for the digest, and share no code with the program.

A server begins with `["HELO", {"nonce": .., "auth": .., "keepalive": ..}]`. The client answers with
`["PING", host, salt, digest, user, password]`, and the server with `["PONG", accepts, reason, host, digest]`. A digest is SHA-512,
in hex, of the salt, the host of the side that sends it, the nonce and the key.
"""
import collections
import hashlib
import os
import socket
import struct
import threading
import time

from live_room import HOST, PATIENCE, Failed, holds

Ext = collections.namedtuple("Ext", "kind data")


class Short(Exception):
    """The bytes end within a value."""


class Ended(Failed):
    """The connection ended before a whole value came."""


# ---- MessagePack


def with_length(count, few, most_few, heads, data=b""):
    """Returns data after a head for its length: `few` for at most `most_few`, else one of the heads for 1, 2 and 4 bytes."""
    if count <= most_few:
        return bytes([few + count]) + data
    for head, size in zip(heads, (1, 2, 4)):
        if head and count < 256**size:
            return bytes([head]) + count.to_bytes(size, "big") + data
    raise ValueError(f"{count} is too long")


def packed(value):
    """Returns a value in MessagePack: None, a truth, a number from 0, bytes, a text, a list, a map, or an `Ext` of 8 bytes."""
    if value is None or value is False or value is True:
        return {None: b"\xc0", False: b"\xc2", True: b"\xc3"}[value]
    if isinstance(value, int):
        return with_length(value, 0, 127, (0xCC, 0xCD, 0xCE))
    if isinstance(value, bytes):
        return with_length(len(value), 0, -1, (0xC4, 0xC5, 0xC6), value)
    if isinstance(value, str):
        text = value.encode()
        return with_length(len(text), 0xA0, 31, (0xD9, 0xDA, 0xDB), text)
    if isinstance(value, dict):
        return with_length(len(value), 0x80, 15, (0, 0xDE, 0xDF), b"".join(packed(key) + packed(it) for key, it in value.items()))
    if isinstance(value, Ext):
        return b"\xd7" + bytes([value.kind]) + value.data
    return with_length(len(value), 0x90, 15, (0, 0xDC, 0xDD), b"".join(map(packed, value)))


class Reader:
    """Reads values from bytes, and raises `Short` where they end within one."""

    def __init__(self, data):
        self.data = data
        self.at = 0

    def take(self, count):
        if self.at + count > len(self.data):
            raise Short
        self.at += count
        return self.data[self.at - count : self.at]

    def number(self, size):
        return int.from_bytes(self.take(size), "big")

    def many(self, count):
        return [self.value() for _ in range(count)]

    def pairs(self, count):
        return {self.value(): self.value() for _ in range(count)}

    def value(self):
        head = self.number(1)
        if head < 0x80:
            return head
        if head < 0x90:
            return self.pairs(head - 0x80)
        if head < 0xA0:
            return self.many(head - 0x90)
        if head < 0xC0:
            return self.take(head - 0xA0).decode(errors="surrogateescape")
        return self.longer(head)

    def longer(self, head):
        if head in (0xC0, 0xC2, 0xC3):
            return {0xC0: None, 0xC2: False, 0xC3: True}[head]
        if 0xC4 <= head <= 0xC6:
            return self.take(self.number(1 << head - 0xC4))
        if 0xCC <= head <= 0xCF:
            return self.number(1 << head - 0xCC)
        if head == 0xD7:
            return Ext(self.number(1), self.take(8))
        if 0xD9 <= head <= 0xDB:
            return self.take(self.number(1 << head - 0xD9)).decode(errors="surrogateescape")
        if head in (0xDC, 0xDD):
            return self.many(self.number(2 << head - 0xDC))
        if head in (0xDE, 0xDF):
            return self.pairs(self.number(2 << head - 0xDE))
        raise Failed(f"a value begins with the byte {head:02x}")


def values_in(data):
    """Returns the values that some bytes have, one after another."""
    reader, found = Reader(data), []
    while reader.at < len(data):
        found.append(reader.value())
    return found


class Stream:
    """The values that come over a connection, one after another."""

    def __init__(self, link):
        self.link = link
        self.rest = b""

    def value(self):
        while True:
            reader = Reader(self.rest)
            try:
                found = reader.value()
            except Short:
                self.more()
                continue
            self.rest = self.rest[reader.at :]
            return found

    def more(self):
        part = self.link.recv(65_536)
        if not part:
            raise Ended(f"the connection ended within a value, of which {len(self.rest)} bytes came")
        self.rest += part


# ---- the handshake


def digest_of(salt, host, nonce, key):
    """Returns the digest by which a host shows that it has the key."""
    return hashlib.sha512(salt + host.encode() + nonce + key.encode()).hexdigest()


def helo_of(nonce, **more):
    return packed(["HELO", {"nonce": nonce, "auth": b"", "keepalive": True, **more}])


def ping_of(host, salt, nonce, key):
    return packed(["PING", host, salt, digest_of(salt, host, nonce, key), "", ""])


def pong_of(host, salt, nonce, key, accepts=True):
    return packed(["PONG", accepts, "" if accepts else "no", host, digest_of(salt, host, nonce, key)])


def nonce_in(helo):
    """Returns the nonce of a HELO, which is looked at whole."""
    holds(isinstance(helo, list) and len(helo) == 2 and helo[0] == "HELO", f"this is no HELO: {helo!r}")
    holds(isinstance(helo[1], dict) and isinstance(helo[1].get("nonce"), bytes), f"a HELO has no nonce: {helo!r}")
    holds(helo[1].get("auth") in (b"", "") and helo[1].get("keepalive") is True, f"a HELO has other options: {helo!r}")
    return helo[1]["nonce"]


def look_at_ping(ping, nonce, key):
    """Returns the host and the salt of a PING, which has to show the key."""
    holds(isinstance(ping, list) and len(ping) == 6 and ping[0] == "PING", f"this is no PING: {ping!r}")
    _, host, salt, digest, user, password = ping
    holds(isinstance(host, str) and isinstance(salt, bytes), f"a PING has another host or salt: {ping!r}")
    holds(digest == digest_of(salt, host, nonce, key), f"a PING doesn't show the key: {ping!r}")
    holds(user == "" and password == "", f"a PING has a user: {ping!r}")
    return host, salt


def read_ping(stream, nonce, key):
    """Returns the host and the salt of a PING, with which no other byte may come."""
    ping = look_at_ping(stream.value(), nonce, key)
    holds(not stream.rest, f"something comes with the PING: {stream.rest[:100]!r}")
    return ping


def greet_client(link, key, host):
    """Greets a client as a server. Returns the stream of its messages, and the host and the salt of its PING."""
    stream, nonce = Stream(link), os.urandom(16)
    link.sendall(helo_of(nonce))
    ping = read_ping(stream, nonce, key)
    link.sendall(pong_of(host, ping[1], nonce, key))
    return stream, ping


def look_at_pong(pong, salt, nonce, key):
    """Returns the host of a PONG, which has to accept and to show the key."""
    holds(isinstance(pong, list) and len(pong) == 5 and pong[0] == "PONG", f"this is no PONG: {pong!r}")
    _, accepts, reason, host, digest = pong
    holds(accepts is True and reason == "", f"a PONG doesn't accept: {pong!r}")
    holds(digest == digest_of(salt, host, nonce, key), f"a PONG doesn't show the key: {pong!r}")
    return host


def entries_of(records, seconds=10):
    """Returns entries at this time, one after another."""
    return b"".join(packed([Ext(0, struct.pack(">II", seconds, 0)), record]) for record in records)


def drip(link, data, pause=0.001):
    """Sends data a byte at a time."""
    for byte in data:
        link.sendall(bytes([byte]))
        time.sleep(pause)


class Client:
    """A client that has the key. It greets the server, and then sends messages and waits for acknowledgements."""

    def __init__(self, link, key, host="client.example"):
        self.link = link
        self.stream = Stream(link)
        self.key = key
        self.host = host
        self.salt = os.urandom(16)
        self.nonce = None

    def read_helo(self):
        self.nonce = nonce_in(self.stream.value())

    def ping(self):
        return ping_of(self.host, self.salt, self.nonce, self.key)

    def read_pong(self):
        """Returns the host of the server."""
        return look_at_pong(self.stream.value(), self.salt, self.nonce, self.key)

    def greet(self):
        self.read_helo()
        self.link.sendall(self.ping())
        return self.read_pong()

    def read_ack(self, chunk):
        answer = self.stream.value()
        holds(answer == {"ack": chunk}, f"the message {chunk} is answered with {answer!r}")

    def send(self, message, chunk, **more):
        """Sends a message that asks for an acknowledgement, and waits for it."""
        self.link.sendall(packed([*message, {**more, "chunk": chunk}]))
        self.read_ack(chunk)


class Server:
    """A server that has the key. It greets each client, takes its messages and acknowledges them. `treats` are ways to treat
    the first connections, given the server and the connection; all others are treated as they should be."""

    def __init__(self, port, key, host="server.example", treats=()):
        self.key = key
        self.host = host
        self.treats = list(treats)
        self.records = []
        self.pings = []
        self.trouble = []
        self.listener = socket.create_server((HOST, port), backlog=16)
        threading.Thread(target=self.accept, daemon=True).start()

    def __enter__(self):
        return self

    def __exit__(self, *_):
        self.listener.shutdown(socket.SHUT_RDWR)
        self.listener.close()

    def accept(self):
        while True:
            try:
                link, _ = self.listener.accept()
            except OSError:
                return
            treat = self.treats.pop(0) if self.treats else Server.serve
            threading.Thread(target=self.guarded, args=(treat, link), daemon=True).start()

    def guarded(self, treat, link):
        link.settimeout(PATIENCE)
        with link:
            try:
                treat(self, link)
            except (Failed, OSError) as error:
                self.trouble.append(f"{getattr(treat, '__name__', treat)}: {type(error).__name__}: {error}")

    def greet(self, link):
        """Greets a client, and returns the stream of its messages."""
        stream, ping = greet_client(link, self.key, self.host)
        self.pings.append(ping)
        return stream

    def serve(self, link):
        self.take_all(link, self.greet(link))

    def take_all(self, link, stream):
        """Takes messages until the connection ends."""
        while True:
            try:
                message = stream.value()
            except Ended:
                holds(not stream.rest, f"a message isn't whole: {len(stream.rest)} bytes")
                return
            self.take(link, message)

    def take(self, link, message):
        """Takes a message of entries in a bin, and acknowledges it."""
        tag, entries, options = message
        found = values_in(entries)
        holds(options.get("size") == len(found), f"a message of {len(found)} entries has the options {options!r}")
        self.records += [(tag, record) for _, record in found]
        if "chunk" in options:
            link.sendall(packed({"ack": options["chunk"]}))


def is_closed(link, patience=10):
    """Returns whether the other side ends a connection without another byte."""
    link.settimeout(patience)
    try:
        return link.recv(1) == b""
    except TimeoutError:
        return False
    except OSError:
        return True
