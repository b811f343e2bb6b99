"""Hostile peers of an input and an output that have a shared key. The good peer beside them has the key too."""
import random
import time

import hostile_collector as treat
from forward_peers import Client, Stream, greet_client, helo_of, look_at_ping, nonce_in, packed, ping_of, pong_of
from hostile_case import MESSAGES_TO_FILE, Case, case, of_megabytes
from hostile_collector import Gone, HostileCollector
from hostile_forward import HUGE, NO_MESSAGES, is_dropped
from hostile_lines import of_silent
from hostile_outputs import FLUSHES, pending_lines_come, to_collector
from hostile_room import MEGABYTE, GoodPeer, GoodSender
from live_room import HOST, content, until

KEY = "one key"
KEYED = f"    Shared_Key {KEY}\n    Self_Hostname fwd.example\n"

# A greeting that isn't whole may have this many bytes.
LONGEST_GREETING = 4_096


class KeyedSender(GoodSender):
    """The same to an input that has a key."""

    def connect(self):
        link = super().connect()
        Client(link, KEY).greet()
        return link


def keyed(limit, memory, **more):
    return case(MESSAGES_TO_FILE.replace("Name forward\n", "Name forward\n" + KEYED), limit, memory, good=KeyedSender, **more)


def greeted(trial):
    """Opens a hostile connection, and reads the HELO."""
    client = Client(trial.connect(), KEY, "hostile.example")
    client.read_helo()
    return client


GREETING = "4,096 bytes of a greeting for each connection, in a buffer that doubles; the descriptor limit bounds the connections"


@keyed("some kilobytes for each connection; the descriptor limit bounds the connections", of_silent(4_096, 16 * MEGABYTE), quiet=True)
def silence_after_the_helo(trial):
    """Many peers read the HELO, and say nothing."""
    for _ in range(trial.options.silent):
        trial.keep(greeted(trial).link)
    trial.rest()
    trial.tell(f"{trial.meter.descriptors()} descriptors are open, as a silent peer has no time limit")


def long_ping(client):
    """A PING of 5,000 bytes and some, that shows another key."""
    return ping_of("h" * 5_000, client.salt, client.nonce, "another key")


@keyed(GREETING, of_silent(2 * LONGEST_GREETING, 16 * MEGABYTE))
def long_greetings(trial):
    """A PING of 5,000 bytes that shows another key is dropped, as is half of one, or of a value that never ends. Peers that
    stop within 4,096 bytes stay."""
    kept = [greeted(trial) for _ in range(trial.options.silent)]
    for client in kept:
        trial.keep(client.link)
        trial.send(client.link, long_ping(client)[:LONGEST_GREETING])
    endings = {
        "a PING of 5,000 bytes": long_ping,
        "4,097 bytes of a PING": lambda client: long_ping(client)[: LONGEST_GREETING + 1],
        "4,097 bytes of a bin": lambda _: HUGE["bin"] + bytes(LONGEST_GREETING - 4),
        "4,097 bytes of a list": lambda _: HUGE["list"] + b"\xc0" * (LONGEST_GREETING - 4),
    }
    while trial.goes_on():
        for name, greeting in endings.items():
            client = greeted(trial)
            with client.link:
                trial.send(client.link, greeting(client))
                trial.hopes(is_dropped(client.link), f"a connection goes on after {name}")
    for client in kept[:3]:
        trial.hopes(not is_dropped(client.link, 0.1), "a peer is dropped after 4,096 bytes of a PING")


@keyed(GREETING, 16, quiet=True)
def a_ping_a_byte_a_second(trial):
    """A hundred peers send their PING a byte a second, and in the end the rest and a message."""
    clients = [greeted(trial) for _ in range(100)]
    greetings = [(trial.keep(client.link), client.ping() + packed(["bad", 0, {"bad": "end"}])) for client in clients]
    place = 0
    while trial.goes_on():
        for link, greeting in greetings:
            trial.send(link, greeting[place : place + 1])
        place += 1
        time.sleep(1)
    for link, greeting in greetings:
        trial.send(link, greeting[place:])
    until(lambda: content(trial.program.path("out")).count(b'"end"') == len(greetings), "the messages behind slow PINGs come out", 10)


@keyed("nothing is kept of a connection that is dropped", 16)
def a_ping_again(trial):
    """A second PING isn't a message, and a PING of another connection isn't a PING. Both are dropped."""
    while trial.goes_on():
        one, other = greeted(trial), greeted(trial)
        with one.link, other.link:
            trial.send(one.link, one.ping() * 2)
            one.read_pong()
            trial.hopes(is_dropped(one.link), "a connection goes on after a second PING")
            trial.send(other.link, one.ping())
            other.link.settimeout(5)
            trial.hopes(other.link.recv(1) == b"", "the PING of another connection is answered")


NO_PINGS = {
    **{name: lambda client, data=data: data for name, data in NO_MESSAGES.items()},
    "its own HELO": lambda client: helo_of(client.nonce),
    "a PONG": lambda client: pong_of(client.host, client.salt, client.nonce, KEY),
    "a PING of another key": lambda client: ping_of(client.host, client.salt, client.nonce, "another"),
    "a PING of an empty key": lambda client: ping_of(client.host, client.salt, client.nonce, ""),
    "a PING without a digest": lambda client: packed(["PING", client.host, client.salt, "", "", ""]),
    "a PING without texts": lambda client: packed(["PING", None, 7, {}, [], True]),
    "the beginning of a digest": lambda client: client.ping()[:-132] + packed(client.ping()[-130:-3]) + b"\xa0\xa0",
}


@keyed("invalid bytes are not kept", 16)
def bytes_that_are_no_ping(trial):
    """Each is dropped without an answer, with a message behind it or not, and whatever comes at random does no harm."""
    chance, message = random.Random(7), packed(["bad", 0, {"bad": "message"}])
    while trial.goes_on():
        for number, (name, data) in enumerate(NO_PINGS.items()):
            client = greeted(trial)
            with client.link:
                trial.send(client.link, data(client) + message * (number % 2))
                trial.hopes(is_dropped(client.link), f"a connection goes on after {name}")
        client = greeted(trial)
        with client.link:
            trial.send(client.link, chance.randbytes(chance.randrange(1, 65_536)))
    trial.hopes(b'"bad"' not in content(trial.program.path("out")), "a message behind no PING comes out")


# ---- hostile collectors


class KeyedCollector(HostileCollector):
    """A collector that has the key, and greets once it is to behave. `leaked` is what came over connections on which it
    didn't show the key, beside a PING."""

    def __init__(self, port, treat):
        self.leaked = b""
        self.pings = 0
        super().__init__(port, "forward", treat)

    def take(self, link):
        link.settimeout(5)
        greet_client(link, KEY, "collector.example")
        link.settimeout(0.2)
        super().take(link)

    def ping_of(self, link, nonce):
        """Sends a HELO, and returns the host, the salt and the digest of the PING."""
        link.sendall(helo_of(nonce))
        link.settimeout(5)
        ping = Stream(link).value()
        look_at_ping(ping, nonce, KEY)
        link.settimeout(0.2)
        self.pings += 1
        return ping[1:4]

    def leak(self, link):
        """Reads what comes, until the program ends the connection."""
        try:
            while not self.good:
                self.leaked += self.receive(link)
        except (OSError, Gone):
            pass


def pongs_first(collector, link, number):
    """A PONG comes before the HELO, or in its place."""
    pong = pong_of("collector.example", bytes(16), bytes(16), KEY)
    link.sendall(pong + helo_of(bytes(16)) if number % 2 else pong)
    collector.leak(link)


def reflects(collector, link, number):
    """The digest of the PING comes back, under the name of the program or another."""
    host, _, digest = collector.ping_of(link, bytes(16))
    link.sendall(packed(["PONG", True, "", "collector.example" if number % 2 else host, digest]))
    collector.leak(link)


def helo_without_end(collector, link, number):
    collector.send_on(link, b"\x92\xa4HELO\xdf\xff\xff\xff\xff" + b"\xc0" * 65_536)


def helo_and_silence(collector, link, number):
    collector.ping_of(link, bytes(16))
    collector.leak(link)


def silent_before_helo(collector, link, number):
    collector.leak(link)


LONG_HELO = "4,096 bytes of a greeting, and a read of 65,536, for each of four flushes"


def to_keyed(treats, limit=FLUSHES, **more):
    """A case in which a collector that has the key treats its connections so, and has all lines once it behaves."""

    def attack(trial):
        trial.collector = KeyedCollector(trial.other, treats)
        trial.rest()
        leaked = trial.collector.leaked
        trial.hopes(trial.collector.links, "the program never connected")
        trial.hopes(not leaked, f"{len(leaked)} bytes came over connections whose peer didn't show the key: {leaked[:100]!r}")
        trial.tell(f"{trial.collector.pings} PINGs came")
        trial.count(peers=len(trial.collector.links), sent=trial.collector.sent)

    attack.__name__ = f"a_collector_{treats.__name__}"
    configuration = to_collector("forward").replace("    Require_ack_response On\n", "    Require_ack_response On\n" + KEYED)
    return Case(attack, configuration, GoodPeer, of_megabytes(64), limit, after=pending_lines_come, **more)


CASES = (
    silence_after_the_helo,
    long_greetings,
    a_ping_a_byte_a_second,
    a_ping_again,
    bytes_that_are_no_ping,
    to_keyed(pongs_first, quiet=True),
    to_keyed(reflects, quiet=True),
    to_keyed(helo_without_end, LONG_HELO),
    to_keyed(helo_and_silence, quiet=True),
    to_keyed(silent_before_helo, quiet=True),
)
