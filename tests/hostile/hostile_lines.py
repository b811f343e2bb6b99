"""Hostile peers of an input that takes lines."""
import itertools
import os
import socket
import time

from hostile_case import LINES_TO_FILE, case
from hostile_room import MEGABYTE, KeptPeer, reset
from live_room import HOST, content, until

LONGEST_LINE = 32_768

# megabytes of a followed file
LONG_FILE = 400

# the port is chosen when the connection is made, so that many addresses have many ports
IP_BIND_ADDRESS_NO_PORT = 24


def of_silent(each, more):
    """Returns a bound of `each` bytes for each silent peer, and `more` for all."""
    return lambda options: options.silent * each + more


def half_and_silence(trial, half):
    for _ in range(trial.options.silent):
        trial.send(trial.keep(trial.connect()), half)
    trial.rest()
    trial.tell(f"{trial.meter.descriptors()} descriptors are open, as a silent peer has no time limit")


@case(LINES_TO_FILE, "some kilobytes for each connection; the descriptor limit bounds the connections", of_silent(4_096, 16 * MEGABYTE), quiet=True)
def half_a_line_and_silence(trial):
    """Many peers send half a line each, and nothing more."""
    half_and_silence(trial, b'{"half":"a line')


@case(
    LINES_TO_FILE,
    "a line's first 32,768 bytes for each connection, in a buffer that doubles; the descriptor limit bounds the connections",
    of_silent(2 * LONGEST_LINE, 16 * MEGABYTE),
    quiet=True,
)
def most_of_a_line_and_silence(trial):
    """Many peers send the longest line without its line feed, and then bytes that aren't kept."""
    half_and_silence(trial, b"x" * (4 * LONGEST_LINE))


@case(LINES_TO_FILE, "as with half a line", 16, quiet=True)
def a_byte_a_second(trial):
    """A hundred peers send a byte a second."""
    links = [trial.keep(trial.connect()) for _ in range(100)]
    for byte in itertools.cycle(b"slow "):
        if not trial.goes_on():
            break
        for link in links:
            trial.send(link, bytes([byte]))
        time.sleep(1)
    for link in links:
        trial.send(link, b"end\n")
    until(lambda: content(trial.program.path("out")).count(b"end") == len(links), "the lines that came byte by byte come out", 10)


class RowPeers:
    """Peers that come one after another: one in two sends a line, and one in two is reset."""

    def __init__(self, trial):
        self.trial = trial
        self.left = trial.options.row_connections or None
        self.last = time.monotonic() + trial.options.row_seconds
        self.lines = 0

    def goes_on(self, thread, number):
        if self.left is None:
            return time.monotonic() < self.last and self.trial.alive()
        return number * THREADS + thread < self.left and self.trial.alive()

    def work(self, thread):
        for number in itertools.count():
            if not self.goes_on(thread, number):
                return
            self.one(f"127.0.0.{2 + number % 200}", says=number % 2 == 0, breaks=number % 4 > 1)

    def one(self, address, says, breaks):
        link = socket.socket()
        link.setsockopt(socket.IPPROTO_IP, IP_BIND_ADDRESS_NO_PORT, 1)
        link.bind((address, 0))
        link.settimeout(10)
        link.connect((HOST, self.trial.port))
        if says:
            link.sendall(b'{"row":1}\n')
        if breaks:
            reset(link)
        else:
            link.close()
        self.trial.count(peers=1, sent=10 if says else 0)
        if says and not breaks:
            with self.trial.lock:
                self.lines += 1


THREADS = 3


@case(LINES_TO_FILE, "a closed connection leaves nothing; maps and queues keep their largest capacity", 32)
def connections_in_a_row(trial):
    """Connections one after another, with a line or none, closed or reset."""
    peers = RowPeers(trial)
    before, begun = trial.meter.descriptors(), time.monotonic()
    trial.together(peers.work, THREADS)
    trial.tell(f"{trial.peers / (time.monotonic() - begun):,.0f} connections a second")
    until(lambda: trial.meter.descriptors() <= before + 8, "the descriptors are given back", 10)
    came = lambda: content(trial.program.path("out")).count(b'"row"')
    until(lambda: came() >= peers.lines, f"the {peers.lines} lines of peers that weren't reset come out", 20)
    trial.tell(f"{came():,} lines came out, {peers.lines:,} of them of peers that weren't reset")


@case(LINES_TO_FILE, "a line's first 32,768 bytes; the rest is skipped", 16)
def no_line_feed(trial):
    """A gigabyte or more without a line feed, and then a line."""
    link = trial.keep(trial.connect())
    block, begun = b"x" * MEGABYTE, time.monotonic()
    while trial.bytes < trial.options.stream_bytes and trial.alive():
        trial.send(link, block)
    trial.send(link, b"\nbehind it\n")
    until(lambda: b'"log":"behind it"' in content(trial.program.path("out")), "the line behind the long one comes out", 30)
    trial.tell(f"{trial.bytes / MEGABYTE / (time.monotonic() - begun):,.0f} MB/s")
    longest = max(map(len, trial.program.lines("out")))
    trial.hopes(LONGEST_LINE < longest < LONGEST_LINE + 100, f"the longest line that came out has {longest} bytes")


@case(LINES_TO_FILE, "Mem_Buf_Limit 16M, the events and payload of a chunk of 2 MB at a time, and a read of 65,536 bytes", 128)
def a_flood_of_lines(trial):
    """Twenty peers send lines as fast as they are taken."""
    block = b'{"flood":"%s"}\n' % (b"f" * 86) * 500

    def flood(_):
        with trial.connect() as link:
            while trial.goes_on():
                trial.send(link, block)

    trial.together(flood, 20)
    trial.tell(f"{trial.bytes // 100 / trial.options.seconds:,.0f} lines a second were taken")


@case(
    LINES_TO_FILE,
    "the descriptor limit of the process; inputs get what nothing else needs",
    16,
    good=KeptPeer,
    quiet=True,
    before="ulimit -v 8000000; ulimit -n 128",
)
def silent_peers_take_all_descriptors(trial):
    """More silent peers than the program has descriptors. A file output opens its file anew for each chunk."""
    for _ in range(200):
        trial.keep(trial.connect())
    trial.rest()
    trial.tell(f"{trial.meter.descriptors()} descriptors are open; the silent peers stay for {trial.options.seconds:.0f} s")
    trial.hopes(not trial.good.missing() or trial.good.waited() < 3, f"while they stay, no good line has come for {trial.good.waited():.1f} s")
    trial.let_go()


GOOD_TO_FILE = LINES_TO_FILE.replace("Mem_Buf_Limit 16M\n", "Mem_Buf_Limit 16M\n    Tag good\n").replace("Name file\n", "Name file\n    Match good\n")

FOLLOWED = """[INPUT]
    Name tail
    Path long.log
    Tag followed
    Read_from_Head On
    Mem_Buf_Limit 16M
[OUTPUT]
    Name file
    Match followed
    Path .
    File followed
    Retry_Limit no_limits
"""


@case(
    GOOD_TO_FILE + FOLLOWED,
    "Mem_Buf_Limit 16M, a read of 1,048,576 bytes and its events, a chunk and its payload",
    128,
)
def a_long_file_is_followed(trial):
    """A followed file has some hundred megabytes that weren't read yet."""
    path = trial.program.path("long.log")
    block = (b"l" * 99 + b"\n") * 10_000
    with open(path + ".new", "wb") as file:
        for _ in range(LONG_FILE * MEGABYTE // len(block)):
            trial.count(sent=file.write(block))
    os.rename(path + ".new", path)
    trial.last = time.monotonic() + trial.options.seconds
    trial.rest()


CASES = (
    half_a_line_and_silence,
    most_of_a_line_and_silence,
    a_byte_a_second,
    connections_in_a_row,
    no_line_feed,
    a_flood_of_lines,
    silent_peers_take_all_descriptors,
    a_long_file_is_followed,
)
