"""Live runs that are recorded, and replayed afterwards."""
import os
import re
import signal
import socket
import struct
import subprocess
import threading
import time

from forward_peers import Client, Server, Stream
from live_room import HOST, NOBODY, PATIENCE, Program, content, free_port, holds, until
from live_stored import Sender

# Lines go to standard output and to a collector, messages to standard output and to a receiver.
RECORDED = """[SERVICE]
    Log_Level off
    Flush 0.3
    Grace 20
    storage.path chunks
    storage.sync full
    scheduler.base 1
    scheduler.cap 1
[INPUT]
    Name tcp
    Listen 127.0.0.1
    Port {port}
    Format json
    Tag lines
[INPUT]
    Name forward
    Listen 127.0.0.1
    Port {messages}
    storage.type filesystem
[INPUT]
    Name stdin
    Tag keys
[OUTPUT]
    Name stdout
    Match *
    Format json_lines
[OUTPUT]
    Name tcp
    Match lines
    Host 127.0.0.1
    Port {collector}
    Format json_lines
    Retry_Limit no_limits
[OUTPUT]
    Name forward
    Match app
    Host 127.0.0.1
    Port {receiver}
    Require_ack_response On
    Retry_Limit no_limits
"""

KEYED = """[SERVICE]
    Log_Level off
    Flush 0.3
[INPUT]
    Name forward
    Listen 127.0.0.1
    Port {port}
    Shared_Key {key}
[INPUT]
    Name stdin
[OUTPUT]
    Name stdout
    Match *
    Format json_lines
"""

KEY = "a key that nobody else has"
PEERS, LINES, MESSAGES, REPLAYS = 3, 400, 60, 3


class Receiver(Server):
    """A receiver of messages without a key. It resets its first connection once a message came, and acknowledges all others."""

    def __init__(self, port):
        super().__init__(port, "", treats=[Receiver.breaks])

    def greet(self, link):
        return Stream(link)

    def breaks(self, link):
        Stream(link).value()
        link.setsockopt(socket.SOL_SOCKET, socket.SO_LINGER, struct.pack("ii", 1, 0))


class Collector:
    """A peer that takes lines. It resets its first connection within the first bytes. If the socket had taken the whole chunk by
    then, the program doesn't notice."""

    def __init__(self, port):
        self.lines = set()
        self.links = 0
        self.listener = socket.create_server((HOST, port), backlog=16)
        threading.Thread(target=self.accept, daemon=True).start()

    def __enter__(self):
        return self

    def __exit__(self, *_):
        self.listener.shutdown(socket.SHUT_RDWR)
        self.listener.close()

    def accept(self):
        while True:
            try:
                link, _ = self.listener.accept()
            except OSError:
                return
            self.links += 1
            threading.Thread(target=self.take, args=(link, self.links), daemon=True).start()

    def take(self, link, number):
        link.settimeout(PATIENCE)
        data = b""
        with link:
            if number == 1:
                link.recv(10)
                link.setsockopt(socket.SOL_SOCKET, socket.SO_LINGER, struct.pack("ii", 1, 0))
                return
            while part := link.recv(997):
                data += part
        self.lines |= set(data.split(b"\n")[:-1])


def send_lines(program, port, peer):
    """Sends the lines of one peer, cut anywhere."""
    data = b"".join(b'{"peer":%d,"n":%d,"text":"%s"}\n' % (peer, number, b"x" * (number % 50)) for number in range(LINES))
    with program.connect(port) as link:
        for at in range(0, len(data), 611 * (peer + 1)):
            link.sendall(data[at : at + 611 * (peer + 1)])
            time.sleep(0.001)


def pour(program, port, messages):
    """Lines of some peers at once, beside messages that are sent until they are acknowledged."""
    peers = [threading.Thread(target=send_lines, args=(program, port, peer), daemon=True) for peer in range(PEERS)]
    for peer in peers:
        peer.start()
    sender = Sender(messages)
    until(lambda: sender.acknowledged >= MESSAGES, "messages are acknowledged")
    sender.stop()
    for peer in peers:
        peer.join(PATIENCE)
        holds(not peer.is_alive(), "a peer couldn't send all its lines")


def replayed(program, room):
    """What a replay of the record prints. It runs as the user of the run, in its folder."""
    who = {"user": NOBODY, "group": NOBODY, "extra_groups": []} if os.geteuid() == 0 else {}
    words = [room.program, "replay", "-c", "main.conf", "-s", "record"]
    ran = subprocess.run(words, cwd=program.folder, stdin=subprocess.DEVNULL, capture_output=True, timeout=PATIENCE, **who)
    holds(ran.returncode == 0, f"the replay ends with status {ran.returncode}: {ran.stderr.decode(errors='replace')}")
    return ran.stdout


def look_at_record(program, room, status):
    """The run ended well. Each replay of its record prints what it printed, to the byte."""
    holds(status == 0, f"status {status}: {program.stderr().decode(errors='replace')}")
    printed = program.stdout()
    holds(b"\nowed 0\n" in printed, f"the report is another: {printed[-600:]!r}")
    for _ in range(REPLAYS):
        again = replayed(program, room)
        holds(again == printed, f"a replay prints {len(again)} bytes, the run printed {len(printed)}: {again[-600:]!r}")


def look_at_retries(report):
    """The collector and the receiver came late, and the receiver broke besides, as nothing was acknowledged over its first connection."""
    for output, least in (("tcp", 1), ("forward", 2)):
        found = re.search(rf"\noutput {output}\.0: ok [1-9][0-9]* retry ([0-9]+) error 0 spent 0 lost 0 ", report)
        holds(found and int(found[1]) >= least, f"the output {output}.0 retried too seldom: {report[-600:]}")


def one_run(room, name, ended, words=()):
    """A run whose collector and receiver come late and break once. It is ended so."""
    ports = {peer: free_port() for peer in ("port", "messages", "collector", "receiver")}
    words = ("--record", "record", *words)
    with Program(room, name, RECORDED.format(**ports), words=words, blocks="TERM,INT") as program:
        pour(program, ports["port"], ports["messages"])
        time.sleep(1.5)
        with Collector(ports["collector"]), Receiver(ports["receiver"]) as receiver:
            until(lambda: len(receiver.records) >= MESSAGES, "the receiver has the messages")
            until(lambda: program.stdout().count(b'"peer"') >= PEERS * LINES, "all lines are printed")
            status = ended(program)
        look_at_retries(program.stdout().decode())
        look_at_record(program, room, status)


def recorded(room):
    """A recorded run prints, replayed, what it printed, whether its input ended, its ticks ended, or it was stopped."""
    one_run(room, "recorded_to_the_end", lambda program: program.stop(b"a last line"))
    one_run(room, "recorded_ticks", lambda program: program.end(), words=("-n", "150"))

    def stopped(program):
        program.process.send_signal(signal.SIGTERM)
        return program.end()

    one_run(room, "recorded_to_a_signal", stopped)


def recorded_with_a_key(room):
    """The record of a run with a key has the handshake of a peer and what it sent, and not the key."""
    port = free_port()
    with Program(room, "recorded_key", KEYED.format(port=port, key=KEY), words=("--record", "record")) as program:
        with program.connect(port) as link:
            client = Client(link, KEY)
            client.greet()
            client.send(["app", [[10, {"n": 1}], [11, {"n": 2}]]], "c1")
        until(lambda: program.stdout().count(b'"n"') == 2, "the events are printed")
        look_at_record(program, room, program.stop())
        record = content(program.path("record"))
    holds(KEY.encode() not in record, "the key is in the record")
    holds(re.search(rb"PING|50494e47", record), "the handshake isn't in the record")


CASES = (recorded, recorded_with_a_key)
