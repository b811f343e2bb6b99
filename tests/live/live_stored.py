"""Live runs with chunks in files: the program is killed and started again, and files are followed."""
import os
import random
import re
import signal
import socket
import subprocess
import threading
import time

from live_room import HOST, NOBODY, PATIENCE, Collector, Program, free_port, holds, until

KILLS = int(os.environ.get("FWD_LIVE_KILLS", "12"))

STORED = """[SERVICE]
    Flush 0.2
    Grace 10
    storage.path chunks
    storage.sync full
    scheduler.base 1
    scheduler.cap 1
[INPUT]
    Name forward
    Listen 127.0.0.1
    Port {port}
    storage.type filesystem
{more}[OUTPUT]
    Name tcp
    Match *
    Host 127.0.0.1
    Port {collector}
    Format json_lines
    Retry_Limit no_limits
"""

LINES = """[INPUT]
    Name tcp
    Listen 127.0.0.1
    Port {port}
    storage.type filesystem
"""


def encoded(text):
    """A short text in MessagePack."""
    return bytes([0xA0 + len(text)]) + text.encode()


def message_of(number, padding=0):
    """A message of one event that asks for an acknowledgement; with a padding the event has a text of so many bytes too."""
    pairs = encoded("n") + b"\xce" + number.to_bytes(4, "big")
    if padding:
        pairs += encoded("padding") + b"\xda" + padding.to_bytes(2, "big") + b"x" * padding
    event = b"\x92" + b"\xce" + (1_000 + number).to_bytes(4, "big") + (b"\x82" if padding else b"\x81") + pairs
    return b"\x93" + encoded("app") + b"\x91" + event + b"\x81" + encoded("chunk") + encoded(f"id{number}")


def answer_of(number):
    return b"\x81" + encoded("ack") + encoded(f"id{number}")


def send_message(link, number, padding=0):
    """Sends a message, and waits until it is acknowledged."""
    link.sendall(message_of(number, padding))
    wanted, got = answer_of(number), b""
    while len(got) < len(wanted):
        part = link.recv(len(wanted) - len(got))
        if not part:
            raise OSError("the connection ended")
        got += part
    holds(got == wanted, f"another acknowledgement came: {got!r}")


class Sender:
    """A forward peer that sends numbered messages, one after the other, each until it is acknowledged. With a padding each
    third try has it."""

    def __init__(self, port, padding=0, first=0):
        self.port = port
        self.padding = padding
        self.tries = 0
        self.acknowledged = first
        self.stopping = False
        self.thread = threading.Thread(target=self.work, daemon=True)
        self.thread.start()

    def work(self):
        while not self.stopping:
            try:
                with socket.create_connection((HOST, self.port), timeout=2) as link:
                    while not self.stopping:
                        self.one(link)
            except OSError:
                time.sleep(0.02)

    def one(self, link):
        number, self.tries = self.acknowledged, self.tries + 1
        send_message(link, number, self.padding if self.tries % 3 == 0 else 0)
        self.acknowledged = number + 1

    def stop(self):
        self.stopping = True
        self.thread.join(PATIENCE)
        return self.acknowledged


class LineSender:
    """A tcp peer that sends numbered lines. Nothing acknowledges them; where a link breaks, it goes on with the next one."""

    def __init__(self, port):
        self.port = port
        self.sent = 0
        self.stopping = False
        self.thread = threading.Thread(target=self.work, daemon=True)
        self.thread.start()

    def work(self):
        while not self.stopping:
            try:
                with socket.create_connection((HOST, self.port), timeout=2) as link:
                    while not self.stopping:
                        number, self.sent = self.sent, self.sent + 1
                        link.sendall(b'{"line":%d}\n' % number)
                        time.sleep(0.001)
            except OSError:
                time.sleep(0.02)

    def stop(self):
        self.stopping = True
        self.thread.join(PATIENCE)
        return self.sent


NUMBERED = re.compile(rb'\{"date":[0-9]+\.[0-9]{9},"(n|line)":([0-9]+)\}')


def came(collector):
    """What came whole, over all links, with its sender's word and its number; what a kill cut off isn't looked at."""
    lines = [line for stream in list(collector.streams) for line in bytes(stream).split(b"\n")[:-1]]
    found = [NUMBERED.fullmatch(line) for line in lines]
    holds(all(found), f"a line came that nobody sent: {lines[found.index(None)][:200]!r}" if None in found else "")
    return [(one[1].decode(), int(one[2])) for one in found]


def numbers_of(collector, sender="n"):
    return {number for word, number in came(collector) if word == sender}


def killed(program):
    program.process.send_signal(signal.SIGKILL)
    program.process.wait(PATIENCE)


def killed_again_and_again(room, collector, configuration, ports):
    """The program is killed at random moments, with the collector up, slow or down. What is left is the last run."""
    chance = random.Random(7)
    for turn in range(KILLS):
        listens = turn % 3 != 0
        if listens:
            collector.open(pause=0.002 * (turn % 2))
        with Program(room, "killed", configuration) as program:
            for port in ports:
                program.connect(port).close()
            time.sleep(0.1 + 0.6 * chance.random())
            killed(program)
        if listens:
            collector.close()
    return program


def list_and_report_agree(room, configuration, program):
    """A run without a collector loads and owes what `list` says, and leaves it so. It gives how many events that is."""
    before = listed(room, program)
    with Program(room, "killed", configuration.replace("Grace 10", "Grace 1"), words=("-n", "8")) as program:
        status = program.end()
        report, after = program.stdout().decode(), listed(room, program)
    holds(status == 0, f"status {status}: {program.stderr().decode(errors='replace')}")
    chunks = [re.search(r' chunk "[^"]+" events ([0-9]+) ', line) for line in before[:-1]]
    holds(all(chunks), f"a file is listed that is no chunk: {before}")
    loaded, owed = int(re.search("loaded ([0-9]+)", report)[1]), int(re.search("owed ([0-9]+)", report)[1])
    holds(loaded == owed == len(chunks) and after == before, f"{len(chunks)} chunks are listed, {loaded} are loaded and {owed} owed: {after}")
    return sum(int(chunk[1]) for chunk in chunks)


def killed_and_started_again(room):
    """Whatever was acknowledged, and whatever stands in a file, comes to the collector, at least once, however often the program is killed."""
    collector, port, lines = Collector(free_port()), free_port(), free_port()
    configuration = STORED.format(port=port, collector=collector.port, more=LINES.format(port=lines))
    sender, line_sender = Sender(port), LineSender(lines)
    last = killed_again_and_again(room, collector, configuration, (port, lines))
    acknowledged, sent = sender.stop(), line_sender.stop()
    holds(acknowledged > 0, f"no message was acknowledged in {KILLS} runs")
    events, before = list_and_report_agree(room, configuration, last), len(came(collector))
    collector.open()
    with Program(room, "killed", configuration) as program:
        until(lambda: numbers_of(collector) >= set(range(acknowledged)), f"the collector has all {acknowledged} acknowledged messages", 60)
        until(lambda: not chunks_in(program), "no file of a chunk is left", 60)
        killed(program)
    collector.close()
    holds(len(came(collector)) >= before + events, f"{events} events stood in files, and {len(came(collector)) - before} came")
    numbers = numbers_of(collector, "line")
    holds(numbers and numbers <= set(range(sent)), f"of {sent} lines {len(numbers)} came, the last {max(numbers, default=None)}")


def chunks_in(program):
    """The files of chunks that are there."""
    return [os.path.join(at, name) for at, _, names in os.walk(program.path("chunks")) for name in names if name.endswith(".flb")]


# what the program writes past this many blocks of 512 bytes of a file fails
NO_ROOM = "trap '' XFSZ && ulimit -f 2"


def listed(room, program):
    """What `list` says of the folder of chunks."""
    who = {"user": NOBODY, "group": NOBODY, "extra_groups": []} if os.geteuid() == 0 else {}
    return subprocess.run([room.program, "list", "-p", "chunks"], cwd=program.folder, stdout=subprocess.PIPE, check=True, **who).stdout.decode().splitlines()


def files_without_room(room):
    """What was acknowledged is kept and comes, though writes fail; what couldn't be written isn't acknowledged."""
    collector, port = Collector(free_port()), free_port()
    configuration = STORED.format(port=port, collector=collector.port, more="")
    sender = Sender(port, padding=2_000)
    with Program(room, "no_room", configuration.replace("Grace 10", "Grace 1"), words=("-n", "15"), before=NO_ROOM) as program:
        status = program.end()
        acknowledged = sender.stop()
        report, chunks = program.stdout().decode(), listed(room, program)
    holds(status == 0, f"status {status}: {program.stderr().decode(errors='replace')}")
    refused, owed = int(re.search("refused ([0-9]+)", report)[1]), int(re.search("owed ([0-9]+)", report)[1])
    holds(acknowledged > 0 and refused > 0, f"{acknowledged} messages were acknowledged, {refused} refused")
    holds(chunks[-1] == f"files {owed}" and len(chunks) == owed + 1, f"{owed} chunks are owed, and listed is {chunks[-1]}")
    collector.open()
    with Program(room, "no_room", configuration) as program:
        until(lambda: numbers_of(collector) >= set(range(acknowledged)), f"the collector has all {acknowledged} acknowledged messages", 60)
        until(lambda: not chunks_in(program), "no file of a chunk is left", 60)
        killed(program)
    collector.close()


FOLLOWED = """[SERVICE]
    Flush 0.2
    Grace 10
[INPUT]
    Name tail
    Path followed.log
    Read_from_Head On
    Tag app
[OUTPUT]
    Name file
    Match *
    Path .
    File out
    Format json_lines
"""

LOGGED = re.compile(rb'\{"date":[0-9]+\.[0-9]{9},"log":"([a-z]+ [0-9]+)"\}')


def logged(program):
    found = [LOGGED.fullmatch(line) for line in program.lines("out")]
    holds(all(found), "a line came out that nobody wrote")
    return [one[1].decode() for one in found]


def a_followed_file_is_cut(room):
    """Lines that are appended come out, also after the file was truncated."""
    with Program(room, "followed", FOLLOWED, files={"followed.log": "first 1\nfirst 2\nfir"}) as program:
        until(lambda: logged(program) == ["first 1", "first 2"], "the lines that stood there come out", 30)
        with open(program.path("followed.log"), "a") as log:
            log.write("st 3\n")
        until(lambda: logged(program)[2:] == ["first 3"], "a line comes out when its end is there", 30)
        with open(program.path("followed.log"), "w") as log:
            log.write("next 1\n")
        until(lambda: logged(program)[3:] == ["next 1"], "what is written behind a cut comes out", 30)
        holds(program.process.poll() is None, "the program runs on")
        killed(program)


CASES = (killed_and_started_again, files_without_room, a_followed_file_is_cut)
