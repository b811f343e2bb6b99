"""Runs the program with chunks in files and the offset of a followed file in a database, records its calls on files and sockets,
and asks for many moments what a loss of power may leave on the disk: a run over that must deliver each message that was
acknowledged and not delivered before, and each such line of the followed file. The program then continues from what one of
these losses leaves, and is asked again. The followed file itself is kept: its writer syncs it.

A loss of power keeps what was synced. Of other writes, new names, renames and removals it keeps nothing, all, or a random part,
and some writes in part. `--without files` or `--without folders` ignores these syncs: then messages must be lost, which shows
that a missing sync is detected.

It ends by itself, stops each program that it started by its process id, and prints `N moments, M lost messages` last.
"""
import argparse
import concurrent.futures
import dataclasses
import os
import random
import re
import subprocess
import sys
import tempfile
import threading
import time

from live_room import PATIENCE, Collector, Failed, Program, Room, content, free_port, holds, until
from live_stored import Sender
from powercut_disk import Disk, Pick

HERE = os.path.dirname(os.path.realpath(__file__))

CONFIGURATION = """[SERVICE]
    Flush 0.2
    Grace 30
    storage.path kept/chunks
    storage.sync full
    scheduler.base 1
    scheduler.cap 1
{input}
[INPUT]
    Name tail
    Path followed.log
    DB kept/offsets
    Read_from_Head On
    Tag followed
    storage.type filesystem
[OUTPUT]
    Name file
    Match *
    File written
    Format json_lines
[OUTPUT]
    Name tcp
    Match *
    Host 127.0.0.1
    Port {collector}
    Format json_lines
    Retry_Limit no_limits
"""

LINE = re.compile(rb'\{"date":[0-9]+\.[0-9]{9},"(?:(n)":([0-9]+)(?:,"padding":"x*")?|(log)":"line ([0-9]+)")\}')

FORWARD = """[INPUT]
    Name forward
    Listen 127.0.0.1
    Port {port}
    storage.type filesystem"""

STDIN = """[INPUT]
    Name stdin"""


def options_of(words):
    parser = argparse.ArgumentParser(prog="tests/powercut/run", description=__doc__, formatter_class=argparse.RawDescriptionHelpFormatter)
    parser.add_argument("--program", required=True, help="the built program")
    parser.add_argument("--runs", type=int, default=3, help="how many runs, each from what the last one left (%(default)s)")
    parser.add_argument("--messages", type=int, default=100, help="how many are acknowledged in each run (%(default)s)")
    parser.add_argument("--moments", type=int, default=200, help="how many moments of each run are checked (%(default)s)")
    parser.add_argument("--seed", type=int, default=7, help="by which these are picked (%(default)s)")
    parser.add_argument("--without", choices=["files", "folders"], default="", help="ignore the syncs of these")
    return parser.parse_args(words)


def names_in(lines):
    """What these lines are: each a word and a number. Each has to be one that was sent or written."""
    found = [LINE.fullmatch(line) for line in lines]
    holds(all(found), "a line came that nobody sent")
    return {((one[1] or one[3]).decode(), int(one[2] or one[4])) for one in found}


@dataclasses.dataclass
class Loss:
    """What a loss of power leaves: files, and the messages that were acknowledged and delivered before it. The followed file is
    whole."""

    moment: int = 0
    files: dict = dataclasses.field(default_factory=dict)
    followed: bytes = b""
    acknowledged: set = dataclasses.field(default_factory=set)
    handed: set = dataclasses.field(default_factory=set)

    def owed(self):
        return (self.acknowledged | {("log", number) for number in range(self.followed.count(b"\n"))}) - self.handed

    def put(self, folder):
        for name, data in {"followed.log": self.followed, **{f"kept/{name}": data for name, data in self.files.items()}}.items():
            path = os.path.join(folder, name)
            os.makedirs(os.path.dirname(path), exist_ok=True)
            with open(path, "wb") as file:
                file.write(data)
        os.makedirs(os.path.join(folder, "kept"), exist_ok=True)


class Writer:
    """Appends numbered lines to a followed file, until it is stopped."""

    def __init__(self, path, first):
        self.path, self.lines, self.stopping = path, first, False
        self.thread = threading.Thread(target=self.work, daemon=True)
        self.thread.start()

    def work(self):
        with open(self.path, "ab", buffering=0) as file:
            while not self.stopping:
                count = 1 + self.lines % 5
                file.write(b"".join(b"line %d\n" % number for number in range(self.lines, self.lines + count)))
                self.lines += count
                time.sleep(0.01)

    def stop(self):
        self.stopping = True
        self.thread.join(PATIENCE)


def calls_of(room, name, before, first, messages):
    """A life over what a loss left: messages come and the followed file grows, a collector is there for a part of the time, and
    then the program is killed. Returns its folder and its calls."""
    collector, port = Collector(free_port()), free_port()
    folder = os.path.join(room.path, name)
    before.put(folder)
    preload = f"export LD_PRELOAD={room.path}/powercut.so POWERCUT_LOG={folder}/calls POWERCUT_ROOT={folder}"
    configuration = CONFIGURATION.format(input=FORWARD.format(port=port), collector=collector.port)
    with Program(room, name, configuration, before=preload) as program:
        program.connect(port).close()
        sender = Sender(port, padding=300, first=first)
        writer = Writer(program.path("followed.log"), before.followed.count(b"\n"))
        for part, listens in enumerate((False, True, False)):
            if listens:
                collector.open()
            until(lambda: (sender.acknowledged - first) * 3 >= messages * (part + 1), "messages are acknowledged")
            if listens:
                until(lambda: collector.taken() > 0, "some come to the collector")
                collector.close()
        sender.stop()
        writer.stop()
        program.process.kill()
        program.process.wait()
    return folder, [line.split("\t") for line in content(f"{folder}/calls").decode().splitlines()]


class Told:
    """Returns the messages that were acknowledged, by what was sent over sockets, and those that were delivered, by what the sockets took."""

    def __init__(self, before):
        self.acknowledged, self.handed, self.begun = set(before.acknowledged), set(before.handed), {}

    def sent(self, data):
        self.acknowledged |= {("n", int(number)) for number in re.findall(rb"\xa3ack[\xa0-\xbf]id([0-9]+)", data)}

    def took(self, socket, data):
        lines = (self.begun.get(socket, b"") + data).split(b"\n")
        self.begun[socket] = lines.pop()
        self.handed |= names_in([line for line in lines if LINE.fullmatch(line)])


def losses_of(folder, calls, before, chance, options):
    """A loss of power at each moment that is picked."""
    picked = sorted(chance.randrange(len(calls) + 1) for _ in range(options.moments))
    disk, told, made = Disk(f"{folder}/kept", before.files, options.without), Told(before), 0
    followed = content(f"{folder}/followed.log")
    for moment in picked:
        for call, path, *more in calls[made:moment]:
            if call == "send":
                told.sent(bytes.fromhex(more[1]))
            elif call == "took":
                told.took(more[0], bytes.fromhex(more[1]))
            elif call == "write":
                disk.call(call, path, int(more[0]), bytes.fromhex(more[1]))
            else:
                disk.call(call, path, more[0])
        made = moment
        yield Loss(moment, disk.after(Pick(chance.random())), followed, set(told.acknowledged), set(told.handed))


def came_to(collector):
    return names_in([line for stream in list(collector.streams) for line in bytes(stream).split(b"\n")[:-1]])


def listening():
    """A collector at a port of its own. Another program may have come to a free port first."""

    def opened():
        collector = Collector(free_port())
        try:
            collector.open()
        except OSError:
            return None
        return collector

    return until(opened, "a collector listens", 10)


def missing_behind(room, name, loss, without):
    """Returns the messages and lines that are pending after a loss of power, and that a run over what is left does not deliver. Where
    syncs are ignored, it may not begin."""
    loss.put(os.path.join(room.path, name))
    collector = listening()
    configuration = CONFIGURATION.format(input=STDIN, collector=collector.port)
    with Program(room, name, configuration) as program:
        try:
            until(lambda: loss.owed() <= came_to(collector) or program.process.poll() is not None, "all come", 5 if without else 60)
        except Failed:
            pass
        status = program.stop()
        complaint = program.stderr().decode(errors="replace")
    collector.close()
    holds(status == 0 or without, f"the run over what is left ended with status {status}: {complaint}")
    return loss.owed() - came_to(collector)


def looked_at(room, life, before, chance, threads, options):
    """A life, and the losses of power in it. It gives one of these, from which the next life goes on, and how many messages
    were missing after all of them."""
    folder, calls = calls_of(room, f"life{life}", before, life * 1_000_000, options.messages)
    losses = list(losses_of(folder, calls, before, chance, options))
    results = [threads.submit(missing_behind, room, f"life{life}.{number}", loss, options.without) for number, loss in enumerate(losses)]
    lost = 0
    for loss, result in zip(losses, results):
        missing = result.result()
        lost += len(missing)
        if missing:
            print(f"run {life}, moment {loss.moment}: of {len(loss.owed())} messages and lines {len(missing)} are lost, as {min(missing)}", flush=True)
    syncs = sum(call[0] in ("sync", "datasync") for call in calls)
    most = max(len(loss.owed()) for loss in losses)
    print(f"run {life}: {len(losses)} moments in {len(calls)} calls, of which {syncs} are syncs; up to {most} messages and lines were pending, and {lost} lost", flush=True)
    return chance.choice(losses[len(losses) // 2 :]), lost


def main(words):
    options = options_of(words)
    chance = random.Random(options.seed)
    loss, lost = Loss(), 0
    with tempfile.TemporaryDirectory(prefix="fwd-powercut-") as path, concurrent.futures.ThreadPoolExecutor(os.cpu_count()) as threads:
        room = Room(path, options.program)
        subprocess.run(["cc", "-O1", "-shared", "-fPIC", "-o", f"{path}/powercut.so", f"{HERE}/powercut.c", "-ldl"], check=True)
        for life in range(options.runs):
            loss, more = looked_at(room, life, loss, chance, threads, options)
            lost += more
    print(f"{options.runs * options.moments} moments, {lost} lost messages")
    return 1 if bool(lost) != bool(options.without) else 0


if __name__ == "__main__":
    sys.exit(main(sys.argv[1:]))
