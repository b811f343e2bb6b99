"""Live runs that a signal stops."""
import re
import signal
import time

from live_room import Collector, Program, free_port, holds, until
from live_stored import chunks_in, listed, numbers_of, send_message

# So the program is started by ./fwd and by examples/quickstart/fwd.service.
BLOCKED = "TERM,INT"

# Chunks stay open for a minute. What comes over the first input is kept in memory, what comes over the second in files.
TO_COLLECTOR = """[SERVICE]
    Flush 60
    Grace {grace}
    storage.path chunks
    storage.sync full
    scheduler.base 1
    scheduler.cap 1
[INPUT]
    Name forward
    Listen 127.0.0.1
    Port {memory}
[INPUT]
    Name forward
    Listen 127.0.0.1
    Port {files}
    storage.type filesystem
[OUTPUT]
    Name tcp
    Match *
    Host 127.0.0.1
    Port {collector}
    Format json_lines
    Retry_Limit no_limits
"""

# The numbers of the messages in the two open chunks.
IN_MEMORY, IN_FILE = 1, 2


class Scene:
    """A collector, and the ports and the configuration of a program that sends to it."""

    def __init__(self, room, name, grace):
        self.room, self.name = room, name
        self.memory, self.files, self.collector = free_port(), free_port(), Collector(free_port())
        ports = {"memory": self.memory, "files": self.files, "collector": self.collector.port}
        self.configuration = TO_COLLECTOR.format(grace=grace, **ports)

    def program(self, blocks=BLOCKED):
        return Program(self.room, self.name, self.configuration, blocks=blocks)

    def open_chunks(self, program):
        """Sends a message to each input. Both are acknowledged, and nothing has gone to the collector."""
        for port, number in ((self.memory, IN_MEMORY), (self.files, IN_FILE)):
            with program.connect(port) as link:
                send_message(link, number)
        holds(len(chunks_in(program)) == 1, f"the files of chunks are {chunks_in(program)}")
        holds(self.collector.taken() == 0, "an open chunk went to the collector")


def stopped_by(program, sent):
    """Sends a signal, and returns the program's status and after how many seconds it ended."""
    begun = time.monotonic()
    program.process.send_signal(sent)
    return program.end(), time.monotonic() - begun


def ended_well(program, status, owed):
    """The program's status is 0, and the report says how many chunks are pending."""
    report = program.stdout().decode()
    holds(status == 0, f"status {status}: {program.stderr().decode(errors='replace')}")
    holds(re.search(rf"\nowed {owed}\n", report), f"the report isn't one with {owed} pending: {report!r}")


def delivers_by(room, name, sent):
    """A signal closes the open chunks. They come to the collector, and the program ends."""
    scene = Scene(room, name, grace=20)
    scene.collector.open()
    with scene.program() as program:
        scene.open_chunks(program)
        status, seconds = stopped_by(program, sent)
    scene.collector.close()
    ended_well(program, status, owed=0)
    holds(seconds < 2, f"the program ended after {seconds:.1f} seconds")
    came = numbers_of(scene.collector)
    holds(came == {IN_MEMORY, IN_FILE}, f"the collector has {came}")
    holds(not chunks_in(program), f"files of chunks are left: {chunks_in(program)}")


def stopped(room):
    delivers_by(room, "stopped", signal.SIGTERM)


def interrupted(room):
    delivers_by(room, "interrupted", signal.SIGINT)


def stopped_in_grace(room):
    """Without a collector the program ends after Grace, and a second signal changes nothing. The next run delivers
    what is in a file."""
    grace = 3
    scene = Scene(room, "grace", grace)
    with scene.program() as program:
        scene.open_chunks(program)
        program.process.send_signal(signal.SIGINT)
        time.sleep(1)
        holds(program.process.poll() is None, "the program ended before Grace was over")
        status, seconds = stopped_by(program, signal.SIGTERM)
    ended_well(program, status, owed=2)
    seconds += 1
    holds(grace - 1 < seconds < grace + 2, f"the program ended after {seconds:.1f} seconds, with Grace {grace}")
    holds(listed(room, program)[-1] == "files 1", f"listed is {listed(room, program)}")
    scene.collector.open()
    with scene.program() as program:
        until(lambda: not chunks_in(program), "no file of a chunk is left", 30)
        status, _ = stopped_by(program, signal.SIGTERM)
    scene.collector.close()
    ended_well(program, status, owed=0)
    holds(numbers_of(scene.collector) == {IN_FILE}, f"the collector has {numbers_of(scene.collector)}")


def killed(room):
    """A signal that the program doesn't block ends it at once, without a report. What is in a file stays there."""
    scene = Scene(room, "not_blocked", grace=20)
    with scene.program(blocks="") as program:
        scene.open_chunks(program)
        status, _ = stopped_by(program, signal.SIGTERM)
    holds(status == -signal.SIGTERM, f"status {status}")
    holds(program.stdout() == b"", f"standard output has {program.stdout()!r}")
    holds(listed(room, program)[-1] == "files 1", f"listed is {listed(room, program)}")


CASES = (stopped, stopped_in_grace, interrupted, killed)
