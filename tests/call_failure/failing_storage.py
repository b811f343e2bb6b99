"""Runs whose calls on the storage folder fail."""
import dataclasses
import errno
import os
import re
import shutil
import socket
import time

from failing import calls_in, count_in, failed_of, free_port
from live_room import HOST, Collector, Failed, Program, content, holds, until
from live_stored import send_message

CONFIGURATION = """[SERVICE]
    Flush 0.2
    Grace 20
    storage.path chunks
    storage.sync full
    scheduler.base 1
    scheduler.cap 1
[INPUT]
    Name forward
    Listen 127.0.0.1
    Port {forward}
    storage.type filesystem
[INPUT]
    Name tcp
    Listen 127.0.0.1
    Port {tcp}
    storage.type filesystem
[INPUT]
    Name stdin
[OUTPUT]
    Name file
    Match *
    File written
    Format json_lines
[OUTPUT]
    Name tcp
    Match *
    Host 127.0.0.1
    Port {collector}
    Format json_lines
    Retry_Limit no_limits
"""

LINE = re.compile(rb'\{"date":[0-9]+\.[0-9]{9},"(n|line|log)":"?([0-9]+)"?\}')
# For how many seconds a message is sent again until it is acknowledged, and what is pending may take to come.
LONGEST = 30
DONE, DISK_FAULT = 0, 4


class Setting:
    """The ports of a run, and its collector, which isn't there yet."""

    def __init__(self):
        self.forward, self.tcp, self.collector = free_port(), free_port(), Collector(free_port())

    def configuration(self):
        return CONFIGURATION.format(forward=self.forward, tcp=self.tcp, collector=self.collector.port)


def has_begun(program, port):
    """Whether the program listens. It may have ended before."""

    def begun():
        if program.process.poll() is not None:
            return "ended"
        try:
            socket.create_connection((HOST, port), timeout=5).close()
            return "listens"
        except OSError:
            return None

    return until(begun, "the program listens or ends", LONGEST) == "listens"


def is_acknowledged(program, port, number):
    """Sends a message until it is acknowledged, over another connection where one breaks."""
    last = time.monotonic() + LONGEST
    while program.process.poll() is None and time.monotonic() < last:
        try:
            with socket.create_connection((HOST, port), timeout=5) as link:
                send_message(link, number)
                return True
        except OSError:
            time.sleep(0.02)
    return False


def send_line(port, number):
    try:
        with socket.create_connection((HOST, port), timeout=5) as link:
            link.sendall(b'{"line":%d}\n' % number)
    except OSError:
        pass


def messages_in(text):
    """The numbers of the messages in the whole lines of a text. Each line has to be one that was sent."""
    found = [LINE.fullmatch(line) for line in text.split(b"\n")[:-1]]
    holds(all(found), f"a line came that nobody sent: {text[:300]!r}")
    return {int(one[2]) for one in found if one[1] == b"n"}


def came_to(collector):
    return set().union(*(messages_in(bytes(stream)) for stream in list(collector.streams)))


def wait_for(ready):
    """Waits for what may not come where a call failed."""
    try:
        until(ready, "", LONGEST)
    except Failed:
        pass


class Stored:
    """Two runs over one storage folder, in the first of which a call fails."""

    def __init__(self, room, name, found, failure):
        """`found` is what an earlier run left."""
        self.room, self.name, self.failure = room, name, failure
        self.folder = os.path.join(room.path, name)
        self.acknowledged, self.taken, self.status = set(found.acknowledged), set(), None
        for path, data in found.files.items():
            os.makedirs(os.path.dirname(f"{self.folder}/{path}"), exist_ok=True)
            with open(f"{self.folder}/{path}", "wb") as file:
                # The reserve has zeros alone, and a run looks at its length.
                file.write(data) if data.strip(b"\0") else file.truncate(len(data))

    def setting(self):
        return Setting()

    def first(self):
        """The run in which the call fails. Returns its status and its report."""
        setting = self.setting()
        before = self.failure.before(self.room, f"{self.folder}/chunks", f"{self.folder}/calls")
        with Program(self.room, self.name, setting.configuration(), before=before) as program:
            if has_begun(program, setting.forward):
                self.send_all(program, setting)
                wait_for(lambda: self.acknowledged <= came_to(setting.collector) or program.process.poll() is not None)
            self.status = program.stop()
            self.end(setting)
            return self.status, program.stdout(), program.stderr()

    def send_all(self, program, setting):
        """Two messages come before there is a collector, so that the file's outcome is recorded; another one comes then."""
        self.send(program, setting, (100, 101))
        wait_for(lambda: 101 in messages_in(content(f"{self.folder}/written")) or program.process.poll() is not None)
        setting.collector.open()
        self.send(program, setting, (102,))

    def send(self, program, setting, numbers):
        for number in numbers:
            send_line(setting.tcp, number)
            if is_acknowledged(program, setting.forward, number):
                self.acknowledged.add(number)
            else:
                holds(program.process.poll() is not None, f"message {number} isn't acknowledged")

    def end(self, setting):
        setting.collector.close()
        self.taken |= came_to(setting.collector)

    def before_stop(self, program):
        """Waits for what the second run reads."""

    def second(self):
        """A run without failures, which delivers what is pending and ends."""
        setting = self.setting()
        setting.collector.open()
        with Program(self.room, self.name, setting.configuration()) as program:
            self.before_stop(program)
            status, report = program.stop(), program.stdout()
            complaint = program.stderr().decode(errors="replace")
        self.end(setting)
        holds(status == DONE, f"the second run ended with status {status}: {complaint}")
        holds(count_in(report, "owed") == 0, f"the second run left something: {report.decode()}")

    def calls(self):
        return calls_in(f"{self.folder}/calls")

    def check_first(self, status, report, complaint):
        """The run went on and counted the failure, or it ended at once for it."""
        call = failed_of(self.calls())
        if status == DISK_FAULT:
            holds(call and not report and complaint.endswith(b"disk fault\n"), f"it ended with {complaint!r} and {report!r}")
            return
        holds(status == DONE, f"it ended with status {status}: {complaint.decode(errors='replace')}")
        faults, refused = count_in(report, "faults"), sum(int(count) for count in re.findall(rb"refused ([0-9]+)", report))
        if not call or self.failure.error == errno.ENOSPC:
            # A write that finds the disk full is made again, in the room of the reserve.
            holds(not faults and not refused, f"a fault or a refused batch is counted: {report.decode()}")
        elif not self.failure.unmade:
            holds(faults >= 1, f"no fault is counted: {report.decode()}")

    def check_lost(self):
        lost = self.acknowledged - self.taken
        holds(not lost, f"acknowledged messages are lost: {sorted(lost)}")
        missing = self.acknowledged - messages_in(content(f"{self.folder}/written"))
        holds(not missing, f"the output file lacks acknowledged messages: {sorted(missing)}")


@dataclasses.dataclass(frozen=True)
class Found:
    """What an earlier run leaves: files, by their paths, and the messages that were acknowledged."""

    files: dict
    acknowledged: tuple


def found_by(room):
    """A run that is killed when the output file has the messages, and no collector."""
    setting, numbers = Setting(), (0, 1, 2)
    with Program(room, "earlier", setting.configuration()) as program:
        holds(has_begun(program, setting.forward), f"the earlier run ended: {program.stderr()!r}")
        for number in numbers:
            holds(is_acknowledged(program, setting.forward, number), f"message {number} isn't acknowledged")
        until(lambda: 2 in messages_in(content(program.path("written"))), "the output file has the messages")
        program.process.kill()
        program.process.wait()
    paths = [os.path.join(at, name) for at, _, names in os.walk(program.path("chunks")) for name in names]
    return Found({os.path.relpath(path, program.folder): content(path) for path in [*paths, program.path("written")]}, numbers)


def tried(room, name, found, failure):
    """Two runs; in the first one the call fails. Returns the status of the first one and its calls."""
    runs = Stored(room, name, found, failure)
    runs.check_first(*runs.first())
    runs.second()
    runs.check_lost()
    calls = runs.calls()
    shutil.rmtree(runs.folder)
    return runs.status, calls
