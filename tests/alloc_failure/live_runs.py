"""Live runs with chunks in files, in each of which one allocation fails."""
import collections
import concurrent.futures
import dataclasses
import os
import re
import shutil
import socket
import tempfile
import threading

import failing_storage
from failing import count_in, free_port
from live_room import HOST, Failed, Room, content, holds

MEMORY, LINE_OF_MEMORY = 8, b"out of memory\n"
# Runs wait most of their time.
THREADS = 16


# A followed file whose offset is kept, a server that is busy first, and a forward peer that acknowledges.
MORE = """[INPUT]
    Name tail
    Path app.log
    DB offsets
    Read_from_Head On
    Tag followed
    storage.type filesystem
[OUTPUT]
    Name http
    Match followed
    Host 127.0.0.1
    Port {http}
    Format json_lines
    Retry_Limit no_limits
[OUTPUT]
    Name forward
    Match followed
    Host 127.0.0.1
    Port {peer}
    Require_ack_response On
    Retry_Limit no_limits
"""


class Server:
    """Answers what comes over a connection, once it is whole."""

    def __init__(self, answer):
        self.port, self.answer, self.count = free_port(), answer, 0
        self.listener = socket.create_server((HOST, self.port))
        threading.Thread(target=self.work, daemon=True).start()

    def work(self):
        while True:
            try:
                peer, _ = self.listener.accept()
            except OSError:
                return
            threading.Thread(target=self.serve, args=(peer,), daemon=True).start()

    def serve(self, peer):
        got = b""
        try:
            with peer:
                while part := peer.recv(65_536):
                    got += part
                    if answer := self.answer(got, self.count):
                        self.count += 1
                        peer.sendall(answer)
                        return
        except OSError:
            pass

    def close(self):
        self.listener.close()


def reply_to(request, count):
    """The reply to an HTTP request that is whole: busy at first."""
    found = re.search(rb"(?is)content-length: ([0-9]+).*?\r\n\r\n", request)
    if not found or len(request) < found.end() + int(found[1]):
        return b""
    return b"HTTP/1.1 200 OK\r\n\r\n" if count else b"HTTP/1.1 503 Busy\r\n\r\n"


def acknowledgement_of(message, _count):
    """The acknowledgement of a forward message, whose chunk comes in its option, at its end."""
    found = re.search(rb"(?s)\xa5chunk(\xb8.{24})", message)
    return b"\x81\xa3ack" + found[1] if found else b""


class Setting(failing_storage.Setting):
    def __init__(self):
        super().__init__()
        self.http, self.peer = Server(reply_to), Server(acknowledgement_of)

    def configuration(self):
        return super().configuration() + MORE.format(http=self.http.port, peer=self.peer.port)


@dataclasses.dataclass(frozen=True)
class Allocation:
    """The allocation that fails, counted from 1; 0 is none."""

    at: int
    library: str

    def before(self, _room, _on, log):
        folder = os.path.dirname(log)
        return f"export LD_PRELOAD={self.library} FAIL_ALLOC={self.at} COUNT_ALLOC={folder}/count CALLS_AFTER={folder}/after"


class Run(failing_storage.Stored):
    """Two runs over a storage folder: in the first one an allocation fails, the second one delivers what is pending."""

    def setting(self):
        return Setting()

    def end(self, setting):
        super().end(setting)
        setting.http.close()
        setting.peer.close()

    def check_first(self, status, report, complaint):
        """It ended out of memory and called no device after that, or went on and ended as without."""
        after = content(f"{self.folder}/after").decode().splitlines()
        if status == MEMORY:
            holds(not report and complaint.endswith(LINE_OF_MEMORY), f"out of memory, with {report!r} and {complaint!r}")
            holds(not after, f"out of memory, and then: {', '.join(after)}")
        else:
            holds(status == 0, f"it ended with status {status}: {complaint.decode(errors='replace')}")
            holds(count_in(report, "owed") == 0, f"something is pending: {report.decode()}")
            holds(bool(after) == (self.failure.at > 0), "the calls after the failed allocation aren't written down")

    def lines(self):
        """The lines of the followed file that came."""
        return set(re.findall(rb'"log":"([0-9]+)"', content(f"{self.folder}/written")))

    def before_stop(self, program):
        failing_storage.wait_for(lambda: len(self.lines()) == 2 or program.process.poll() is not None)

    def check_lost(self):
        super().check_lost()
        holds(self.lines() == {b"1", b"2"}, f"of the followed file came {self.lines()}")


def tried_one(room, library, found, at):
    """Returns the status of the run, and what is wrong with it."""
    run = Run(room, f"run{at}", found, Allocation(at, library))
    try:
        run.check_first(*run.first())
        run.second()
        run.check_lost()
        if at:
            shutil.rmtree(run.folder)
    except (Failed, OSError) as error:
        return None, f"allocation {at}: {error}"
    return run.status, None


def are_right(program, library, runs):
    """Makes so many runs, prints what is wrong, and returns whether nothing is."""
    with tempfile.TemporaryDirectory(prefix="fwd-alloc-live-") as path, concurrent.futures.ThreadPoolExecutor(THREADS) as threads:
        room = Room(path, program)
        os.chmod(library, 0o755)
        os.chmod(os.path.dirname(library), 0o755)
        found = failing_storage.found_by(room)
        found.files["app.log"] = b"1\n2\n"
        status, wrong = tried_one(room, library, found, 0)
        if wrong:
            print(f"live: without a failed allocation: {wrong}", flush=True)
            return False
        count = int(content(f"{path}/run0/count") or 0)
        tries = range(1, count + 1, max(1, -(-count // runs)))
        results = list(threads.map(lambda at: tried_one(room, library, found, at), tries))
    for _, wrong in results:
        if wrong:
            print(f"live: {wrong}", flush=True)
    ends = collections.Counter(status for status, wrong in results if not wrong)
    wrong = sum(bool(wrong) for _, wrong in results)
    print(f"live: {count} allocations, {len(results)} runs: {ends[MEMORY]} ended out of memory, {ends[0]} as without, {wrong} wrong", flush=True)
    return wrong == 0
