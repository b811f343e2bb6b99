"""One call that fails, in one run of the program."""
import dataclasses
import errno
import itertools
import os
import re
import socket

from live_room import HOST, content, holds

# Ports below those that the system gives to connections, so that none of the runs beside each other gets another's.
FIRST_PORT, PORTS = 20_000, 10_000
_places = itertools.count(os.getpid() * 97)

# The statuses of a run, and the line that each puts on standard error.
LINES = {3: b"file fault\n", 4: b"disk fault\n", 6: b"output fault\n", 11: b"keeper fault\n"}


def free_port():
    """Returns a port that nobody listens at, and that no other run of this script gets. It isn't bound, since a process that
    another thread starts meanwhile would keep it."""
    while True:
        port = FIRST_PORT + next(_places) % PORTS
        try:
            socket.create_connection((HOST, port), timeout=1).close()
        except ConnectionRefusedError:
            return port
        except OSError:
            pass


@dataclasses.dataclass(frozen=True)
class Failure:
    """Which call fails, counted from 1, and how. 0 is none."""

    at: int = 0
    error: int = errno.EIO
    kind: str = ""
    # It is made all the same; or it isn't made, and says that it was.
    made: bool = False
    unmade: bool = False

    def variables(self, room, on, log):
        """The variables of a run whose calls on a path, or on `stdout`, are counted."""
        return {
            "LD_PRELOAD": f"{room.path}/call_failure.so",
            "CALL_FAILURE_ON": on,
            "CALL_FAILURE_LOG": log,
            "CALL_FAILURE_AT": str(self.at),
            "CALL_FAILURE_ERRNO": str(self.error),
            "CALL_FAILURE_KIND": self.kind,
            "CALL_FAILURE_MADE": str(int(self.made)),
            "CALL_FAILURE_UNMADE": str(int(self.unmade)),
        }

    def before(self, room, on, log):
        """A command of the shell that sets them."""
        return "export " + " ".join(f"{name}={value}" for name, value in self.variables(room, on, log).items())

    def told(self):
        what = f"a {self.kind}" if self.kind else "any call"
        if self.unmade:
            return f"{what} isn't made and says that it was"
        return f"{errno.errorcode[self.error]} of {what}" + (", though it was made" if self.made else "")


@dataclasses.dataclass(frozen=True)
class Call:
    number: int
    kind: str
    path: str
    failed: bool


def calls_in(path):
    """The calls of a run that were counted."""
    rows = [line.split("\t") for line in content(path).decode().splitlines()]
    return [Call(int(number), kind, where, end == "failed") for number, kind, where, end in rows]


def failed_of(calls):
    """The call that failed, if one did."""
    return next((call for call in calls if call.failed), None)


def count_in(report, word):
    """A number of the report's totals."""
    found = re.search(rf"(?m)(?:^|\s){word} ([0-9]+)\b".encode(), report)
    holds(found, f"the report has no {word}: {report.decode(errors='replace')}")
    return int(found[1])


def short(call, folder):
    """A call in few words."""
    return f"{call.kind} of {os.path.relpath(call.path, folder) if call.path.startswith('/') else call.path}"
