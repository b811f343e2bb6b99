"""A hostile case: its configuration, what it requires of the program, and its row of the table."""
import os
import re
import shutil
import time
from dataclasses import dataclass
from typing import Callable

from hostile_room import IN_TIME, MEGABYTE, GoodPeer, Trial
from live_room import Failed, Program

# The program may take this many kilobytes of address space, so that a failing case doesn't exhaust the machine.
CAP = "ulimit -v 8000000"

# The share of a processor that the program may take while peers are silent.
QUIET = 0.25

SERVICE = """[SERVICE]
    Flush 0.2
    Grace 2
    scheduler.base 1
    scheduler.cap 1
[INPUT]
    Name stdin
"""

TO_FILE = """[OUTPUT]
    Name file
    Path .
    File out
    Format json_lines
    Retry_Limit no_limits
"""

LINES_TO_FILE = (
    SERVICE
    + """[INPUT]
    Name tcp
    Listen 127.0.0.1
    Port {port}
    Mem_Buf_Limit 16M
"""
    + TO_FILE
)

MESSAGES_TO_FILE = (
    SERVICE
    + """[INPUT]
    Name forward
    Listen 127.0.0.1
    Port {port}
    Mem_Buf_Limit 16M
"""
    + TO_FILE
)


@dataclass
class Case:
    """A case. `memory` returns, for the options, how many bytes the program may take above an idle run; `limit` says why."""

    attack: Callable
    configuration: str
    good: type
    memory: Callable
    limit: str
    prepare: Callable = None
    after: Callable = None
    quiet: bool = False
    before: str = CAP
    # Whether the case takes minutes, so that it runs only if it is named.
    slow: bool = False
    # Why the case fails today, if it does, and a pattern that matches everything that is then found wrong.
    known: str = ""
    shows: str = ""

    @property
    def name(self):
        return self.attack.__name__


def of_megabytes(count):
    return lambda options: count * MEGABYTE


def case(configuration, limit, memory, good=GoodPeer, **more):
    """Makes a case from a function that attacks."""
    bound = memory if callable(memory) else of_megabytes(memory)
    return lambda attack: Case(attack, configuration, good, bound, limit, **more)


@dataclass
class Row:
    """The result of a case."""

    case: Case
    trial: Trial
    bound: int
    seconds: float

    @property
    def verdict(self):
        if not self.trial.wrong:
            return "passed"
        expected = self.case.known and all(re.search(self.case.shows, text) for text in self.trial.wrong)
        return "known" if expected else "FAILED"

    def cells(self):
        trial, good = self.trial, self.trial.good
        sent = len(good.sent) if good else 0
        missing = len(good.missing()) if good else 0
        share = trial.busy / trial.wall if trial.wall else 0
        return (
            self.case.name,
            self.verdict,
            f"{trial.idle / MEGABYTE:,.0f}",
            f"{trial.peak / MEGABYTE:,.0f}",
            f"{self.bound / MEGABYTE:,.0f}",
            f"{sent - missing:,}/{sent:,}",
            f"{good.slowest():.2f}" if good else "",
            f"{trial.peers:,}",
            f"{trial.bytes:,}",
            f"{share:.2f}",
        )


HEAD = ("case", "verdict", "idle MB", "peak MB", "bound MB", "good lines", "slowest s", "peers", "bytes", "processors")


def look_at_end(trial):
    """Checks that the program ends with status 0, and that no output counts an error, a spent retry or a loss."""
    if not trial.alive():
        told = trial.program.stderr().decode(errors="replace").strip()
        trial.complain(f"the program ended with status {trial.program.process.poll()}: {told[-300:]}")
        return
    status = trial.program.stop()
    report = trial.program.stdout().decode(errors="replace")
    trial.hopes(status == 0, f"status {status} at the end: {trial.program.stderr().decode(errors='replace')[-300:]}")
    for line in re.findall(r"^output .*$", report, re.M):
        trial.tell(line)
        trial.hopes(re.search(r" error 0 spent 0 lost 0 ", line), f"something was given up: {line}")
    for line in re.findall(r"^(?:input (?!stdin).*|loaded .*|owed .*)$", report, re.M):
        trial.tell(line)


def judge(case, trial, bound):
    """Checks what every case requires."""
    good = trial.good
    for text in good.trouble:
        trial.complain(text)
    missing = len(good.missing())
    trial.hopes(not missing, f"{missing} of {len(good.sent)} good lines didn't come")
    trial.hopes(good.slowest() <= IN_TIME, f"a good line took {good.slowest():.1f} s, and has {IN_TIME}")
    trial.hopes(trial.peak <= bound, f"{trial.peak / MEGABYTE:,.0f} MB of memory, and {bound / MEGABYTE:,.0f} are the bound")
    if case.quiet and trial.wall:
        share = trial.busy / trial.wall
        trial.hopes(share <= QUIET, f"{share:.2f} of a processor while peers are silent")


def work(case, trial):
    case.attack(trial)
    trial.attacked()
    trial.end()
    if case.after:
        case.after(trial)
    trial.settle()


def tried(case, room, options):
    """Runs a case, and returns its row."""
    begun = time.monotonic()
    trial = Trial(options)
    configuration = case.configuration.format(port=trial.port, other=trial.other)
    try:
        with Program(room, case.name, configuration, before=case.before) as program:
            if case.prepare:
                case.prepare(trial, program)
            trial.begin(program, case.good)
            work(case, trial)
            judge(case, trial, trial.idle + case.memory(options))
            look_at_end(trial)
    except (Failed, OSError) as error:  # a case that fails is reported, and the others run
        trial.complain(f"{type(error).__name__}: {error}")
    finally:
        trial.leave()
    shutil.rmtree(os.path.join(room.path, case.name), ignore_errors=True)
    return Row(case, trial, trial.idle + case.memory(options), time.monotonic() - begun)


def told(row):
    """Prints the result of a case as soon as it is over."""
    print(f"hostile {row.case.name}: {row.verdict} in {row.seconds:.1f} s", flush=True)
    print(f"    bound: {row.case.limit}", flush=True)
    for text in row.trial.told:
        print(f"    {text}", flush=True)
    for text in row.trial.wrong:
        print(f"    wrong: {text}", flush=True)
    if row.case.known:
        print(f"    known: {row.case.known}" if row.trial.wrong else "    it is known to fail, and passed: say so no longer", flush=True)


def page(rows):
    """Prints the table as tests/hostile/results.md has it."""
    print("| Case | What bounds the memory | Peak (bound), MB | Good lines, the slowest | Peers | Bytes | Processors | Verdict |")
    print("|---|---|---:|---:|---:|---:|---:|---|")
    for row in rows:
        name, verdict, _, peak, bound, lines, slowest, peers, sent, share = row.cells()
        print(f"| `{name}` | {row.case.limit} | {peak} ({bound}) | {lines}, {slowest} s | {peers} | {sent} | {share} | {verdict} |")


def table(rows):
    """Prints the figures of all cases."""
    cells = [HEAD, *(row.cells() for row in rows)]
    widths = [max(len(line[place]) for line in cells) for place in range(len(HEAD))]
    for line in cells:
        texts = [text.ljust(width) if place < 2 else text.rjust(width) for place, (text, width) in enumerate(zip(line, widths))]
        print("  ".join(texts).rstrip())
