"""Hostile collectors. The good peer's lines go to a file too, and to the collector once it behaves."""
import os
import threading
import time

import hostile_collector as treat
from hostile_case import CAP, LINES_TO_FILE, MESSAGES_TO_FILE, SERVICE, TO_FILE, Case, case, of_megabytes
from hostile_collector import HostileCollector
from hostile_forward import send_new_tags
from hostile_room import GoodPeer, GoodSender
from live_room import Failed, until

STORED = SERVICE.replace("[INPUT]", "    storage.path chunks\n[INPUT]", 1) + """[INPUT]
    Name tcp
    Listen 127.0.0.1
    Port {port}
    storage.type filesystem
""" + TO_FILE

FORMS = {"tcp": "Format json_lines", "http": "Format json_lines", "forward": "Require_ack_response On"}


def to_collector(kind, inputs=STORED):
    """The lines go to a file and to a collector."""
    output = f"""[OUTPUT]
    Name {kind}
    Host 127.0.0.1
    Port {{other}}
    {FORMS[kind]}
    Retry_Limit no_limits
"""
    return inputs + output


FLUSHES = "four flushes of a chunk each, and their replies; other chunks are in files"
HEAD = "8,192 bytes of a reply up to the end of its header, and a read of 65,536, for each of four flushes"
ACK = "1,024 bytes of a reply, and a read of 65,536, for each of four flushes"
UNREAD = "65,536 bytes of reply before the payload is taken, and a read of 65,536, for each of four flushes"
# The loop breaks a link that is silent for this many seconds, and one that takes nothing for so many.
SILENCE = 60
ANSWER = 300

KNOWN_TCP = "a tcp output has no acknowledgement: what the socket took counts as delivered"


def pending_lines_come(trial, patience=40):
    """Lets the collector behave, and waits until it has every line that was sent."""
    begun, collector, wanted = time.monotonic(), trial.collector, set(trial.good.sent)
    collector.turn_good()
    try:
        until(lambda: wanted <= collector.numbers or not trial.alive(), "", patience)
        trial.tell(f"all {len(wanted):,} lines are at the collector {time.monotonic() - begun:.1f} s after it turned good")
    except Failed:
        trial.complain(f"{len(wanted - collector.numbers):,} of {len(wanted):,} lines don't come to the collector once it is good")


def burst(trial):
    """Lines for some chunks of two megabytes, each more than a socket takes that nobody reads."""
    line = b'{"burst":"%s"}\n' % (b"b" * 184)
    with trial.connect() as link:
        for _ in range(40):
            trial.send(link, line * 1_000)


def outlive(trial):
    """Other connections get lines once those that are silent have been so for the longest that is borne."""
    begun = time.monotonic()
    try:
        until(lambda: trial.collector.numbers or not trial.alive(), "", SILENCE + 15)
        trial.tell(f"lines came to the collector {time.monotonic() - begun:.0f} s after the attack")
    except Failed:
        trial.complain("no line came to the collector, which treats all but four connections as it should")


def outlast(trial):
    """The program breaks the four links of a collector whose answers have no end."""
    try:
        until(lambda: len(trial.collector.lasted) >= 4 or not trial.alive(), "", ANSWER + 15)
    except Failed:
        pass
    lasted = [round(seconds) for seconds in trial.collector.lasted]
    trial.tell(f"links were broken after {lasted} seconds")
    trial.hopes(len(lasted) >= 4 and all(abs(seconds - ANSWER) <= 5 for seconds in lasted), f"links ended after {lasted} seconds, and {ANSWER} are borne")


def collected(name, treats, kind, limit, memory=64, inputs=STORED, bursts=False, patience=40, **more):
    """A case in which a collector of a kind treats its connections so, and has all lines so many seconds after it turned good."""

    def attack(trial):
        trial.collector = HostileCollector(trial.other, kind, treats, narrow=bursts)
        if bursts:
            burst(trial)
        trial.rest()
        if treats is treat.first_four_are_silent:
            outlive(trial)
        if treats is treat.byte_a_while:
            outlast(trial)
        trial.count(peers=len(trial.collector.links), sent=trial.collector.sent)

    attack.__name__ = name
    configuration = to_collector(kind, inputs)
    return Case(attack, configuration, GoodPeer, of_megabytes(memory), limit, after=lambda trial: pending_lines_come(trial, patience), **more)


CHUNKS = 10_000


@case(
    to_collector("http", MESSAGES_TO_FILE),
    "a row for each pending chunk, and what Mem_Buf_Limit 16M lets in",
    64,
    good=GoodSender,
    after=pending_lines_come,
    known="an output has four flushes at a time, so lines that queue after 10,000 chunks come late",
    shows="don't come to the collector",
)
def many_chunks_wait_for_a_silent_collector(trial):
    """As many chunks wait as one a second makes in three hours."""
    trial.collector = HostileCollector(trial.other, "http", treat.reads_and_is_silent)
    with trial.connect() as link:
        for first in range(0, CHUNKS, 500):
            send_new_tags(trial, link, first, 500)
        trial.rest()
    trial.tell(f"{CHUNKS:,} chunks wait")


def begin_pipe(trial, program):
    """The program's standard output is a pipe, of which nothing is read for now."""
    path = program.path("pipe")
    until(lambda: os.path.exists(path), "the pipe is there", 10)
    trial.pipe = os.open(path, os.O_RDONLY | os.O_NONBLOCK)


def read_pipe(pipe):
    os.set_blocking(pipe, True)
    while os.read(pipe, 1_000_000):
        pass


TO_STANDARD = """[OUTPUT]
    Name stdout
    Retry_Limit no_limits
"""


def to_pipe(attack):
    """A case in which standard output is a pipe."""
    limit = "Mem_Buf_Limit 16M, and a chunk and its payload"
    before = CAP + "; mkfifo pipe; exec >pipe"
    return case(LINES_TO_FILE + TO_STANDARD, limit, 64, quiet=True, before=before, prepare=begin_pipe)(attack)


@to_pipe
def standard_output_is_not_read(trial):
    """Standard output is a pipe that nobody reads."""
    burst(trial)
    trial.rest()
    threading.Thread(target=read_pipe, args=(trial.pipe,), daemon=True).start()


@to_pipe
def standard_output_is_read_slowly(trial):
    """Of a pipe that is standard output a page is read twenty times a second."""
    burst(trial)
    while trial.goes_on():
        try:
            os.read(trial.pipe, 4_096)
        except BlockingIOError:  # it is empty
            pass
        time.sleep(0.05)
    threading.Thread(target=read_pipe, args=(trial.pipe,), daemon=True).start()


LIMITED = LINES_TO_FILE.replace("Mem_Buf_Limit 16M", "Mem_Buf_Limit 5K")

CASES = (
    collected("http_head_without_end", treat.head_without_end, "http", HEAD),
    collected("http_body_without_end", treat.body_without_end, "http", HEAD),
    collected("http_a_byte_at_a_time", treat.byte_at_a_time, "http", HEAD, quiet=True),
    collected("http_a_byte_every_forty_seconds", treat.byte_a_while, "http", HEAD, patience=180, quiet=True, slow=True),
    collected("http_never_answers", treat.reads_and_is_silent, "http", FLUSHES, quiet=True),
    collected("http_answers_before_it_reads", treat.answers_before_it_reads, "http", UNREAD, bursts=True),
    collected("forward_never_acknowledges", treat.reads_and_is_silent, "forward", FLUSHES, quiet=True),
    collected("forward_wrong_acknowledgement", treat.wrong_acknowledgement, "forward", ACK, quiet=True),
    collected("forward_acknowledgement_without_end", treat.acknowledgement_without_end, "forward", ACK),
    collected("forward_answers_before_it_reads", treat.answers_before_it_reads, "forward", UNREAD, bursts=True),
    collected("tcp_answers_before_it_reads", treat.answers_before_it_reads, "tcp", FLUSHES, bursts=True, known=KNOWN_TCP, shows="don't come to the collector"),
    collected("http_accepts_and_closes", treat.closes, "http", FLUSHES, quiet=True),
    collected("forward_accepts_and_closes", treat.closes, "forward", FLUSHES, quiet=True),
    collected("tcp_accepts_and_closes", treat.closes, "tcp", FLUSHES, quiet=True, known=KNOWN_TCP, shows="don't come to the collector"),
    collected("http_accepts_and_never_reads", treat.reads_nothing, "http", FLUSHES, bursts=True, quiet=True),
    collected("forward_accepts_and_never_reads", treat.reads_nothing, "forward", FLUSHES, bursts=True, quiet=True),
    collected("tcp_accepts_and_never_reads", treat.reads_nothing, "tcp", FLUSHES, bursts=True, quiet=True, known=KNOWN_TCP, shows="don't come to the collector"),
    collected(
        "http_four_links_are_silent",
        treat.first_four_are_silent,
        "http",
        FLUSHES,
        quiet=True,
    ),
    collected(
        "http_never_answers_and_memory_is_full",
        treat.reads_and_is_silent,
        "http",
        "Mem_Buf_Limit: the input is paused if its pending chunks have so many bytes",
        inputs=LIMITED,
        quiet=True,
        known="an input that is paused for one output is paused for all, however often its chunks are retried",
        shows="good line",
    ),
    many_chunks_wait_for_a_silent_collector,
    standard_output_is_not_read,
    standard_output_is_read_slowly,
)
