"""Hostile peers of an input that takes forward messages. The good peer beside them is one that waits for acknowledgements."""
import random
import socket

from hostile_case import MESSAGES_TO_FILE, case
from hostile_lines import half_and_silence, of_silent
from hostile_room import MEGABYTE, GoodSender, good_message, encoded
from live_room import content, until

LONGEST_MESSAGE = 16_777_216

# the beginnings of values that say to be as long as can be said
HUGE = {"bin": b"\xc6", "text": b"\xdb", "ext": b"\xc9", "list": b"\xdd", "map": b"\xdf"}
HUGE = {name: head + b"\xff\xff\xff\xff" for name, head in HUGE.items()}

TAG = encoded(b"bad")


def text32(text):
    return b"\xdb" + len(text).to_bytes(4, "big") + text


def message(record, option=b"", tag=TAG):
    """A message of one event, with the option that is given."""
    return bytes([0x93 + bool(option)]) + tag + b"\x00" + record + option


def is_dropped(link, patience=5):
    """Returns whether the program ends a connection; it may write over it before."""
    link.settimeout(patience)
    try:
        while link.recv(65_536):
            pass
    except TimeoutError:
        return False
    except OSError:
        pass
    return True


def forward(limit, memory, **more):
    return case(MESSAGES_TO_FILE, limit, memory, good=GoodSender, **more)


@forward("some kilobytes for each connection; the descriptor limit bounds the connections", of_silent(4_096, 16 * MEGABYTE), quiet=True)
def half_a_message_and_silence(trial):
    """Many peers send half a message each, and nothing more."""
    half_and_silence(trial, b"\x93" + TAG + b"\x00\xdf\x00\x00\x00\x02\xa1a")


@forward("a message of 16 MB, and 65,536 bytes of replies that the socket doesn't take; beyond that the connection is dropped", 96)
def acks_are_never_read(trial):
    """Peers ask for acknowledgements, never read one, and go on sending; one of them asks for such of a megabyte."""

    def attack(number):
        size = MEGABYTE if number == 0 else 1_000
        asks = message(b"\x81\xa3bad\x01", b"\x81\xa5chunk" + text32(b"c" * size))
        while trial.goes_on():
            with trial.connect(small=True) as link:
                try:
                    while trial.goes_on():
                        trial.send(link, asks)
                except OSError:  # it was dropped
                    pass

    trial.together(attack, 4)
    trial.tell(f"{trial.peers} connections, each but the last of a peer dropped")
    trial.hopes(trial.peers > 4, "no connection was dropped")


NO_MESSAGES = {
    "a request over HTTP": b"GET / HTTP/1.1\r\nHost: here\r\n\r\n",
    "the byte that is never used": b"\xc1",
    "that byte within a message": b"\x93" + TAG + b"\xc1",
    "lists nested too deep": b"\x91" * 65,
    "maps nested too deep": b"\x81\xc0" * 65,
    "a number": b"\x07",
    "a list of numbers": b"\x93\x01\x02\x03",
    "no tag": b"\x93\xa0\x00\x80",
    "a tag too long": b"\x93" + text32(b"t" * 1_025) + b"\x00\x80",
    "a record that is none": b"\x93" + TAG + b"\x00\x01",
    "entries that are none": b"\x92" + TAG + b"\xc4\x03abc",
    "compressed entries": b"\x93" + TAG + b"\xc4\x01x\x81\xaacompressed\xa4gzip",
    "an option that is none": b"\x94" + TAG + b"\x00\x80\x01",
}


@forward("invalid bytes are not kept", 16)
def bytes_that_are_no_message(trial):
    """Each is dropped at once, and whatever comes at random does no harm; a message before them is taken and answered."""
    chance, longest = random.Random(5), 0
    while trial.goes_on():
        for name, data in NO_MESSAGES.items():
            with trial.connect() as link:
                trial.send(link, data)
                trial.hopes(is_dropped(link), f"a connection goes on after {name}")
        with trial.connect() as link:
            data = chance.randbytes(chance.randrange(1, 65_536))
            trial.send(link, data)
            longest = max(longest, len(data))
        with trial.connect() as link:
            trial.send(link, good_message([9_999_999], b"before") + b"\xc1")
            link.settimeout(5)
            wanted = b"\x81" + encoded(b"ack") + encoded(b"before")
            got = link.recv(len(wanted), socket.MSG_WAITALL)
            trial.hopes(got == wanted and is_dropped(link), f"a message before such bytes is answered with {got!r}")
    trial.tell(f"random bytes too, of up to {longest:,}")


@forward("nothing is allocated for a declared length before its bytes come", 16, quiet=True)
def huge_lengths_and_silence(trial):
    """Values that say to have 2^32 - 1 bytes or members, of which nothing comes, bare and inside a message."""
    for number in range(40):
        for head in HUGE.values():
            trial.send(trial.keep(trial.connect()), head if number % 2 else b"\x93" + TAG + b"\x00" + head)
    trial.rest()


def too_long(trial, head, block):
    """Sends a message past the longest, and looks whether it is dropped."""
    with trial.connect() as link:
        try:
            trial.send(link, head)
            for _ in range(20 * MEGABYTE // len(block)):
                trial.send(link, block)
                if not trial.is_in_time():
                    trial.complain("20 MB weren't read in time")
                    return
        except OSError:  # it was dropped meanwhile
            return
        trial.hopes(is_dropped(link, 30), "a message of 20 MB isn't dropped")


@forward("the first 16,777,216 bytes of a message, in a buffer that doubles", 64)
def a_text_without_end(trial):
    """A bin that declares 2^32 - 1 bytes arrives, byte by byte; it is dropped after 16 MB."""
    while trial.goes_on():
        too_long(trial, b"\x93" + TAG + HUGE["bin"], bytes(100_000))


@forward("the first 16,777,216 bytes of a message, in a buffer that doubles", 64)
def a_list_without_end(trial):
    """A list that declares 2^32 - 1 members arrives, member by member; it is dropped after 16 MB."""
    while trial.goes_on():
        too_long(trial, b"\x93" + TAG + HUGE["list"], b"\xc0" * 100_000)


def send_new_tags(trial, link, first, count):
    """Small messages, each of a tag of its own."""
    messages = (message(b"\x81\xa3bad\x01", tag=encoded(b"tag.%07d" % number)) for number in range(first, first + count))
    trial.send(link, b"".join(messages))


def list_of(count, member):
    return b"\xdd" + count.to_bytes(4, "big") + member * count


def send_small_values(trial, message_of):
    """Sends whole messages of 16 MB, of values of one byte and of such inside sixty lists."""
    deep = b"\x91" * 58 + b"\xc0"
    for record in (list_of(16 * MEGABYTE, b"\xc0"), list_of(16 * MEGABYTE // len(deep), deep)):
        with trial.connect() as link:
            trial.send(link, message_of(b"\x81\xa3bad" + record, b"\x81\xa5chunk\xa4last"))
            link.settimeout(60)
            answer = link.recv(64)
            trial.tell(f"a message of {len(record):,} bytes: {'acknowledged' if answer else 'refused'}, {trial.meter.peak() // MEGABYTE:,} MB at most so far")
    until(lambda: content(trial.program.path("out")).count(b'"bad"') == 2, "both events come out", 60)


@forward(
    "a message of 16,777,216 bytes: as received, as it is stored, and as a payload of five bytes for each value",
    256,
)
def small_values_in_a_large_message(trial):
    """Messages with a list of entries."""
    send_small_values(trial, lambda record, option: b"\x93" + TAG + b"\x91\x92\x00" + record + option)


@forward(
    "a message of 16,777,216 bytes: as received, as it is stored, and as a payload of five bytes for each value",
    256,
)
def small_values_in_a_message_of_one_event(trial):
    """Messages of a time and a record."""
    send_small_values(trial, message)


UNFINISHED = 40

EXCEEDED = b"all unfinished messages together exceed forward.mem_limit"

LIMIT_OF_A_MEGABYTE = MESSAGES_TO_FILE + "[SERVICE]\n    forward.mem_limit 1M\n"


def leave_unfinished(trial, size, kept):
    """Peers send all but the end of a message of this size. In the end so many of them are kept as the limit has room for."""
    links = []
    for _ in range(UNFINISHED):
        link = trial.keep(trial.connect())
        links.append(link)
        try:
            trial.send(link, b"\x93" + TAG + b"\x00\x81\xa3bad\xc6" + size.to_bytes(4, "big") + bytes(size - 1))
        except OSError:  # it was dropped meanwhile
            pass
    trial.rest()
    dropped = sum(is_dropped(link, 0.1) for link in links)
    trial.tell(f"{dropped} of {UNFINISHED} connections are dropped")
    trial.hopes(dropped == UNFINISHED - kept, f"{UNFINISHED - dropped} connections with an unfinished message are kept")
    trial.hopes(EXCEEDED in trial.program.stderr(), "the log doesn't say why connections are dropped")


@forward(
    "64 MB of unfinished messages of all connections, in buffers that double, and what one tick reads; beyond that the connection with the largest is dropped",
    160,
)
def unfinished_messages(trial):
    """Forty peers send all but the end of a message of 16 MB."""
    leave_unfinished(trial, 16 * MEGABYTE, 3)


@case(
    LIMIT_OF_A_MEGABYTE,
    "forward.mem_limit 1M: a megabyte of unfinished messages of all connections, in buffers that double, and what one tick reads",
    32,
    good=GoodSender,
)
def unfinished_messages_with_a_small_limit(trial):
    """Forty peers send all but the end of a message of 300,000 bytes."""
    leave_unfinished(trial, 300_000, 3)


NEW_TAGS = 50_000


@forward(
    "a row, an open chunk and its tag for each tag until its chunk is delivered; Mem_Buf_Limit counts only the bytes of events",
    64,
)
def a_new_tag_with_each_message(trial):
    """A peer sends small messages, each of a tag of its own."""
    sent = 0
    with trial.connect() as link:
        while sent < NEW_TAGS and trial.goes_on():
            send_new_tags(trial, link, sent, 500)
            sent += 500
        trial.rest()
    trial.tell(f"{sent:,} tags in {trial.options.seconds:.0f} s")


CASES = (
    half_a_message_and_silence,
    acks_are_never_read,
    bytes_that_are_no_message,
    huge_lengths_and_silence,
    a_text_without_end,
    a_list_without_end,
    small_values_in_a_large_message,
    small_values_in_a_message_of_one_event,
    unfinished_messages,
    unfinished_messages_with_a_small_limit,
    a_new_tag_with_each_message,
)
