"""Runs the program live on free ports of loopback, with peers of every kind, and checks every line that comes out.

usage: tests/live/run [CASE..]

It ends by itself, stops each program that it started by its process id, and prints `N passed, M failed` last.
"""
import os
import re
import socket
import struct
import sys
import tempfile
import threading
import time

import live_disk
import live_followed
import live_keys
import live_log
import live_offsets
import live_outputs
import live_prometheus
import live_recorded
import live_stop
import live_stored
from live_room import HOST, PATIENCE, Collector, Failed, Program, Room, content, free_port, holds, until

TOP = os.path.dirname(os.path.dirname(os.path.dirname(os.path.realpath(__file__))))
LINES = 100_000
PEERS = 5


def text_of(number):
    return "".join(chr(ord("a") + (number * 7 + place) % 26) for place in range(40 + number % 20))


def line_of(number, peer):
    kept = "no" if number % 10 == 9 else "yes"
    return b'{"n":%d,"peer":%d,"keep":"%s","text":"%s"}\n' % (number, peer, kept.encode(), text_of(number).encode())


RECORD = re.compile(rb'\{"date":([0-9]+\.[0-9]{9}),"n":([0-9]+),"peer":([0-9]+),"text":"([a-z]+)","node":"live"\}')


def record_of(line, span):
    """The number and the peer of a line that came out, which is looked at whole."""
    found = RECORD.fullmatch(line)
    holds(found, f"a line came that nobody sent: {line[:200]!r}")
    date, number, peer, text = float(found[1]), int(found[2]), int(found[3]), found[4]
    holds(number % 10 != 9 and peer == number * PEERS // LINES and text == text_of(number).encode(), f"a line was changed: {line[:200]!r}")
    holds(span[0] - 0.1 <= date <= span[1] + 0.1, f"a line has another time than its own: {line[:200]!r}")
    return number, peer, date


def send_lines(port, program, peer, trouble):
    """Sends the lines of one peer, cut anywhere."""
    try:
        numbers = range(peer * LINES // PEERS, (peer + 1) * LINES // PEERS)
        data = b"".join(line_of(number, peer) for number in numbers)
        size = 1_013 * (peer + 1)
        with program.connect(port) as link:
            for at in range(0, len(data), size):
                link.sendall(data[at : at + size])
    except (OSError, Failed) as error:
        trouble.append(error)


def dribble(port, program):
    """Sends one line, a byte at a time. It is the one after the lines of the other peers."""
    with program.connect(port) as link:
        link.setsockopt(socket.IPPROTO_TCP, socket.TCP_NODELAY, 1)
        for byte in line_of(LINES, PEERS):
            link.sendall(bytes([byte]))
            time.sleep(0.0005)


def reset(port, program):
    """Sends a part of a line, and then resets the connection."""
    link = program.connect(port)
    link.sendall(b'{"n":1,"peer":')
    time.sleep(0.05)
    link.setsockopt(socket.SOL_SOCKET, socket.SO_LINGER, struct.pack("ii", 1, 0))
    link.close()


MAIN = """[SERVICE]
    Log_Level off
    Flush 0.5
    Grace 20
    Parsers_File parsers.conf
    scheduler.base 1
    scheduler.cap 2
[INPUT]
    Name tcp
    Listen 127.0.0.1
    Port {port}
    Format json
    Tag lines
[INPUT]
    Name stdin
    Parser pair
    Tag keys
[FILTER]
    Name grep
    Match lines
    Exclude keep ^no$
[FILTER]
    Name modify
    Match lines
    Remove keep
    Add node live
[OUTPUT]
    Name file
    Match lines
    Path .
    File out
    Format json_lines
[OUTPUT]
    Name tcp
    Match lines
    Host 127.0.0.1
    Port {collector}
    Retry_Limit no_limits
[OUTPUT]
    Name stdout
    Match keys
"""

PARSERS = """[PARSER]
    Name pair
    Format regex
    Regex ^(?<key>[^ ]+) (?<value>.*)$
"""

EXPECTED = LINES - LINES // 10 + 1


def pour(program, port, collector):
    """Lines from five peers at once, beside a peer that dribbles and one that resets; the collector is slow, then absent, then back."""
    trouble = []
    senders = [threading.Thread(target=send_lines, args=(port, program, peer, trouble), daemon=True) for peer in range(PEERS)]
    for sender in senders:
        sender.start()
    dribble(port, program)
    reset(port, program)
    until(lambda: collector.taken() > LINES, "the collector takes lines")
    collector.close()
    for sender in senders:
        sender.join(PATIENCE)
        holds(not sender.is_alive(), "a peer couldn't send all its lines")
    holds(not trouble, f"a peer couldn't send its lines: {trouble}")
    time.sleep(2.5)
    collector.open()
    until(lambda: len(program.lines("out")) >= EXPECTED, "the file has all lines")


def lines_taken(collector):
    """The lines that the collector took, over all links."""
    streams = [bytes(stream) for stream in list(collector.streams)]
    return [line for stream in streams for line in stream.split(b"\n")[:-1]]


def look_at_collector(collector, span):
    """The collector has every line once, as no link broke, and nothing after the last."""
    numbers = [record_of(line, span)[0] for line in lines_taken(collector)]
    holds(len(numbers) == EXPECTED and len(set(numbers)) == EXPECTED, f"{len(numbers)} lines came to the collector, of {EXPECTED}")
    holds(all(stream.endswith(b"\n") for stream in collector.streams if stream), "a link ends within a line")


def look_at_file(program, span):
    """The file has every line once, those of a peer in their order, by rising times."""
    records = [record_of(line, span) for line in program.lines("out")]
    holds(len(records) == EXPECTED and len({it[0] for it in records}) == EXPECTED, f"{len(records)} lines in the file, of {EXPECTED}")
    holds(all(one[2] <= next[2] for one, next in zip(records, records[1:])), "times fall in the file")
    for peer in range(PEERS + 1):
        numbers = [it[0] for it in records if it[1] == peer]
        holds(numbers == sorted(numbers), f"lines of peer {peer} changed places")


def report_of(program, printed):
    """Returns the report, which follows what standard outputs printed."""
    out = program.stdout().decode()
    holds(re.match(printed, out), f"standard output begins otherwise: {out[:300]!r}")
    return re.sub(printed, "", out, count=1).splitlines()


def matches(report, wanted):
    holds(len(report) == len(wanted) and all(re.fullmatch(one, line) for one, line in zip(wanted, report)), f"the report is another: {report}")


def lines_of_five_peers(room):
    port, collector = free_port(), Collector(free_port())
    collector.open(pause=0.01)
    begun = time.time()
    with Program(room, "five", MAIN.format(port=port, collector=collector.port), files={"parsers.conf": PARSERS}) as program:
        pour(program, port, collector)
        until(lambda: len(lines_taken(collector)) >= EXPECTED, "the collector has all lines")
        program.process.stdin.write(b"fruit apple pie\n")
        program.process.stdin.flush()
        until(lambda: b'"apple pie"' in program.stdout(), "standard output has a line while the program runs", 10)
        status = program.stop(b"tree plum")
        span = (begun, time.time())
        collector.close()
        holds(status == 0, f"status {status}: {program.stderr().decode(errors='replace')}")
        look_at_file(program, span)
        look_at_collector(collector, span)
        printed = r'\{"date":[0-9.]+,"key":"fruit","value":"apple pie"\}\n\{"date":[0-9.]+,"key":"tree","value":"plum"\}\n'
        matches(
            report_of(program, printed),
            [
                rf"input tcp\.0: batches [0-9]+ events {EXPECTED} refused 0",
                r"input stdin\.0: batches 2 events 2 refused 0",
                rf"output file\.0: ok [0-9]+ retry 0 error 0 spent 0 lost 0 taken {len(content(program.path('out')))}",
                r"output tcp\.0: ok [0-9]+ retry [1-9][0-9]* error 0 spent 0 lost 0 taken [0-9]+",
                r"output stdout\.0: ok 2 retry 0 error 0 spent 0 lost 0 taken [0-9]+",
                r"loaded 0 unrouted 0 left 0 faults 0",
                r"owed 0",
            ],
        )
        holds(program.stderr() == b"", f"standard error has {program.stderr()!r}")


TO_FILE = """[SERVICE]
    Flush 0.2
    Grace 10
    scheduler.base 1
    scheduler.cap 1
[INPUT]
    Name tcp
    Listen 127.0.0.1
    Port {port}
[INPUT]
    Name stdin
[OUTPUT]
    Name file
    Path {path}
    File out
    Format json_lines
    Retry_Limit no_limits
"""


def port_that_is_taken(room):
    with socket.create_server((HOST, 0)) as other:
        port = other.getsockname()[1]
        with Program(room, "taken", TO_FILE.format(port=port, path=".")) as program:
            status = program.end()
            told = program.stderr().decode().splitlines()
    holds(status == 9, f"status {status}, wanted 9: {told}")
    holds(told[-1] == "loop fault", f"standard error has {told}")
    reasons = [line for line in told[:-1] if "[error] [input tcp.0]" in line]
    holds(len(reasons) == 1 and HOST in reasons[0] and str(port) in reasons[0] and "in use" in reasons[0].lower(), f"the reason isn't told: {told}")
    holds(program.stdout() == b"", f"standard output has {program.stdout()!r}")


def folder_without_rights(room):
    port = free_port()
    with Program(room, "rights", TO_FILE.format(port=port, path="shut")) as program:
        folder = program.path("shut")
        os.mkdir(folder, 0o500)
        room.give(folder)
        os.chmod(folder, 0o500)
        program.send(port, b'{"a":1}\n')
        time.sleep(2)
        holds(not os.path.exists(folder + "/out"), "a file was made in a folder without rights")
        os.chmod(folder, 0o700)
        until(lambda: len(program.lines("shut/out")) == 1, "the line comes once there are rights", 20)
        status = program.stop()
        holds(status == 0, f"status {status}: {program.stderr().decode(errors='replace')}")
        report = program.stdout().decode().splitlines()
    holds(re.fullmatch(r"output file\.0: ok 1 retry [1-9][0-9]* error 0 spent 0 lost 0 taken [0-9]+", report[2]), f"the report is another: {report}")


def peers_leave_descriptors(room):
    """Of thirty peers some aren't accepted till others go, so descriptors are left for the file. None is lost."""
    port = free_port()
    with Program(room, "descriptors", TO_FILE.format(port=port, path="."), before="ulimit -n 24") as program:
        peers = [program.connect(port) for _ in range(30)]
        for number, peer in enumerate(peers):
            peer.sendall(b'{"n":%d}\n' % number)
        until(lambda: len(program.lines("out")) == 12, "half of the descriptors have peers that are heard", 30)
        left = 24 - len(os.listdir(f"/proc/{program.process.pid}/fd"))
        for peer in peers[:20]:
            peer.close()
        until(lambda: len(program.lines("out")) == 30, "all peers are heard", 30)
        status = program.stop()
        for peer in peers[20:]:
            peer.close()
        numbers = {int(re.search(rb'"n":([0-9]+)', line)[1]) for line in program.lines("out")}
    holds(status == 0, f"status {status}: {program.stderr().decode(errors='replace')}")
    holds(left > 0, "peers of the input have all descriptors")
    holds(numbers == set(range(30)), f"of thirty peers {len(numbers)} were heard")


def so_many_ticks(room):
    port = free_port()
    with Program(room, "ticks", TO_FILE.format(port=port, path="."), words=("-n", "3")) as program:
        status = program.end()
        report = program.stdout().decode().splitlines()
    holds(status == 0, f"status {status}: {program.stderr().decode(errors='replace')}")
    holds(report[-2:] == ["loaded 0 unrouted 0 left 0 faults 0", "owed 0"], f"the report is another: {report}")


# Puts a pipe in the place of the configuration, and writes the configuration to it.
PIPED = "mv main.conf text && mkfifo main.conf && { cat text >main.conf & }"


def piped_configuration(room):
    """A configuration that comes over a pipe is read to its end, as by `-c /dev/stdin`."""
    with Program(room, "piped", TO_FILE.format(port=free_port(), path="."), words=("-n", "3"), before=PIPED) as program:
        status = program.end()
        report = program.stdout().decode().splitlines()
    holds(status == 0, f"status {status}: {program.stderr().decode(errors='replace')}")
    holds(report[:1] == ["input tcp.0: batches 0 events 0 refused 0"], f"the report is another: {report}")


def pasted_lines(room):
    """The configuration of `examples/quickstart`, at another port."""
    port = free_port()
    with open(os.path.join(TOP, "examples", "quickstart", "main.conf")) as file:
        configuration = file.read().replace("5170", str(port))
    with Program(room, "pasted", configuration, words=("-n", "20")) as program:
        program.send(port, b'{"path":"/cart","code":200}\n{"path":"/health","code":200}\n')
        status = program.end()
        printed = program.stdout().decode().splitlines()
    holds(status == 0, f"status {status}: {program.stderr().decode(errors='replace')}")
    holds(re.fullmatch(r'\{"date":[0-9]{10}\.[0-9]{9},"code":200,"path":"/cart"\}', printed[0]), f"it prints {printed}")
    holds(printed[1].startswith("input tcp.0: batches 1 events 1 ") and printed[-1] == "owed 0", f"the report differs: {printed}")
    holds(program.lines("app.log") == [printed[0].encode()], f"the file has {program.lines('app.log')}")


CASES = (lines_of_five_peers, port_that_is_taken, folder_without_rights, peers_leave_descriptors, so_many_ticks, piped_configuration, pasted_lines)


def passes(case, room):
    begun = time.monotonic()
    try:
        case(room)
    except Exception as error:  # a case that fails is reported, and the others run
        print(f"live {case.__name__}: {type(error).__name__}: {error}", flush=True)
        return False
    print(f"live {case.__name__}: passed in {time.monotonic() - begun:.1f} s", flush=True)
    return True


def main(program, names):
    with tempfile.TemporaryDirectory(prefix="fwd-live-") as path:
        room = Room(path, program)
        results = [passes(case, room) for case in CASES + live_log.CASES + live_prometheus.CASES + live_outputs.CASES + live_keys.CASES + live_stop.CASES + live_recorded.CASES + live_stored.CASES + live_disk.CASES + live_followed.CASES + live_offsets.CASES if not names or case.__name__ in names]
    print(f"{sum(results)} passed, {len(results) - sum(results)} failed")
    return 0 if all(results) else 1


sys.exit(main(sys.argv[1], sys.argv[2:]))
