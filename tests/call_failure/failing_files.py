"""Runs whose calls on a followed file, on a database of offsets, on files of the configuration, or on standard output fail."""
import os
import re
import subprocess

from failing import LINES, calls_in, count_in, failed_of, free_port
from live_room import PATIENCE, Collector, Program, holds, until

FOLLOWED = """[SERVICE]
    Flush 0.2
    Grace 20
    scheduler.base 1
    scheduler.cap 1
[INPUT]
    Name tail
    Path app.log
    Read_from_Head On
[INPUT]
    Name stdin
[OUTPUT]
    Name tcp
    Match *
    Host 127.0.0.1
    Port {collector}
    Format json_lines
    Retry_Limit no_limits
"""

LINE = re.compile(rb'\{"date":[0-9]+\.[0-9]{9},"log":"line ([0-9]+)"\}')
DONE, FILE_FAULT, OUTPUT_FAULT, KEEPER_FAULT = 0, 3, 6, 11


def numbers_in(collector):
    lines = [line for stream in list(collector.streams) for line in bytes(stream).split(b"\n")[:-1]]
    found = [LINE.fullmatch(line) for line in lines]
    holds(all(found), f"a line came that nobody wrote: {lines!r}")
    return [int(one[1]) for one in found]


def append(path, numbers):
    with open(path, "ab") as file:
        file.write(b"".join(b"line %d\n" % number for number in numbers))


def tried_followed(room, name, failure):
    """A file is followed, and grows. Each line comes, and the failure is counted."""
    collector = Collector(free_port())
    collector.open()
    folder = os.path.join(room.path, name)
    before = failure.before(room, f"{folder}/app.log", f"{folder}/calls")
    configuration = FOLLOWED.format(collector=collector.port)
    with Program(room, name, configuration, files={"app.log": "line 0\nline 1\n"}, before=before) as program:
        for first in (2, 4, 6):
            until(lambda: len(numbers_in(collector)) >= first, f"{first} lines come", 20)
            append(program.path("app.log"), (first, first + 1))
        until(lambda: len(numbers_in(collector)) >= 8, "all lines come", 20)
        status, report = program.stop(), program.stdout()
    collector.close()
    calls = calls_in(f"{folder}/calls")
    holds(status == DONE, f"it ended with status {status}")
    holds(numbers_in(collector) == [*range(8)], f"the lines that came are {numbers_in(collector)}")
    call = failed_of(calls)
    # A look at which file has the path now may fail: the file is read on by its descriptor.
    is_counted = call and call.kind != "stat"
    holds(not is_counted or count_in(report, "faults") >= 1, f"no fault is counted: {report.decode()}")
    return status, calls


NOT_KEPT, KEPT_AGAIN = (f"offsets of followed files {told} in kept/offsets".encode() for told in ("aren't kept", "are kept"))


def with_offsets(room, name, collector, before=""):
    """A run that keeps the offset of the followed file."""
    configuration = FOLLOWED.replace("Read_from_Head On\n", "Read_from_Head On\n    DB kept/offsets\n").format(collector=collector.port)
    return Program(room, name, configuration, before=before)


def tried_offsets(room, name, failure):
    """Two runs that keep an offset. If the database fails at the start, the first one ends. If it fails later, the first one puts the
    offset again. So each line comes once, over both runs together."""
    collector = Collector(free_port())
    collector.open()
    folder = os.path.join(room.path, name)
    os.makedirs(f"{folder}/kept")
    append(f"{folder}/app.log", (0, 1))
    before = failure.before(room, f"{folder}/kept", f"{folder}/calls")
    with with_offsets(room, name, collector, before) as program:
        ended = lambda: program.process.poll() is not None
        for first in (2, 4):
            until(lambda: len(numbers_in(collector)) >= first or ended(), f"{first} lines come", 20)
            append(program.path("app.log"), (first, first + 1))
        until(lambda: len(numbers_in(collector)) >= 6 or ended(), "all lines come", 20)
        until(lambda: NOT_KEPT not in program.stderr() or KEPT_AGAIN in program.stderr() or ended(), "the offset is put again", 20)
        status, report, told = program.stop(), program.stdout(), program.stderr()
    if status == KEEPER_FAULT:
        holds(failed_of(calls_in(f"{folder}/calls")) and not report and NOT_KEPT in told and told.endswith(LINES[status]), f"it ended with {told!r} and {report!r}")
    else:
        holds(status == DONE and count_in(report, "faults") == 0, f"it ended with status {status}: {told!r} {report!r}")
    append(f"{folder}/app.log", (6, 7))
    with with_offsets(room, name, collector) as program:
        until(lambda: 7 in numbers_in(collector), "the lines of the second run come", 20)
        last = program.stop()
    collector.close()
    holds(last == DONE, f"the second run ended with status {last}: {program.stderr()!r}")
    holds(numbers_in(collector) == [*range(8)], f"the lines that came are {numbers_in(collector)}")
    return status, calls_in(f"{folder}/calls")


# A configuration of three files, and a schedule.
READ = {
    "main.conf": "@INCLUDE more.conf\n[SERVICE]\n    Parsers_File parsers.conf\n[OUTPUT]\n    Name stdout\n    Match *\n",
    "more.conf": "[INPUT]\n    Name tcp\n    Format none\n",
    "parsers.conf": "[PARSER]\n    Name first\n    Format regex\n    Regex ^(?<one>[^ ]*)\n",
    "schedule": "joined 0 1\npiece 0 1 t:one\\n\ntick 1000\n",
}
REPLAY = ("replay", "-c", "read/main.conf", "-s", "read/schedule")
REPLAYED = b"""\
{"date":0.000000000,"log":"one"}
input tcp.0: batches 1 events 1 refused 0
output stdout.0: ok 1 retry 0 error 0 spent 0 lost 0 taken 33
loaded 0 unrouted 0 left 0 faults 0
owed 0
"""


def ended(room, name, words, failure, on):
    """A run of these words over these files, in which a call on them or on standard output fails."""
    folder = os.path.join(room.path, name)
    os.makedirs(f"{folder}/read")
    for path, text in READ.items():
        with open(f"{folder}/read/{path}", "w") as file:
            file.write(text)
    where = on if on == "stdout" else f"{folder}/{on}"
    env = {**os.environ, **failure.variables(room, where, f"{folder}/calls")}
    ran = subprocess.run([room.program, *words], cwd=folder, env=env, stdin=subprocess.DEVNULL, capture_output=True, timeout=PATIENCE)
    return ran, calls_in(f"{folder}/calls")


def tried_read(room, name, failure):
    """A file of the configuration, or the schedule, can't be read. A look at which file has the path now may fail."""
    ran, calls = ended(room, name, REPLAY, failure, "read")
    call, result = failed_of(calls), (ran.returncode, ran.stdout, ran.stderr)
    may_go_on = not call or call.kind == "stat"
    holds(result == (FILE_FAULT, b"", LINES[FILE_FAULT]) or may_go_on and result == (DONE, REPLAYED, b""), f"it ended with {ran}")
    return ran.returncode, calls


def tried_output(room, name, words, failure):
    """Standard output takes no more. What was written is a prefix of the text."""
    ran, calls = ended(room, name, words, failure, "stdout")
    if failed_of(calls):
        holds((ran.returncode, ran.stderr) == (OUTPUT_FAULT, LINES[OUTPUT_FAULT]), f"it ended with {ran}")
        whole = ended(room, f"{name}.whole", words, type(failure)(), "stdout")[0].stdout
        holds(whole.startswith(ran.stdout) and (failure.made or ran.stdout != whole), f"it wrote {ran.stdout!r}")
    else:
        holds(ran.returncode == DONE and ran.stdout and not ran.stderr, f"it ended with {ran}")
    return ran.returncode, calls


PRINTED = """[SERVICE]
    Flush 0.2
    scheduler.base 1
    scheduler.cap 1
[INPUT]
    Name stdin
[OUTPUT]
    Name stdout
    Match *
    Format json_lines
    Retry_Limit no_limits
"""


def tried_printed(room, name, failure):
    """A live run prints events, and its report. An event that isn't taken is printed later; a report that isn't taken ends
    the run with its status."""
    folder = os.path.join(room.path, name)
    before = failure.before(room, "stdout", f"{folder}/calls")
    with Program(room, name, PRINTED, before=before) as program:
        program.process.stdin.write(b"line 0\n")
        program.process.stdin.flush()
        until(lambda: b"line 0" in program.stdout(), "the line is printed", 20)
        status = program.stop(b"line 1\n")
        text, complaint = program.stdout(), program.stderr()
    calls = calls_in(f"{folder}/calls")
    reported = b"output stdout.0" in text and text.endswith(b"owed 0\n")
    holds(b"line 0" in text and b"line 1" in text, f"a line isn't printed: {text!r}")
    holds(status == (DONE if reported and not (failed_of(calls) and failed_of(calls).number == calls[-1].number) else OUTPUT_FAULT), f"status {status}: {text!r} {complaint!r}")
    if status == DONE and failed_of(calls):
        holds(re.search(rb"output stdout\.0: ok [0-9]+ retry [1-9]", text), f"no retry is counted: {text!r}")
    return status, calls
